# A thermostat: heats below 19.00, doesn't above 21.00, and else goes on as it did.
# Each line is a temperature and whether the door is open, as `18.50 f`. The reply is `t` where it heats.
import sys

heats = False
for line in sys.stdin:
    temperature, door = line.split()
    if float(temperature) < 19.0:
        heats = True
    elif float(temperature) > 21.0:
        heats = False
    print("t" if heats else "f", flush=True)
