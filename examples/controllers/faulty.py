# A thermostat with a fault: it never heats while the door is open, however cold it is.
import sys

heats = False
for line in sys.stdin:
    temperature, door = line.split()
    if float(temperature) < 19.0:
        heats = door == "f"
    elif float(temperature) > 21.0:
        heats = False
    print("t" if heats else "f", flush=True)
