# An oracle: below 19.00 a thermostat heats, and above 21.00 it doesn't.
# Each line is a step's temperature, whether the door is open, and whether it is heated, as `18.50 f t`.
import sys

for line in sys.stdin:
    temperature, door, heats = line.split()
    too_cold = float(temperature) < 19.0 and heats == "f"
    too_warm = float(temperature) > 21.0 and heats == "t"
    print("f" if too_cold or too_warm else "t", flush=True)
