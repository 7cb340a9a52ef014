"""Hostile traces of one scenario, and which line of a text is the first that is none of a trace.

The lines are read by docs/TRACE.md, apart from the program. What else a check says of a trace isn't
known here: whether it is legal.
"""

import re

from chance import Chance

SCENARIO = b"""exception e, f
node n(k: bool; i: int [0; 9] = 1) returns (b: bool; x: int [0; 9] = 3; r: real [0.0; 1.0]) =
  exist v: int [0; 9] in catch f in loop {
    | 2: b => x >= v
    | pre x: { x > i and k |> r > 0.0 fby { | b | raise e | raise f } }
    | 1: exist w: bool in { w => x < 8 fby not w or b }
    | 1: b and x < v fby r = 1.0 / pre r
  }
"""

HEADER = (
    '#inputs "b":bool "x":int "r":real',
    '#outputs "k":bool "i":int',
    '#locals "v.1":int "w.2":bool',
)

# What a step may have in each place, and what stands there seldom.
DIGITS, REALS = "0123456789", ("0.00", "0.51", "1.00")
PLACES = ("tf", DIGITS, REALS, ["#outs"], "tf", DIGITS, ["#locs"], DIGITS, "??tf")
ODD = """-0 +1 01 ? 10 -1 0 1.0 0.5 .50 0.500 1e0 -0.00 T true 1000000000000 1000000000001
10000000000.00 -10000000000.01 #outs #locs -- #end 99999999999999999999""".split()
BLANKS = ["", " ", "\t", "\r"]
ENDS = """normal limit oracle deadlock raise_e raise_f raise_g fault_Overflow fault_NoPrevious
fault_X toolarge malformed_controller_NotAValue malformed_oracle_TooLong malformed_x
ended_controller ended_oracle ended device_controller device_oracle device_trace budget_720
budget_0720 budget""".split()

# The ends whose number is that of the last step.
AT_LAST = ("normal", "limit", "oracle")

MOST, NEEDS = 10**12, 2**128
INT = "(?:0|-?[1-9][0-9]*)"
REAL = r"-?(?:0|[1-9][0-9]*)\.[0-9][0-9]"
STEP = re.compile(rf"([tf]) ({INT}) ({REAL}) #outs ([tf]) ([0-9]) #locs ({INT}|\?) ([tf?])")
WHY = re.compile(
    "normal|limit|oracle|deadlock|raise [ef]|toolarge|(?:ended|device) (?:controller|oracle)"
    "|fault (?:NoPrevious|DivisionByZero|Overflow|NegativeWeight)|budget (0|[1-9][0-9]*)"
    "|malformed (?:controller|oracle) (?:NotAValue|OutOfRange|TooLong)"
)


def text_of_trace(seed, number, changes):
    """A trace of the scenario, or nearly one; some are changed by one of the changes to texts."""
    chance = Chance(f"traces {seed} {number}")
    odd = chance.one_of([0, 0, 0, 0, 40, 8])
    lines = [f"#seed {chance.below(99)}"]
    lines += [f"#draw {chance.one_of('2314')}"] if chance.is_one_in(6) else []
    lines += HEADER
    steps = chance.below(7)
    for step in range(1, steps + 1):
        lines += [f"#step {step}", step_of(chance, odd)]
    why = chance.one_of(ENDS[:2] if chance.is_one_in(2) else ENDS)
    at = steps + (why not in AT_LAST) + (chance.below(3) - 1 if chance.is_one_in(9) else 0)
    lines.append(f"#end {why.replace('_', ' ')} {at}")
    text = "".join(it + "\n" for it in lines).encode()
    for _ in range(chance.one_of([0, 0, 0, 0, 0, 1, 1, 2])):
        text = chance.one_of(changes)(text, chance) if text else text
    return text


def step_of(chance, odd):
    """The values of a step. Of so many one is odd, or none where that is 0."""
    words = []
    for place in PLACES:
        is_odd = odd and chance.is_one_in(odd)
        words.append(chance.one_of(ODD + BLANKS if is_odd else place))
    return " ".join(words)


def is_step(line):
    """Whether a line has the values of a step."""
    told = STEP.fullmatch(line)
    if told is None or told[3] == "-0.00":
        return False
    numbers = [told[2], told[3].replace(".", ""), told[6].replace("?", "0")]
    return all(abs(int(it)) <= MOST for it in numbers)


def is_end(line, steps):
    """Whether a line ends a trace of so many steps."""
    told = re.fullmatch("#end (.*) (0|[1-9][0-9]*)", line)
    why = told and WHY.fullmatch(told[1])
    if not why or (told[1] == "oracle" and steps == 0) or (why[1] and int(why[1]) >= NEEDS):
        return False
    return int(told[2]) == steps + (told[1] not in AT_LAST)


def is_seed(line):
    told = re.fullmatch("#seed (0|[1-9][0-9]*)", line)
    return told is not None and int(told[1]) < 2**64


def first_bad_line(text):
    """The number of the first line of a text that is none of a trace; 0 where it is a trace, and
    how many steps that has."""
    *lines, rest = text.decode("latin-1").split("\n")
    place, steps = 0, 0
    for number, line in enumerate(lines, 1):
        if place == "over":
            return number, steps
        place, steps = next_place(place, steps, line)
        if place is None:
            return number, steps
    if place == "over" and not rest:
        return 0, steps
    return len(lines) + 1, steps


def next_place(place, steps, line):
    """Where a line at a place leads, with how many steps there are; None where it is wrong."""
    if place == 0:
        return (1 if is_seed(line) else None), steps
    if place == 1 and line in ("#draw 2", "#draw 3"):
        return 2, steps
    if place in (1, 2):
        return (3 if line == HEADER[0] else None), steps
    if place in (3, 4):
        return (place + 1 if line == HEADER[place - 2] else None), steps
    if place == "values":
        return (5 if is_step(line) else None), steps
    if line == f"#step {steps + 1}":
        return "values", steps + 1
    return ("over" if is_end(line, steps) else None), steps


def fault_of(text, status, line, output):
    """What is wrong with the status, the line and the output of a check of a text; None where
    nothing is. Want of memory has no rule."""
    bad, steps = first_bad_line(text)
    if status == 11 and line == "memory" and not output:
        return None
    if status == 0:
        right = not bad and line == "" and output == f"legal {steps}\n".encode()
    elif status == 3:
        right = bad and line == f"refused check.BadLine at {bad}" and not output
    else:
        told = re.fullmatch(r"(illegal|candidates|budget [1-9]\d*) ([1-9]\d*)", line or "")
        statuses = {"illegal": 12, "candidates": 13, "budget": 10}
        right = not bad and told is not None and not output and int(told[2]) <= steps + 1
        right = right and statuses[told[1].split(" ")[0]] == status
    said = f"{status}, {line!r} and {output[-200:]!r}"
    return None if right else f"ended with {said}, and its first bad line is {bad}"
