"""How much of what is possible each rule of drawing comes to: the table of docs/TUTORIAL.md.

    python3 scripts/explored.py [--program PATH]

Each scenario is run for 2,000 steps by each rule. Of the values of its first output it says how many
are different, and how many steps of 100 have the least or the greatest one that was possible. The
program is the one that `rt ci` leaves in the checkout, where no option names another.
"""

import os
import sys
from collections import namedtuple

import calls
import check_docs

STEPS = 2_000
RULES = (1, 2, 3)

# What the table says of a scenario, its text, how many values are possible for its first output, and
# the least and the greatest one behind the one before, as raw numbers.
Work = namedtuple("Work", "said text possible first ends")

BAND = "node n() returns (x: real) = loop { 0.0 < x and x < 10.0 }"


def works():
    example = lambda name: check_docs.read(f"examples/{name}.lut")
    return (
        Work("`loop { 0.0 < x and x < 10.0 }`, `x` a real without a range", BAND, 999, None,
             lambda before: (1, 999)),
        # What they leave of 100 is paid in twos and threes, one of each at least: 5, or 7 and more.
        Work("`coins`: how many ones", example("coins"), 94, None, lambda before: (1, 95)),
        Work("`dial`: where it is turned to", example("dial"), 101, 2000,
             lambda before: (max(500, before - 100), min(3000, before + 100))),
    )


def values_of(program, work, rule):
    """The raw numbers of the first output in each step."""
    words = "run", "-l", str(STEPS), "--draw", str(rule)
    found = calls.outcome(program, work.text.encode(), *words, seconds=calls.PATIENCE)
    lines = [it.split() for it in found.output.decode().splitlines()]
    return [int(it[0].replace(".", "")) for it in lines if "#outs" in it]


def told(work, values):
    """How many values are different, and how many of 100 are at an end of what was possible."""
    at_ends, before = 0, work.first
    for value in values:
        at_ends += value in work.ends(before)
        before = value
    return f"{len(set(values))}; {100 * at_ends / len(values):.1f} %"


def table(program):
    """The lines of the table."""
    heads = ["Scenario", "Possible", *(f"`--draw {rule}`" for rule in RULES)]
    rows = [heads, ["---"] * len(heads)]
    for work in works():
        found = [told(work, values_of(program, work, rule)) for rule in RULES]
        rows.append([work.said, str(work.possible), *found])
    line = lambda row: f"| {' | '.join(row)} |"
    return [line(rows[0]), line(rows[1]).replace(" ", ""), *map(line, rows[2:])]


def main(words):
    program = check_docs.given(words).program
    if not os.access(program, os.X_OK):
        print(f"explored: {program} is not there to be called", file=sys.stderr)
        return 2
    print("\n".join(table(program)))
    return 0


if __name__ == "__main__":
    sys.exit(main(sys.argv[1:]))
