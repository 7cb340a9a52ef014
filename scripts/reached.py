"""What the runs of one or many traces reached. `./lurette reached` calls it.

    python3 scripts/reached.py TRACE..               as text
    python3 scripts/reached.py --json TRACE..        as JSON
    python3 scripts/reached.py --svg FILE TRACE..    as text, and a picture into FILE

Of the runs it says how many there are, how long they are and how they ended; of each number its
least and its greatest value, how many different ones came and where in this range; of each Boolean
how often it is true and how long it stays so; and which Booleans never had some values together. It
is what was reached, and not what could be.

A file that is no trace, or has other variables than the first one, is named with the reason and
left out, and the status is 2.
"""

import argparse
import itertools
import json
import sys

import reach_counts
import reached_picture
import traces
from draw_trace import TOLD
from reach_counts import counted

TITLE = "reached"
NOTE = "This is what these runs reached, and not what could be reached."
# How many pairs the text has.
MOST_PAIRS = 20


# -- As text --------------------------------------------------------------------------------------


def text_of(found):
    """All of it as lines of text."""
    lines = [reach_counts.head_line(found)]
    lines += [f"  {reach_counts.ended_line(why, it)}" for why, it in found.ends.items()]
    width = max((len(it.variable.name) for it in found.variables), default=0)
    for role, it in itertools.groupby(found.variables, key=lambda it: it.variable.role):
        lines.append(TOLD[role])
        told = [(one.variable.name, reach_counts.told_of(one, found.steps)) for one in it]
        lines += [f"  {name:{width}}  {said}" for name, said in told]
    if found.pairs:
        lines.append("never together")
        lines += [f"  {reach_counts.pair_line(it)}" for it in found.pairs[:MOST_PAIRS]]
    more = len(found.pairs) - MOST_PAIRS
    if more > 0:
        lines.append(f"  and {counted(more, 'more pair')}; --json has all of them")
    return "\n".join([*lines, NOTE, ""])


# -- As JSON --------------------------------------------------------------------------------------


def number_of(word):
    """The number that a word writes, as JSON has it."""
    return None if word is None else float(word) if "." in word else int(word)


def json_of_variable(it):
    named = {"name": it.variable.name, "kind": it.variable.kind}
    named["role"], named["steps"] = TOLD[it.variable.role], it.steps
    if isinstance(it, reach_counts.Truth):
        longest = {"longest_true": it.longest_true, "longest_false": it.longest_false}
        return {**named, "true": it.true, **longest}
    ends = {"least": number_of(it.least), "greatest": number_of(it.greatest)}
    return {**named, **ends, "distinct": it.distinct, "parts": it.parts}


def json_of(found):
    """All of it as a text of JSON."""
    told = {it: getattr(found, it) for it in ("runs", "steps", "shortest", "longest")}
    told["ends"] = {why: it._asdict() for why, it in found.ends.items()}
    told["variables"] = [json_of_variable(it) for it in found.variables]
    told["never_together"] = [{name: word == "t" for name, word in it} for it in found.pairs]
    told["note"] = NOTE
    return json.dumps(told, indent=2) + "\n"


# -- A call ---------------------------------------------------------------------------------------


def parser():
    """What reads the words of the command line."""
    found = argparse.ArgumentParser(
        prog="lurette reached",
        description="Says what the runs of some traces reached. It isn't what could be reached.",
        allow_abbrev=False,
    )
    found.add_argument("traces", metavar="TRACE", nargs="+", help="the trace of a run")
    found.add_argument("--json", action="store_true", help="write JSON in place of text")
    found.add_argument("--svg", metavar="FILE", help="also draw a picture into this file")
    return found


def added(counts, path):
    """Adds the traces of a file, and says whether that could be done."""
    try:
        with open(path, "rb") as file:
            parts = traces.parts_of(file.read())
        for trace in [traces.trace_of(it) for it in parts]:
            counts.add(trace)
    except (OSError, UnicodeDecodeError, traces.NoTrace, reach_counts.OtherVariables) as why:
        print(f"{TITLE}: {path} is left out: {why}", file=sys.stderr)
        return False
    return True


def main(words):
    given, counts = parser().parse_args(words), reach_counts.Counts()
    are_all = all([added(counts, it) for it in given.traces])
    if not counts.lengths:
        return 2
    found = counts.reached()
    if given.svg:
        try:
            with open(given.svg, "w", encoding="utf-8") as file:
                file.write(reached_picture.picture_of(found, NOTE))
        except OSError as why:
            print(f"{TITLE}: {given.svg}: {why}", file=sys.stderr)
            return 2
    sys.stdout.reconfigure(encoding="utf-8")
    sys.stdout.write(json_of(found) if given.json else text_of(found))
    return 0 if are_all else 2


if __name__ == "__main__":
    sys.exit(main(sys.argv[1:]))
