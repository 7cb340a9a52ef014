"""What is counted of the traces of many runs, and how it is told."""

import itertools
from collections import Counter, namedtuple
from fractions import Fraction

import traces

# The parts of a range, and what shows how much is in one: from a little to the most.
PARTS, BARS, NOTHING = 10, "▁▂▃▄▅▆▇█", "."

# How runs ended: how many ended so, and the least and the greatest number of their end lines.
Ended = namedtuple("Ended", "runs least greatest")
# A number: how many steps have it, its least and its greatest value as their words, how many
# different ones there are, and how many steps are in each part of this range.
Number = namedtuple("Number", "variable steps least greatest distinct parts")
# A Boolean: how many steps have it, how many of them are true, and the longest rows of each truth.
Truth = namedtuple("Truth", "variable steps true longest_false longest_true")
# All of it. A pair is two names, each with its word, that never came together.
Reached = namedtuple("Reached", "runs steps shortest longest ends variables pairs")


# -- Counting -------------------------------------------------------------------------------------


class OtherVariables(Exception):
    """That a trace has other variables than those before it."""


class Counts:
    """What is counted of traces, one after another."""

    def __init__(self):
        self.lengths, self.ends, self.variables = [], {}, None
        self.words, self.rows, self.together = [], [], set()

    def add(self, trace):
        if self.variables is None:
            self.variables = trace.variables
            self.words = [Counter() for _ in trace.variables]
            self.rows = [{"f": 0, "t": 0} for _ in trace.variables]
        elif self.variables != trace.variables:
            raise OtherVariables("it has other variables than the first trace")
        why, number = traces.why_and_number(trace.end)
        self.lengths.append(len(trace.steps))
        self.ends.setdefault(why, []).append(number)
        columns = list(zip(*trace.steps))
        for at, column in enumerate(columns):
            self.words[at].update(column)
        truths = [at for at, it in enumerate(self.variables) if it.kind == "bool"]
        for at in truths if columns else ():
            for word, row in itertools.groupby(columns[at]):
                self.rows[at][word] = max(self.rows[at].get(word, 0), len(list(row)))
        self.together.update(zip(*(columns[at] for at in truths)) if columns else ())

    def reached(self):
        """What was reached by all traces that were added."""
        told = [self.told(at, it) for at, it in enumerate(self.variables)]
        ends = {why: Ended(len(it), min(it), max(it)) for why, it in sorted(self.ends.items())}
        names = [it.name for it in self.variables if it.kind == "bool"]
        pairs, total = never_together(names, self.together), sum(self.lengths)
        shortest, longest = min(self.lengths), max(self.lengths)
        return Reached(len(self.lengths), total, shortest, longest, ends, told, pairs)

    def told(self, at, variable):
        """What is told of a variable."""
        words = Counter({word: it for word, it in self.words[at].items() if word != "?"})
        steps = sum(words.values())
        if variable.kind == "bool":
            return Truth(variable, steps, words["t"], self.rows[at]["f"], self.rows[at]["t"])
        ordered = sorted(words, key=Fraction)
        least, greatest = (ordered[0], ordered[-1]) if ordered else (None, None)
        distinct = len(set(map(Fraction, ordered)))
        return Number(variable, steps, least, greatest, distinct, parts_of(words))


def parts_of(words):
    """How many steps are in each of ten parts of a range, or at each point of a shorter one. A
    point is a unit of the last decimal."""
    unit = Fraction(1, 10 ** max((len(it.partition(".")[2]) for it in words), default=0))
    values = Counter()
    for word, steps in words.items():
        values[int(Fraction(word) / unit)] += steps
    low, points = min(values, default=0), max(values, default=-1) - min(values, default=0) + 1
    count = min(PARTS, points)
    found = [0] * count
    for value, steps in values.items():
        found[(value - low) * count // points] += steps
    return found


def never_together(names, rows):
    """The pairs of Booleans with words that each of them has, though not both in one step."""
    # The rows that have a word of a name, as the bits of a number.
    places = {(name, word): 0 for name in names for word in "ft"}
    for at, row in enumerate(rows):
        for pair in zip(names, row):
            if pair in places:
                places[pair] |= 1 << at
    found = []
    for one, other in itertools.combinations(places, 2):
        if one[0] != other[0] and places[one] and places[other] and not places[one] & places[other]:
            found.append((one, other))
    return found


# -- As words -------------------------------------------------------------------------------------


def bars(parts):
    """A letter for each part, by how much is in it against the fullest one."""
    letter = lambda it: BARS[(it * len(BARS) - 1) // max(parts)] if it else NOTHING
    return "".join(map(letter, parts))


def counted(number, noun):
    return f"{number:,} {noun}{'' if number == 1 else 's'}"


def between(least, greatest):
    return f"{least}" if least == greatest else f"{least} to {greatest}"


def share(part, whole):
    return f"{100 * part / whole:.1f} %" if whole else "-"


def ended_line(why, ended):
    step = between(ended.least, ended.greatest)
    return f"{counted(ended.runs, 'run')} ended by {why}, in step {step}"


def head_line(found):
    """How many runs and steps there are."""
    each = between(found.shortest, found.longest)
    return f"{counted(found.runs, 'run')} with {counted(found.steps, 'step')} in all, {each} a run"


def told_of(it, steps):
    """What is told of a variable, behind its name."""
    away = "" if it.steps == steps else f"; in scope in {share(it.steps, steps)} of the steps"
    if not it.steps:
        return f"never there{away}"
    if isinstance(it, Number):
        values = counted(it.distinct, "value")
        return f"{it.least} .. {it.greatest}  {bars(it.parts)}  {values}{away}"
    rows = f"at most {it.longest_true} t and {it.longest_false} f in a row"
    return f"t in {share(it.true, it.steps)} of the steps; {rows}{away}"


def pair_line(pair):
    return " and ".join(f"{name} {word}" for name, word in pair)
