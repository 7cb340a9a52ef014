"""Steps that are fewer or simpler than those of a run, which may fail as it does.

A candidate is such steps, with the place of the first step that isn't as it was, or that comes
after another one. The last step of a run is the one that failed, and is never left out.
"""

import itertools
from collections import namedtuple

import nodes
import traces

Candidate = namedtuple("Candidate", "steps at")

# How many pairs of steps are looked at for a cut between them, and how many cuts are tried for each
# step of a run.
PAIRS, CUTS = 200_000, 4


def without(steps, start, size):
    """The steps but for so many from a place on."""
    return Candidate(steps[:start] + steps[start + size :], start)


def pieces(steps, size, first=0):
    """The steps without a piece of a size, for each such piece from a place on."""
    last = len(steps) - 1
    for start in range(first, last, size):
        yield without(steps, start, min(size, last - start))


# -- Cuts between steps that are alike -------------------------------------------------------------


def numbers_of(step, kinds):
    """The numbers of a step, as raw numbers; None where a local is out of scope."""
    words = zip(kinds, (*step.told, *step.locals))
    return [traces.raw_of(kind, word) for kind, word in words if kind != "bool"]


def distance(one, other):
    """How far each number of a step is from that of another one."""
    return [0 if None in pair else abs(pair[0] - pair[1]) for pair in zip(one, other)]


def cuts(steps, kinds):
    """The steps without those between two, the longest cut first, if no number changes more from
    one of these two to the other than from some step to the next."""
    rows = [numbers_of(it, kinds) for it in steps]
    changes = [distance(*pair) for pair in zip(rows, rows[1:])]
    most = [max(it) for it in zip(*changes)]
    is_near = lambda pair: all(map(int.__ge__, most, distance(rows[pair[0]], rows[pair[1]])))
    last = len(steps) - 1
    sizes = range(last - 1, 0, -1)
    pairs = ((start - 1, start + size) for size in sizes for start in range(1, last - size + 1))
    near = filter(is_near, itertools.islice(pairs, PAIRS))
    for before, after in itertools.islice(near, CUTS * len(steps)):
        yield without(steps, before + 1, after - before - 1)


# -- Values ----------------------------------------------------------------------------------------


def simple_values(variable):
    """The raw numbers of a variable that count as simple, the simplest first: its first value, 0,
    and the ends of its range, as far as they are points of this range."""
    wanted = [variable.first, nodes.nearest_to_zero(variable), variable.low, variable.high]
    if variable.kind == "bool":
        wanted = wanted[variable.first is None :][:1]
    is_point = lambda it: it is not None and (it - variable.low) % variable.step == 0
    return list(dict.fromkeys(filter(is_point, wanted)))


def with_value(steps, at, place, word):
    """The steps in which one word to the controller is another one."""
    told = steps[at].told
    changed = steps[at]._replace(told=(*told[:place], word, *told[place + 1 :]))
    return Candidate([*steps[:at], changed, *steps[at + 1 :]], at)


def simpler(steps, variables, decimals, first=0):
    """The steps with one value that is simple and nearer to the simplest one, for each value from a
    step on."""
    for at, step in list(enumerate(steps))[first:]:
        for place, variable in enumerate(variables):
            simple = simple_values(variable)
            away = abs(traces.raw_of(variable.kind, step.told[place]) - simple[0])
            for raw in (it for it in simple if abs(it - simple[0]) < away):
                yield with_value(steps, at, place, traces.written(variable.kind, raw, decimals))
