"""Runs of scenarios, computed apart from lurette.

What a test of lurette expects is never lurette's own output. This module works out runs by the
rules of docs/LANGUAGE.md alone: what a trace offers in one instant, which leaf is drawn, and which
values are the first solution. It is slow and short. A scenario is a value here and no text, and its
numbers are raw numbers.

    python3 scripts/apart.py thermostat [--draw N]     prints the trace of examples/thermostat.lut
    python3 scripts/apart.py drafty [--draw N]         prints that of examples/drafty.lut

Beside both stands the thermostat. N is the rule of drawing, from 1 to 3, and 1 where it isn't given.
"""

import argparse
import functools
import itertools
import sys
from collections import namedtuple

import traces

# -- The words of a seed ---------------------------------------------------------------------------

SLOTS = 1 << 24
VARIABLES = 1 << 23
DIRECTIONS = VARIABLES + 128

MASK_32, MASK_64, MASK_128 = ((1 << bits) - 1 for bits in (32, 64, 128))
MULTIPLIER = 0x2360ED051FC65DA44385DF649FCCF645


def rotated(word, by, bits):
    """A word of so many bits, turned to the right."""
    return (word >> by | word << (bits - by)) & ((1 << bits) - 1)


def seed_bytes(seed):
    """The 32 bytes that the generator PCG32 spreads a seed of 64 bits over."""
    found = b""
    for _ in range(8):
        seed = (seed * 0x5851F42D4C957F2D + 0xA17654E46FBE17F3) & MASK_64
        word = ((seed >> 18) ^ seed) >> 27 & MASK_32
        found += rotated(word, seed >> 59, 32).to_bytes(4, "little")
    return found


def advanced(state, increment, steps):
    """The state of the generator after so many steps, which is found by doubling."""
    factor, summand = MULTIPLIER, increment
    while steps:
        if steps & 1:
            state = (state * factor + summand) & MASK_128
        summand = (factor + 1) * summand & MASK_128
        factor = factor * factor & MASK_128
        steps >>= 1
    return state


@functools.lru_cache(maxsize=None)
def generator(seed):
    """The first state and the increment of the generator of a seed."""
    seeded = seed_bytes(seed)
    increment = int.from_bytes(seeded[16:], "little") | 1
    return int.from_bytes(seeded[:16], "little") + increment & MASK_128, increment


def word(seed, step, slot):
    """The word of a seed at a slot of a step: PCG64 gives it after all that stand before it."""
    state, increment = generator(seed)
    state = advanced(state, increment, step * SLOTS + slot + 2)
    return rotated((state >> 64 ^ state) & MASK_64, state >> 122, 64)


# -- Scenarios -------------------------------------------------------------------------------------

# A constraint has the names of the variables that it speaks of in the instant, and a test over a
# function that gives their values. `pre x` is the name `pre x` there. Where what is known decides
# which one it is, as with `if`, a function of what is known stands in its place.
Constraint = namedtuple("Constraint", "names holds")

Instant = namedtuple("Instant", "constraint")
Then = namedtuple("Then", "first second")
Loop = namedtuple("Loop", "body")
Counted = namedtuple("Counted", "least most body done", defaults=(0,))
# Its parts are pairs of a weight and a trace.
Choice = namedtuple("Choice", "parts")
Priority = namedtuple("Priority", "first second")
Both = namedtuple("Both", "first second")
Assert = namedtuple("Assert", "constraint body")
Exist = namedtuple("Exist", "local body is_open", defaults=(False,))
Raise = namedtuple("Raise", "name")
Catch = namedtuple("Catch", "name body instead")

OVER = "over"

# A variable: its name, the ends of its range, its first value or None, the kind of its values, and
# the step of its range.
Variable = namedtuple("Variable", "name low high first kind step", defaults=(None, "int", 1))

Scenario = namedtuple("Scenario", "inputs outputs locals body")


def boolean(name):
    return Variable(name, 0, 1, None, "bool")


def points_of(variable):
    """The values that a variable may have, which are the points of its range."""
    return range(variable.low, variable.high + 1, variable.step)


def order_from(target, points, is_down=False):
    """The points in the order in which they are tried: the target comes first."""
    at = points.index(target)
    parts = (points[at::-1], points[:at:-1]) if is_down else (points[at:], points[:at])
    return itertools.chain(*parts)


# -- What a trace offers in one instant ------------------------------------------------------------

# Leaves. `entered` are the locals in scope, and whether each was open before.
Go = namedtuple("Go", "constraints entered rest")
Over = namedtuple("Over", "")
Raised = namedtuple("Raised", "name")
Nothing = namedtuple("Nothing", "")
# What is not a leaf.
Order = namedtuple("Order", "first second")
Any = namedtuple("Any", "parts")


def replaced(tree, change):
    """The tree in which each leaf is replaced by what it is changed to."""
    if isinstance(tree, Order):
        return Order(replaced(tree.first, change), replaced(tree.second, change))
    if isinstance(tree, Any):
        return Any([(weight, replaced(part, change)) for weight, part in tree.parts])
    return change(tree)


def behind(tree, wrap, over):
    """The tree whose instants go on as `wrap` says, and in which `over` stands for an end."""

    def change(leaf):
        if isinstance(leaf, Go):
            return leaf._replace(rest=wrap(leaf.rest))
        return over if isinstance(leaf, Over) else leaf

    return replaced(tree, change)


def then(first, second):
    return second if first is OVER else Then(first, second)


def turn(body, rest):
    """What one more turn of a loop offers: a turn without an instant is none."""
    return behind(offers(body), lambda left: then(left, rest), Nothing())


def together(first, second):
    """What two traces side by side offer."""
    if first is OVER or second is OVER:
        return offers(second if first is OVER else first)

    def side(leaf):
        if isinstance(leaf, Over):
            return offers(second)
        if isinstance(leaf, Go):
            return replaced(offers(second), lambda other: met(leaf, other))
        return leaf

    return replaced(offers(first), side)


def met(leaf, other):
    """An instant of the first side beside a leaf of the second one."""
    if isinstance(other, Over):
        return leaf
    if not isinstance(other, Go):
        return other
    lefts = [it for it in (leaf.rest, other.rest) if it is not OVER]
    rest = Both(*lefts) if len(lefts) == 2 else lefts[0] if lefts else OVER
    return Go(leaf.constraints + other.constraints, leaf.entered + other.entered, rest)


def offers(term):
    """The tree of what a trace offers in one instant, by the table of LANGUAGE's "One instant"."""
    if term is OVER:
        return Over()
    return OFFERED[type(term)](term)


def sequence(term):
    return behind(
        offers(term.first), lambda rest: then(rest, term.second), offers(term.second)
    )


def counted(term):
    further = term._replace(done=term.done + 1)
    over = 0 if term.done < term.least else 1
    return Any([(term.most - term.done, turn(term.body, further)), (over, Over())])


def asserted(term):
    def change(leaf):
        if not isinstance(leaf, Go):
            return leaf
        rest = leaf.rest if leaf.rest is OVER else Assert(term.constraint, leaf.rest)
        return Go([term.constraint] + leaf.constraints, leaf.entered, rest)

    return replaced(offers(term.body), change)


def scoped(term):
    def change(leaf):
        if not isinstance(leaf, Go):
            return leaf
        rest = leaf.rest if leaf.rest is OVER else Exist(term.local, leaf.rest, True)
        return Go(leaf.constraints, [(term.local, term.is_open)] + leaf.entered, rest)

    return replaced(offers(term.body), change)


def caught(term):
    def change(leaf):
        if isinstance(leaf, Raised) and leaf.name == term.name:
            return offers(term.instead)
        if isinstance(leaf, Go) and leaf.rest is not OVER:
            return leaf._replace(rest=term._replace(body=leaf.rest))
        return leaf

    return replaced(offers(term.body), change)


OFFERED = {
    Instant: lambda term: Go([term.constraint], [], OVER),
    Then: sequence,
    Loop: lambda term: Order(turn(term.body, term), Over()),
    Counted: counted,
    Choice: lambda term: Any([(weight, offers(part)) for weight, part in term.parts]),
    Priority: lambda term: Order(offers(term.first), offers(term.second)),
    Both: lambda term: together(term.first, term.second),
    Assert: asserted,
    Exist: scoped,
    Raise: lambda term: Raised(term.name),
    Catch: caught,
}


# -- One instant -----------------------------------------------------------------------------------

# What a run is drawn by: its seed, and the rule of drawing, which is 1, 2 or 3.
Draws = namedtuple("Draws", "seed rule", defaults=(0, 1))


class Stopped(Exception):
    """That a run ends at a leaf, by a fault: how it ends."""


class Instance:
    """One instant of a run: what is known in it, and the words that decide it."""

    def __init__(self, scenario, draws, step, known, last):
        self.scenario, self.draws, self.step = scenario, draws, step
        self.known, self.last = known, last
        # What was found of groups of variables, which many leaves of a tree have in common.
        self.found = {}

    def known_of(self, entered):
        """What is known at a leaf: the inputs, and what each variable in scope was before."""
        before = {f"pre {name}": value for name, value in self.last.items()}
        for local, is_open in entered:
            if not is_open:
                before[f"pre {local.name}"] = local.first
        return {**self.known, **before}

    def variables(self, leaf):
        """Each variable that is drawn at a leaf, with its number."""
        inside = {local.name for local, _ in leaf.entered}
        drawn = [*self.scenario.outputs, *self.scenario.locals]
        outputs = {it.name for it in self.scenario.outputs}
        return [(number, it) for number, it in enumerate(drawn) if it.name in outputs | inside]

    def solution(self, leaf):
        """The solution that is drawn, by groups that no constraint joins; or None."""
        known, values = self.known_of(leaf.entered), {}
        asked = [it(known.__getitem__) if callable(it) else it for it in leaf.constraints]
        for numbered, constraints in groups(self.variables(leaf), asked):
            numbers = tuple(number for number, _ in numbered)
            key = numbers, tuple(map(id, constraints)), tuple(known.items())
            if key not in self.found:
                self.found[key] = self.first(numbered, constraints, known)
            if self.found[key] is None:
                return None
            values.update(self.found[key])
        return values

    def first(self, numbered, constraints, known):
        """The values of some variables, each the first one with which the others can be found."""
        values, levels = dict(known), []
        for at, (_, variable) in enumerate(numbered):
            later = {it.name for _, it in numbered[at + 1 :]}
            due = [it for it in constraints if variable.name in it.names and not later & it.names]
            levels.append((variable, [it.holds for it in due]))

        def is_possible(at, value):
            variable, asked = levels[at]
            values[variable.name] = value
            return all(holds(values.__getitem__) for holds in asked) and is_open(at + 1)

        def is_open(at):
            return at == len(levels) or any(
                is_possible(at, value) for value in points_of(levels[at][0])
            )

        if not all(it.holds(values.__getitem__) for it in constraints if not it.names):
            return None
        for at, (number, variable) in enumerate(numbered):
            value = self.taken(number, variable, functools.partial(is_possible, at))
            if value is None:
                return None
            values[variable.name] = value
        return {it.name: values[it.name] for _, it in numbered}

    def taken(self, number, variable, is_possible):
        """The value that a variable takes of those that are possible for it, or None."""
        points = points_of(variable)
        first = lambda order: next(filter(is_possible, order), None)
        ends = (first(points), first(points[::-1])) if self.draws.rule == 3 else ()
        return None if None in ends else first(self.order(number, points, *ends))

    def order(self, number, points, low=None, high=None):
        """The points of a variable in the order in which they are tried: from its target on.

        By the third rule the target is drawn between two of them.
        """
        part = points if low is None else points[points.index(low) : points.index(high) + 1]
        target = part[self.word(VARIABLES + number) % len(part)]
        return order_from(target, points, self.goes_down(number))

    def goes_down(self, number):
        """Whether a variable goes downward from its target: all rules but the first draw that."""
        return self.draws.rule != 1 and self.word(DIRECTIONS + number) % 2 == 1

    def word(self, slot):
        return word(self.draws.seed, self.step, slot)

    def drawn(self, tree):
        """The leaf that is drawn, and the values of its instant; None where there is none."""
        for leaf in self.arrived(tree):
            values = self.solution(leaf) if isinstance(leaf, Go) else None
            if values is not None or isinstance(leaf, (Over, Raised)):
                return leaf, values
        return None, None

    def arrived(self, tree, place=0):
        """The leaves that a draw comes to, in turn, as long as each before can't be taken.

        The place counts what stands before the tree.
        """
        if isinstance(tree, Order):
            yield from self.arrived(tree.first, place + 1)
            yield from self.arrived(tree.second, place + 1 + size(tree.first))
        elif isinstance(tree, Any):
            for at in self.tried([weight for weight, _ in tree.parts], place):
                before = sum(size(part) for _, part in tree.parts[:at])
                yield from self.arrived(tree.parts[at][1], place + 1 + before)
        else:
            yield tree

    def tried(self, weights, place):
        """The parts of a choice in the order in which they are drawn, by their weights."""
        attempt = 0
        while sum(weights):
            rest = self.word(64 * place + attempt) % sum(weights)
            sums = itertools.accumulate(weights)
            at = next(at for at, so_far in enumerate(sums) if so_far > rest)
            yield at
            weights[at], attempt = 0, attempt + 1


def size(tree):
    """How many leaves, orders and choices a tree has."""
    if isinstance(tree, Order):
        return 1 + size(tree.first) + size(tree.second)
    return 1 + sum(size(part) for _, part in tree.parts) if isinstance(tree, Any) else 1


def groups(numbered, constraints):
    """The variables in groups that no constraint joins, with the constraints of each."""
    found = [([it], []) for it in numbered]
    for constraint in constraints:
        joined = [it for it in found if constraint.names & {variable.name for _, variable in it[0]}]
        variables = sorted(it for group in joined for it in group[0])
        asked = [it for group in joined for it in group[1]]
        found = [it for it in found if it not in joined] + [(variables, [*asked, constraint])]
    return found


# -- Runs ------------------------------------------------------------------------------------------


def start_of(variable):
    """What an input has before the first step."""
    if variable.first is not None:
        return variable.first
    return min(max(0, variable.low), variable.high)


# The values of the outputs, the inputs and the locals; those of a local out of scope are None.
Step = namedtuple("Step", "told answers locals")


def steps_of(scenario, controller, limit, draws=Draws(), instance=Instance):
    """The steps of a run, each as its values in turn, and how the run ends."""
    known = {it.name: start_of(it) for it in scenario.inputs}
    declared = [*scenario.inputs, *scenario.outputs]
    last = {it.name: it.first for it in declared if it.first is not None}
    term, steps = scenario.body, []
    while len(steps) < limit:
        number = len(steps) + 1
        at_hand = instance(scenario, draws, number, known, last)
        try:
            leaf, values = at_hand.drawn(offers(term))
        except Stopped as stopped:
            return steps, f"{stopped} {number}"
        if leaf is None:
            return steps, f"deadlock {number}"
        if isinstance(leaf, Over):
            return steps, f"normal {len(steps)}"
        if isinstance(leaf, Raised):
            return steps, f"raise {leaf.name} {number}"
        last = {**last, **known, **values}
        told = [values[it.name] for it in scenario.outputs]
        answers = controller(told)
        known = dict(zip((it.name for it in scenario.inputs), answers))
        steps.append(Step(told, answers, [values.get(it.name) for it in scenario.locals]))
        term = leaf.rest
    return steps, f"limit {limit}"


def row_of(variables, values, decimals=2):
    return [traces.written(it.kind, value, decimals) for it, value in zip(variables, values)]


def declared_words(variables):
    return [f'"{it.name}":{it.kind}' for it in variables]


def lines_of(scenario, steps, end, draws=Draws(), decimals=2, has_locals=False):
    """The lines of the trace of a run that made these steps and ended so."""
    named = [it._replace(name=f"{it.name}.{at}") for at, it in enumerate(scenario.locals, 1)]
    header = [f"#seed {draws.seed}"] + [f"#draw {draws.rule}"] * (draws.rule != 1)
    header.append(" ".join(["#inputs", *declared_words(scenario.outputs)]))
    header.append(" ".join(["#outputs", *declared_words(scenario.inputs)]))
    lines = header + [" ".join(["#locals", *declared_words(named)])] * has_locals
    for number, step in enumerate(steps, 1):
        words = row_of(scenario.outputs, step.told, decimals)
        words += ["#outs", *row_of(scenario.inputs, step.answers, decimals)]
        if has_locals:
            words += ["#locs", *row_of(named, step.locals, decimals)]
        lines += [f"#step {number}", " ".join(words)]
    return [*lines, f"#end {end}"]


def trace_of(scenario, controller, limit, draws=Draws()):
    """The lines of the trace of a run."""
    return lines_of(scenario, *steps_of(scenario, controller, limit, draws), draws)


# -- The scenarios of examples/ that tests compare -------------------------------------------------


def where(names, holds):
    """An instant in which a test holds of the variables that are named."""
    return Instant(Constraint(frozenset(names.split()), holds))


def thermostat():
    """A controller that heats below 19.00, doesn't above 21.00, and else goes on as it did."""
    heats = False

    def answer(told):
        nonlocal heats
        heats = told[0] < 1900 or heats and told[0] <= 2100
        return [int(heats)]

    return answer


DOOR_IS_SHUT = where("door", lambda value: not value("door"))
DOOR_IS_OPEN = where("door", lambda value: value("door"))


def by_degrees(heated, unheated):
    """An instant in which the temperature goes up where it was heated, and else down."""
    step = lambda value: heated if value("heat") else unheated
    return where("temp", lambda value: value("temp") == value("pre temp") + step(value))


def drafty():
    """examples/drafty.lut"""
    temperature = Loop(Choice([(3, by_degrees(60, -40)), (1, by_degrees(20, -100))]))
    door = Loop(Choice([(6, Counted(3, 10, DOOR_IS_SHUT)), (1, Counted(1, 3, DOOR_IS_OPEN))]))
    outputs = [Variable("temp", 0, 4000, 2000, "real"), boolean("door")]
    return Scenario([boolean("heat")], outputs, [], Both(temperature, door))


def room():
    """examples/thermostat.lut"""
    gust, sun = Variable("gust", -10, 10, 0, "real"), Variable("sun", 0, 5, 0, "real")
    moved = lambda value, by: value("temp") - value("pre temp") - by
    warm = where("temp gust", lambda value: 0 <= moved(value, value("gust")) <= 20)
    cool = where("temp sun", lambda value: -30 <= moved(value, value("sun")) <= 0)
    moves = lambda known: (warm if known("heat") else cool).constraint
    # This follows from the gust's and the sun's ranges: it changes no solution, and saves time.
    near = where("temp", lambda value: -30 <= moved(value, 0) <= 30).constraint
    shines = Constraint(frozenset(["sun"]), lambda value: abs(value("sun") - value("pre sun")) <= 1)
    door = Loop(Choice([(4, Counted(3, 10, DOOR_IS_SHUT)), (1, Counted(1, 4, DOOR_IS_OPEN))]))
    jam = Loop(Choice([(99, where("", lambda value: True)), (1, Raise("Jam"))]))
    jammed = Catch("Jam", jam, Loop(where("temp", lambda value: value("temp") <= 8000)))
    body = Exist(gust, Exist(sun, Assert(near, Assert(shines, Assert(moves, Both(door, jammed))))))
    outputs = [Variable("temp", -5000, 8000, 1800, "real"), boolean("door")]
    return Scenario([boolean("heat")], outputs, [gust, sun], body)


def dial():
    """examples/dial.lut"""
    turns = lambda value: abs(value("wanted") - value("pre wanted")) <= 100
    return of_one(Variable("wanted", 500, 3000, 2000, "real", 25), Loop(where("wanted", turns)))


def stepping(name, *steps):
    """Instants in which a variable goes on from its last value by each of some steps."""
    after = lambda step: where(name, lambda value: value(name) == value(f"pre {name}") + step)
    return [after(step) for step in steps]


def of_one(variable, body):
    return Scenario([], [variable], [], body)


def is_true(name, truth):
    return where(name, lambda value: value(name) == truth)


def walk():
    up, down, none = stepping("x", 1, -1, 0)
    return of_one(Variable("x", 0, 20, 10), Loop(Choice([(1, up), (1, down), (2, none)])))


def hold():
    anything = where("", lambda value: True)
    (still,) = stepping("level", 0)
    return of_one(Variable("level", 0, 9), Loop(Then(anything, Counted(2, 5, still))))


def burst():
    called = Counted(3, 6, is_true("call", 1))
    return of_one(boolean("call"), Loop(Choice([(19, is_true("call", 0)), (1, called)])))


def rare():
    jammed = Counted(5, 9, is_true("jam", 1))
    return of_one(boolean("jam"), Loop(Choice([(49, is_true("jam", 0)), (1, jammed)])))


def phases():
    (rise,) = stepping("temp", 9)
    is_below = Constraint(frozenset(), lambda value: value("pre temp") <= 60)
    up, down = stepping("temp", 1, -1)
    body = Then(Loop(Assert(is_below, rise)), Loop(Choice([(1, up), (1, down)])))
    return of_one(Variable("temp", 0, 100, 20), body)


def ramp():
    up, down = stepping("speed", 10, -5)
    return of_one(Variable("speed", 0, 40, 0), Loop(Then(Loop(up), Loop(down))))


def full():
    (rise,) = stepping("level", 3)
    return of_one(Variable("level", 0, 10, 0), Loop(Priority(rise, is_true("level", 10))))


# Those of examples/patterns.lut.
PATTERNS = {it.__name__: it for it in (walk, hold, burst, rare, phases, ramp, full)}

# The controller of a scenario without inputs.
NOBODY = lambda told: []

SCENARIOS = {"drafty": (drafty, 100), "thermostat": (room, 200)}


def main(words):
    parser = argparse.ArgumentParser(prog="apart.py")
    parser.add_argument("scenario", choices=SCENARIOS)
    parser.add_argument("--draw", type=int, choices=(1, 2, 3), default=1)
    given = parser.parse_args(words)
    scenario, limit = SCENARIOS[given.scenario]
    print("\n".join(trace_of(scenario(), thermostat(), limit, Draws(rule=given.draw))))
    return 0


if __name__ == "__main__":
    sys.exit(main(sys.argv[1:]))
