"""Makes problems for a search: small scenarios with hard constraints, from a seed and a number.

The same seed and number make the same problem, in every version of Python.
"""

import functools
import itertools

import apart
import constraints
from chance import Chance
from constraints import BOUND, Binary, If, Literal, Name, Pre, Unary
from problems import MOST_BUDGET, WITHOUT_RANGE, Problem, number_text, worked_out

# A variable has the first of its kind's names that isn't taken.
NAMES = {"bool": "abcd", "int": "ijkl", "real": "xyzw"}
# The kinds among which those of a scenario's variables are drawn.
KINDS = [["int"], ["int"], ["real"], ["bool"], ["bool", "int"], ["bool", "real"]]
KINDS += [["int", "int", "bool"], ["real", "real", "bool"], ["bool", "int", "real"]]
# The most values of each number, by how many variables there may be.
MOST_VALUES = {2: 140, 3: 27, 4: 12}
DECIMALS = [2, 2, 2, 0, 1, 3, 6]
# The steps among which those of a scenario's numbers are drawn.
STEPS = [[1], [1], [1], [1], [1], [1, 1, 2], [1, 3], [1, 4, 5], [2], [3]]
# Ranges of many values.
WIDE = [WITHOUT_RANGE, WITHOUT_RANGE, [0, 999], [-BOUND, BOUND]]

# By how much a comparison may be beside what holds at the point.
SLACKS = [[0], [0, 0, 0, 1, -1], [0, 1, -1, 2, -2, 3, -3]]
ONE = {"int": "1", "real": "1.0"}
TWO = {"int": "2", "real": "2.0"}
ZERO = {"int": "0", "real": "0.0"}
FACTORS = {
    "int": ["2", "2", "3", "3", "4", "5", "7", "10", "0", "999999999999"],
    "real": ["2.0", "2.0", "3.0", "0.5", "0.5", "1.5", "0.9", "0.015", "1.0", "0.0"],
}
ORDERS = ["<", "<=", ">", ">="]
SIGNS = [*ORDERS, "=", "=", "<>", "<>"]
# The sign of a comparison whose sides change places, and of the contrary.
MIRRORED = {"<": ">", "<=": ">=", ">": "<", ">=": "<=", "=": "=", "<>": "<>"}
CONTRARY = {"<": ">=", "<=": ">", ">": "<=", ">=": "<", "=": "<>", "<>": "="}
JOINING = ["and", "or", "or", "xor", "=>", "if", "not", "=", "<>"]

SHAPES = ["instant", "instant", "then", "then", "loop", "loop", "counted", "choice", "priority"]
SHAPES += ["both", "assert", "exist", "exist"]


def is_number(variable):
    return variable.kind != "bool"


def joined(sign, parts):
    return functools.reduce(lambda left, right: Binary(sign, left, right), parts)


class Maker:
    """Makes one scenario.

    Comparisons are made to hold at one point, or nearly so. So a constraint has few solutions, or
    just none.
    """

    def __init__(self, chance):
        self.chance = chance
        self.decimals = chance.one_of(DECIMALS)
        self.kinds = chance.one_of(KINDS)
        self.steps = chance.one_of(STEPS)
        self.most_variables = chance.between(2, 4)
        self.most_clauses = chance.between(1, 6)
        self.slack = chance.one_of(SLACKS)
        # The first number has a wide range, or none of its own.
        self.is_wide = chance.is_one_in(6)
        # The variables, the value of each at the point, and the comparisons so far.
        self.outputs, self.locals, self.point, self.compared = [], [], {}, []

    def scenario(self):
        most_locals = self.chance.one_of([0, 0, 1, 1, 2])
        for _ in range(max(1, self.most_variables - most_locals)):
            self.outputs.append(self.variable())
        shape = self.chance.one_of(["loop"] * 6 + SHAPES)
        body = self.shaped(shape, self.chance.between(1, 2), self.outputs)
        return apart.Scenario([], self.outputs, self.locals, body)

    # -- Variables ---------------------------------------------------------------------------------

    def variable(self):
        """A further variable, which has a value at the point."""
        kind = self.chance.one_of(self.kinds)
        name = NAMES[kind][sum(it.kind == kind for it in self.outputs + self.locals)]
        low, high, step = (0, 1, 1) if kind == "bool" else self.range_of_number()
        found = apart.Variable(name, low, high, None, kind, step)
        points = apart.points_of(found)
        self.point[name], drawn = self.chance.one_of(points), self.chance.one_of(points)
        firsts = [self.point[name]] * 4 + [drawn, points[0], points[-1], None]
        return found._replace(first=self.chance.one_of(firsts))

    def range_of_number(self):
        """The ends and the step of a number's range."""
        step = self.chance.one_of(self.steps)
        low, high = self.ends_of_number(step)
        if step > 1 and self.chance.is_one_in(12):
            step = self.large_step(high - low)
        return low, high, step

    def ends_of_number(self, step):
        """The ends of a number's range: mostly few values near 0. A step often misses the end."""
        chance = self.chance
        if self.is_wide:
            self.is_wide = False
            return chance.one_of(WIDE)
        most = MOST_VALUES[self.most_variables]
        count = chance.between(chance.one_of([1, most // 2]), most)
        width = step * (count - 1) + chance.below(step)
        if chance.is_one_in(25):
            return chance.one_of([(BOUND - width, BOUND), (-BOUND, width - BOUND)])
        low = chance.between(-width - 1, 3)
        return low, low + width

    def large_step(self, width):
        """A step that leads to the high end of a range so wide, or past it, or to its middle."""
        steps = [width, width + 1, width + self.chance.between(2, 9), width // 2, BOUND]
        return min(max(1, self.chance.one_of(steps)), BOUND)

    def earlier(self, variables):
        """One of some variables whose `pre` is named: mostly one that has a first value."""
        sure = [it for it in variables if it.first is not None]
        return self.chance.one_of(variables if self.chance.is_one_in(12) or not sure else sure)

    # -- Numbers -----------------------------------------------------------------------------------

    def literal(self, kind, raw):
        """A number as it is written; for one past the bound that at the bound."""
        found = Literal(kind, number_text(kind, min(abs(raw), BOUND), self.decimals))
        return Unary("-", found) if raw < 0 else found

    def factor(self, numbers):
        """A number that is known; now and then one that can't be worked out."""
        kind = numbers[0].kind
        if self.chance.is_one_in(12):
            return Pre(self.earlier(numbers))
        if self.chance.is_one_in(150):
            return Binary("/", Literal(kind, ONE[kind]), Literal(kind, ZERO[kind]))
        return Literal(kind, self.chance.one_of(FACTORS[kind]))

    def term(self, variable, numbers):
        """A variable, perhaps with a factor."""
        name, kind = Name(variable), variable.kind
        draw = self.chance.below(13)
        if draw < 6:
            return name
        if draw < 7:
            return Unary("-", name)
        if draw < 8:
            return If(self.known(numbers), name, Name(self.chance.one_of(numbers)))
        if draw < 9 and kind == "real":
            return Binary("/", name, Literal(kind, TWO[kind]))
        sides = [self.factor(numbers), name]
        return Binary("*", *sides[:: self.chance.one_of([1, -1])])

    def value_at_point(self, number):
        """What a number is at the point, as a raw number; 0 where it has a fault there."""
        before = {f"pre {name}": value for name, value in self.point.items()}
        setting = constraints.Setting(self.decimals, before)
        try:
            form = constraints.form_of(number, setting)
        except constraints.Fault:
            return 0
        total = sum(factor * self.point[name] for name, factor in form.terms)
        return constraints.rounded(total, constraints.one_of(number, setting)) + form.constant

    def bound(self, number, numbers):
        """A known number near what a number is at the point."""
        value = self.value_at_point(number) + self.chance.one_of(self.slack)
        if not self.chance.is_one_in(5):
            return self.literal(numbers[0].kind, value)
        earlier = self.earlier(numbers)
        rest = value - self.point[earlier.name]
        return Binary("+", Pre(earlier), self.literal(earlier.kind, rest))

    # -- Booleans ----------------------------------------------------------------------------------

    def comparison(self, visible):
        """A comparison of one number or more; where there are none, a name."""
        kinds = [it.kind for it in visible if is_number(it)]
        if not kinds:
            return Name(self.chance.one_of(visible))
        kind = self.chance.one_of(kinds)
        numbers = [it for it in visible if it.kind == kind]
        compared = self.some_of(numbers)
        if len(compared) == 2 and self.chance.is_one_in(2):
            found = self.difference(*map(Name, compared), numbers)
        else:
            found = self.sum(compared, numbers)
        self.compared.append(found)
        return found

    def some_of(self, numbers):
        """One number or some, rarely one twice."""
        found = [self.chance.one_of(numbers)]
        for _ in range(self.chance.one_of([0, 1, 1, 2, 2, 3])):
            others = [it for it in numbers if it not in found]
            if others or self.chance.is_one_in(8):
                found.append(self.chance.one_of(others or numbers))
        return found

    def difference(self, one, other, numbers):
        """A comparison of the difference of two numbers, perhaps with a factor of both."""
        sign, kind = self.chance.one_of(SIGNS), numbers[0].kind
        if self.chance.is_one_in(4):
            factor = Literal(kind, self.chance.one_of(FACTORS[kind]))
            one, other = Binary("*", factor, one), Binary("*", other, factor)
        difference = Binary("-", one, other)
        bound = self.bound(difference, numbers)
        if self.chance.is_one_in(2):
            return Binary(sign, one, other)
        if self.chance.is_one_in(2):
            return Binary(sign, difference, bound)
        return Binary(sign, one, Binary("+", other, bound))

    def sum(self, compared, numbers):
        """A comparison of a sum of terms, which may stand on both sides."""
        sign = self.chance.one_of(SIGNS)
        first, *more = [self.term(it, numbers) for it in compared]
        if not more:
            return Binary(sign, first, self.bound(first, numbers))
        rest = joined(self.chance.one_of("++-"), more)
        whole = Binary("+", first, rest)
        bound = self.bound(whole, numbers)
        if self.chance.is_one_in(3):
            return Binary(sign, first, Binary("-", bound, rest))
        return Binary(sign, whole, bound)

    def tie(self, visible):
        """What says the same as an earlier comparison, or the contrary, or nearly so."""
        are_visible = lambda it: all(name.variable in visible for name in constraints.names_in(it))
        found = [it for it in self.compared if are_visible(it)]
        if not found:
            return self.comparison(visible)
        sign, left, right = self.chance.one_of(found)
        kind = constraints.kind_of(left)
        one, two = self.literal(kind, 1), Literal(kind, TWO[kind])
        ways = [
            Binary(sign, left, right),
            Binary(MIRRORED[sign], right, left),
            Binary(CONTRARY[sign], left, right),
            Binary(MIRRORED[CONTRARY[sign]], right, left),
            Unary("not", Binary(sign, left, right)),
            Unary("not", Binary(CONTRARY[sign], left, right)),
            Binary(sign, right, left),
            Binary(sign, Binary("*", two, left), Binary("*", two, right)),
            Binary(sign, Binary("*", two, left), right),
            Binary(sign, left, Binary("+", right, one)),
            Binary(MIRRORED[sign], Binary("-", right, one), left),
            Binary("<>", left, right),
            Binary("<=", left, right),
            Binary(">=", left, right),
        ]
        return self.chance.one_of(ways)

    def known(self, visible):
        """A Boolean that is known."""
        if self.chance.is_one_in(8):
            return Literal("bool", self.chance.one_of(["true", "false"]))
        earlier = self.earlier(visible)
        if not is_number(earlier):
            return Pre(earlier)
        value = self.point[earlier.name] + self.chance.between(-1, 1)
        return Binary(self.chance.one_of(SIGNS), Pre(earlier), self.literal(earlier.kind, value))

    def atom(self, visible):
        flags = [it for it in visible if not is_number(it)]
        draw = self.chance.below(20)
        if draw < 8 and flags:
            return Name(self.chance.one_of(flags))
        if draw < 15:
            return self.comparison(visible)
        return self.tie(visible) if draw < 19 else self.known(visible)

    def clause(self, visible, depth):
        """An atom, or some that are joined."""
        if depth == 0 or self.chance.is_one_in(3):
            return self.atom(visible)
        sign, part = self.chance.one_of(JOINING), lambda: self.clause(visible, depth - 1)
        if sign == "not":
            return Unary("not", part())
        return If(part(), part(), part()) if sign == "if" else Binary(sign, part(), part())

    def constraint(self, visible):
        """What holds in an instant."""
        count = self.chance.one_of([self.most_clauses, self.chance.between(1, self.most_clauses)])
        depths = [self.chance.one_of([0, 0, 0, 1, 1, 2]) for _ in range(count)]
        return joined("and", [self.clause(visible, it) for it in depths])

    # -- Traces ------------------------------------------------------------------------------------

    def trace(self, depth, visible):
        shape = self.chance.one_of(SHAPES) if depth else "instant"
        return self.shaped(shape, depth - 1, visible)

    def shaped(self, shape, depth, visible):
        """A trace of a shape, whose parts have a depth."""
        chance, part = self.chance, lambda: self.trace(depth, visible)
        if shape == "instant":
            return apart.Instant(self.constraint(visible))
        if shape == "exist":
            return self.scope(depth, visible)
        if shape == "then":
            return apart.Then(part(), part())
        if shape == "loop":
            return apart.Loop(part())
        if shape == "counted":
            return apart.Counted(chance.below(2), chance.between(1, 3), part())
        if shape == "choice":
            return apart.Choice([(chance.below(4), part()) for _ in range(chance.between(2, 3))])
        if shape == "assert":
            return apart.Assert(self.constraint(visible), part())
        return (apart.Priority if shape == "priority" else apart.Both)(part(), part())

    def scope(self, depth, visible):
        """A trace with a local, where a further variable may be."""
        if len(self.outputs) + len(self.locals) >= self.most_variables:
            return self.trace(depth, visible)
        local = self.variable()
        self.locals.append(local)
        return apart.Exist(local, self.trace(depth, [*visible, local]))


# -- Making problems -------------------------------------------------------------------------------


def problem_of(seed, number):
    """The problem of a number, and its outcome. One with too many points is made anew."""
    for attempt in itertools.count():
        try:
            return made(Chance(f"problem {seed} {number} {attempt}"))
        except constraints.TooManyPoints:
            pass


def made(chance):
    maker, looked_at = Maker(chance), []
    scenario, limit = maker.scenario(), chance.between(1, 3)
    seed = chance.one_of([0, chance.below(1000), chance.below(1 << 64)])
    draws = apart.Draws(seed, chance.between(1, 3))
    call = scenario, maker.decimals, limit, draws
    worked_out(Problem(*call, MOST_BUDGET, False), looked_at)
    budget = budget_for(chance, [it.need for it in looked_at])
    problem = Problem(*call, budget, chance.is_one_in(2))
    return problem, worked_out(problem, [])


def budget_for(chance, needs):
    """A budget, or None: often the greatest of these needs, or one less than one of them."""
    if not needs:
        return None
    ample, most = [None, MOST_BUDGET, MOST_BUDGET, MOST_BUDGET], max(needs)
    budget = chance.one_of([*ample, most, most, most, most - 1, chance.one_of(needs) - 1])
    return budget and min(budget, MOST_BUDGET)
