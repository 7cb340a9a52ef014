"""Problems for a search: a scenario of apart.py with the words of its call, and what comes of it.

The constraints are expressions of constraints.py. The outcome is worked out apart from lurette, and
values are found by going through all points in the order of the rule of drawing. So these are few,
and no search is given up: the outcome is the same by each budget.
"""

import functools
from collections import namedtuple

import apart
import constraints
import traces

# A scenario and what its call says. The budget is None where the call says none.
Problem = namedtuple("Problem", "scenario decimals limit draws budget has_locals")
# What is looked at: what a leaf says, the variables that are drawn there, and the need.
Looked = namedtuple("Looked", "formula variables need")
# What comes of a call.
Outcome = namedtuple("Outcome", "status output errors")

# -- The text and the call of a problem ------------------------------------------------------------

# The raw numbers of an output or a local that is declared without a range.
WITHOUT_RANGE = [-10_000, 10_000]


def number_text(kind, raw, decimals):
    """A number as a literal, with its minus."""
    point = "." if kind == "real" and decimals == 0 else ""
    return traces.written(kind, raw, decimals) + point


def declaration_of(variable, decimals):
    """A variable with its range and its first value, as far as it has them."""
    name, low, high, first, kind, step = variable
    text = f"{name}: {kind}"
    numbers = [low, high, step] if step != 1 else [low, high]
    if kind != "bool" and numbers != WITHOUT_RANGE:
        text += " [{}]".format("; ".join(number_text(kind, it, decimals) for it in numbers))
    if first is None:
        return text
    value = ["false", "true"][first] if kind == "bool" else number_text(kind, first, decimals)
    return f"{text} = {value}"


def text_of_trace(term, decimals):
    """The text of a trace in braces; of one instant without them."""
    inside = lambda part: text_of_trace(part, decimals)
    if isinstance(term, apart.Instant):
        return constraints.text_of(term.constraint)
    if isinstance(term, apart.Then):
        text = f"{inside(term.first)} fby {inside(term.second)}"
    elif isinstance(term, apart.Loop):
        text = f"loop {{ {inside(term.body)} }}"
    elif isinstance(term, apart.Counted):
        text = f"loop [{term.least}, {term.most}] {{ {inside(term.body)} }}"
    elif isinstance(term, apart.Choice):
        text = " ".join(f"| {weight}: {inside(part)}" for weight, part in term.parts)
    elif isinstance(term, apart.Assert):
        text = f"assert {constraints.text_of(term.constraint)} in {inside(term.body)}"
    elif isinstance(term, apart.Exist):
        text = f"exist {declaration_of(term.local, decimals)} in {inside(term.body)}"
    else:
        sign = "|>" if isinstance(term, apart.Priority) else "&>"
        text = f"{sign} {inside(term.first)} {sign} {inside(term.second)}"
    return f"{{ {text} }}"


def text_of(problem):
    """The text of a problem's scenario."""
    scenario, decimals = problem.scenario, problem.decimals
    outputs = "; ".join(declaration_of(it, decimals) for it in scenario.outputs)
    return f"node n() returns ({outputs}) =\n    {text_of_trace(scenario.body, decimals)}\n"


def words_of(problem):
    """The words of a problem's call, but for its file."""
    words = ["run", "-l", str(problem.limit), "--seed", str(problem.draws.seed)]
    words += ["--precision", str(problem.decimals)]
    words += ["--draw", str(problem.draws.rule)] * (problem.draws.rule != 1)
    words += [] if problem.budget is None else ["--budget", str(problem.budget)]
    return words + ["--locals"] * problem.has_locals


# -- What comes of a problem -----------------------------------------------------------------------

# The status of a run by the first word of its end.
STATUSES = {"normal": 0, "limit": 0, "deadlock": 4, "fault": 6}

MOST_BUDGET = 10**12


class Instance(apart.Instance):
    """An instant whose values are found by going through all points.

    `looked_at` gets what is looked at, leaf by leaf.
    """

    def __init__(self, decimals, looked_at, *more):
        super().__init__(*more)
        self.decimals, self.looked_at = decimals, looked_at

    def solution(self, leaf):
        setting = constraints.Setting(self.decimals, self.known_of(leaf.entered))
        try:
            formula = constraints.said_by_all(leaf.constraints, setting)
        except constraints.Fault as fault:
            raise apart.Stopped(f"fault {fault}") from fault
        numbered = self.variables(leaf)
        variables = [it for _, it in numbered]
        need = constraints.need_of(formula, variables)
        self.looked_at.append(Looked(formula, variables, need))
        point = self.drawn_point(formula, numbered)
        return None if point is None else dict(zip((it.name for it in variables), point))

    def drawn_point(self, formula, numbered):
        """The point that is drawn of those at which a formula holds, or None."""
        variables = [it for _, it in numbered]
        all_points = [apart.points_of(it) for it in variables]
        first = functools.partial(constraints.first_solution, formula, variables)
        if self.draws.rule != 3:
            return first([self.order(*it) for it in zip((at for at, _ in numbered), all_points)])
        # One variable after another is fixed, and the others have any values that do.
        orders = list(all_points)
        for at, (number, _) in enumerate(numbered):
            points, ends = all_points[at], []
            for order in (points, points[::-1]):
                point = first([*orders[:at], order, *orders[at + 1 :]])
                if point is None:
                    return None
                ends.append(point[at])
            order = self.order(number, points, *ends)
            orders[at] = [first([*orders[:at], order, *orders[at + 1 :]])[at]]
        return first(orders)


def worked_out(problem, looked_at):
    """The outcome of a problem's call, worked out apart from the program."""
    instance = functools.partial(Instance, problem.decimals, looked_at)
    call = problem.scenario, apart.NOBODY, problem.limit, problem.draws
    steps, end = apart.steps_of(*call, instance)
    shown = problem.draws, problem.decimals, problem.has_locals
    lines = apart.lines_of(problem.scenario, steps, end, *shown)
    status = STATUSES[end.split()[0]]
    output = "".join(f"{it}\n" for it in lines)
    return Outcome(status, output, f"lurette: {end}\n" if status else "")
