"""That constraints are worked out as the documents have it, and that problems have what is hard."""

import os
import unittest
from collections import Counter

import apart
import calls
import constraints
import problem_maker
import problems
from constraints import Binary, Compared, Fault, Flag, Form, Literal, Name, Not, Setting

SETTING = Setting(2, {"pre x": 5})


def cells(beginning):
    """The cells of each row of the table of LANGUAGE that begins so."""
    with open(os.path.join(calls.TOP, "docs", "LANGUAGE.md"), encoding="utf-8") as file:
        table = file.read().partition(f"\n| {beginning}")[2].partition("\n\n")[0]
    return [[it.strip(" `") for it in row.strip("|").split("|")] for row in table.splitlines()[2:]]


def whole(text):
    """The number that a text begins with, in which there are commas between digits."""
    return int(text.replace(",", "").split()[0])


def variable(name, kind="int", high=99, step=1):
    return apart.Variable(name, 0, high, None, kind, step)


def first_from(targets, expression, variables):
    """The first solution of an expression upward from these targets."""
    points = map(apart.points_of, variables)
    orders = [apart.order_from(*it) for it in zip(targets, points)]
    return constraints.first_solution(constraints.said(expression, SETTING), variables, orders)


def expression(text, kind="int"):
    """The expression of a text without parentheses. Signs stand in the order in which they bind."""
    for sign in ("or", "and", "<=", "<>", "<", ">", "=", "+", "*", "/"):
        left, found, right = text.rpartition(f" {sign} ")
        if found:
            return Binary(sign, expression(left, kind), expression(right, kind))
    return Name(variable(text, kind)) if text.isalpha() else Literal(kind, text)


class Constraints(unittest.TestCase):
    def test_the_table_of_needs(self):
        rows = cells("Constraint | h")
        self.assertEqual(len(rows), 7)
        for text, choices, product, need in rows:
            formula = constraints.said(expression(text), SETTING)
            found = constraints.need_of(formula, [variable(it) for it in "xyz"])
            self.assertEqual(found, whole(need), text)
            self.assertEqual(found, 180 * 4 * 3 ** int(choices) * whole(product), text)

    def test_differences_of_equal_steps_are_easy(self):
        """Others are searched through, so the points of both count: 6 of x, and 4 of y."""
        x, y = variable("x", high=10, step=2), variable("y", high=9, step=3)
        differs = Binary("=", Name(x), expression("y + 1"))
        need = lambda *found: constraints.need_of(constraints.said(differs, SETTING), found)
        self.assertEqual(need(x, y), 180 * 3 * 6 * 4)
        self.assertEqual(need(x, y._replace(step=2)), 180 * 3)
        self.assertEqual(first_from([0, 0], differs, [x, y]), (4, 3))

    def test_the_table_of_forms(self):
        rows = cells("Form, P")
        self.assertEqual(len(rows), 4)
        for text, terms, constant in rows[:3]:
            factor, _, name = terms.partition(" of ")
            wanted = Form(((name, int(factor)),), int(constant))
            text = text.split(",")[0].rstrip("`")
            self.assertEqual(constraints.form_of(expression(text, "real"), SETTING), wanted)
        self.assertEqual(rows[3], ["(0.9 * y + 1.0) / 2.0", "45 of y", "50"])
        sum_of_two = expression("0.9 * y + 1.0", "real")
        half = Binary("/", sum_of_two, Literal("real", "2.0"))
        self.assertEqual(constraints.form_of(half, SETTING), Form((("y", 45),), 50))

    def test_the_table_of_rounding(self):
        rows = cells("Operation, P")
        self.assertEqual(len(rows), 4)
        for text, _, wanted in rows:
            found = constraints.form_of(expression(text, "real"), SETTING)
            self.assertEqual(found, Form((), int(wanted.split(",")[0])), text)

    def test_the_table_of_literals(self):
        rows = cells("Literal | P")
        self.assertEqual(len(rows), 7)
        for text, decimals, wanted in rows:
            literal, setting = Literal("real", text), Setting(int(decimals), {})
            if wanted == "Overflow":
                self.assertRaises(Fault, constraints.form_of, literal, setting)
            else:
                self.assertEqual(constraints.raw_of(literal, setting.decimals), whole(wanted))

    def test_a_first_solution_is_sought_from_the_targets(self):
        """The first instants of two walks of the table of what is drawn."""
        x, by = variable("x", high=9), apart.Variable("by", -1, 1)
        moves = Binary("=", Name(x), Binary("+", constraints.Pre(x), Name(by)))
        self.assertEqual(first_from([8, 1], moves, [x, by]), (4, -1))
        self.assertEqual(first_from([6, -1], moves, [x, by]), (6, 1))
        self.assertIsNone(first_from([8, 1], Literal("bool", "false"), [x, by]))


class Problems(unittest.TestCase):
    def test_a_seed_and_a_number_make_one_problem(self):
        made = lambda seed: [problem_maker.problem_of(seed, number) for number in range(20)]
        self.assertEqual(made(1), made(1))
        self.assertNotEqual(made(1), made(2))

    def test_each_end_comes_often(self):
        ends = Counter()
        for number in range(300):
            _, outcome = problem_maker.problem_of(1, number)
            ends[outcome.output.rpartition("#end ")[2].split()[0]] += 1
        self.assertEqual(set(ends), set(problems.STATUSES))
        self.assertGreater(min(ends.values()), 15, ends)

    def test_what_makes_a_search_hard_comes_often(self):
        counts = Counter()
        for number in range(300):
            looked_at = []
            problems.worked_out(problem_maker.problem_of(1, number)[0], looked_at)
            counts.update({feature for it in looked_at for feature in features(it)})
        rare = {"even": counts.pop("even"), "uneven": counts.pop("uneven")}
        self.assertEqual(set(counts), {"hard", "tie", "unequal", "flag", "choice", "step"})
        self.assertGreater(min(counts.values()), 75, counts)
        self.assertGreater(min(rare.values()), 10, rare)

    def test_steps_and_all_rules_come_often(self):
        made = [problem_maker.problem_of(1, number)[0] for number in range(300)]
        declared = [it for problem in made for it in problem.scenario.outputs]
        steps = [it for it in declared if it.step > 1]
        misses = [it for it in steps if (it.high - it.low) % it.step]
        self.assertGreater(len(steps), 75)
        self.assertGreater(len(misses), 50)
        self.assertGreater(len([it for it in misses if len(apart.points_of(it)) == 1]), 5)
        self.assertGreater(len([it for it in steps if it.kind == "real"]), 25)
        rules = Counter(it.draws.rule for it in made)
        self.assertGreater(min(rules[1], rules[2], rules[3]), 60)


def occurrences(formula):
    """The names, comparisons and denied comparisons of a formula, each as often as it stands."""
    if isinstance(formula, bool):
        return []
    is_denied = isinstance(formula, Not) and isinstance(formula.part, Compared)
    if is_denied or isinstance(formula, (Flag, Compared)):
        return [formula]
    return [it for part in formula for it in occurrences(part)]


def undirected(comparison):
    """The form of a comparison, or of one that says the same of what has the other sign."""
    form = comparison.part.form if isinstance(comparison, Not) else comparison.form
    return max(form, constraints.changed(form, lambda it: -it))


def steps_compared(formula, variables):
    """Of each comparison of a formula the steps of its variables, and whether it's a difference."""
    compared = [it for it in constraints.atoms_of(formula) if isinstance(it, Compared)]
    steps = {it.name: it.step for it in variables}
    of_one = lambda it: {steps[name] for name in constraints.names_of(it)}
    return [(of_one(it), constraints.is_difference(it)) for it in compared]


def features(looked):
    """What makes a search for the solutions of what is looked at hard."""
    formula, variables, _ = looked
    found = occurrences(formula)
    compared = [it for it in found if not isinstance(it, Flag)]
    steps = steps_compared(formula, variables)
    has = {
        "hard": constraints.hard_comparisons(formula, variables),
        "tie": len({undirected(it) for it in compared}) < len(compared),
        "unequal": any(isinstance(it, Not) and it.part.sign == "=" for it in compared),
        "flag": len(compared) < len(found),
        "choice": any(constraints.choices_of(it) > 1 for it in constraints.conjuncts_of(formula)),
        "step": any(it - {1} for it, _ in steps),
        "even": any(is_difference and len(it) == 1 and it != {1} for it, is_difference in steps),
        "uneven": any(is_difference and len(it) == 2 for it, is_difference in steps),
    }
    return {it for it in has if has[it]}


if __name__ == "__main__":
    unittest.main()
