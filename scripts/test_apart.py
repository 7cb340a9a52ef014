"""That what is written down of runs is what apart.py works out of them."""

import os
import re
import unittest

import apart
import traces
from apart import Draws

TOP = os.path.dirname(os.path.dirname(os.path.abspath(__file__)))


def read(path):
    with open(os.path.join(TOP, path), encoding="utf-8") as file:
        return file.read()


def first_values(scenario, limit, seed, rule=1, controller=apart.NOBODY):
    """What the first output of a scenario is in each step, as its trace has it."""
    steps, _ = apart.steps_of(scenario, controller, limit, Draws(seed, rule))
    return [traces.written(scenario.outputs[0].kind, it.told[0]) for it in steps]


def traces_of_rows(text):
    """The traces that the rows of a table have, as one text."""
    lines = [line[2:] for line in text.splitlines() if line.startswith("> ")]
    return "\n".join(lines).replace("\\n", "\n")


class Words(unittest.TestCase):
    def test_words_are_those_of_the_generator(self):
        """These come of Rust's rand_pcg."""
        self.assertEqual(apart.word(0, 1, 0), 670457862477091661)
        self.assertEqual(apart.word(0, 1, apart.VARIABLES), 15939427002774378928)
        self.assertEqual(apart.word(4294967296, 1, 64), 6862741670566267012)


class Points(unittest.TestCase):
    def test_points_go_by_the_step(self):
        for low, high, step, points in (
            (0, 9, 3, [0, 3, 6, 9]),
            (-5, 4, 4, [-5, -1, 3]),
            (2, 9, 8, [2]),
        ):
            variable = apart.Variable("x", low, high, step=step)
            self.assertEqual(list(apart.points_of(variable)), points)

    def test_each_point_is_tried_once_from_the_target_on(self):
        order = lambda *which: list(apart.order_from(*which))
        self.assertEqual(order(3, range(0, 10, 3)), [3, 6, 9, 0])
        self.assertEqual(order(3, range(0, 10, 3), True), [3, 0, 9, 6])
        self.assertEqual(order(0, range(0, 4), True), [0, 3, 2, 1])
        self.assertEqual(order(3, range(0, 4)), [3, 0, 1, 2])

    def test_a_target_is_a_point(self):
        """The first word of a variable that test_words has is 3 modulo 5, and 4 modulo 6."""
        anything = apart.where("", lambda value: True)
        drawn = lambda *ends: apart.of_one(apart.Variable("x", *ends), anything)
        self.assertEqual(first_values(drawn(0, 100, None, "real", 25), 1, 0), ["0.75"])
        self.assertEqual(first_values(drawn(-7, 10, None, "int", 3), 1, 0), ["5"])

    def test_a_direction_is_drawn_by_the_second_rule(self):
        """Beside a target that can't be taken stands what is taken, above it or below it."""
        directions = set()
        for step in range(1, 9):
            target = apart.word(0, step, apart.VARIABLES) % 10
            is_down = apart.word(0, step, apart.VARIABLES + 128) % 2 == 1
            other = apart.where("x", lambda value: value("x") != target)
            scenario = apart.of_one(apart.Variable("x", 0, 9), other)
            for rule, by in ((1, 1), (2, -1 if is_down else 1)):
                at_hand = apart.Instance(scenario, Draws(0, rule), step, {}, {})
                _, values = at_hand.drawn(apart.offers(other))
                self.assertEqual(values, {"x": (target + by) % 10})
            directions.add(is_down)
        self.assertEqual(directions, {False, True})


class Given(apart.Instance):
    """An instant whose targets and directions are decided by these words, by the third rule."""

    def __init__(self, words, *more):
        super().__init__(*more)
        self.words = dict(words)

    def word(self, slot):
        return self.words.get(slot, 0)


def drawn_inside(variables, names, holds, *words):
    """What the third rule takes, with words for the targets and then for the directions."""
    targets = [(apart.VARIABLES + at, it) for at, it in enumerate(words[: len(variables)])]
    directions = [(apart.DIRECTIONS + at, it) for at, it in enumerate(words[len(variables) :])]
    trace = apart.where(names, holds)
    scenario = apart.Scenario([], variables, [], trace)
    at_hand = Given(targets + directions, scenario, Draws(0, 3), 1, {}, {})
    _, values = at_hand.drawn(apart.offers(trace))
    return values and list(values.values())


class Inside(unittest.TestCase):
    """What the third rule takes, worked out by hand."""

    def of_x(self, ends, holds, *words):
        return drawn_inside([apart.Variable("x", *ends)], "x", lambda v: holds(v("x")), *words)

    def test_a_target_is_drawn_between_the_least_and_the_greatest(self):
        # 98, 99 and 100 are possible, and 5 is 2 modulo 3.
        self.assertEqual(self.of_x((0, 100), lambda x: x > 97, 5), [100])
        self.assertEqual(self.of_x((0, 100), lambda x: x > 97, 5, 1), [100])
        self.assertEqual(self.of_x((0, 100), lambda x: 6 < x < 8, 12345, 1), [7])
        self.assertIsNone(self.of_x((0, 100), lambda x: x > 100, 5))

    def test_from_a_hole_it_goes_in_its_direction(self):
        self.assertEqual(self.of_x((0, 3), lambda x: x != 2, 2, 0), [3])
        self.assertEqual(self.of_x((0, 3), lambda x: x != 2, 2, 1), [1])
        # 1, 2, 8 and 9 are possible, and the target is 1 + 4.
        self.assertEqual(self.of_x((0, 9), lambda x: x in (1, 2, 8, 9), 4, 0), [8])
        self.assertEqual(self.of_x((0, 9), lambda x: x in (1, 2, 8, 9), 4, 1), [2])

    def test_the_points_of_a_step_are_drawn(self):
        # Of 0.0, 2.5, 5.0, 7.5 and 10.0 all but the first are possible, and 6 is 2 modulo 4.
        ends = 0, 1000, None, "real", 250
        self.assertEqual(self.of_x(ends, lambda x: x > 100, 6), [750])

    def test_what_is_taken_bounds_those_behind_it(self):
        x, y = apart.Variable("x", 0, 9), apart.Variable("y", 0, 9)
        adds = lambda v: v("x") + v("y") == 12
        # x is from 3 to 9, and its target 3 + 4. Then 5 alone is possible for y.
        self.assertEqual(drawn_inside([x, y], "x y", adds, 4, 7), [7, 5])
        below = lambda v: v("x") < v("y")
        # x is from 0 to 8, and its target 0 + 6. Then y is from 7 to 9, and its target 7 + 1.
        self.assertEqual(drawn_inside([x, y], "x y", below, 15, 4), [6, 8])


class Documents(unittest.TestCase):
    def test_the_table_of_what_is_drawn(self):
        thrown = apart.Loop(apart.where("", lambda value: True))
        die = apart.of_one(apart.Variable("x", 1, 6), thrown)
        self.assertEqual(first_values(die, 4, 0), ["5", "5", "2", "3"])
        self.assertEqual(first_values(die, 4, 1), ["2", "5", "6", "2"])
        lit = apart.Counted(1, 3, apart.is_true("on", 1))
        lamp = apart.of_one(apart.boolean("on"), apart.Then(lit, apart.is_true("on", 0)))
        self.assertEqual(first_values(lamp, 9, 0), ["t", "t", "t", "f"])
        self.assertEqual(first_values(lamp, 9, 2), ["t", "t", "f"])

    def test_a_walk_by_a_local(self):
        moves = apart.where("x by", lambda value: value("x") == value("pre x") + value("by"))
        by = apart.Variable("by", -1, 1, 0)
        body = apart.Exist(by, apart.Loop(moves))
        walk = apart.Scenario([], [apart.Variable("x", 0, 9, 5)], [by], body)
        self.assertEqual(first_values(walk, 5, 0), ["4", "3", "2", "1", "0"])
        self.assertEqual(first_values(walk, 5, 5), ["4", "3", "2", "3", "2"])
        self.assertEqual(first_values(walk, 5, 0, rule=2), ["4", "5", "5", "4", "5"])
        self.assertEqual(first_values(walk, 5, 0, rule=3), ["5", "5", "5", "6", "6"])

    def test_the_dial_is_turned_by_quarters(self):
        call = r"run examples/dial\.lut -l (\d+)(?: --draw (\d))? .*\n-- (.*)"
        shown = re.findall(call, read("examples/dial.lut"))
        self.assertEqual([rule for _, rule, _ in shown], ["", "2", "3"])
        for limit, rule, values in shown:
            found = first_values(apart.dial(), int(limit), 0, int(rule or 1))
            self.assertEqual(" ".join(found), values)

    def test_the_room_by_each_rule(self):
        """Its temperature in each twentieth step, in a line for each rule."""
        shown = read("docs/TUTORIAL.md").rpartition("| xargs; done\n")[2].splitlines()
        for rule in (1, 2, 3):
            found = first_values(apart.room(), 200, 0, rule, apart.thermostat())
            self.assertEqual(" ".join(found[19::20]), shown[rule - 1])

    def test_a_trace_by_another_rule_than_the_first_says_so(self):
        body = apart.Then(apart.is_true("b", 1), apart.is_true("b", 0))
        flags = apart.of_one(apart.boolean("b"), body)
        trace = apart.trace_of(flags, apart.NOBODY, 1, Draws(0, 2))
        self.assertEqual(trace[:3], ["#seed 0", "#draw 2", '#inputs "b":bool'])
        self.assertIn("\n".join(["--draw 2", *trace, ""]), read("docs/COMMAND.md"))
        self.assertEqual(apart.trace_of(flags, apart.NOBODY, 1, Draws(0, 3))[1], "#draw 3")
        self.assertNotIn("#draw", "\n".join(apart.trace_of(flags, apart.NOBODY, 1, Draws(0, 1))))

    def test_patterns(self):
        shown = re.findall(
            r"--node (\w+) -l (\d+)(?: --seed (\d+))? .*\n-- (.*)", read("examples/patterns.lut")
        )
        self.assertEqual([name for name, *_ in shown], list(apart.PATTERNS))
        for name, limit, seed, values in shown:
            found = first_values(apart.PATTERNS[name](), int(limit), int(seed or 0))
            self.assertEqual(" ".join(found), values, name)


    def test_the_table_of_patterns(self):
        row = re.compile(r"^\| `(\w+)` \| .* \| `(.*)` \| (.*) \.\. \|$", re.M)
        rows = row.findall(read("docs/TUTORIAL.md"))
        self.assertEqual([name for name, *_ in rows], list(apart.PATTERNS))
        texts = " ".join(read("examples/patterns.lut").split())
        for name, text, values in rows:
            self.assertIn(text.replace("\\|", "|"), texts)
            found = first_values(apart.PATTERNS[name](), len(values.split()), 0)
            self.assertEqual(" ".join(found), values, name)


class Thermostats(unittest.TestCase):
    def test_rows_have_the_traces_of_both(self):
        rows = traces_of_rows(read("crates/lt_call_tests/src/plants.rt"))
        for scenario, limit in apart.SCENARIOS.values():
            trace = apart.trace_of(scenario(), apart.thermostat(), limit)
            self.assertIn("\n".join(trace), rows)

    def test_the_heater_of_the_drafty_room_goes_on_and_off(self):
        for seed in (1, 3):
            steps, _ = apart.steps_of(apart.drafty(), apart.thermostat(), 100, Draws(seed))
            heats = [it.answers[0] for it in steps]
            switches = sum(one != other for one, other in zip(heats, heats[1:]))
            self.assertGreaterEqual(switches, 10, seed)


if __name__ == "__main__":
    unittest.main()
