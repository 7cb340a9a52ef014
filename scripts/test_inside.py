"""That the third rule of drawing draws inside of what is possible.

    python3 scripts/test_inside.py [--program PATH] [--plant PATH] [--quick]

The program is the one that `rt ci` leaves in the checkout, where no option names another, and
without it nothing is tried. What is to come of a text follows from the documents. The options are
those of check_docs.py.
"""

import collections
import os
import sys
import tempfile
import unittest

import calls
import check_docs
import explored
from large_texts import end_of

GIVEN = check_docs.given([])

# The word by which the first variable's target is drawn in step 1 by the seed 0. LANGUAGE has it.
WORD = 15939427002774378928

NODE = "node n() returns "
# A text with one step, and the least of the possible values of its first output, the way from one
# point of its range to the next, and how many points of it lie from the least to the greatest.
FIRSTS = (
    (NODE + "(x: int [0; 100]) = x > 97", 98, 1, 3),
    (NODE + "(x: int [0; 3]) = x <> 0", 1, 1, 3),
    (NODE + "(x: int [0; 100]) = x < 3 or x = 1", 0, 1, 3),
    (NODE + "(x, y: int [0; 9]) = x + y = 12", 3, 1, 7),
    (NODE + "(x, y, z: int [0; 9]) = x < y and y < z", 0, 1, 8),
    (NODE + "(x: int) = -5 <= x and x <= 5", -5, 1, 11),
    (NODE + "(x: real [0.0; 10.0; 2.5]) = x > 1.0", 250, 250, 4),
    (NODE + "(x: real) = 0.0 < x and x < 10.0", 1, 1, 999),
    (NODE + "(x: int [0; 9]) = x > 6 and x < 8", 7, 1, 1),
)

# A light goes up or down by up to 20, and up as far as was answered. It is answered what is left.
FED = """node n(wanted: int [0; 100]) returns (light: int [0; 100] = 50; on: bool) =
    exist by: int [-20; 20] in
    loop { light = pre light + by and (on => light > 10) and (light < wanted or by <= 0) }
"""
CONTROLLER = "for line in open(0): print(100 - int(line.split()[0]), flush=True)\n"


class Inside(unittest.TestCase):
    def setUp(self):
        if not os.access(GIVEN.program, os.X_OK):
            self.skipTest(f"{GIVEN.program} is not there")

    def outcome(self, text, *words):
        return calls.outcome(GIVEN.program, text.encode(), "run", *words, seconds=calls.PATIENCE)

    def rows(self, text, *words):
        """The words of each step's line, up to the inputs."""
        lines = self.outcome(text, *words).output.decode().splitlines()
        return [it.partition(" #outs")[0].split() for it in lines if "#outs" in it]

    def test_a_target_is_drawn_between_the_least_and_the_greatest(self):
        self.assertIn(f"is {WORD}.", check_docs.read("docs/LANGUAGE.md"))
        for text, least, step, count in FIRSTS:
            with self.subTest(text):
                ((first, *_),) = self.rows(text, "--draw", "3", "-l", "1")
                self.assertEqual(int(first.replace(".", "")), least + step * (WORD % count))

    def test_each_tenth_of_what_is_possible_comes_as_often(self):
        values = [float(it) for (it,) in self.rows(explored.BAND, "--draw", "3", "-l", "1000")]
        self.assertTrue(all(0 < it < 10 for it in values))
        counts = collections.Counter(int(it) for it in values)
        self.assertEqual(sum(counts.values()), 1000)
        self.assertEqual(set(counts), set(range(10)))
        self.assertTrue(all(60 <= it <= 140 for it in counts.values()), counts)

    def test_a_target_that_is_not_possible_is_left_upward(self):
        """The target is 1 + 7, since the word is 7 modulo 9. The direction is upward."""
        self.assertEqual(WORD % 9, 7)
        text = NODE + "(x: int [0; 9]) = x = 1 or x = 9"
        self.assertEqual(self.rows(text, "--draw", "3", "-l", "1"), [["9"]])

    def test_values_that_are_not_possible_are_passed_over_in_both_directions(self):
        """Of 0 to 4 the target is 2 once in five times, and then 1 or 3 is taken, as is drawn."""
        text = NODE + "(x: int [0; 4]) = loop x <> 2"
        counts = collections.Counter(it for (it,) in self.rows(text, "--draw", "3", "-l", "1000"))
        self.assertEqual(set(counts), set("0134"))
        for value, least, most in (("0", 130, 270), ("4", 130, 270), ("1", 220, 380), ("3", 220, 380)):
            self.assertTrue(least <= counts[value] <= most, counts)

    def test_what_is_taken_bounds_those_behind_it(self):
        pairs = self.rows(NODE + "(x, y: int [0; 9]) = loop x + y = 12", "--draw", "3", "-l", "300")
        found = {(int(x), int(y)) for x, y in pairs}
        self.assertEqual(found, {(x, 12 - x) for x in range(3, 10)})

    def test_what_nothing_restricts_is_the_same_by_each_rule(self):
        dice = check_docs.read("examples/dice.lut")
        for seed, wanted in (("0", "5 5 2 3"), ("1", "2 5 6 2")):
            for rule in "123":
                rows = self.rows(dice, "-l", "4", "--seed", seed, "--draw", rule)
                self.assertEqual(" ".join(it for (it,) in rows), wanted)

    def test_the_header_names_the_rule(self):
        lines = self.outcome(explored.BAND, "-l", "1", "--seed", "9", "--draw=3").output.splitlines()
        self.assertEqual(lines[:3], [b"#seed 9", b"#draw 3", b'#inputs "x":real'])
        self.assertNotIn(b"#draw", self.outcome(explored.BAND, "-l", "1").output)

    def test_a_rule_that_is_not_there_is_refused(self):
        for word in ("4", "0", "-3", "three"):
            found = self.outcome(explored.BAND, f"--draw={word}")
            self.assertEqual((end_of(found), found.output), ("2 usage: words", b""), word)

    def test_what_no_values_meet_is_a_deadlock(self):
        text = NODE + "(x, y: int [0; 9]) = x + y = 12 fby x + y = 19"
        found = self.outcome(text, "--draw", "3")
        self.assertEqual(end_of(found), "4 deadlock 2")

    def test_a_run_is_played_again(self):
        with tempfile.TemporaryDirectory(prefix="lurette-") as room:
            script, trace = os.path.join(room, "controller.py"), os.path.join(room, "trace")
            with open(script, "w", encoding="utf-8") as file:
                file.write(CONTROLLER)
            words = "--seed", "5", "-l", "50", "--locals"
            first = self.outcome(FED, "--draw", "3", *words, "--sut", f"python3 {script}")
            self.assertEqual(end_of(first), "0 limit 50")
            with open(trace, "wb") as file:
                file.write(first.output)
            again = self.outcome(FED, "--draw", "3", *words, "--replay", trace)
            self.assertEqual(again[:3], first[:3])
            # With the same answers it is another run by another rule.
            other = self.outcome(FED, "--draw", "2", *words, "--replay", trace)
            self.assertNotEqual(other.output, first.output.replace(b"#draw 3", b"#draw 2"))

    def test_the_table_of_what_is_explored(self):
        table = explored.table(GIVEN.program)
        page = check_docs.read("docs/TUTORIAL.md").splitlines()
        self.assertIn(table[0], page)
        at = page.index(table[0])
        self.assertEqual(page[at : at + len(table) + 1], [*table, ""])


if __name__ == "__main__":
    GIVEN = check_docs.given(sys.argv[1:])
    unittest.main(argv=["test_inside.py", "--quiet"])
