"""That numbers as one writes them run, and that only hard searches are given up, and soon.

    python3 scripts/test_given_up.py [--program PATH] [--plant PATH] [--quick]

The program is the one that `rt ci` leaves in the checkout, where no option names another, and
without it nothing is tried. With --quick the hard searches are left out: a program with checks is too
slow for them. What is to come of a text follows from the documents. The time is that
of the processor, since another program may take it.
"""

import os
import sys
import unittest

import calls
import check_docs
import hard_texts
from large_texts import end_of

GIVEN = check_docs.given([])

LEAST, MOST = "1", "1000000000000"
INTS = "node n() returns (x, y, z: int) = loop "
REALS = "node n() returns (x, y, z: real) = loop "

# Texts of which each instant has values. Their needs are over the budget that holds by default.
RUNNING = (
    "node n() returns (target, x: real [0.0; 42.0] = 0.0) = loop x = (pre x + target) / 2.0",
    "node n() returns (target, x: real = 0.0) = loop x = (pre x + target) / 2.0",
    INTS + "{ x + 2 * y + 3 * z = 100 and x > 0 and y > 0 and z > 0 }",
    REALS + "{ 0.0 < x and x < 10.0 and x + y < 4.0 and y > 2.0 * x - 30.0 and z = x - y }",
    "node n() returns (a, b, c, d: real) = loop { "
    "a + b + c + d = 10.0 and a - 2.0 * b > -5.0 and c > d and d > -3.0 }",
    "node n() returns (x, y, z, t: int [0; 1000]) = loop { "
    "3 * x + 5 * y + 7 * z + 11 * t = 9973 and x < y and y < z and z < t }",
)

# Texts of which no instant has values, as no sum of even numbers is odd.
STUCK = (
    "node n() returns (x, y, z: int [0; 5]) = 2 * x + 2 * y + 2 * z = 7",
    "node n() returns (x, y, z: int) = 2 * x + 2 * y - 2 * z = 7",
)


class GivenUp(unittest.TestCase):
    def setUp(self):
        if not os.access(GIVEN.program, os.X_OK):
            self.skipTest(f"{GIVEN.program} is not there")

    def outcome(self, text, *words):
        return calls.outcome(GIVEN.program, text.encode(), "run", *words, seconds=calls.PATIENCE)

    def test_numbers_as_one_writes_them_run(self):
        steps = "20" if GIVEN.quick else "200"
        for text in RUNNING:
            for rule in ("1", "2", "3"):
                with self.subTest(text, rule=rule):
                    words = ("-l", steps, "--draw", rule)
                    found = self.outcome(text, *words)
                    self.assertEqual(end_of(found), f"0 limit {steps}")
                    for budget in (LEAST, MOST):
                        other = self.outcome(text, *words, "--budget", budget)
                        self.assertEqual(other[:3], found[:3])

    def test_what_has_no_values_is_a_deadlock_by_each_budget(self):
        for text in STUCK:
            for words in ((), ("--budget", LEAST), ("--budget", MOST)):
                with self.subTest(text, words=words):
                    self.assertEqual(end_of(self.outcome(text, *words)), "4 deadlock 1")

    def test_a_hard_search_is_given_up_within_a_second(self):
        if GIVEN.quick:
            self.skipTest("a program with checks takes longer")
        need = hard_texts.pigeons_need(10)
        for words in ((), ("--budget", LEAST), ("--budget", MOST), ("--draw", "3")):
            with self.subTest(words):
                found = self.outcome(hard_texts.pigeons(10, 9), *words)
                self.assertEqual(end_of(found), f"10 budget {need} 1")
                self.assertLess(found.seconds, 1)

    def test_a_budget_that_is_the_need_lets_a_search_go_to_its_end(self):
        if GIVEN.quick:
            self.skipTest("a program with checks takes longer")
        self.assertFalse(hard_texts.market_is_split())
        text, need = hard_texts.market(), hard_texts.MARKET_NEED
        for budget, end in (
            (None, f"10 budget {need} 1"),
            (need - 1, f"10 budget {need} 1"),
            (need, "4 deadlock 1"),
        ):
            with self.subTest(budget=budget):
                words = () if budget is None else ("--budget", str(budget))
                self.assertEqual(end_of(self.outcome(text, *words)), end)


if __name__ == "__main__":
    GIVEN = check_docs.given(sys.argv[1:])
    unittest.main(argv=["test_given_up.py", "--quiet"])
