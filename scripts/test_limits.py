"""That each limit of docs/LIMITS.md stands where it has it: at its value, and one past it.

    python3 scripts/test_limits.py [--program PATH] [--plant PATH] [--quick]

The program is the one that `rt ci` leaves in the checkout, where no option names another, and
without it nothing is tried. The options are those of check_docs.py. What is to come of a row
follows from the documents. Where tests of crates show a limit in each of its kinds, it has few rows
here: the document names those tests, and that they are there is tested too. The memory that each
refused text takes is measured, and it is printed which one comes nearest to what it may take.

With --quick the program may be one without a proof. It has checks, so that it takes minutes for the
largest texts, and more memory: these rows are left out, and memory isn't measured.
"""

import glob
import os
import re
import sys
import tempfile
import unittest
from collections import namedtuple

import calls
import check_docs
from hard_texts import pigeons, pigeons_need
from large_texts import MIB, NODE, doubled, end_of, names, padded

GIVEN = check_docs.given([])
DOCUMENT = os.path.join(calls.TOP, "docs", "LIMITS.md")

# A text, how its call ends, and the words of that call. The replies are those of an earlier trace.
Row = namedtuple("Row", "text end words replies", defaults=(("run",), None))

INT = "node n() returns (x: int [0;3]) = "
REAL = "node n() returns (x: real) = "
ECHO = "node n(y: int) returns (x: int [0;3]) = loop x = 1"
SUM = "node n() returns (x, y, z: int [0;5]) = x + y + z = 7"
MEASURE = "node n(y: real) returns (x: int [0;3]) = loop x = 1"

ONCE = "0 normal 1"
LARGE = "3 refused expand.TooLarge"
OVERFLOW = "6 fault Overflow 1"
USAGE = "2 usage: words"
UNFED = "3 refused run.NeedsController"

MOST = "1000000000000"
PAST = "1000000000001"


def one_step(*words):
    return ("run", "-l", "1", *words)


def campaign(count):
    return ("campaign", "--count", str(count))


def static(place):
    return f"3 refused expand.BadStatic at {place}"


def ranged(low, high, kind="int"):
    return f"node n() returns (x: {kind} [{low};{high}]) = true"


# -- Nodes of an expanded node ---------------------------------------------------------------------


def raising(total):
    """So many terms and no expressions: `raise` 50,000 times, joined, and loops around that."""
    brace = "{" + " fby ".join(["raise e"] * 500) + "}"
    loops = total - 99_999
    return "exception e " + NODE + "loop " * loops + "{" + " fby ".join([brace] * 100) + "}"


def constrained(total):
    """So many nodes, of which 199 are terms: 100 instants, joined, of constraints without macros.

    A constraint of n names and the `and`s between them has 2 * n - 1 expressions. The last one has
    the `not`s that are missing.
    """
    whole = " and ".join(["b"] * 499)
    rest = total - 199 - 99 * 997
    last = " and ".join(["b"] * ((rest + 1) // 2))
    return NODE + " fby ".join([whole] * 99 + [("" if rest % 2 else "not ") + last])


# -- Trees of an instant ---------------------------------------------------------------------------


def beside(part, count):
    return "{ &> " + " &> ".join([part] * count) + " }"


def choice(count):
    return "{ " + "| b " * count + "}"


def checked(text, end, steps=1, why="limit"):
    """A check of a trace of a Boolean that is true in each of so many steps."""
    lines = ["#seed 0", '#inputs "b":bool', "#outputs", "#locals"]
    for step in range(1, steps + 1):
        lines += [f"#step {step}", "t #outs #locs"]
    trace = "\n".join([*lines, f"#end {why} {steps}", ""])
    return Row(text, end, ("check",), trace.encode())


# A part whose tree has three nodes. So many of them side by side have 2^(n + 1) - 1.
SHAPES = {
    "choices": "{ |1: b |1: b }",
    "orders": "{ b |> b }",
    "loops": "loop b",
    "counted loops": "loop [0,2] b",
}


def trees():
    """A brace around 65,535 nodes is one more, and a `try` is two more."""
    found = []
    for part in SHAPES.values():
        tree = beside(part, 15)
        found.append(Row(f"{NODE}{{ |1: {tree} }}", "0 limit 1", one_step()))
        found.append(Row(f"{NODE}try {tree}", "14 toolarge 1", one_step()))
    tree = beside(SHAPES["choices"], 15)
    found.append(checked(f"{NODE}{{ |1: {tree} }}", "0"))
    found.append(checked(f"{NODE}try {tree}", "12 illegal 1"))
    # Choices of 64: one of 64 * 64 * 14 leaves has 61,505 nodes, and one of 64 * 61 leaves 3,969.
    first = beside_all([choice(64), choice(64), choice(14)])
    second = beside_all([choice(64), choice(61)])
    for last, end in ((60, "0 limit 1"), (61, "14 toolarge 1")):
        text = f"{NODE}{{ | {first} | {second} | {choice(last)} }}"
        found.append(Row(text, end, one_step()))
    return found


def beside_all(parts):
    return "{ &> " + " &> ".join(parts) + " }"


# -- Options ---------------------------------------------------------------------------------------

# Each option with words that it takes and words that it doesn't: its least and its greatest one,
# and one further.
OPTIONS = {
    "-l": (("0", "1000000"), ("-1", "1000001")),
    "--seed": (("0", "18446744073709551615"), ("-1", "18446744073709551616")),
    "--precision": (("0", "6"), ("-1", "7")),
    "--budget": (("1", MOST), ("0", PAST)),
    "--draw": (("1", "3"), ("0", "4")),
}


def options(name):
    """What is taken of an option runs a scenario that takes no instant, and so needs no search."""
    text = "node n() returns (b: bool) = loop [0,0] b"
    taken, refused = OPTIONS[name]
    ends = ["0 limit 0" if name == "-l" and word == "0" else "0 normal 0" for word in taken]
    found = [Row(text, end, ("run", f"{name}={word}")) for word, end in zip(taken, ends)]
    return found + [Row(text, USAGE, ("run", f"{name}={word}")) for word in refused]


# -- Replies ---------------------------------------------------------------------------------------


def replied(value, end, scenario=ECHO, before=b"1 "):
    """One step on an earlier trace, whose reply begins so and has this value."""
    return Row(scenario, end, one_step(), before + value + b" ")


def malformed(kind, place):
    return f"7 malformed controller {kind} 1 at {place}"


# -- The limits, by the names that the document gives them -----------------------------------------

LIMITS = {
    "bytes of a text": [
        Row(padded(NODE + "b", MIB), ONCE),
        Row(padded(NODE + "b", MIB + 1), "3 refused file.TooLong"),
        Row(padded(NODE + "b", MIB), "0", ("print",)),
        Row(padded(NODE + "b", MIB + 1), "3 refused file.TooLong", ("print",)),
        checked(padded(NODE + "b", MIB), "0", why="normal"),
        checked(padded(NODE + "b", MIB + 1), "3 refused file.TooLong"),
    ],
    "levels of nesting": [
        Row(NODE + "(" * 200 + "b" + ")" * 200, ONCE),
        Row(NODE + "(" * 201 + "b" + ")" * 201, "3 refused parse.TooDeep at 229"),
    ],
    "digits of a number": [
        Row(INT + "x = " + "9" * 18, OVERFLOW),
        Row(INT + "x = " + "9" * 19, "3 refused lex.NumberTooLong at 38"),
        Row(REAL + "x = 1.23456789012345678", ONCE),
        Row(REAL + "x = 1.234567890123456789", "3 refused lex.NumberTooLong at 33"),
        Row(REAL + "x = " + "7" * 1_000_000, "3 refused lex.NumberTooLong at 33"),
    ],
    "terms and expressions": [
        Row(raising(100_000), "5 raise e 1"),
        Row(raising(100_001), LARGE),
        Row(constrained(100_000), "0 limit 1", one_step()),
        Row(constrained(100_001), LARGE),
        # Each of them 4,096 or 131,072 times `not`.
        Row(doubled("not not a", "bool", 12) + NODE + "d12(b)", ONCE),
        Row(doubled("not not a", "bool", 17) + NODE + "d17(b)", LARGE),
        Row(doubled("not not a", "bool", 90) + NODE + "d90(b)", LARGE),
    ],
    "depth of terms": [
        Row(NODE + " fby ".join(["b"] * 1000), "0 limit 1", one_step()),
        Row(NODE + " fby ".join(["b"] * 1001), LARGE),
    ],
    "depth of an expression": [
        Row(NODE + "b" + " and b" * 4999, ONCE),
        Row(NODE + "b" + " and b" * 5000, LARGE),
        Row(NODE + "b" + " and b" * 170_000, LARGE),
    ],
    "alternatives of a choice": [
        Row(NODE + choice(64), ONCE),
        Row(NODE + choice(65), LARGE),
    ],
    "inputs": [
        Row(f"node n({names('y', 128)}: bool) returns (b: bool) = b", UNFED),
        Row(f"node n({names('y', 129)}: bool) returns (b: bool) = b", LARGE),
    ],
    "outputs and locals": [
        Row(f"node n() returns ({names('y', 128)}: bool) = y0", ONCE),
        Row(f"node n() returns ({names('y', 129)}: bool) = y0", LARGE),
        Row(NODE + "".join(f"exist v{it}: bool in " for it in range(127)) + "b", ONCE),
        Row(NODE + "".join(f"exist v{it}: bool in " for it in range(128)) + "b", LARGE),
    ],
    "turns of a counted loop": [
        Row(NODE + "loop [1,1000000] b", "0 limit 1", one_step()),
        Row(NODE + "loop [0,1000001] b", static(37)),
        Row(NODE + "loop [1000000,1000000] b", "0 limit 1", one_step()),
        Row(NODE + "loop [-1,2] b", static(35)),
        Row(NODE + "loop [2,2] b", "0 normal 2"),
        Row(NODE + "loop [3,2] b", static(35)),
        Row(NODE + "loop ~999998:1 b", "0 limit 1", one_step()),
        Row(NODE + "loop ~999999:1 b", static(35)),
        Row(NODE + "loop ~1000000:0 b", "0 limit 1", one_step()),
        Row(NODE + "loop ~1000001:0 b", static(35)),
        Row(NODE + "loop ~2:(-1) b", static(38)),
        Row(NODE + f"loop ~0:{MOST} b", static(35)),
    ],
    "size of a number": [
        Row(INT + f"x < {MOST}", ONCE),
        Row(INT + f"x < {PAST}", OVERFLOW),
        Row(INT + "x < 1000000 * 1000000", ONCE),
        Row(INT + "x < 1000001 * 1000000", OVERFLOW),
        Row(INT + f"x > -{MOST}", ONCE),
        Row(INT + f"x > 0 - {MOST} - 1", OVERFLOW),
        # A coefficient, a constant, a weight and a first value are numbers too.
        Row(INT + "1000000 * (1000000 * x) > 0", ONCE),
        Row(INT + "1000001 * (1000000 * x) > 0", OVERFLOW),
        Row(INT + f"{MOST} * x + x > 0", OVERFLOW),
        Row(INT + f"x + {MOST} > 0", ONCE),
        Row(INT + f"x + {MOST} + 1 > 0", OVERFLOW),
        Row(NODE + f"{{ |{MOST}: b }}", ONCE),
        Row(NODE + f"{{ |{PAST}: b }}", OVERFLOW),
        Row(f"node n(y: int = {MOST}) returns (b: bool) = b", UNFED),
        Row(f"node n(y: int = {PAST}) returns (b: bool) = b", static(16)),
        # With two decimals, of which further ones are rounded.
        Row(REAL + "x < 10000000000.0049", ONCE),
        Row(REAL + "x < 10000000000.005", OVERFLOW),
    ],
    "ends of a range": [
        Row(ranged("-" + MOST, MOST), ONCE),
        Row(ranged("0", PAST), "3 refused type.RangeTooLarge at 28"),
        Row(ranged("-" + PAST, "0"), "3 refused type.RangeTooLarge at 26"),
        Row(ranged("0.0", "10000000000.0049", "real"), ONCE),
        Row(ranged("0.0", "10000000000.005", "real"), "3 refused type.RangeTooLarge at 31"),
    ],
    "nodes of an instant's tree": trees(),
    # Of each part one of two constraints is left after a step.
    "candidates": [
        checked(NODE + beside("{ |1: true fby b |1: true fby not b }", 12), "0", 2, "normal"),
        checked(NODE + beside("{ |1: true fby b |1: true fby not b }", 13), "13 candidates 1", 2),
        # Equal ones are one.
        checked(NODE + beside("{ |1: true fby b |1: true fby b }", 13), "0", 2, "normal"),
    ],
    "runs of a node": [
        Row(
            "node s() returns (x: bool) = x\nnode n() returns (b: bool) = "
            + "".join(f"run y{it} := s() in " for it in range(count))
            + "b",
            end,
            ("run", "--node", "n"),
        )
        for count, end in ((16, "3 refused run.HasRuns"), (17, "3 refused expand.TooManyRuns"))
    ],
    "atoms of a conjunct": [
        Row(
            f"node n() returns ({names('y', count)}: bool) = "
            + " or ".join(f"y{it}" for it in range(count)),
            end,
            ("run", f"--budget={MOST}"),
        )
        for count, end in ((16, ONCE), (17, "3 refused run.TooManyAtoms"))
    ],
    "steps": [
        Row(NODE + "loop b", "0 limit 1000000", ("run", "-l", "1000000")),
        *options("-l"),
    ],
    "seed": options("--seed"),
    "decimals": options("--precision"),
    "budget": [
        *options("--budget"),
        # It needs 180 * 4 * 216, and its search is done within the allowance.
        Row(SUM, ONCE, ("run", "--budget=155520")),
        Row(SUM, ONCE, ("run", "--budget=155519")),
        Row(pigeons(10, 9), f"10 budget {pigeons_need(10)} 1"),
    ],
    "rules of drawing": options("--draw"),
    "sessions of a campaign": [
        Row(NODE + "b", USAGE, campaign(0)),
        Row(NODE + "b", "0 1 ended 1", campaign(1)),
        Row(NODE + "b", "0 64 ended 64", campaign(64)),
        Row(NODE + "b", USAGE, campaign(65)),
    ],
    "bytes of a reply": [
        replied(b"5", "0 limit 1", before=b"1" + b" " * 65_533),
        replied(b"5", malformed("TooLong", 0), before=b"1" + b" " * 65_534),
        replied(b"5", "0 limit 1", before=b"1 --" + b"-" * 65_529 + b"\n"),
        replied(b"5", malformed("TooLong", 0), before=b"1 --" + b"-" * 65_530 + b"\n"),
        replied(b"5", malformed("TooLong", 0), before=b"--" + b"-" * 69_998),
    ],
    "digits in a reply": [
        replied(b"0" * 17 + b"5", "0 limit 1"),
        replied(b"0" * 18 + b"5", malformed("NotAValue", 2)),
        replied(b"0" * 17 + b"5." + b"0" * 18, "0 limit 1", MEASURE),
        replied(b"0" * 18 + b"5." + b"0" * 18, malformed("NotAValue", 2), MEASURE),
        replied(b"0" * 17 + b"5." + b"0" * 19, malformed("NotAValue", 2), MEASURE),
    ],
    "digits of an exponent": [
        replied(b"5e-999", "0 limit 1", MEASURE),
        replied(b"5e-0999", malformed("NotAValue", 2), MEASURE),
    ],
    "size of a reply's number": [
        replied(MOST.encode(), "0 limit 1"),
        replied(PAST.encode(), malformed("OutOfRange", 2)),
        replied(b"10000000000.0049", "0 limit 1", MEASURE),
        replied(b"10000000000.005", malformed("OutOfRange", 2), MEASURE),
    ],
}


# Limits that are reached only after much work.
FAR = ("terms and expressions", "depth of terms", "depth of an expression", "candidates")


def is_tried(name, row):
    """Whether a row of a limit is tried."""
    is_far = name in FAR or len(row.text) > 100_000 or "1000000" in row.words
    is_given_up = row.end.startswith("10 ")
    return not (GIVEN.quick and (is_far or is_given_up))


def rows_to_try():
    """The rows that are tried, each with the name of its limit and its number there."""
    for name, rows in LIMITS.items():
        for number, row in enumerate(rows):
            if is_tried(name, row):
                yield name, number, row


def memory_for(text):
    """How many bytes of memory a call may take that refuses a text."""
    return 8_000_000 + 64 * len(text)


class Limits(unittest.TestCase):
    def setUp(self):
        if not os.access(GIVEN.program, os.X_OK):
            self.skipTest(f"{GIVEN.program} is not there")

    def check(self, row):
        with tempfile.NamedTemporaryFile(prefix="lurette-") as replies:
            words = row.words
            if row.replies is not None:
                replies.write(row.replies)
                replies.flush()
                words = (*words, "--replay", replies.name)
            found = calls.outcome(GIVEN.program, row.text.encode(), *words, seconds=calls.PATIENCE)
        self.assertEqual(end_of(found), row.end)

    def test_each_limit_at_its_value_and_past_it(self):
        for name, number, row in rows_to_try():
            with self.subTest(name, number=number, text=row.text[:60], words=row.words):
                self.check(row)

    def test_memory_of_refused_texts(self):
        if GIVEN.quick:
            self.skipTest("a program without a proof takes more memory")
        shares = []
        for name, number, row in rows_to_try():
            if not row.end.startswith("3 ") or row.replies is not None:
                continue
            with self.subTest(name, number=number, text=row.text[:60], words=row.words):
                taken = calls.memory_of(GIVEN.program, row.text.encode(), *row.words)
                most = memory_for(row.text)
                shares.append((taken / most, f"{taken:,} of {most:,} bytes ({name})"))
                self.assertLessEqual(taken, most)
        print(f"memory of {len(shares)} refused texts, the nearest to its limit: {max(shares)[1]}")

    def test_the_number_of_a_large_run(self):
        # It stands in the place of a file.
        for word, status in (("0", 0), ("999999", 0), ("1000000", 2), ("-1", 2)):
            with self.subTest(word):
                found = calls.outcome_of(GIVEN.program, "stress", word, seconds=calls.PATIENCE)
                self.assertEqual(found.status, status)

    def test_bytes_of_an_earlier_trace(self):
        if GIVEN.quick:
            self.skipTest("it reads 64 MiB")
        # Its end isn't read over: the file has one reply, and zeros after it.
        for length, words, end in (
            (64 * MIB, one_step(), "0 limit 1"),
            (64 * MIB + 1, one_step(), "3 refused file.TooLong"),
            (64 * MIB, ("check",), "3 refused check.BadLine at 1"),
            (64 * MIB + 1, ("check",), "3 refused file.TooLong"),
        ):
            with self.subTest(length), tempfile.NamedTemporaryFile(prefix="lurette-") as replies:
                replies.write(b"1 #outs 5\n")
                replies.truncate(length)
                words = (*words, "--replay", replies.name)
                found = calls.outcome(GIVEN.program, ECHO.encode(), *words, seconds=calls.PATIENCE)
                self.assertEqual(end_of(found), end)


class Document(unittest.TestCase):
    """The document names each limit, and the tests that it names are there."""

    def setUp(self):
        with open(DOCUMENT, encoding="utf-8") as file:
            self.page = file.read()

    def test_rows_of_this_test(self):
        named = re.findall(r"`test_limits`: ([^;|]+?) *(?=[;|])", self.page)
        self.assertEqual(sorted(set(named) - set(OTHERS)), sorted(LIMITS))

    def test_tests_of_crates(self):
        named = re.findall(r"`(\w+)` of `(\w+)`", self.page)
        self.assertGreater(len(named), 5)
        for test, crate in named:
            with self.subTest(test, crate=crate):
                files = glob.glob(os.path.join(calls.TOP, "crates", crate, "src", "*.rt"))
                self.assertTrue(any(has_test(file, test) for file in files))


# Limits that have a test of their own in this file.
OTHERS = ("number of a large run", "bytes of an earlier trace")


def has_test(path, name):
    with open(path, encoding="utf-8") as file:
        return f"fn {name}(" in file.read()


if __name__ == "__main__":
    GIVEN = check_docs.given(sys.argv[1:])
    unittest.main(argv=["test_limits.py", "--quiet"])
