"""That the deepest and the widest texts need no more than the stack that a program has by default.

    python3 scripts/test_deep_texts.py [--program PATH] [--plant PATH] [--quick]

Each call has 8 MB of stack, whatever the shell allows. What is to come of a row follows from the
documents. The program is the one that `rt ci` leaves in the checkout, where no option names
another, and without it nothing is tried. The options are those of check_docs.py. With --quick the
program may be one without a proof, whose checks need time and stack: then constructs in one another
are tried, and nothing that is larger.
"""

import os
import resource
import sys
import unittest
from collections import namedtuple

import calls
import check_docs
from large_texts import DECLARED, MIB, NODE, NUMBERS, end_of, names, nested

GIVEN = check_docs.given([])
STACK = 8 * MIB

ONE = ("run", "-l", "1")
PRINT = ("print",)
# A run that has made its one step, and a text that is printed or too large.
STEP, PRINTED, LARGE = "0 limit 1", "0", "3 refused expand.TooLarge"

# -- Terms and expressions as deep as may be -------------------------------------------------------

# Bodies of macros that put one level around their argument `a`.
TERMS = {
    "loop": "loop a",
    "counted loop": "loop [1,2] a",
    "loop around": "loop ~1:0 a",
    "assert": "assert true in a",
    "catch": "catch e in a do true",
    "handler of catch": "catch e in raise e do a",
    "trap": "trap e in a do true",
    "handler of trap": "trap e in raise e do a",
    "try": "try a do true",
    "handler of try": "try raise Deadlock do a",
    "choice": "{ | a }",
    "choice by weight": "{ |1: a |0: true }",
    "first by priority": "{ a |> true }",
    "second by priority": "{ raise Deadlock |> a }",
    "first in parallel": "{ a &> true }",
    "second in parallel": "{ true &> a }",
    "first in sequence": "{ a fby true }",
    "second in sequence": "{ true fby a }",
}

TRUTHS = {
    "first of and": "a and true",
    "second of and": "true and a",
    "first of or": "a or false",
    "second of or": "false or a",
    "first of xor": "a xor false",
    "second of xor": "false xor a",
    "first of =>": "a => true",
    "second of =>": "true => a",
    "not": "not a",
    "first of =": "a = true",
    "second of =": "true = a",
    "first of <>": "a <> false",
    "second of <>": "false <> a",
    "condition": "if a then true else false",
    "then": "if true then a else false",
    "else": "if false then true else a",
}

# Of numbers, with what stands at the bottom.
INTS = {
    "first of +": ("a + 0", "i"),
    "second of +": ("0 + a", "i"),
    "first of -": ("a - 0", "i"),
    "second of -": ("0 - a", "i"),
    "first of *": ("a * 1", "i"),
    "second of *": ("1 * a", "i"),
    "first of /": ("a / 1", "1"),
    "second of /": ("1 / a", "1"),
    "first of div": ("a div 1", "1"),
    "second of div": ("1 div a", "1"),
    "first of mod": ("a mod 7", "1"),
    "minus": ("- a", "i"),
    "then": ("if true then a else 0", "i"),
    "else": ("if false then 0 else a", "i"),
}

REALS = {
    "first of +": ("a + 0.0", "x"),
    "second of -": ("0.0 - a", "x"),
    "first of *": ("a * 1.0", "x"),
    "second of *": ("1.0 * a", "x"),
    "first of /": ("a / 1.0", "x"),
    "second of /": ("1.0 / a", "1.0"),
    "minus": ("- a", "x"),
}


def deep_term(way, levels, inside="b", macros=""):
    more, use = nested(way, "trace", levels - 1, inside)
    return "exception e " + macros + more + NODE + use


def deep_truth(way, levels):
    macros, use = nested(way, "bool", levels - 1, "b")
    return macros + NUMBERS + use


def deep_number(kind, bound, way, inside, levels):
    """A comparison is the last level."""
    macros, use = nested(way, kind, levels - 2, inside)
    return macros + NUMBERS + f"{bound} >= {use}"


# -- As many constructs in one another as may be ---------------------------------------------------

# What stands 200 times before the innermost `b`, and what after it.
OPENERS = {
    "brace": ("{ ", " }"),
    "parenthesis": ("(", ")"),
    "loop": ("loop ", ""),
    "counted loop": ("loop [1,2] ", ""),
    "not": ("not ", ""),
    "then": ("if true then ", " else b"),
    "condition": ("if ", " then b else b"),
    "=>": ("b => ", ""),
    "assert": ("assert b in ", ""),
    "catch": ("catch e in ", ""),
    "handler of catch": ("catch e in b do ", ""),
    "trap": ("trap e in ", ""),
    "try": ("try ", ""),
    "handler of try": ("try b do ", ""),
    "let": ("let m: bool = b in ", ""),
    "exception": ("exception e in ", ""),
    "choice": ("{ | ", " | b }"),
    "priority": ("{ |> ", " |> b }"),
    "parallel": ("{ &> ", " &> b }"),
    "sequence": ("{ b fby ", " fby b }"),
    "argument": ("g(", ")"),
    # The right side of each operator is one of a tighter operator.
    "right sides": ("b or b and b = (", ")"),
}

# Those that a text may have one after another until it ends, each of which opens a level.
ENDLESS = ("(", "{ ", "loop ", "not ", "try ", "exception e in ", "catch e in ", "assert b in ")

# -- As wide as a text may be ----------------------------------------------------------------------

# What stands before the innermost `b`, once for each level, and what after it. The part stands at
# the sign `@` as often as a text of 1 MiB lets it. Levels are 200, or 100 where two are opened.
Wide = namedtuple("Wide", "before behind part levels end", defaults=(200, LARGE))

WIDE = {
    "left of parentheses": Wide("(", "@)", " and b"),
    "right of parentheses": Wide("@(", ")", "b and "),
    "not": Wide("@not ", "", "b and "),
    "=>": Wide("b@ => ", "", " and b"),
    "condition": Wide("if b@ then ", " else b", " and b"),
    "assert": Wide("assert b@ in ", "", " and b"),
    "sequence": Wide("{ @", " }", "b fby "),
    "priority": Wide("{ @", " }", "b |> "),
    "parallel": Wide("{ @", " }", "b &> "),
    "choice": Wide("{ | b@| ", " }", "| b"),
    "choice by weight": Wide("{ |1@: b | 2: ", " }", "+1"),
    "try": Wide("try { b@ } do ", "", " fby b", 199),
    "loop": Wide("loop { @", " }", "b fby ", 100),
    "argument": Wide("f({ @", " })", "b fby ", 100),
    "let": Wide("let m: bool = b@ in ", "", " and b", 200, STEP),
}


def wide_text(row):
    room = MIB - len(DECLARED + NODE) - 1
    each = room // row.levels - len((row.before + row.behind).replace("@", ""))
    parts = row.part * (each // len(row.part))
    before, behind = (it.replace("@", parts) for it in (row.before, row.behind))
    return DECLARED + NODE + before * row.levels + "b" + behind * row.levels


# Texts of one level, how they are printed, and how they run.
Chain = namedtuple("Chain", "text printed run")
INT = "node n() returns (x: int [0;3]) = "
CHAINS = {
    "and": Chain(NODE + "b" + " and b" * 170_000, PRINTED, LARGE),
    "or": Chain(NODE + "b" + " or b" * 200_000, PRINTED, LARGE),
    "xor": Chain(NODE + "b" + " xor b" * 170_000, PRINTED, LARGE),
    "+": Chain(INT + "x" + "+1" * 500_000 + " = 1", PRINTED, LARGE),
    "*": Chain(INT + "x" + "*1" * 500_000 + " = 1", PRINTED, LARGE),
    "fby": Chain(NODE + "b" + " fby b" * 170_000, PRINTED, LARGE),
    "|>": Chain(NODE + "{ b" + "|> b" * 240_000 + "}", PRINTED, LARGE),
    "&>": Chain(NODE + "{ b" + "&> b" * 240_000 + "}", PRINTED, LARGE),
    "|": Chain(NODE + "{ b" + "|b" * 500_000 + "}", PRINTED, LARGE),
    "unused and": Chain(
        "let m (b: bool): bool = b" + " and b" * 170_000 + " " + NODE + "b", PRINTED, STEP
    ),
    "unused fby": Chain(
        "let m (b: bool): trace = b" + " fby b" * 170_000 + " " + NODE + "b", PRINTED, STEP
    ),
    # The whole of what has a wrong part begins with its first name.
    "wrong at the end": Chain(
        NODE + "b" + " and b" * 170_000 + " and 1", PRINTED, "3 refused type.Mismatch at 29"
    ),
    "wrong at the begin": Chain(
        NODE + "1" + " and b" * 170_000, PRINTED, "3 refused type.Mismatch at 29"
    ),
    "cut": Chain(NODE + "b fby " * 170_000, *["3 refused parse.Unexpected at 1020029"] * 2),
}

# -- Many declarations, and long comments ----------------------------------------------------------


def each(text, count, first=0):
    """A text for each number below one, which stands in place of `#`, and the one before of `~`."""
    numbers = range(first, count)
    return " ".join(text.replace("#", str(it)).replace("~", str(it - 1)) for it in numbers)


def handing(kind, body, count):
    """Macros of one parameter, of which each but the first hands it to the one before."""
    later = each(f"let m#(a: {kind}): {kind} = {body}", count, 1)
    return f"let m0(a: {kind}): {kind} = a {later} {NODE}m{count - 1}(b)"


DECLARING = {
    "macros": Chain(each("let m#: bool = true", 20_000) + " " + NODE + "b", PRINTED, STEP),
    "macros, the last used": Chain(
        each("let m#: bool = true", 20_000) + " " + NODE + "m19999 and b", PRINTED, STEP
    ),
    "macros over one another": Chain(handing("bool", "m~(a)", 20_000), PRINTED, STEP),
    "macros of traces": Chain(handing("trace", "{m~({a})}", 15_000), PRINTED, STEP),
    "macros by let": Chain(
        handing("trace", "let g(s: trace): trace = m~(s) in g(a)", 12_000), PRINTED, STEP
    ),
    "macros, one not more": Chain(handing("bool", "not m~(a)", 5000), PRINTED, STEP),
    "macros, too many nots": Chain(handing("bool", "not m~(a)", 15_000), PRINTED, LARGE),
    "nodes": Chain(each("node n#() returns (b: bool) = b", 20_000), PRINTED, STEP),
    "exceptions": Chain(
        each("exception e#", 20_000) + " " + NODE + "raise e19999", PRINTED, "5 raise e19999 1"
    ),
    "exceptions in a list": Chain(
        f"exception {names('e', 100_000)} {NODE}raise e99999", PRINTED, "5 raise e99999 1"
    ),
    "equal names": Chain(
        "let a: bool = true " * 20_000 + NODE + "b", PRINTED, "3 refused type.Twice at 23"
    ),
    "parameters": Chain(
        f"let m({names('p', 100_000)}: bool): bool = p99999 {NODE}b", PRINTED, STEP
    ),
    "arguments": Chain(
        f"let m({names('p', 65_000)}: bool): bool = p64999 {NODE}m({', '.join('b' * 65_000)})",
        PRINTED,
        STEP,
    ),
    "outputs": Chain(f"node n() returns ({names('p', 100_000)}: bool) = p0", PRINTED, LARGE),
    "groups": Chain(
        f"node n() returns ({each('p#: bool;', 30_000)[:-1]}) = p0", PRINTED, LARGE
    ),
    "a long name": Chain(f"let {'a' * 1_000_000}: bool = true {NODE}b", PRINTED, STEP),
}

COMMENTS = {
    "closed": Chain(f"{NODE}b (*{'x' * (MIB - 35)}*)", PRINTED, STEP),
    "of a line": Chain(f"{NODE}b --{'x' * (MIB - 33)}", PRINTED, STEP),
    "open": Chain(f"{NODE}b (*{'(*' * 524_000}", *["3 refused lex.OpenComment at 31"] * 2),
    "many": Chain("(**)" * 262_000 + NODE + "b", PRINTED, STEP),
    "many of a line": Chain("--\n" * 349_000 + NODE + "b", PRINTED, STEP),
    "of any bytes": Chain(f"{NODE}b (*{''.join(map(chr, range(256))) * 1000}*)", PRINTED, STEP),
    "none": Chain("\0" * MIB, *["3 refused lex.BadByte at 0"] * 2),
}


# The test that a program without a proof ends soon.
QUICK = "test_constructs_in_one_another"


class Deep(unittest.TestCase):
    @classmethod
    def setUpClass(cls):
        if not os.access(GIVEN.program, os.X_OK):
            raise unittest.SkipTest(f"{GIVEN.program} is not there")
        cls.limits = resource.getrlimit(resource.RLIMIT_STACK)
        resource.setrlimit(resource.RLIMIT_STACK, (STACK, cls.limits[1]))

    @classmethod
    def tearDownClass(cls):
        resource.setrlimit(resource.RLIMIT_STACK, cls.limits)

    def setUp(self):
        if GIVEN.quick and self._testMethodName != QUICK:
            self.skipTest("it takes too long without a proof")

    def check(self, name, text, end, words=ONE):
        with self.subTest(name, end=end, words=words):
            made = text.encode("latin-1")
            found = calls.outcome(GIVEN.program, made, *words, seconds=calls.PATIENCE)
            self.assertEqual(end_of(found), end)

    def check_chains(self, chains):
        for name, row in chains.items():
            self.check(name, row.text, row.run)
            self.check(name, row.text, row.printed, PRINT)

    def test_terms_of_each_kind(self):
        for name, way in TERMS.items():
            self.check(name, deep_term(way, 1000), STEP)
            self.check(name, deep_term(way, 1001), LARGE)

    def test_expressions_of_each_kind(self):
        for name, way in TRUTHS.items():
            self.check(name, deep_truth(way, 5000), STEP)
            self.check(name, deep_truth(way, 5001), LARGE)
        for kind, bound, ways in (("int", "1", INTS), ("real", "1.0", REALS)):
            for name, (way, inside) in ways.items():
                self.check(name, deep_number(kind, bound, way, inside, 5000), STEP)
                self.check(name, deep_number(kind, bound, way, inside, 5001), LARGE)

    def test_the_deepest_expression_below_the_deepest_term(self):
        # A walk over terms has one over expressions at its bottom.
        for truth in ("a and true", "not a", "if a then true else false"):
            macros, inside = nested(truth, "bool", 4999, "b", "z")
            for name, way in TERMS.items():
                self.check((name, truth), deep_term(way, 1000, inside, macros), STEP)

    def test_choices_of_many_alternatives_in_one_another(self):
        # Each alternative is two terms and expressions with its weight, so there is room for 49 in
        # each of 997. The last one leads on.
        for before, end in (("| raise e ", "5 raise e 1"), ("| 0: raise e ", STEP)):
            way = "{ " + before * 48 + "| a }"
            self.check(before, deep_term(way, 997, "{ loop b }"), end)

    def test_what_is_deep_beside_constraints(self):
        macros, _ = nested("a + 0", "int", 4999, "1")
        deep = lambda number: nested("a + 0", "int", 4999, number)[1]
        for name, text in (
            ("weights", NODE + f"{{ |{deep('1')}: b |{deep('2')}: b }}"),
            ("bounds", NODE + f"loop [{deep('2')},{deep('3')}] b"),
            ("bounds around", NODE + f"loop ~({deep('2')}):({deep('0')}) b"),
            ("first value", f"node n() returns (i: int [0;9] = {deep('2')}) = i = pre i"),
        ):
            self.check(name, macros + text, STEP)

    def test_braces_and_declarations_around_each_level(self):
        # They count for nothing, and a walk passes them.
        for name, around, way in (
            ("parentheses", ("(" * 190, ")" * 190), "not a"),
            ("braces", ("{" * 190, "}" * 190), "assert true in a"),
            ("macros", ("let x: bool = true in " * 190, ""), "assert x in a"),
            ("exceptions", ("exception e in " * 190, ""), "catch e in a do true"),
        ):
            kind, levels = ("bool", 4999) if name == "parentheses" else ("trace", 999)
            macros, use = nested(way.join(around), kind, levels, "b")
            self.check(name, macros + NODE + use, STEP)

    def test_constructs_in_one_another(self):
        for name, (before, behind) in OPENERS.items():
            text = DECLARED + NODE + before * 200 + "b" + behind * 200
            self.check(name, text, STEP)
            self.check(name, text, PRINTED, PRINT)
        # Of these each level has a local, or is a number.
        text = NODE + "exist v: bool in " * 200 + "b"
        self.check("exist", text, LARGE)
        self.check("exist", text, PRINTED, PRINT)
        self.check("minus", NUMBERS + "0 <= " + "- " * 200 + "i", STEP)
        sides = "0 <= " + "0 + 1 * (" * 200 + "i" + ")" * 200
        self.check("right sides of numbers", NUMBERS + sides, STEP)

    def test_constructs_without_end(self):
        for opener in ENDLESS:
            text = NODE + opener * ((MIB - len(NODE)) // len(opener))
            self.check(opener, text, f"3 refused parse.TooDeep at {29 + 200 * len(opener)}")
        self.check("no node", "{" * MIB, "3 refused parse.Unexpected at 0")

    def test_wide_constructs_in_one_another(self):
        for name, row in WIDE.items():
            text = wide_text(row)
            self.assertGreater(len(text), 0.99 * MIB)
            self.check(name, text, row.end)
            self.check(name, text, PRINTED, PRINT)

    def test_long_chains(self):
        self.check_chains(CHAINS)

    def test_many_declarations(self):
        self.check_chains(DECLARING)
        many = each("node n#() returns (b: bool) = b", 20_000)
        self.check("the last node", many, STEP, (*ONE, "--node", "n19999"))

    def test_long_comments(self):
        self.check_chains(COMMENTS)


if __name__ == "__main__":
    GIVEN = check_docs.given(sys.argv[1:])
    unittest.main(argv=["test_deep_texts.py", "--quiet"])
