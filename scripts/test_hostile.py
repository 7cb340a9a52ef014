"""That a hostile text can be made again, and that an end is judged as the documents have it."""

import os
import re
import unittest

import hostile
import trace_texts
from calls import Outcome
from chance import Chance

TOP = os.path.dirname(os.path.dirname(os.path.abspath(__file__)))
TRACE = b'#seed 0\n#inputs "b":bool\n#outputs\n'


def codes():
    """The rows of COMMAND's table of codes: each code with its modes and its place."""
    with open(os.path.join(TOP, "docs", "COMMAND.md"), encoding="utf-8") as file:
        page = file.read()
    rows = re.findall(r"^\| `(\w+\.\w+)` \| ([^|]*) \| .* \| ([^|]*) \|$", page, re.M)
    return {code: (modes, place) for code, modes, place in rows}


def fault(mode, status, said="", output=b"", length=40):
    errors = f"lurette: {said}\n".encode() if said else b""
    return hostile.fault_of(mode, length, Outcome(status, output, errors, 0.0))


class Texts(unittest.TestCase):
    def test_a_seed_and_a_number_make_one_text(self):
        for kind, made in hostile.TEXTS.items():
            texts = [made(7, number) for number in range(40)]
            self.assertEqual(texts, [made(7, number) for number in range(40)], kind)
            self.assertNotEqual(texts, [made(8, number) for number in range(40)], kind)
            self.assertGreater(len(set(texts)), 35, kind)

    def test_what_is_drawn_is_the_same_in_every_version(self):
        chance = Chance("a name")
        self.assertEqual([chance.below(100) for _ in range(6)], [2, 19, 70, 62, 3, 89])

    def test_each_way_of_a_word_ends(self):
        for word, ways in hostile.RULES.items():
            for way in ways:
                parts = [it for it in way.split() if it.isupper()]
                self.assertEqual([it for it in parts if it not in hostile.RULES], [], word)
            self.assertTrue(hostile.spelled_out(word, 0, Chance("")), word)

    def test_each_change_takes_any_text(self):
        for change in hostile.CHANGES:
            for text in (b"x", b"\n", b"node n() returns (b: bool) = b\n", b"\xff\x00"):
                for number in range(20):
                    self.assertIsInstance(change(text, Chance(f"{number}")), bytes)


class Ends(unittest.TestCase):
    def test_codes_have_the_places_and_the_modes_of_the_document(self):
        found = codes()
        self.assertEqual(sorted(found), sorted(hostile.explain.CODES))
        for code, (modes, place) in found.items():
            place_said, other = f"refused {code} at 3", f"refused {code}"
            if place == "none":
                place_said, other = other, place_said
            self.assertEqual(fault("run", 3, place_said) is None, modes != "`check`", code)
            self.assertIsNotNone(fault("run", 3, other), code)
            self.assertEqual(fault("print", 3, place_said) is None, modes == "all", code)

    def test_ends_that_are_right(self):
        for mode, status, said, output in (
            ("print", 0, "", b"node n ( ) returns ( b : bool ) = b\n"),
            ("print", 0, "", b""),
            ("run", 0, "", TRACE + b"#end limit 3\n"),
            ("run", 0, "", TRACE + b"#end normal 0\n"),
            ("run", 4, "deadlock 1", TRACE + b"#end deadlock 1\n"),
            ("run", 5, "raise e 3", TRACE + b"#end raise e 3\n"),
            ("run", 6, "fault Overflow 2", TRACE + b"#end fault Overflow 2\n"),
            ("run", 10, "budget 200000000 1", TRACE + b"#end budget 200000000 1\n"),
            ("run", 14, "toolarge 1", TRACE + b"#end toolarge 1\n"),
            ("run", 11, "memory", b""),
        ):
            self.assertIsNone(fault(mode, status, said, output), (mode, status))

    def test_ends_that_are_wrong(self):
        for mode, status, said, output in (
            ("run", None, "", b""),
            ("run", -11, "", b""),
            ("run", 134, "", b""),
            ("run", 2, "usage: words", b""),
            ("print", 4, "deadlock 1", b""),
            ("print", 3, "refused lex.BadByte at 41", b""),
            ("print", 3, "refused lex.BadByte at 03", b""),
            ("print", 3, "refused lex.BadByte at 3", b"node"),
            ("print", 0, "", b"node"),
            ("print", 0, "a line", b""),
            ("run", 0, "", TRACE),
            ("run", 0, "", TRACE + b"#end limit 2\n"),
            ("run", 4, "deadlock 4", TRACE + b"#end deadlock 4\n"),
            ("run", 4, "deadlock 1", TRACE + b"#end deadlock 2\n"),
            ("run", 4, "deadlock 1\nmore", TRACE + b"#end deadlock 1\n"),
            ("run", 6, "fault Other 1", TRACE + b"#end fault Other 1\n"),
        ):
            self.assertIsNotNone(fault(mode, status, said, output), (mode, status, said))

    def test_outcomes_beside_each_other(self):
        made = lambda status, output, said: Outcome(status, output, said, 0.0)
        refused = made(3, b"", b"lurette: refused lex.BadByte at 1\n")
        printed, other = made(0, b"b\n", b""), made(0, b"c\n", b"")
        untyped = made(3, b"", b"lurette: refused type.NoNode\n")
        self.assertIsNone(hostile.fault_between(printed, printed, untyped))
        self.assertIsNone(hostile.fault_between(refused, refused, refused))
        self.assertIsNotNone(hostile.fault_between(printed, other, untyped))
        self.assertIsNotNone(hostile.fault_between(printed, printed, refused))
        self.assertIsNotNone(hostile.fault_between(refused, refused, untyped))

    def test_a_call_that_took_too_long_is_made_again(self):
        for seconds, cheapest, count in (
            ([0.5, 9.0, 9.0], 0.5, 1),
            ([1.5, 0.5, 9.0], 0.5, 2),
            ([3.0, 2.0, 4.0], 2.0, 3),
        ):
            left = iter(seconds)
            found = hostile.cheapest(lambda: Outcome(0, b"", b"", next(left)))
            self.assertEqual((found.seconds, list(left)), (cheapest, seconds[count:]))


STEP = ("#step 1", "t 3 0.50 #outs f 9 #locs 0 ?", "")
CHECKED = "\n".join(["#seed 7", "#draw 2", *trace_texts.HEADER, *STEP])


class Traces(unittest.TestCase):
    def bad(self, text):
        return trace_texts.first_bad_line(text.encode())

    def test_traces_have_no_bad_line(self):
        for end in ("limit 1", "oracle 1", "raise f 2", "fault Overflow 2", "toolarge 2"):
            self.assertEqual(self.bad(f"{CHECKED}#end {end}\n"), (0, 1), end)
        most = 2**128 - 1
        for end in ("ended oracle 2", "malformed oracle TooLong 2", f"budget {most} 2"):
            self.assertEqual(self.bad(f"{CHECKED}#end {end}\n"), (0, 1), end)
        self.assertEqual(self.bad(CHECKED.replace("#draw 2\n", "") + "#end limit 1\n"), (0, 1))

    def test_the_first_bad_line_is_found(self):
        for old, new, line in (
            ("seed 7", "seed 07", 1),
            ("seed 7", f"seed {2**64}", 1),
            ("draw 2", "draw 1", 2),
            ("draw 2", "draw 3\n#draw 3", 3),
            ('"b":bool "x":int', '"x":int "b":bool', 3),
            ('"k":bool', '"k": bool', 4),
            ("#locals", "#locs", 5),
            ("step 1", "step 2", 6),
            ("t 3", "t 03", 7),
            ("t 3", "t -0", 7),
            ("t 3", f"t {10**12 + 1}", 7),
            ("0.50", "0.5", 7),
            ("0.50", "-0.00", 7),
            ("f 9", "f 10", 7),
            ("0 ?", "? ?", 8),
            ("0 ?", "0", 7),
        ):
            self.assertEqual(self.bad(CHECKED.replace(old, new))[0], line, (old, new))
        for end in ("limit 2", "limit 01", "oracle 0", "raise g 2", "deadlock 1", "fault X 2"):
            self.assertEqual(self.bad(f"{CHECKED}#end {end}\n")[0], 8, end)
        for end in (f"budget {2**128} 2", "budget 2", "device trace 2", "limit 1 ", "x 2"):
            self.assertEqual(self.bad(f"{CHECKED}#end {end}\n")[0], 8, end)

    def test_lines_that_are_missing_or_too_many(self):
        for text, line in (
            ("", 1),
            ("#seed 7", 1),
            ("#seed 7\n", 2),
            (CHECKED, 8),
            (CHECKED[:-1], 7),
            (CHECKED + "#end limit 1", 8),
            (CHECKED + "#end limit 1\nx", 9),
            (CHECKED + "#end limit 1\n\n", 9),
        ):
            self.assertEqual(self.bad(text)[0], line, text)

    def test_ends_of_checks(self):
        trace, bad = f"{CHECKED}#end limit 1\n".encode(), CHECKED.encode()
        for text, status, line, output in (
            (trace, 0, "", b"legal 1\n"),
            (trace, 12, "illegal 2", b""),
            (trace, 13, "candidates 1", b""),
            (trace, 10, "budget 720 1", b""),
            (trace, 11, "memory", b""),
            (bad, 3, "refused check.BadLine at 8", b""),
        ):
            self.assertIsNone(trace_texts.fault_of(text, status, line, output), line)
        for text, status, line, output in (
            (trace, 0, "", b"legal 2\n"),
            (trace, 0, "", b"legal 1"),
            (trace, 12, "illegal 3", b""),
            (trace, 12, "candidates 1", b""),
            (trace, 12, "illegal 1", b"legal 1\n"),
            (trace, 3, "refused check.BadLine at 8", b""),
            (trace, 4, "deadlock 1", b""),
            (trace, -11, "", b""),
            (bad, 0, "", b"legal 1\n"),
            (bad, 12, "illegal 1", b""),
            (bad, 3, "refused check.BadLine at 7", b""),
        ):
            self.assertIsNotNone(trace_texts.fault_of(text, status, line, output), (status, line))


if __name__ == "__main__":
    unittest.main()
