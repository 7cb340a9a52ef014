"""That each line that the program may end with has its sentence, and that places are shown."""

import os
import re
import tempfile
import unittest

import explain

TOP = os.path.dirname(os.path.dirname(os.path.abspath(__file__)))

# What stands in COMMAND's table of lines for what a call puts there.
PUT_IN = {
    "usage: KIND": ["usage: " + it for it in ("words", "mode", "number", "both", "trace")],
    "fault KIND K": [
        f"fault {it} 3" for it in ("NoPrevious", "DivisionByZero", "Overflow", "NegativeWeight")
    ],
    "malformed WHO KIND K at PLACE": [
        f"malformed controller {it} 3 at 9" for it in ("NotAValue", "OutOfRange", "TooLong")
    ],
    "device WHAT K": [f"device {it} 0" for it in ("file", "controller", "oracle", "trace")],
    "refused CODE": [],
    "refused CODE at PLACE": [],
}


def command_page():
    with open(os.path.join(TOP, "docs", "COMMAND.md"), encoding="utf-8") as file:
        return file.read()


def section(title):
    return command_page().partition(f"\n## {title}\n")[2].partition("\n## ")[0]


class Sentences(unittest.TestCase):
    def test_each_line_of_a_status_has_one(self):
        rows = re.findall(r"^\| \d+ \|.*\| (`.*`[^|]*) \|$", section("Statuses and messages"), re.M)
        lines = [it for row in rows for it in re.findall(r"`([^`]*)`", row)]
        self.assertGreaterEqual(len(lines), 12)
        for line in lines:
            for told in PUT_IN.get(line, [line]):
                self.assertIsNotNone(explain.sentence(told), told)

    def test_each_code_has_one_and_no_other(self):
        found = re.findall(r"^\| `(\w+\.\w+)` \|", section("Statuses and messages"), re.M)
        self.assertEqual(sorted(explain.CODES), sorted(found))
        for code in found:
            self.assertEqual(explain.sentence(f"refused {code} at 3"), explain.CODES[code])

    def test_each_kind_is_named_by_the_page(self):
        kinds = [explain.USAGES, explain.FAULTS, explain.REPLIES, explain.DEVICES]
        for kind in (it for table in kinds for it in table):
            self.assertIn(f"`{kind}`", command_page())

    def test_sentences_are_short(self):
        tables = [*explain.TABLES.values(), explain.ENDS]
        for meant in (it for table in tables for it in table.values()):
            self.assertLessEqual(len(meant), 90, meant)

    def test_a_program_that_was_not_started_is_told_apart(self):
        for side in ("controller", "oracle"):
            self.assertEqual(explain.sentence(f"device {side} 0"), explain.NOT_STARTED)
            self.assertEqual(explain.sentence(f"device {side} 10"), explain.DEVICES[side])
        self.assertEqual(explain.sentence("device trace 0"), explain.DEVICES["trace"])

    def test_nothing_is_said_of_other_lines(self):
        self.assertIsNone(explain.sentence("hello"))
        self.assertIsNone(explain.sentence(""))


class Places(unittest.TestCase):
    def explained(self, text, line, words):
        with tempfile.TemporaryDirectory() as room:
            path = os.path.join(room, "f")
            with open(path, "wb") as file:
                file.write(text)
            words = [path if it == "f" else it for it in words]
            return [it.replace(path, "f") for it in explain.explanation(line, words)]

    def test_a_place_is_shown_in_its_line(self):
        text = b"node n() returns (b: bool) =\n    b and c\n"
        found = self.explained(text, "refused type.Unknown at 39", ["run", "f"])
        self.assertEqual(found[0], f"f:2:11: {explain.CODES['type.Unknown']}")
        self.assertEqual(found[1:], ["        b and c", "              ^"])

    def test_columns_count_letters_and_not_bytes(self):
        text = "(* ä *) node".encode()
        found = self.explained(text, "refused parse.Unexpected at 9", ["run", "f"])
        self.assertEqual(found[1:], ["    (* ä *) node", "            ^"])

    def test_a_place_may_be_the_end_of_the_text(self):
        found = self.explained(b"node n()\n", "refused parse.Unexpected at 9", ["run", "f"])
        self.assertEqual(found[1:], ["    ", "    ^"])

    def test_tabs_stay(self):
        found = self.explained(b"\tx ?", "refused lex.BadByte at 3", ["print", "f"])
        self.assertEqual(found[1:], ["    \tx ?", "    \t  ^"])

    def test_a_reply_is_shown_in_the_earlier_trace(self):
        line = "malformed controller NotAValue 1 at 2"
        found = self.explained(b"1 x\n", line, ["run", "g", "--replay", "f"])
        self.assertEqual(found[0], f"f:1:3: {explain.REPLIES['NotAValue']}")

    def test_a_bad_line_of_a_trace_is_shown(self):
        words = ["check", "g", "--replay", "f"]
        meant = explain.CODES["check.BadLine"]
        found = self.explained(b"#seed 0\n#inputs \n", "refused check.BadLine at 2", words)
        self.assertEqual(found, [f"f:2: {meant}", "    #inputs "])
        found = self.explained(b"#seed 0\n", "refused check.BadLine at 2", words)
        self.assertEqual(found, [f"f:2: {meant}"])
        found = explain.explanation("refused check.BadLine at 2", ["check", "g"])
        self.assertEqual(found, [meant])

    def test_where_no_file_has_the_place_the_sentence_stands_alone(self):
        line = "malformed controller NotAValue 1 at 2"
        found = self.explained(b"1 x\n", line, ["run", "f", "--sut", "c"])
        self.assertEqual(found, [explain.REPLIES["NotAValue"]])
        self.assertEqual(len(explain.explanation("refused lex.BadByte at 0", ["run", ""])), 1)

    def test_lines_are_shown_that_may_be_hard(self):
        text = b"""-- x = y, in a comment
node m() returns (x, y: int) = x <> y
node n(a: int) returns (x, y: int [0; 9] = 5; b: bool) =
    loop { x > 3 and b fby x + y = 7 }
    fby (* x < y
    *) { | 3: x = pre y | b => 2 * x < a + y }
node o() returns (x, y: int) = x < y
"""
        found = self.explained(text, "budget 1000 2", ["run", "f", "--node", "n"])
        self.assertEqual(found[0], explain.ENDS["budget"])
        self.assertTrue(found[1].endswith("; or --budget 1000."))
        self.assertEqual(
            found[3:],
            [
                "f:4: loop { x > 3 and b fby x + y = 7 }",
                "f:6: *) { | 3: x = pre y | b => 2 * x < a + y }",
            ],
        )

    def test_few_of_many_lines_are_shown(self):
        rows = "".join(f"    x < y + {it} and\n" for it in range(9))
        text = f"node n() returns (x, y: int) =\n{rows}    true\n".encode()
        found = self.explained(text, f"budget {10**12 + 1} 1", ["run", "f"])
        self.assertNotIn("--budget", found[1])
        shown = [f"f:{it + 2}: x < y + {it} and" for it in range(3)]
        self.assertEqual(found[3:], [*shown, ".. and 6 lines more"])

    def test_without_such_a_line_what_helps_stands_alone(self):
        text = b"node n() returns (b, c: bool) = b and c or not b"
        for words in (["run", "f"], ["run", "f", "--node", "m"], ["run", "nothing"]):
            self.assertEqual(len(self.explained(text, "budget 1000 1", words)), 2)


class Replays(unittest.TestCase):
    """The seed and the rule of an earlier trace are told where the call has others."""

    def hints(self, header, line, call, mode="run"):
        with tempfile.TemporaryDirectory() as room:
            path = os.path.join(room, "old")
            with open(path, "w", encoding="utf-8") as file:
                file.write(f"{header}#inputs\n#outputs\n#end limit 0\n")
            words = [mode, "f", "--replay", path, *call.split()]
            return [it.replace(path, "old") for it in explain.replay_hint(line, words)]

    def test_another_seed_or_rule_is_told(self):
        for header, call, wanted in (
            ("#seed 14\n#draw 3\n", "--draw 3", "--seed 14 --draw 3"),
            ("#seed 14\n#draw 3\n", "--seed=14", "--seed 14 --draw 3"),
            ("#seed 0\n", "--draw 2", "--seed 0 --draw 1"),
        ):
            told = f"old was written with {wanted}: its replay needs these, and the same -l."
            for line in ("oracle 7", "ended controller 8", "fault Overflow 5", ""):
                self.assertEqual(self.hints(header, line, call), [told], (header, call, line))

    def test_with_the_same_ones_only_too_few_answers_are(self):
        header, call = "#seed 14\n#draw 3\n", "--seed 014 --draw 3"
        self.assertEqual(self.hints(header, "oracle 7", call), [])
        self.assertEqual(len(self.hints(header, "ended controller 8", call)), 1)
        self.assertEqual(self.hints("#seed 0\n", "", ""), [])

    def test_nothing_is_told_without_a_header_or_a_run(self):
        self.assertEqual(self.hints("", "ended controller 8", ""), [])
        self.assertEqual(self.hints("#seed 1\n", "refused lex.BadByte at 0", ""), [])
        self.assertEqual(self.hints("#seed 1\n", "illegal 2", "", "check"), [])
        self.assertEqual(explain.replay_hint("ended controller 8", ["run", "f", "--sut", "c"]), [])
        self.assertEqual(explain.replay_hint("oracle 1", ["run", "f", "--replay", "nothing"]), [])

    def test_too_few_answers_of_a_trace_have_their_own_sentence(self):
        replay = ["run", "f", "--replay", "nothing"]
        self.assertEqual(explain.explanation("ended controller 8", replay), [explain.NO_MORE])
        self.assertEqual(explain.explanation("ended oracle 8", replay), [explain.ENDS["ended"]])


class Campaigns(unittest.TestCase):
    """What is said of a session is what is said of its run, with the call for it."""

    CALL = ["campaign", "f", "--count", "4", "--seed", "9", "--replay", "old"]

    def test_the_words_of_a_session_are_those_of_a_run(self):
        found = explain.told_lines("session 3: fault Overflow 2", self.CALL, None)
        self.assertEqual(found[0], explain.FAULTS["Overflow"])
        self.assertEqual(found[1], "Session 3 has the seed 12, step 2. The same run alone:")
        self.assertTrue(found[2].endswith("lurette run f -l 2 --seed 12 --replay old"))
        found = explain.told_lines("session 0: ended controller 8", self.CALL, None)
        self.assertEqual(found[0], explain.NO_MORE)

    def test_each_line_of_a_session_has_a_sentence(self):
        for line in (
            "oracle 5", "deadlock 5", "raise e 5", "toolarge 5", "ended oracle 5", "budget 77 5",
            "malformed controller NotAValue 1 at 0", "device oracle 0", "device controller 5",
        ):
            self.assertEqual(
                explain.told_lines(f"session 1: {line}", self.CALL, None)[0],
                explain.explanation(line, ["run", *self.CALL[1:]])[0],
            )

    def test_other_lines_of_a_campaign_name_no_session(self):
        for line in ("device trace 0", "memory", "refused type.NoNode", "usage: both"):
            self.assertEqual(len(explain.told_lines(line, self.CALL, None)), 1, line)

    def test_a_run_has_no_sessions(self):
        self.assertEqual(explain.told_lines("session 1: oracle 5", ["run", "f"], None), [])

    def test_a_campaign_is_no_trace_to_replay(self):
        with tempfile.TemporaryDirectory() as room:
            path = os.path.join(room, "all")
            with open(path, "w", encoding="utf-8") as file:
                file.write("#from 0 8\n#seed 0\n#campaign 1 ended 0\n")
            for mode in ("run", "campaign"):
                found = explain.replay_hint("ended controller 1", [mode, "f", "--replay", path])
                self.assertEqual(found[0], f"{path}: {explain.MANY_RUNS}")
                self.assertTrue(found[1].endswith(f"lurette parts {path} --session 0"))
            words = ["check", "f", "--replay", path]
            self.assertEqual(explain.replay_hint("", words), [])
            found = explain.explanation("refused check.BadLine at 1", words)
            self.assertEqual(found[2], f"{path}: {explain.MANY_RUNS}")

    def test_programs_of_sessions_are_named(self):
        words = ["campaign", "f", "--sut", "c", "--oracle", "o", "--count", "2"]
        self.assertEqual(explain.sides_of(words), [
            "controller of session 0", "oracle of session 0",
            "controller of session 1", "oracle of session 1",
        ])
        words = ["run", "f", "--oracle", "o", "--count", "2"]
        self.assertEqual(explain.sides_of(words), ["oracle"])
        for count, wanted in (("+02", 2), ("2", 2), ("x", 0)):
            self.assertEqual(explain.count_of(["campaign", "f", "--count", count]), wanted)
        self.assertEqual(explain.count_of(["campaign", "f"]), 1)
        self.assertEqual(explain.count_of(["run", "f"]), 0)


class Programs(unittest.TestCase):
    def test_the_last_line_of_the_program_counts(self):
        self.assertEqual(explain.line_of(b"hum\nlurette: deadlock 4\n"), "deadlock 4")
        usage = b"lurette: usage: words\nlurette MODE FILE [-l N]\n"
        self.assertEqual(explain.line_of(usage), "usage: words")
        self.assertEqual(explain.line_of(b""), "")


if __name__ == "__main__":
    unittest.main()
