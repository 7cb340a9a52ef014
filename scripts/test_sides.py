"""That replies are read as TRACE says, and that lines are played to programs."""

import os
import sys
import tempfile
import time
import unittest

import children
import sides
from sides import Failed, Replies, Slot

INT, DIGIT = Slot("int", -(10**12), 10**12), Slot("int", 0, 9)
REAL, BOOL = Slot("real", -(10**12), 10**12), Slot("bool", 0, 1)


def replies_of(text, *slots, size=1):
    """What is read of a stream, in pieces of a size: each reply, and then how it failed."""
    pieces = [text[at : at + size] for at in range(0, len(text), size)]
    stream, found = Replies(lambda: pieces.pop(0) if pieces else b""), []
    try:
        while True:
            found.append(stream.reply(slots, 2))
    except Failed as how:
        return found, " ".join(how.args)


class Reading(unittest.TestCase):
    def test_rows_of_the_table(self):
        for slot, text, wanted in (
            (INT, b"12 7", ([[12], [7]], "ended")),
            (INT, b"12x\n", ([], "malformed NotAValue")),
            (DIGIT, b"-- none\n10 ", ([], "malformed OutOfRange")),
            (REAL, b"-1.5e-1 0.005 1e-999 ", ([[-15], [1], [0]], "ended")),
            (BOOL, b" " * 65_534 + b"t ", ([[1]], "ended")),
            (BOOL, b" " * 65_535 + b"t ", ([], "malformed TooLong")),
        ):
            for size in (1, 7, 100_000):
                self.assertEqual(replies_of(text, slot, size=size), wanted, text[:20])

    def test_comments_and_marks_are_passed_over(self):
        text = b"#step 1\n--\n t #outs 3\t#outsx 4\nf#\n--5 6\n7\n"
        self.assertEqual(replies_of(text, BOOL, INT)[0], [[1, 3]])
        self.assertEqual(replies_of(b"1 # 2\n3 \n", INT, INT)[0], [[1, 3]])

    def test_words_of_each_kind(self):
        for slot, word, raw in (
            (BOOL, "true", 1), (BOOL, "F", 0), (INT, "+007", 7), (REAL, ".5", 50),
            (REAL, "5.", 500), (REAL, "-0.005", -1), (REAL, "1E+2", 10_000), (INT, "-0", 0),
        ):
            self.assertEqual(sides.raw_of(slot, word, 2), raw, word)
        for slot, word in ((BOOL, "2"), (INT, "1.0"), (REAL, "."), (REAL, "e1"), (INT, "9" * 19)):
            with self.assertRaises(Failed, msg=word):
                sides.raw_of(slot, word, 2)


ECHO = """import sys
for line in sys.stdin:
    print(line.split()[-1], flush=True)
"""
WANTS_LESS_THAN_3 = """import sys
for line in sys.stdin:
    print('ft'[int(line.split()[-1]) < 3], flush=True)
"""


class Playing(unittest.TestCase):
    def setUp(self):
        room = tempfile.TemporaryDirectory(prefix="lurette-")
        self.addCleanup(room.cleanup)
        self.room = room.name

    def command(self, name, text):
        path = os.path.join(self.room, name)
        with open(path, "w", encoding="utf-8") as file:
            file.write(text)
        return f"{sys.executable} {path}"

    def play(self, controller, oracle=None, until=None):
        """What comes of three lines."""
        sut = self.command("sut.py", controller)
        judge = oracle and self.command("oracle.py", oracle)
        programs = sides.Programs(sut, judge, [INT], 2, children.Children())
        return programs.play([["1"], ["2"], ["3"]], until)

    def test_lines_are_answered_up_to_a_false_verdict(self):
        answers = [["1"], ["2"], ["3"]]
        self.assertEqual(self.play(ECHO), sides.Played(answers, None, 3))
        found = self.play(ECHO, WANTS_LESS_THAN_3)
        self.assertEqual(found, sides.Played(answers, "oracle", 3))

    def test_a_side_that_fails_is_named(self):
        for controller, oracle, wanted in (
            ("input(); print(1)", None, sides.Played([["1"]], "ended controller", 2)),
            (ECHO.replace("[-1]", "[-1] + '.5'"), None, ("malformed controller NotAValue", 1)),
            (ECHO, "input(); print('maybe')", ("malformed oracle NotAValue", 1)),
            (ECHO, "pass", ("ended oracle", 1)),
        ):
            self.assertEqual(self.play(controller, oracle)[-len(wanted) :], tuple(wanted))

    def test_a_side_that_does_not_answer_is_not_waited_for_too_long(self):
        with self.assertRaises(sides.TooLate):
            self.play("import time; time.sleep(600)", until=time.monotonic() + 0.2)

    def test_nothing_is_started_once_all_was_stopped(self):
        all_of_them = children.Children()
        run = all_of_them.start(["sleep", "600"])
        all_of_them.stop()
        all_of_them.end(run, 10)
        self.assertNotEqual(run.returncode, 0)
        with self.assertRaises(children.Stopped):
            all_of_them.start(["true"])


if __name__ == "__main__":
    unittest.main()
