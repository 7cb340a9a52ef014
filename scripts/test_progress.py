"""That a line of a terminal says how far a campaign is, and changes nothing else."""

import io
import os
import pty
import subprocess
import sys
import tempfile
import termios
import unittest

import explain
import progress

HEAD = '#seed 0\n#inputs\n#outputs\n'


class Terminal(io.StringIO):
    def isatty(self):
        return True


def piece(session, text):
    return f"#from {session} {len(text)}\n{text}"


def framed(*ends):
    """A campaign whose sessions end so, one after the other."""
    heads = [piece(it, HEAD) for it in range(len(ends))]
    last = [piece(at, f"#end {it} 0\n") for at, it in enumerate(ends)]
    return "".join([*heads, *last, f"#campaign {len(ends)} ended 0\n"])


class Lines(unittest.TestCase):
    def test_a_line_is_written_again_and_taken_away(self):
        file = Terminal()
        line = progress.Line(file, "t")
        line.clear()
        line.tell("one")
        line.tell("two")
        line.clear()
        self.assertEqual(file.getvalue(), "\r\x1b[Kt: one\r\x1b[Kt: two\r\x1b[K")

    def test_what_is_said_stands_above_it(self):
        file = Terminal()
        line = progress.Line(file, "t")
        line.beside(lambda: file.write("a\n"), True)
        line.tell("one")
        line.beside(lambda: file.write("b\n"), True)
        # Behind half a line it waits for the next text.
        line.beside(lambda: file.write("c"), False)
        line.tell("two")
        wanted = "a\n\r\x1b[Kt: one\r\x1b[Kb\n\r\x1b[Kt: one\r\x1b[Kc\r\x1b[Kt: two"
        self.assertEqual(file.getvalue(), wanted)

    def test_it_may_be_closed_while_it_is_told(self):
        file = Terminal()
        line = progress.Line(file, "t")
        line.tell("one")
        line.close()
        line.tell("two")
        line.clear()
        line.beside(lambda: file.write("a\n"), True)
        self.assertEqual(file.getvalue(), "\r\x1b[Kt: one\r\x1b[Ka\n")

    def test_a_file_gets_no_line(self):
        file = io.StringIO()
        line = progress.Line(file, "t")
        line.tell("one")
        line.clear()
        self.assertEqual(file.getvalue(), "")
        line.beside(lambda: file.write("a"), True)
        self.assertEqual(file.getvalue(), "a")


class Following(unittest.TestCase):
    def followed(self, text, count):
        file = Terminal()
        progress.follow(io.BytesIO(text.encode()), count, progress.Line(file, "t"))
        return [it for it in file.getvalue().split("\r\x1b[K") if it]

    def test_sessions_are_counted_as_they_end(self):
        found = self.followed(framed("limit", "oracle", "normal", "raise normal"), 4)
        self.assertEqual(found, [
            "t: 0 of 4 sessions over",
            "t: 1 of 4 sessions over",
            "t: 2 of 4 sessions over, 1 found something",
            "t: 3 of 4 sessions over, 1 found something",
            "t: 4 of 4 sessions over, 2 found something",
        ])

    def test_nothing_is_said_of_another_text(self):
        for text in (HEAD, "", "#from 0 9", "hum\n" + piece(0, HEAD)):
            self.assertEqual(self.followed(text, 1), [])
        self.assertEqual(self.followed(piece(0, HEAD) + "hum\n", 1), ["t: 0 of 1 sessions over"])

    def test_a_growing_file_is_read_to_its_end(self):
        with tempfile.TemporaryDirectory() as room:
            path = os.path.join(room, "f")
            writes = open(path, "wb", buffering=0)
            reads = open(path, "rb", buffering=0)
            self.addCleanup(writes.close)
            self.addCleanup(reads.close)
            rest = [b"ne\ntwo\n", b"", b"three"]

            def is_over():
                # What is written in this moment is still read.
                is_last = not rest
                writes.write(rest.pop(0) if rest else b"")
                return is_last

            writes.write(b"o")
            growing = io.BufferedReader(progress.Growing(reads, is_over))
            self.assertEqual(growing.read(), b"one\ntwo\nthree")

    def test_a_file_is_read_from_where_it_goes_on(self):
        with tempfile.TemporaryDirectory() as room:
            path = os.path.join(room, "f")
            for flags, wanted in ((os.O_WRONLY, b"new"), (os.O_WRONLY | os.O_APPEND, b"new")):
                with open(path, "wb") as file:
                    file.write(b"old")
                number = os.open(path, flags)
                if not flags & os.O_APPEND:
                    os.lseek(number, 3, os.SEEK_SET)
                with progress.opened(number) as found:
                    os.write(number, b"new")
                    self.assertEqual(found.read(), wanted)
                os.close(number)
        reading, writing = os.pipe()
        self.assertIsNone(progress.opened(writing))
        os.close(reading)
        os.close(writing)


class Calls(unittest.TestCase):
    """A script stands for the program: it writes a campaign, and a line of a controller."""

    PROGRAM = """#!/bin/sh
while [ $# -gt 0 ]; do case $1 in --status) status=$2 ;; esac; shift; done
cat "$(dirname "$0")/first"
echo 'a controller says this' >&2
sleep 0.5
cat "$(dirname "$0")/second"
sleep 0.5
[ "$status" = 0 ] || echo 'lurette: session 1: oracle 0' >&2
exit "$status"
"""

    def setUp(self):
        room = tempfile.TemporaryDirectory(prefix="lurette-")
        self.addCleanup(room.cleanup)
        self.room, text = room.name, framed("limit", "oracle")
        at = text.index("#from 1 14")
        for name, kept in (("program", self.PROGRAM), ("first", text[:at]), ("second", text[at:])):
            with open(os.path.join(self.room, name), "w", encoding="utf-8") as file:
                file.write(kept)
            os.chmod(os.path.join(self.room, name), 0o755)
        self.text = text

    def call(self, *words):
        """The status of a call whose standard error is a terminal, its output and what it shows."""
        program = os.path.join(self.room, "program")
        call = [sys.executable, "-B", explain.__file__, program, *words]
        ours, theirs = pty.openpty()
        # The terminal leaves line feeds as they are.
        modes = termios.tcgetattr(theirs)
        modes[1] &= ~termios.OPOST
        termios.tcsetattr(theirs, termios.TCSANOW, modes)
        with open(os.path.join(self.room, "trace"), "wb") as trace:
            run = subprocess.Popen(call, stdout=trace, stderr=theirs, stdin=subprocess.DEVNULL)
            os.close(theirs)
            said = b""
            while True:
                try:
                    some = os.read(ours, 65536)
                except OSError:
                    break
                if not some:
                    break
                said += some
        os.close(ours)
        with open(os.path.join(self.room, "trace"), encoding="utf-8") as trace:
            return run.wait(), trace.read(), said.decode()

    def test_a_terminal_shows_how_many_are_over(self):
        status, trace, said = self.call("campaign", "f", "--count", "2", "--status", "1")
        self.assertEqual((status, trace), (1, self.text))
        shown = said.split("\r\x1b[K")
        one = "lurette: 1 of 2 sessions over"
        two = "lurette: 2 of 2 sessions over, 1 found something"
        lines = [it for it in shown if it and not it.startswith("a controller")]
        self.assertEqual(lines[:2], ["lurette: 0 of 2 sessions over", one])
        self.assertIn(two, lines)
        # The line is gone before the last lines come.
        self.assertLess(shown.index(two), next(
            at for at, it in enumerate(shown) if it.startswith("lurette: session 1: oracle 0\n")
        ))
        self.assertIn("a controller says this\n", said)
        self.assertIn("Session 1 has the seed 1, step 0. The same run alone:\n", shown[-1])

    def test_nothing_is_shown_of_a_run(self):
        status, trace, said = self.call("run", "f", "--status", "0")
        self.assertEqual((status, trace), (0, self.text))
        self.assertEqual(said, "a controller says this\n")


if __name__ == "__main__":
    unittest.main()
