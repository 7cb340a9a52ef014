"""That a run that found something says how it is played again, and that long waiting is told."""

import shlex
import subprocess
import sys
import unittest

import next_calls
import waiting


def told(line, call, trace=None):
    return next_calls.lines(line, shlex.split(call), trace)


class Again(unittest.TestCase):
    def test_the_same_run_ends_at_the_step(self):
        found = told("oracle 61", "run f -l 1000 --seed 7 --sut 'a b' --oracle c")
        self.assertEqual(found[0], "Seed 7, step 61. The same again:")
        self.assertTrue(found[1].endswith("lurette run f -l 61 --seed 7 --sut 'a b' --oracle c"))
        self.assertEqual(len(found), 2)

    def test_the_limit_is_put_where_it_is_an_option(self):
        for call, wanted in (
            ("run f", "run f -l 3"),
            ("--seed=4 run f --draw 2", "--seed=4 run f -l 3 --draw 2"),
            ("-- run -f", "-l 3 -- run -f"),
            ("run f -l9", "run f -l3"),
            ("-l=9 run f", "-l=3 run f"),
        ):
            self.assertEqual(next_calls.again(shlex.split(call), "3"), shlex.split(wanted))

    def test_each_line_with_a_step_has_a_call(self):
        for line in (
            "oracle 5",
            "deadlock 5",
            "raise e 5",
            "fault Overflow 5",
            "malformed controller NotAValue 5 at 9",
            "ended controller 5",
            "budget 155520 5",
        ):
            self.assertTrue(told(line, "run f")[1].endswith("lurette run f -l 5"), line)
        for line in ("refused lex.BadByte at 5", "usage: words", "device trace 5", "memory", ""):
            self.assertEqual(told(line, "run f"), [], line)

    def test_a_trace_that_is_a_file_is_drawn(self):
        found = told("deadlock 2", "run f", "/a b/trace")
        self.assertTrue(found[3].endswith("draw_trace.py '/a b/trace' >picture.svg"))


class Sessions(unittest.TestCase):
    """A session of a campaign is a run of its own."""

    def test_its_run_has_the_seed_that_it_had(self):
        for call, session, wanted in (
            ("campaign f", 0, "run f --seed 0"),
            ("campaign f --count 3", 2, "run f --seed 2"),
            ("--count=3 campaign f --seed +005 -l 9", 2, "run f --seed 7 -l 9"),
            ("--count 3 -- campaign -f", 1, "--seed 1 -- run -f"),
            (f"campaign --seed={2**64 - 1} f --count 64", 2, "run --seed=1 f"),
            ("campaign f --sut 'a b' --count 3 -l 2", 1, "run f --seed 1 --sut 'a b' -l 2"),
        ):
            found = next_calls.alone(shlex.split(call), session)
            self.assertEqual(found, shlex.split(wanted), call)

    def said(self, line, trace=None):
        run = next_calls.alone(["campaign", "f", "--count", "3", "--seed", "5"], 2)
        return next_calls.session_lines(2, line, run, trace)

    def test_it_is_called_up_to_its_step(self):
        found = self.said("oracle 61")
        self.assertEqual(found[0], "Session 2 has the seed 7, step 61. The same run alone:")
        self.assertTrue(found[1].endswith("lurette run f -l 61 --seed 7"))
        self.assertEqual(len(found), 2)

    def test_a_line_without_a_step_has_a_call_too(self):
        for line in ("device controller 0", "device oracle 4", "toolarge 4"):
            found = self.said(line)
            self.assertEqual(found[0], "Session 2 has the seed 7. The same run alone:")
            self.assertTrue(found[1].endswith("lurette run f --seed 7"))

    def test_its_trace_is_taken_out_of_a_file(self):
        found = self.said("oracle 61", "/a b/all")
        self.assertTrue(found[3].endswith("lurette parts '/a b/all' --session 2 >2.trace"))
        self.assertTrue(found[4].endswith("lurette parts '/a b/all' --list"))


class Reads(unittest.TestCase):
    """A process stands for lurette: its child answers nothing, and it waits for that."""

    WAITS = """
import subprocess, sys
pipes = {"stdin": subprocess.PIPE, "stdout": subprocess.PIPE}
side = subprocess.Popen([sys.executable, "-c", "import sys; sys.stdin.read()"], **pipes)
print("on", flush=True)
side.stdout.read(1)
"""

    def test_waiting_is_told_once_it_is_long(self):
        pipes = {"stdin": subprocess.PIPE, "stdout": subprocess.PIPE, "text": True}
        with subprocess.Popen([sys.executable, "-c", self.WAITS], **pipes) as run:
            run.stdout.readline()
            clock = [0.0]
            watch = waiting.Waiting(run.pid, ["controller"], lambda: clock[0])
            while waiting.side_read(run.pid) is None and run.poll() is None:
                pass
            if waiting.side_read(run.pid) is None:
                self.skipTest("the system doesn't tell what a process waits for")
            found = []
            for clock[0] in (0, 1, 4, 7):
                found.append(watch.line())
            run.kill()
        self.assertEqual(found[:3], [None] * 3)
        wanted = r"^lurette: waiting for the controller since \d\d:\d\d:\d\d: .*flush"
        self.assertRegex(found[3], wanted)

    def test_a_process_that_is_gone_waits_for_nobody(self):
        self.assertIsNone(waiting.side_read(0))
        self.assertIsNone(waiting.Waiting(0, ["controller"]).line())


if __name__ == "__main__":
    unittest.main()
