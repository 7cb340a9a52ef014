"""That failing runs are shortened: what comes of it is legal, fails likewise, and has no step more.

    python3 scripts/test_shorten.py [--program PATH] [--plant PATH] [--quick]

The options are those of check_docs.py. Where no program is there, what needs one is left out.
"""

import os
import pty
import re
import signal
import subprocess
import sys
import tempfile
import time
import unittest

import calls
import check_docs
import failing
import nodes
import shorten
import smaller
import traces
from failing import Step

GIVEN = check_docs.given([])
SCRIPT = os.path.join(calls.TOP, "scripts", "shorten.py")
PLACE = os.path.join(calls.TOP, "examples", "controllers")

# Enough of time for all that is tried, and a few seeds.
AMPLE = ("--seconds", "300", "--jobs", "2")

# Its fault needs the events 1, 2 and 3 in this order; whatever comes between them changes nothing.
EVENTS = "node n(good: bool) returns (event: int [0; 3]; noise: bool) = loop true"
IN_ORDER = """
done = 0
for line in sys.stdin:
    done += line.split()[0] == str(done + 1)
    answer("ft"[done < 3])
"""
LAST_WORD = """
for line in sys.stdin:
    answer(line.split()[-1])
"""

# A level that is free, but for its range, and a controller with a fault above 512.
LEVELS = """node other(b: bool) returns (c: bool) = loop c
node levels(y: int [0; 9]) returns (level: real [-5.0; 2000.0; 0.5] = 1.5; b: bool) = loop true"""
LEVEL = """
for line in sys.stdin:
    answer(WRONG if float(line.split()[0]) > 512 else "7")
"""


# What stands for the program: it prints a node, or writes the trace of a campaign and then waits.
STANDS_IN = """#!{python} -IS
import sys, time

if sys.argv[1] == "print":
    print("node n ( ) returns ( x : int ) = true")
else:
    print({text!r}, end="", flush=True)
    time.sleep({waits})
"""


def free(*told):
    return [Step(it, ("f",), ()) for it in told]


class Candidates(unittest.TestCase):
    STEPS = free(("1", "t"), ("2", "f"), ("9", "f"), ("2", "t"), ("3", "f"))

    def told(self, candidates):
        return ["".join(step.told[0] for step in it.steps) for it in candidates]

    def test_pieces_leave_the_last_step(self):
        self.assertEqual(self.told(smaller.pieces(self.STEPS, 3)), ["23", "1293"])
        found = list(smaller.pieces(self.STEPS, 1, 1))
        self.assertEqual(self.told(found), ["1923", "1223", "1293"])
        self.assertEqual([it.at for it in found], [1, 2, 3])

    def test_cuts_are_between_steps_that_are_near(self):
        steps = free(("1",), ("2",), ("3",), ("4",), ("5",), ("3",))
        found = list(smaller.cuts(steps, ["int"]))
        # From one step to the next a number changes by 2 at most.
        wanted = ["13", "123", "1233", "13453", "12453", "12353", "12343"]
        self.assertEqual(self.told(found), wanted)

    def test_values_are_made_simple_in_turn(self):
        level = nodes.Declared("level", "int", -3, 9, 1, 5)
        truth = nodes.Declared("truth", "bool", 0, 1, 1, None)
        self.assertEqual(smaller.simple_values(level), [5, 0, -3, 9])
        self.assertEqual(smaller.simple_values(truth), [0])
        self.assertEqual(smaller.simple_values(truth._replace(first=1)), [1])
        stepped = nodes.Declared("level", "int", -3, 8, 2, None)
        self.assertEqual(smaller.simple_values(stepped), [-3])
        found = smaller.simpler(free(("-3", "t"), ("5", "f"), ("0", "f")), [level, truth], 2)
        told = [(it.at, it.steps[it.at].told) for it in found]
        # The end 9 of the range is nearer to 5 than -3 is.
        wanted = [(0, ("5", "t")), (0, ("0", "t")), (0, ("9", "t")), (0, ("-3", "f"))]
        self.assertEqual(told, [*wanted, (2, ("5", "f")), (2, ("9", "f"))])


class Nodes(unittest.TestCase):
    TEXT = """let m ( x : int ) : int = x
node a ( ) returns ( b : bool ) = b
node n ( INPUTS ) returns ( OUTPUTS ) = c
"""
    INPUTS = "h : bool = true ; y , z : int [ - 5 ; 9 ] ; r : real"
    OUTPUTS = "t : real [ 0.5 ; 40. ; 0.25 ] = 20.005 ; c : bool ; k : int = m ( - 1 )"
    TEXT = TEXT.replace("INPUTS", INPUTS).replace("OUTPUTS", OUTPUTS)

    def test_what_a_node_declares_is_read(self):
        inputs, outputs = nodes.declared(self.TEXT, "n")
        self.assertEqual(
            [it[1:] for it in inputs],
            [("bool", 0, 1, 1, 1), ("int", -5, 9, 1, None), ("int", -5, 9, 1, None),
             ("real", -(10**12), 10**12, 1, None)],
        )
        self.assertEqual(
            outputs,
            [nodes.Declared("t", "real", 50, 4000, 25, 2001),
             nodes.Declared("c", "bool", 0, 1, 1, None),
             nodes.Declared("k", "int", -10_000, 10_000, 1, None)],
        )

    def test_the_first_node_is_meant_without_a_name(self):
        self.assertEqual(nodes.declared(self.TEXT)[1][0].name, "b")
        with self.assertRaises(nodes.NoNode):
            nodes.declared(self.TEXT, "m")


def session_of(steps, end):
    """The text of the trace of a session, which has so many steps."""
    head = '#seed 7\n#inputs "x":int\n#outputs\n#locals\n'
    told = "".join(f"#step {it}\n{it} #outs #locs\n" for it in range(1, steps + 1))
    return f"{head}{told}#end {end}\n"


def framed(pieces):
    """Pieces of sessions as a campaign frames them, without its last line."""
    return "".join(f"#from {it} {len(text)}\n{text}" for it, text in pieces)


def pieces_of(terminal):
    """What came to a terminal, or nothing once its other side is closed."""
    try:
        return os.read(terminal, 4096)
    except OSError:
        return b""


class Campaigns(unittest.TestCase):
    """Other seeds, with a script in place of the program."""

    ENDS = ("limit 2", "oracle 2", "oracle 1", "malformed oracle NotAValue 1", "oracle 1")
    LAST = "#campaign 5 ended 1\n"

    def setUp(self):
        room = tempfile.TemporaryDirectory(prefix="lurette-")
        self.addCleanup(room.cleanup)
        self.room = room.name

    def bench(self, text, waits):
        """A bench whose program writes this text for a campaign, and then waits so long."""
        program = os.path.join(self.room, "program")
        with open(program, "w", encoding="utf-8") as file:
            file.write(STANDS_IN.format(python=sys.executable, text=text, waits=waits))
        os.chmod(program, 0o755)
        trace = traces.trace_of(session_of(2, "oracle 2"))
        return failing.Bench(failing.Scenario(program, "f", []), trace, "c", "o", 2)

    def sessions(self, ends):
        return [(at, session_of(int(it.split()[-1]), it)) for at, it in enumerate(ends)]

    def test_the_shortest_that_fails_likewise_is_taken(self):
        text = framed(self.sessions(self.ENDS)) + self.LAST
        found = self.bench(text, 0).by_seeds(0, 5, 2)
        self.assertEqual((found.end, len(found.steps)), ("oracle 1", 1))
        text = framed(self.sessions(["limit 2", "ended controller 2"])) + "#campaign 2 ended 1\n"
        self.assertIsNone(self.bench(text, 0).by_seeds(0, 2, 2))

    def test_of_a_campaign_that_is_cut_those_count_that_were_over(self):
        one, (at, other) = self.sessions(self.ENDS[1:3])
        text = framed([one, (at, other[:-5])]) + "#from 1 5"
        bench = self.bench(text, 600)
        bench.until = time.monotonic() + 2
        self.assertEqual(bench.by_seeds(0, 2, 2).end, "oracle 2")
        self.assertEqual(bench.children.runs, set())

    def test_nothing_counts_once_all_is_stopped(self):
        bench = self.bench(framed(self.sessions(self.ENDS)) + self.LAST, 0)
        bench.children.stop()
        self.assertIsNone(bench.by_seeds(0, 5, 2))


class Call(unittest.TestCase):
    """Calls of the script on runs of the program."""

    def setUp(self):
        if not os.access(GIVEN.program, os.X_OK):
            self.skipTest(f"{GIVEN.program} is not there")
        room = tempfile.TemporaryDirectory(prefix="lurette-")
        self.addCleanup(room.cleanup)
        self.room = room.name

    def kept(self, name, text):
        path = os.path.join(self.room, name)
        with open(path, "w", encoding="utf-8") as file:
            file.write(text)
        return path

    def program(self, name, text):
        """The command of a program in Python, which says by `answer` what it answers."""
        head = "import os, random, sys\n\ndef answer(word):\n    print(word, flush=True)\n"
        return f"{sys.executable} {self.kept(name, head + text)}"

    def run_of(self, scenario, *words):
        """The trace of a run of a scenario, in a file."""
        ran = subprocess.run(
            [GIVEN.program, "run", scenario, *words], capture_output=True, text=True, check=False
        )
        return self.kept("trace", ran.stdout)

    def shortened(self, *words, program=None):
        """The status of a call, the trace that it wrote, and its lines."""
        call = [sys.executable, "-B", SCRIPT, "--program", program or GIVEN.program, *words]
        ran = subprocess.run(
            call, capture_output=True, text=True, timeout=600, check=False, cwd=calls.TOP
        )
        trace = traces.trace_of(ran.stdout) if ran.stdout else None
        return ran.returncode, trace, ran.stderr.splitlines()

    def is_legal(self, scenario, trace, *words):
        path = self.kept("checked", traces.text_of(trace))
        found = calls.outcome_of(
            GIVEN.program, "check", scenario, "--replay", path, *words, seconds=calls.PATIENCE
        )
        return found.output == f"legal {len(trace.steps)}\n".encode()

    def test_the_faulty_thermostat_fails_in_few_steps(self):
        scenario = os.path.join(calls.TOP, "examples", "drafty.lut")
        pair = ["--sut", f"{sys.executable} {PLACE}/faulty.py"]
        pair += ["--oracle", f"{sys.executable} {PLACE}/judge.py"]
        # One of them without other seeds, so that all comes of steps that are taken out.
        for seed in (0, 7) if GIVEN.quick else range(10):
            more = ["--seeds", "0" if seed == 7 else "12"]
            path = self.run_of(scenario, "-l", "1000", "--seed", str(seed), *pair)
            status, trace, said = self.shortened(path, scenario, *pair, *more, *AMPLE)
            self.assertEqual(status, 0, said)
            self.assertLessEqual(len(trace.steps), 5)
            self.assertTrue(self.is_legal(scenario, trace))
            self.assertIn("shorten: no single step of it can be taken out", said)
            *before, (temp, door, heat) = trace.steps
            # It fails as it should: too cold, the door open, and no heat; and no step before does.
            self.assertEqual((float(temp) < 19, door, heat), (True, "t", "f"))
            wrong = [float(it[0]) < 19 and it[2] == "f" for it in before]
            self.assertFalse(any(wrong))

    def events(self, controller, *words):
        scenario = self.kept("events.lut", EVENTS)
        pair = ["--sut", self.program("sut.py", controller)]
        pair += ["--oracle", self.program("oracle.py", LAST_WORD)]
        path = self.run_of(scenario, "-l", "200", *pair)
        return scenario, self.shortened(path, scenario, *pair, *words)

    def watched(self):
        """A program that does the same, and the file into which it puts its words, call by call."""
        kept = os.path.join(self.room, "calls")
        path = self.kept("watched", f'#!/bin/sh\necho "$*" >>{kept}\nexec {GIVEN.program} "$@"\n')
        os.chmod(path, 0o755)
        return path, kept

    def test_other_seeds_are_the_sessions_of_campaigns(self):
        scenario, seed = self.kept("events.lut", EVENTS), str(2**64 - 3)
        pair = ["--sut", self.program("sut.py", IN_ORDER)]
        pair += ["--oracle", self.program("oracle.py", LAST_WORD)]
        path = self.run_of(scenario, "-l", "200", "--draw", "3", "--seed", seed, *pair)
        program, kept = self.watched()
        more = ["--seeds", "5", "--jobs", "2", "--seconds", "300"]
        status, _, said = self.shortened(path, scenario, *pair, *more, program=program)
        self.assertEqual(status, 0, said)
        with open(kept, encoding="utf-8") as file:
            calls_made = [it.split() for it in file]
        word = lambda call, name: call[call.index(name) + 1]
        made = [it for it in calls_made if it[0] == "campaign"]
        told = [(word(it, "--seed"), word(it, "--count"), word(it, "--draw")) for it in made]
        self.assertEqual(told, [(str(2**64 - 2), "2", "3"), ("0", "2", "3"), ("2", "1", "3")])
        limits = [int(word(it, "-l")) for it in made]
        self.assertEqual(limits, sorted(limits, reverse=True))
        with open(path, encoding="utf-8") as file:
            self.assertEqual(limits[0], len(traces.trace_of(file.read()).steps) - 1)
        self.assertFalse([it for it in calls_made if it[0] == "run" and "--sut" in it])

    def test_where_the_time_is_over_that_is_said(self):
        path = self.kept("events.lut", EVENTS)
        _, (status, trace, said) = self.events(IN_ORDER, "--seconds", "0")
        self.assertEqual(status, 0, said)
        number = traces.why_and_number(trace.end)[1]
        self.assertEqual(said[0], f"shorten: {number} steps before, {number} after, which the seed 0 draws")
        self.assertTrue(said[1].startswith("shorten: the time was over before each step had been"))
        self.assertTrue(self.is_legal(path, trace))

    def test_three_events_in_order_are_kept_and_nothing_else(self):
        scenario, (status, trace, said) = self.events(IN_ORDER, "--seeds", "4", *AMPLE)
        self.assertEqual(status, 0, said)
        self.assertEqual(trace.steps, [["1", "f", "t"], ["2", "f", "t"], ["3", "f", "f"]])
        self.assertEqual(trace.end, "oracle 3")
        self.assertTrue(self.is_legal(scenario, trace))
        self.assertIn("shorten: check says legal 3; played again it ends by oracle 3", said)

    def test_a_controller_that_is_not_deterministic_is_told(self):
        by_chance = "for line in sys.stdin:\n    answer('tttf'[os.urandom(1)[0] % 4])\n"
        _, (status, trace, said) = self.events(by_chance, *AMPLE)
        self.assertEqual((status, trace), (1, None))
        self.assertRegex(said[-1], "isn't deterministic|ends otherwise|answers")

    def test_a_controller_that_has_changed_is_told(self):
        scenario = self.kept("events.lut", EVENTS)
        oracle = ["--oracle", self.program("oracle.py", LAST_WORD)]
        path = self.run_of(scenario, "--sut", self.program("sut.py", IN_ORDER), *oracle)
        mended = self.program("sut.py", IN_ORDER.replace("done < 3", "True"))
        status, trace, said = self.shortened(path, scenario, "--sut", mended, *oracle, *AMPLE)
        self.assertEqual((status, trace), (1, None))
        wanted = "shorten: played again, the run ends otherwise: no failure"
        self.assertEqual(said, [wanted])

    def level(self, wrong, *more):
        """What comes of a controller that answers so above 512, or leaves."""
        scenario = self.kept("levels.lut", LEVELS)
        options = ["--node", "levels", "--precision", "1"]
        sut = ["--sut", self.program("sut.py", LEVEL.replace("WRONG", wrong))]
        path = self.run_of(scenario, "--draw", "3", *options, *sut)
        found = self.shortened(path, scenario, *sut, *options, *more, *AMPLE)
        return scenario, options, found

    def test_a_wrong_answer_is_kept_with_the_value_that_leads_to_it(self):
        for wrong, end in (
            ("'x'", "malformed controller NotAValue 1"),
            ("'10'", "malformed controller OutOfRange 1"),
            ("sys.exit()", "ended controller 1"),
        ):
            scenario, options, (status, trace, said) = self.level(wrong, "--seeds", "2")
            self.assertEqual((status, trace.end, trace.steps), (0, end, []), said)
            self.assertTrue(self.is_legal(scenario, trace, *options))
            self.assertIn("shorten: in step 1 the controller gets: 512.5 f", said)

    def test_an_oracle_may_fail_too(self):
        scenario = self.kept("events.lut", EVENTS)
        pair = ["--sut", self.program("sut.py", "for line in sys.stdin:\n    answer('t')\n")]
        third = "for line in sys.stdin:\n    answer('t' if line[0] != '3' else sys.exit())\n"
        pair += ["--oracle", self.program("oracle.py", third)]
        path = self.run_of(scenario, *pair)
        status, trace, said = self.shortened(path, scenario, *pair, "--seeds", "0", *AMPLE)
        self.assertEqual((status, trace.end, trace.steps), (0, "ended oracle 1", []), said)
        self.assertIn("shorten: in step 1 the controller gets: 3 f", said)

    def test_other_traces_are_refused(self):
        scenario = self.kept("events.lut", EVENTS)
        sut = ["--sut", self.program("sut.py", LAST_WORD)]
        path = self.run_of(scenario, "-l", "2", *sut)
        status, trace, said = self.shortened(path, scenario, *sut)
        self.assertEqual((status, trace), (2, None))
        self.assertIn("the run didn't fail: its end is limit 2", said[0])
        text = '#seed 1\n#inputs "event":int "noise":bool\n#outputs "good":bool\n#step 1\n'
        path = self.kept("trace", f"{text}7 f #outs f\n#end oracle 1\n")
        status, _, said = self.shortened(path, scenario, *sut)
        self.assertEqual(status, 2)
        self.assertIn("--oracle is needed", said[0])
        oracle = ["--oracle", self.program("oracle.py", LAST_WORD)]
        status, _, said = self.shortened(path, scenario, *sut, *oracle)
        self.assertEqual((status, said), (1, ["shorten: the seed 1 gives another step 1"]))
        path = self.kept("trace", "#seed 1\n")
        self.assertEqual(self.shortened(path, scenario, *sut)[0], 2)

    def test_a_line_of_a_terminal_says_how_far_it_is(self):
        scenario = self.kept("events.lut", EVENTS)
        pair = ["--sut", self.program("sut.py", IN_ORDER)]
        pair += ["--oracle", self.program("oracle.py", LAST_WORD)]
        path = self.run_of(scenario, *pair)
        call = [sys.executable, "-B", SCRIPT, "--program", GIVEN.program, path, scenario, *pair]
        call += ["--seeds", "2", "--jobs", "2", "--seconds", "300"]
        terminal, side = pty.openpty()
        with subprocess.Popen(call, stdout=subprocess.DEVNULL, stderr=side) as run:
            os.close(side)
            shown = b"".join(iter(lambda: pieces_of(terminal), b""))
        os.close(terminal)
        self.assertEqual(run.returncode, 0, shown)
        told = rb"\r\x1b\[Kshorten: \d+ steps?; (\d) seeds and \d+ changes tried, \d+ s left"
        self.assertEqual(sorted(set(re.findall(told, shown))), [b"0", b"2"])
        # It is taken away before what came of it is said.
        self.assertIn(b"\r\x1b[Kshorten: ", shown.rpartition(b" s left")[2])

    def test_the_best_so_far_is_written_when_it_is_interrupted(self):
        scenario = self.kept("events.lut", EVENTS)
        started = os.path.join(self.room, "started")
        marks = f"open({started!r}, 'a').write('x')\n" + IN_ORDER
        oracle = ["--oracle", self.program("oracle.py", LAST_WORD)]
        path = self.run_of(scenario, "--sut", self.program("sut.py", IN_ORDER), *oracle)
        call = [sys.executable, "-B", SCRIPT, "--program", GIVEN.program, path, scenario]
        call += ["--sut", self.program("sut.py", marks), *oracle, "--seconds", "600"]
        pipes = {"stdout": subprocess.PIPE, "stderr": subprocess.PIPE}
        with subprocess.Popen(call, **pipes, text=True) as run:
            # It was played twice, and now it is tried with other seeds.
            while not os.path.exists(started) or os.path.getsize(started) < 5:
                time.sleep(0.05)
            # What a shell starts in the background ignores SIGINT.
            run.send_signal(signal.SIGTERM)
            output, errors = run.communicate(timeout=calls.PATIENCE)
        self.assertEqual(run.returncode, shorten.INTERRUPTED, errors)
        self.assertEqual(traces.trace_of(output).end.split()[0], "oracle")
        self.assertIn("interrupted", errors)


if __name__ == "__main__":
    GIVEN = check_docs.given(sys.argv[1:])
    unittest.main(argv=["test_shorten.py", "--quiet"])
