"""That the sessions of a campaign are runs, each with its own seed and its own programs.

    python3 scripts/test_campaigns.py [--program PATH] [--plant PATH] [--quick]

Texts of rounds are written by hand. Else a campaign is compared with the runs that its sessions
should be, of which other tests say that they are right. The options are those of check_docs.py.
Where no program is there nothing is tried, nor where it has no campaigns.
"""

import io
import os
import re
import subprocess
import sys
import tempfile
import unittest
from collections import namedtuple

import calls
import check_docs
import traces

GIVEN = check_docs.given([])

# A campaign: its name, the text of its scenario, its words, how many sessions it has, their first
# seed, and the status that it should have.
Row = namedtuple("Row", "name text words count seed status", defaults=(4, 3, 0))

ECHO = "node n(y: int [0; 9]) returns (x: int [0; 9]) = loop { x <= 9 |> x = y }"
DIGIT = "sed -u s/^.*/5/"
# A controller that answers wrongly where x is 0 to 4.
WRONG = "sed -u -e s/^[0-4]$/12x/ -e s/^[5-9]$/5/"
# An oracle that finds a step wrong where x is 0 or 1.
JUDGE = "sed -u -e s/^[01].*/f/ -e s/^[2-9].*/t/"
WEIGHTS = "node n() returns (b: bool) = loop { | 3: b | 1: not b fby %s }"
DRAWN = ("--draw", "3", "-l", "6")
TWICE = ("--draw", "3", "-l", "2")

ROWS = (
    Row("alone", "node n() returns (x: int) = loop x <> 7", DRAWN, 64),
    Row("locals", "node n() returns (b: bool) = exist c: bool in loop (b xor c)", ("--locals",)),
    Row("beside a controller", ECHO, (*DRAWN, "--sut", DIGIT)),
    Row("one", ECHO, (*DRAWN, "--sut", DIGIT), 1),
    Row("many beside both", ECHO, (*DRAWN, "--sut", DIGIT, "--oracle", "sed -u s/.*/t/"), 64),
    Row("past the last seed", ECHO, (*DRAWN, "--sut", DIGIT), 4, 2**64 - 2),
    Row("false verdicts", ECHO, (*DRAWN, "--sut", DIGIT, "--oracle", JUDGE), 16, 0, 1),
    Row("refused replies", ECHO, (*TWICE, "--sut", WRONG), 16, 0, 7),
    Row("deadlocks", WEIGHTS % "(b and not b)", ("-l", "3"), 16, 0, 4),
    Row("exceptions", "exception Stop " + WEIGHTS % "raise Stop", ("-l", "3"), 16, 0, 5),
    Row("faults", WEIGHTS % "(1 div 0 = 1)", ("-l", "3"), 16, 0, 6),
)


def parts_of(output):
    """The trace of each session, and the number of those that ended well."""
    frames, found = traces.Frames(io.BytesIO(output)), {}
    for session, data in frames:
        found[session] = found.get(session, b"") + data
    return [found.get(it, b"") for it in range(frames.count)], frames.ended


def said_by(run):
    """What the program itself said, without what its programs said."""
    lines = run.errors.decode("utf-8", "replace").splitlines()
    return [it for it in lines if it.startswith("lurette: ")]


class Campaigns(unittest.TestCase):
    def setUp(self):
        if not os.access(GIVEN.program, os.X_OK):
            self.skipTest(f"{GIVEN.program} is not there")
        usage = calls.outcome_of(GIVEN.program, seconds=calls.PATIENCE).errors
        if b"[--count N]" not in usage:
            self.skipTest("the program has no campaigns")

    def outcome(self, text, *words):
        return calls.outcome(GIVEN.program, text.encode(), *words, seconds=calls.PATIENCE)

    def compare(self, row):
        """Compares a campaign with the runs of its sessions."""
        count, seed = ("--count", str(row.count)), lambda it: ("--seed", str(it % 2**64))
        found = self.outcome(row.text, "campaign", *seed(row.seed), *count, *row.words)
        run = lambda it: self.outcome(row.text, "run", *seed(row.seed + it), *row.words)
        runs = [run(it) for it in range(row.count)]
        parts, ended = parts_of(found.output)
        self.assertEqual(parts, [it.output for it in runs])
        failed = [at for at, it in enumerate(runs) if it.status != 0]
        self.assertEqual(ended, row.count - len(failed))
        first = runs[failed[0]] if failed else runs[0]
        self.assertEqual((found.status, first.status), (row.status, row.status))
        named = [it.replace("lurette:", f"lurette: session {failed[0]}:") for it in said_by(first)]
        self.assertEqual(said_by(found), named)
        return failed

    def test_sessions_are_runs(self):
        for row in ROWS:
            with self.subTest(row.name):
                # Some go well, so that it shows whose status it is.
                self.assertLess(len(self.compare(row)), row.count)

    def test_an_earlier_trace_answers_each_session(self):
        with tempfile.TemporaryDirectory(prefix="lurette-") as room:
            path = os.path.join(room, "earlier")
            with open(path, "wb") as file:
                # Longer than what is taken of it at once.
                file.write(b"1 #outs 5\n" * 500)
            self.compare(Row("", ECHO, ("-l", "500", "--replay", path)))
            failed = self.compare(Row("", ECHO, ("-l", "501", "--replay", path), 3, 3, 8))
            self.assertEqual(failed, [0, 1, 2])

    def test_a_part_is_played_again(self):
        words = ("--draw", "3", "-l", "9")
        beside = (*words, "--sut", "sed -u s/.*/3/")
        found = self.outcome(ECHO, "campaign", "--count", "2", "--seed", "7", *beside)
        for seed, part in zip((7, 8), parts_of(found.output)[0]):
            with tempfile.NamedTemporaryFile(prefix="lurette-") as file:
                file.write(part)
                file.flush()
                again = self.outcome(
                    ECHO, "run", "--seed", str(seed), *words, "--replay", file.name
                )
            self.assertEqual((again.status, again.output), (0, part))

    def test_rounds_go_through_all_sessions(self):
        head = lambda seed: f'#from {seed} 33\n#seed {seed}\n#inputs "x":int\n#outputs\n'
        rounds = [
            [head(it) for it in (0, 1)],
            [f"#from {it} 16\n#step 1\n1 #outs\n" for it in (0, 1)],
            [f"#from {it} 13\n#end limit 1\n" for it in (0, 1)],
        ]
        text = "node n() returns (x: int [0; 9]) = loop x = 1"
        found = self.outcome(text, "campaign", "-l", "1", "--count", "2")
        wanted = "".join(it for one in rounds for it in one) + "#campaign 2 ended 2\n"
        self.assertEqual((found.status, found.output.decode(), found.errors), (0, wanted, b""))

    def test_a_session_that_ends_leaves_the_rounds(self):
        # One that goes on by itself puts a text out in each round: its header, a step, its end.
        text, count = "node n() returns (b: bool) = { | loop b | b }", 8
        found = self.outcome(text, "campaign", "-l", "3", "--count", str(count))
        texts = []
        for seed in range(count):
            trace = self.outcome(text, "run", "-l", "3", "--seed", str(seed)).output.decode()
            texts.append(re.split(r"^(?=#step|#end)", trace, flags=re.M))
        # Some end behind one step, and some behind three.
        self.assertEqual({len(it) for it in texts}, {3, 5})
        wanted = [
            f"#from {session} {len(it[at])}\n{it[at]}"
            for at in range(5)
            for session, it in enumerate(texts)
            if at < len(it)
        ]
        wanted.append(f"#campaign {count} ended {count}\n")
        self.assertEqual(found.output.decode(), "".join(wanted))

    def test_what_is_not_started_has_no_part(self):
        started = ("--sut", DIGIT, "--oracle", "./nothing at all")
        for words, who in ((("--sut", "./nothing"), "controller"), (started, "oracle")):
            found = self.outcome(ECHO, "campaign", "--count", "3", *words)
            self.assertEqual((found.status, found.output), (9, b"#campaign 3 ended 0\n"), words)
            self.assertEqual(said_by(found), [f"lurette: session 0: device {who} 0"])

    def test_a_full_device_ends_all(self):
        with tempfile.NamedTemporaryFile(prefix="lurette-") as file:
            file.write(ECHO.encode())
            file.flush()
            call = [GIVEN.program, "campaign", file.name, "--count", "3", "--sut", DIGIT]
            with open("/dev/full", "wb", buffering=0) as full:
                run = subprocess.run(
                    call, stdout=full, stderr=subprocess.PIPE, check=False, timeout=calls.PATIENCE
                )
        self.assertEqual((run.returncode, run.stderr), (9, b"lurette: device trace 0\n"))

    def test_words_are_judged(self):
        for words, kind in (
            (("--count", "0"), "words"), (("--count", "65"), "words"), (("--count", "-1"), "words"),
            (("--count",), "words"), (("--sut", "a", "--replay", "b"), "both"),
        ):
            found = self.outcome("node n() returns (b: bool) = b", *words, "campaign")
            self.assertEqual((found.status, found.output), (2, b""), words)
            self.assertEqual(said_by(found), [f"lurette: usage: {kind}"])

    def test_refusals_name_no_session(self):
        for text, line in (
            ("node n() returns (b: bool) = c", "refused type.Unknown at 29"),
            (ECHO, "refused run.NeedsController"),
        ):
            found = self.outcome(text, "campaign", "--count", "2")
            self.assertEqual((found.status, found.output), (3, b""))
            self.assertEqual(said_by(found), [f"lurette: {line}"])

    def test_a_run_takes_the_count_and_is_one(self):
        text = "node n() returns (b: bool) = b"
        found = self.outcome(text, "run", "--count", "3")
        self.assertEqual(found, self.outcome(text, "run")._replace(seconds=found.seconds))


if __name__ == "__main__":
    GIVEN = check_docs.given(sys.argv[1:])
    unittest.main(argv=["test_campaigns.py", "--quiet"])
