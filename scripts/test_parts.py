"""That the trace of a campaign is taken apart, and that what is wrong with one is named.

The texts are written by hand, with their lengths counted by hand.
"""

import contextlib
import io
import os
import subprocess
import sys
import tempfile
import unittest

import draw_trace
import parts
import reached
import shorten
import traces

# Two sessions: the first one ends well, in a piece of its own, the other one by its oracle, in one
# piece with its step. A line before a piece has 11 bytes, so pieces begin at the bytes 11, 56, 101,
# 128 and 169, and the last line at 182.
HEAD = b'#inputs "b":bool\n#outputs\n'
FRAMED = (
    b"#from 0 34\n#seed 7\n" + HEAD
    + b"#from 1 34\n#seed 8\n" + HEAD
    + b"#from 0 16\n#step 1\nt #outs\n"
    + b"#from 1 30\n#step 1\nf #outs\n#end oracle 1\n"
    + b"#from 0 13\n#end limit 1\n"
    + b"#campaign 2 ended 1\n"
)
FIRST = b'#seed 7\n#inputs "b":bool\n#outputs\n#step 1\nt #outs\n#end limit 1\n'
SECOND = b'#seed 8\n#inputs "b":bool\n#outputs\n#step 1\nf #outs\n#end oracle 1\n'
LIST = "session 0 seed 7 bytes 63 end limit 1\nsession 1 seed 8 bytes 64 end oracle 1\n"
EXPECTED = "#from SESSION LENGTH or #campaign N ended E is expected here"


def taken(framed):
    """The parts of a text by its frames."""
    found = {}
    for session, data in traces.Frames(io.BytesIO(framed)):
        found[session] = found.get(session, b"") + data
    return found


class Frames(unittest.TestCase):
    def test_a_part_is_all_pieces_of_its_session(self):
        self.assertEqual(taken(FRAMED), {0: FIRST, 1: SECOND})
        self.assertEqual(traces.parts_of(FRAMED), [FIRST.decode(), SECOND.decode()])

    def test_lengths_count_and_not_what_a_piece_looks_like(self):
        # A piece may have a line that looks like one between pieces.
        framed = b"#from 1 11\n#from 0 99\n#from 0 3\na\nb#campaign 2 ended 2\n"
        self.assertEqual(taken(framed), {1: b"#from 0 99\n", 0: b"a\nb"})

    def test_numbers_are_known_at_the_end(self):
        frames = traces.Frames(io.BytesIO(FRAMED))
        self.assertEqual((len(list(frames)), frames.count, frames.ended), (5, 2, 1))
        frames = traces.Frames(io.BytesIO(b"#campaign 64 ended 0\n"))
        self.assertEqual((list(frames), frames.count), ([], 64))

    def refused(self, framed):
        with self.assertRaises(traces.NoTrace) as found:
            taken(framed)
        return isinstance(found.exception, traces.CutShort), str(found.exception)

    def test_what_ends_too_early_says_where(self):
        for length, where in (
            (0, "before the line #campaign"),
            (3, "within a line"),
            (11, "in a piece of session 0, of which 0 of 34 bytes are there"),
            (44, "in a piece of session 0, of which 33 of 34 bytes are there"),
            (45, "before the line #campaign"),
            (55, "within a line"),
        ):
            at = {3: 0, 55: 45}.get(length, length)
            told = f"byte {at}: it ends {where}, so it isn't whole"
            self.assertEqual(self.refused(FRAMED[:length]), (True, told))
        last = FRAMED.index(b"#campaign")
        told = f"byte {last}: it ends within a line, so it isn't whole"
        self.assertEqual(self.refused(FRAMED[:-1]), (True, told))

    def test_each_beginning_is_cut_short(self):
        for length in range(len(FRAMED)):
            self.assertTrue(self.refused(FRAMED[:length])[0], length)

    def test_what_is_wrong_says_where(self):
        run = "byte 0: this is the trace of one run, and not that of a campaign"
        self.assertEqual(self.refused(FIRST), (False, run))
        for old, new, at, wanted in (
            (b"#from 1 34", b"#from 01 34", 45, EXPECTED),
            (b"#from 1 34", b"#from 1 33", 89, EXPECTED),
            (b"#from 1 34", b"#from 64 34", 45, "no session has the number 64"),
            (b"#from 1 34\n", b"#from 1 34 \n", 45, EXPECTED),
            (b"#campaign 2 ended 1\n", b"#campaign 2 ended 1\n\n", 202, "nothing comes after the"),
            (b"#campaign 2", b"#campaign 1", 182, "#campaign has other numbers than"),
            (b"ended 1", b"ended 3", 182, "#campaign has other numbers than"),
            (b"#campaign 2", b"#campaign 65", 182, "#campaign has other numbers than"),
            (b"#campaign 2", b"#campaign  2", 182, EXPECTED),
            (b"#campaign", b"x", 182, EXPECTED),
        ):
            self.assertIn(old, FRAMED)
            is_cut, told = self.refused(FRAMED.replace(old, new))
            self.assertFalse(is_cut, new)
            self.assertTrue(told.startswith(f"byte {at}: {wanted}"), (new, told))


class Parts(unittest.TestCase):
    def test_lines_are_known_however_bytes_come(self):
        for size in (1, 2, 7, 64):
            part = traces.Part()
            for at in range(0, len(SECOND), size):
                part.take(SECOND[at : at + size])
            self.assertEqual((part.length, part.seed(), part.end()), (64, "8", "oracle 1"))
            self.assertFalse(part.is_well())

    def test_a_part_that_goes_on_has_no_end(self):
        for data, seed in ((b"", None), (FIRST[:-1], "7"), (b"#seed 1", None), (b"#seed 1\n", "1")):
            part = traces.Part()
            part.take(data)
            self.assertEqual((part.seed(), part.end(), part.is_well()), (seed, None, False))

    def test_little_is_kept_of_a_long_line(self):
        part = traces.Part()
        for _ in range(100):
            part.take(b"x" * traces.BLOCK)
        self.assertLessEqual(len(part.first) + len(part.last) + len(part.open), 3 * traces.BLOCK)
        part.take(b"\n#end normal 2\n")
        self.assertTrue(part.is_well())


class Calls(unittest.TestCase):
    def setUp(self):
        room = tempfile.TemporaryDirectory(prefix="lurette-")
        self.addCleanup(room.cleanup)
        self.room = room.name

    def kept(self, name, data):
        path = os.path.join(self.room, name)
        with open(path, "wb") as file:
            file.write(data)
        return path

    def files(self):
        """The files that are there, each with its bytes, but the trace itself."""
        found = {}
        for name in sorted(os.listdir(self.room)):
            if name != "all":
                with open(os.path.join(self.room, name), "rb") as file:
                    found[name] = file.read()
        return found

    def call(self, *words):
        """The status of a call, what it wrote, and its lines."""
        output, errors = io.TextIOWrapper(io.BytesIO(), encoding="ascii"), io.StringIO()
        with contextlib.redirect_stdout(output), contextlib.redirect_stderr(errors):
            try:
                status = parts.main(list(words))
            except SystemExit as ended:
                status = ended.code
        output.flush()
        return status, output.buffer.getvalue(), errors.getvalue().splitlines()

    def test_each_session_has_a_file(self):
        path = self.kept("all", FRAMED)
        self.assertEqual(self.call(path), (0, b"", []))
        self.assertEqual(self.files(), {"all.0": FIRST, "all.1": SECOND})

    def test_files_are_named_as_asked(self):
        path = self.kept("all", FRAMED)
        self.assertEqual(self.call(path, "--failed", "--to", f"{self.room}/b"), (0, b"", []))
        self.assertEqual(self.files(), {"b.1": SECOND})

    def test_one_session_is_written(self):
        path = self.kept("all", FRAMED)
        self.assertEqual(self.call(path, "--session", "1"), (0, SECOND, []))
        told = f"parts: {path}: it has no session 2, but 2 from 0 on"
        self.assertEqual(self.call(path, "--session", "2"), (2, b"", [told]))
        self.assertEqual(self.files(), {})

    def test_sessions_are_listed(self):
        path = self.kept("all", FRAMED)
        self.assertEqual(self.call(path, "--list"), (0, LIST.encode(), []))
        failed = LIST.splitlines(True)[1].encode()
        self.assertEqual(self.call(path, "--list", "--failed"), (0, failed, []))

    def test_a_session_that_was_not_started_has_an_empty_trace(self):
        path = self.kept("all", FRAMED.replace(b"#campaign 2", b"#campaign 3"))
        status, listed, _ = self.call(path, "--list")
        self.assertEqual((status, listed.splitlines()[2]), (0, b"session 2 seed - bytes 0 end -"))
        self.assertEqual(self.call(path)[0], 0)
        self.assertEqual(self.files(), {"all.0": FIRST, "all.1": SECOND, "all.2": b""})
        self.assertEqual(self.call(path, "--session", "2"), (0, b"", []))

    def test_what_there_is_of_a_cut_trace_is_written(self):
        path = self.kept("all", FRAMED[:100])
        told = "it ends within a line, so it isn't whole"
        self.assertEqual(self.call(path), (1, b"", [f"parts: {path}: byte 90: {told}"]))
        self.assertEqual(self.files(), {"all.0": FIRST[:34], "all.1": SECOND[:34]})
        status, listed, _ = self.call(path, "--list")
        wanted = [f"session {it} seed {it + 7} bytes 34 end -" for it in (0, 1)]
        self.assertEqual((status, listed.decode().splitlines()), (1, wanted))
        self.assertEqual(self.call(path, "--session", "0")[:2], (1, FIRST[:34]))

    def test_what_is_before_a_wrong_byte_is_written(self):
        path = self.kept("all", FRAMED.replace(b"#from 0 13", b"#from 0  13"))
        self.assertEqual(self.call(path), (2, b"", [f"parts: {path}: byte 158: {EXPECTED}"]))
        self.assertEqual(self.files(), {"all.0": FIRST[:50], "all.1": SECOND})

    def test_words_are_refused(self):
        path = self.kept("all", FRAMED)
        for words in (
            [], ["-"], [path, "--session", "64"], [path, "--session", "-1"], [path, "--sess", "1"],
            [path, "--list", "--to", "b"], [path, "--failed", "--session", "1"], [path, path],
        ):
            self.assertEqual(self.call(*words)[:2], (2, b""), words)
        self.assertEqual(self.call(f"{self.room}/none")[0], 2)
        self.assertEqual(self.call(path, "--to", f"{self.room}/none/b")[0], 2)
        self.assertEqual(self.files(), {})

    def test_standard_input_is_read(self):
        call = [sys.executable, parts.__file__, "-", "--session", "1"]
        run = subprocess.run(call, input=FRAMED, stdout=subprocess.PIPE, check=False)
        self.assertEqual((run.returncode, run.stdout), (0, SECOND))

    def test_a_long_trace_is_not_kept(self):
        # 64 sessions with a piece of 1 MiB each.
        piece = b"x" * 1023 + b"\n"
        # The most memory that it had, as the system tells it of this program alone.
        measured = "import parts; parts.main(['-', '--list']); " + (
            "print(next(it.split()[1] for it in open('/proc/self/status') if it[:6] == 'VmHWM:'))"
        )
        how = {"stdin": subprocess.PIPE, "stdout": subprocess.PIPE}
        how["cwd"] = os.path.dirname(parts.__file__)
        with subprocess.Popen([sys.executable, "-B", "-c", measured], **how) as run:
            for session in range(64):
                run.stdin.write(b"#from %d 1048576\n" % session + piece * 1024)
            run.stdin.write(b"#campaign 64 ended 0\n")
            run.stdin.close()
            *listed, most = run.stdout.read().decode().splitlines()
        self.assertEqual(listed[63], "session 63 seed - bytes 1048576 end -")
        self.assertLess(int(most), 32 << 10)


class Others(unittest.TestCase):
    """What else reads traces takes a part, and says of a campaign's trace what to do."""

    def setUp(self):
        room = tempfile.TemporaryDirectory(prefix="lurette-")
        self.addCleanup(room.cleanup)
        self.room = room.name

    def path_of(self, data):
        path = os.path.join(self.room, "trace")
        with open(path, "wb") as file:
            file.write(data)
        return path

    def call(self, script, *words):
        output, errors = io.TextIOWrapper(io.BytesIO(), encoding="utf-8"), io.StringIO()
        with contextlib.redirect_stdout(output), contextlib.redirect_stderr(errors):
            status = script.main(list(words))
        output.flush()
        return status, output.buffer.getvalue().decode(), errors.getvalue()

    def test_a_part_is_drawn_and_a_campaign_is_not(self):
        status, picture, _ = self.call(draw_trace, self.path_of(SECOND))
        self.assertEqual((status, "seed 8, end: oracle 1" in picture), (0, True))
        path = self.path_of(FRAMED)
        wanted = f"draw_trace: {path}: {traces.IS_FRAMED}\n"
        self.assertEqual(self.call(draw_trace, path), (2, "", wanted))

    def test_a_campaign_is_not_shortened(self):
        path = self.path_of(FRAMED)
        status, _, said = self.call(shorten, "--program", "none", path, "f", "--sut", "c")
        self.assertEqual((status, said), (2, f"shorten: {path}: {traces.IS_FRAMED}\n"))

    def test_each_session_is_a_run_that_reached_something(self):
        status, told, _ = self.call(reached, self.path_of(FRAMED))
        self.assertEqual((status, told.splitlines()[:3]), (0, [
            "2 runs with 2 steps in all, 1 a run",
            "  1 run ended by limit, in step 1",
            "  1 run ended by oracle, in step 1",
        ]))
        path = self.path_of(b"#campaign 2 ended 0\n")
        wanted = f"reached: {path} is left out: no session of this campaign began\n"
        self.assertEqual(self.call(reached, path), (2, "", wanted))


if __name__ == "__main__":
    unittest.main()
