"""That calls end as docs/COMMAND.md has it where what is outside really fails.

    python3 scripts/test_faults.py [--program PATH] [--plant PATH] [--quick]

Folders stand for files, programs die, pipes are closed, devices are full. No test depends on how
fast something is: where the order of two processes counts, one of them waits for the other. The
program is the one that `rt ci` leaves in the checkout, where no option names another, and without
it nothing is tried. The options are those of check_docs.py. With --quick what takes a program
without a proof too long is left out.
"""

import os
import resource
import select
import shutil
import signal
import subprocess
import sys
import tempfile
import time
import unittest
from collections import namedtuple

import check_docs

GIVEN = check_docs.given([])
SECONDS = 60

# -- Sides -----------------------------------------------------------------------------------------

# A side is a program of some deeds, which stand below this head.
SIDE = r"""#!{python} -IS
import fcntl, os, signal, struct, sys, termios, time

ANSWER = {answer!r}
GOT = os.open(sys.argv[0] + ".got", os.O_WRONLY | os.O_CREAT | os.O_APPEND)

def line():
    # Takes a line, and keeps it. Where the input ends before it, the side ends.
    got = b""
    while not got.endswith(b"\n"):
        piece = os.read(0, 1)
        if not piece:
            os._exit(0)
        got += piece
    os.write(GOT, got)

def rest():
    # Takes all that comes, and keeps it.
    piece = os.read(0, 4096)
    while piece:
        os.write(GOT, piece)
        piece = os.read(0, 4096)

def say(text):
    # Where nobody listens any more, the side ends badly.
    try:
        while text:
            text = text[os.write(1, text):]
    except OSError:
        os._exit(7)

def say_for_ever(text):
    while True:
        say(text)

def say_byte_by_byte(text):
    # Each byte is said once the one before it was taken.
    for byte in text:
        say(bytes([byte]))
        while any(fcntl.ioctl(1, termios.FIONREAD, bytes(4))):
            time.sleep(0.001)

def answer_lines(most):
    for _ in range(most):
        line()
        say(ANSWER + b"\n")

def leave_the_input_open():
    # Another process has it, and takes all that comes.
    if not os.fork():
        os.close(1)
        rest()
        os._exit(0)

def tell(name):
    with open(name, "wb") as queue:
        queue.write(b"\n")

def wait_for(name):
    with open(name, "rb") as queue:
        queue.read(1)

"""

# What a side is: its option, the scenario beside it, what the header declares of its replies, what
# it should answer, and what a step has of that.
Role = namedtuple("Role", "who option scenario declared answer replied")

CONTROLLER = Role(
    "controller",
    "--sut",
    "node n(y: int) returns (x: int [0;3]) = loop x = 1",
    ' "y":int',
    b"5",
    " 5",
)
ORACLE = Role(
    "oracle", "--oracle", "node n() returns (x: int [0;3]) = loop x = 1", "", b"t", ""
)
ROLES = (CONTROLLER, ORACLE)

# What a side should do, for as long as it is asked.
GOOD = "answer_lines(9)"


def texts(role, steps):
    """The header and so many steps beside a side that has answered them."""
    header = f'#seed 0\n#inputs "x":int\n#outputs{role.declared}\n'
    return header + "".join(f"#step {it}\n1 #outs{role.replied}\n" for it in range(1, steps + 1))


# -- Calls -----------------------------------------------------------------------------------------

Outcome = namedtuple("Outcome", "status output errors")


def text_of(stream):
    return "" if stream is None else stream.decode("utf-8", "backslashreplace")


def give_up(call):
    """Ends a call that hasn't ended, with all that it has started."""
    if call.poll() is None:
        os.killpg(call.pid, signal.SIGKILL)
        call.communicate()


class Fault(unittest.TestCase):
    """Tests of which each has a folder, where the program is called."""

    def setUp(self):
        if not os.access(GIVEN.program, os.X_OK):
            self.skipTest(f"{GIVEN.program} is not there")
        self.room = tempfile.mkdtemp(prefix="faults-")
        self.addCleanup(shutil.rmtree, self.room)
        os.chmod(self.room, 0o755)

    def path(self, name):
        return os.path.join(self.room, name)

    def write(self, name, text, mode=0o644):
        with open(self.path(name), "w", encoding="utf-8") as file:
            file.write(text)
        os.chmod(self.path(name), mode)

    def side(self, role, deeds):
        """Makes a side of these deeds, and says its command."""
        head = SIDE.format(python=sys.executable, answer=role.answer)
        self.write(role.who, head + deeds + "\n", 0o755)
        return f"./{role.who}"

    def got(self, role):
        """What a side has kept, of which nothing is kept any more."""
        path = self.path(f"{role.who}.got")
        with open(path, encoding="utf-8") as file:
            text = file.read()
        os.remove(path)
        return text

    def queue(self, name):
        """A queue by which a side is waited for, or waits."""
        os.mkfifo(self.path(name))
        end = os.open(self.path(name), os.O_RDWR)
        self.addCleanup(os.close, end)
        return end

    def begin(self, words, how):
        """Calls the program. Its standard error and output are pipes, unless `how` has others."""
        given = {"stdin": subprocess.DEVNULL, "stdout": subprocess.PIPE, "stderr": subprocess.PIPE}
        given.update(cwd=self.room, start_new_session=True, executable=GIVEN.program)
        call = subprocess.Popen(["lurette", *words], **{**given, **how})
        self.addCleanup(give_up, call)
        return call

    def finish(self, call):
        """What came of a call."""
        try:
            output, errors = call.communicate(timeout=SECONDS)
        except subprocess.TimeoutExpired:
            self.fail(f"{call.args} had not ended after {SECONDS} seconds")
        return Outcome(call.returncode, text_of(output), text_of(errors))

    def call(self, *words, **how):
        return self.finish(self.begin(words, how))

    def words_beside(self, role, command, *more):
        """The words of a run of at most three steps beside a side."""
        self.write("f", role.scenario)
        return ("run", "f", "-l", "3", role.option, command, *more)

    def check(self, found, status, line, output):
        """The call ended so. It says nothing where the line is empty."""
        said = f"lurette: {line}\n" if line else ""
        self.assertEqual(found, Outcome(status, output, said))


# -- Files -----------------------------------------------------------------------------------------


class Files(Fault):
    STEADY = "node n() returns (b: bool) = b fby not b"

    def check_each(self, name, status, line, **how):
        """A file is the scenario of a run, the program that is printed, and an earlier trace."""
        self.write("played", CONTROLLER.scenario)
        for words in (("run", name), ("print", name), ("run", "played", f"--replay={name}")):
            with self.subTest(words=words):
                self.check(self.call(*words, **how), status, line, "")

    def check_unread(self, name, **how):
        self.check_each(name, 9, "device file 0", **how)

    def test_files_that_are_not_there(self):
        self.write("f", self.STEADY)
        os.symlink("s", self.path("s"))
        for name in ("none", "", "none/f", "f/f", "s", "n" * 5000):
            self.check_unread(name)

    def test_a_folder(self):
        os.mkdir(self.path("d"))
        self.check_unread("d")

    def test_a_file_that_fails_once_it_is_open(self):
        if not os.path.exists("/proc/self/mem"):
            self.skipTest("no file is known that opens and can't be read")
        self.check_unread("/proc/self/mem")

    def test_a_file_without_leave_to_read(self):
        self.write("f", self.STEADY, 0o000)
        self.check_unread("f", **self.as_somebody())

    def as_somebody(self):
        """How the program is called by one who may not read everything."""
        if os.access(self.path("f"), os.R_OK):
            how = {"preexec_fn": become_nobody, "executable": self.path("program")}
            shutil.copy(GIVEN.program, how["executable"])
            os.chmod(how["executable"], 0o755)
            try:
                self.call(**how)
            except (OSError, subprocess.SubprocessError):
                self.skipTest("nobody is known who may not read everything")
            return how
        return {}

    def test_a_file_without_end(self):
        if not os.path.exists("/dev/zero"):
            self.skipTest("no file without end is known")
        if GIVEN.quick:
            self.skipTest("it reads 64 MiB")
        self.check_each("/dev/zero", 3, "refused file.TooLong")

    def test_a_file_without_bytes(self):
        self.write("empty", "")
        self.write("played", CONTROLLER.scenario)
        missed = texts(CONTROLLER, 0) + "#end ended controller 1\n"
        for name in ("empty", os.devnull):
            with self.subTest(name):
                self.check(self.call("run", name), 3, "refused type.NoNode", "")
                self.check(self.call("print", name), 0, "", "")
                found = self.call("run", "played", f"--replay={name}")
                self.check(found, 8, "ended controller 1", missed)

    def test_a_queue_that_nobody_writes_to_is_waited_for(self):
        self.write("played", CONTROLLER.scenario)
        os.mkfifo(self.path("queue"))
        printed = "node n ( ) returns ( x : int [ 0 ; 3 ] ) = loop x = 1\n"
        for words, text, output in (
            (("print", "queue"), ORACLE.scenario, printed),
            (("run", "queue", "-l", "3"), ORACLE.scenario, texts(ORACLE, 3) + "#end limit 3\n"),
            (
                ("run", "played", "-l", "3", "--replay=queue"),
                "1 #outs 5\n" * 3,
                texts(CONTROLLER, 3) + "#end limit 3\n",
            ),
        ):
            with self.subTest(words=words):
                call = self.begin(words, {})
                self.feed(call, "queue", text)
                self.check(self.finish(call), 0, "", output)

    def feed(self, call, name, text):
        """Writes to a queue once a call has opened it, and waits for that."""
        end = None
        until = time.monotonic() + SECONDS
        while end is None and time.monotonic() < until:
            try:
                end = os.open(self.path(name), os.O_WRONLY | os.O_NONBLOCK)
            except OSError:
                # Nobody reads it yet.
                self.assertIsNone(call.poll(), "the call has ended before it was given a text")
                time.sleep(0.001)
        self.assertIsNotNone(end, "the queue was not opened")
        os.write(end, text.encode())
        os.close(end)

    def test_no_program_is_started_where_a_file_fails(self):
        command = self.side(CONTROLLER, GOOD)
        for words in (("run", "none"), ("print", "none"), ("run", "f", "--replay=none")):
            self.write("f", ORACLE.scenario)
            self.check(self.call(*words, "--oracle", command), 9, "device file 0", "")
            self.assertFalse(os.path.exists(self.path("controller.got")))


def become_nobody():
    os.setgroups([])
    os.setgid(65534)
    os.setuid(65534)


# -- Programs that can't be started ----------------------------------------------------------------


class Starts(Fault):
    def test_programs_that_cannot_be_started(self):
        os.mkdir(self.path("d"))
        self.write("plain", "text\n")
        self.write("text", "text\n", 0o755)
        self.write("tongue", "#!/none/there\n", 0o755)
        names = ("./none", "none-of-this-name", "./d", "./plain", "./text 1 2", "./tongue", "/")
        for command in (*names, "", " \t ", "n" * 5000):
            for role in ROLES:
                with self.subTest(command=command, who=role.who):
                    found = self.call(*self.words_beside(role, command))
                    self.check(found, 9, f"device {role.who} 0", "")

    def test_a_controller_gets_no_line_where_the_oracle_cannot_be_started(self):
        command = self.side(CONTROLLER, GOOD)
        found = self.call(*self.words_beside(CONTROLLER, command, "--oracle", "./none"))
        self.check(found, 9, "device oracle 0", "")
        self.assertEqual(self.got(CONTROLLER), "")

    def test_an_oracle_is_not_started_where_the_controller_cannot_be(self):
        command = self.side(ORACLE, GOOD)
        found = self.call(*self.words_beside(CONTROLLER, "./none", "--oracle", command))
        self.check(found, 9, "device controller 0", "")
        self.assertFalse(os.path.exists(self.path("oracle.got")))


# -- Sides that fail -------------------------------------------------------------------------------

# What a side does in a run of at most three steps, how many are written, and how the run ends. WHO
# stands for the side, and the place is told of what is malformed.
Row = namedtuple("Row", "deeds steps end place", defaults=(None,))

SIDES = {
    "does what it should": Row(GOOD, 3, "limit 3"),
    # How it says its answers doesn't matter, nor what it says after them.
    "says each byte by itself": Row(
        "while True: line(); say_byte_by_byte(ANSWER + b'\\n')", 3, "limit 3"
    ),
    "says all at once, and ends": Row(
        "leave_the_input_open(); say((ANSWER + b' ') * 3)", 3, "limit 3"
    ),
    "says any bytes in a comment": Row(
        "line(); say(b'# \\0\\x0b\\xff\\xfe\\n' + ANSWER + b'\\n'); answer_lines(9)", 3, "limit 3"
    ),
    "answers for ever, and takes no line": Row("say_for_ever(ANSWER + b'\\n')", 3, "limit 3"),
    "goes on after its last answer": Row("answer_lines(3); say_for_ever(b'\\xff')", 3, "limit 3"),
    # A reply has 65,536 bytes at most, and the blank after its last value is one of them.
    "says a value for ever": Row("say_for_ever(b'7' * 999)", 0, "malformed WHO TooLong 1", 0),
    "says a comment for ever": Row("say_for_ever(b'#' * 999)", 0, "malformed WHO TooLong 1", 0),
    "says blanks for ever": Row("say_for_ever(b' \\n\\t\\r')", 0, "malformed WHO TooLong 1", 0),
    "says zeros for ever": Row("say_for_ever(bytes(999))", 0, "malformed WHO TooLong 1", 0),
    "says the longest reply": Row(
        "line(); say(b'#' * 65533 + b'\\n' + ANSWER + b'\\n'); answer_lines(9)", 3, "limit 3"
    ),
    "says a reply one byte longer": Row(
        "line(); say(b'#' * 65534 + b'\\n' + ANSWER + b'\\n'); rest()",
        0,
        "malformed WHO TooLong 1",
        0,
    ),
    "says 65,536 bytes of a comment": Row(
        "line(); say(b'#' * 65535 + b'\\n'); rest()", 0, "malformed WHO TooLong 1", 0
    ),
    "says 65,536 bytes of comments": Row(
        "answer_lines(1); line(); say(b'#\\n' * 32768); rest()", 1, "malformed WHO TooLong 2", 2
    ),
    # What is no text is no value, wherever it stands in a word.
    "says a zero": Row("line(); say(b'\\0\\n'); rest()", 0, "malformed WHO NotAValue 1", 0),
    "says a zero after its answer": Row(
        "line(); say(ANSWER + b'\\0\\n'); rest()", 0, "malformed WHO NotAValue 1", 0
    ),
    "says bytes over 127": Row(
        "line(); say(b'\\xff\\xfe ' + ANSWER + b'\\n'); rest()", 0, "malformed WHO NotAValue 1", 0
    ),
    "says a byte over 127 after its answer": Row(
        "answer_lines(1); line(); say(ANSWER + b'\\xa0\\n'); rest()",
        1,
        "malformed WHO NotAValue 2",
        2,
    ),
    "says a control character": Row(
        "answer_lines(1); line(); say(b' \\x0b' + ANSWER + b'\\n'); rest()",
        1,
        "malformed WHO NotAValue 2",
        3,
    ),
    # Where it ends, or its output does, the reply that is due is missed.
    "ends at once, and leaves its input open": Row("leave_the_input_open()", 0, "ended WHO 1"),
    "ends after its first line": Row("line()", 0, "ended WHO 1"),
    "ends badly after its second line": Row(
        "answer_lines(1); line(); os._exit(7)", 1, "ended WHO 2"
    ),
    "is killed after its first line": Row(
        "line(); os.kill(os.getpid(), signal.SIGKILL)", 0, "ended WHO 1"
    ),
    "faults after its third line": Row(
        "answer_lines(2); line(); os.kill(os.getpid(), signal.SIGSEGV)", 2, "ended WHO 3"
    ),
    "is killed after its last answer": Row(
        "answer_lines(3); os.kill(os.getpid(), signal.SIGKILL)", 3, "limit 3"
    ),
    "ends in a comment": Row("line(); say(b'# 5 t')", 0, "ended WHO 1"),
    "closes its output at once": Row("os.close(1); rest()", 0, "ended WHO 1"),
    "closes its output, which ends a value": Row(
        "answer_lines(1); line(); say(ANSWER); os.close(1); rest()", 2, "ended WHO 3"
    ),
    # Where its input is closed, the line that is due can't be sent. It comes after the answer.
    "closes its input": Row("line(); os.close(0); say(ANSWER + b'\\n')", 1, "device WHO 2"),
    "closes its input, and says all at once": Row(
        "line(); os.close(0); say((ANSWER + b'\\n') * 3)", 1, "device WHO 2"
    ),
    "closes its input in an answer": Row(
        "answer_lines(1); line(); say(b'\\n'); os.close(0); say(ANSWER + b'\\n')", 2, "device WHO 3"
    ),
    "closes its input before its last answer": Row(
        "answer_lines(2); line(); os.close(0); say(ANSWER + b'\\n')", 3, "limit 3"
    ),
}

# Two sides, a controller and an oracle, how their run ends, and how many lines each of them gets.
Pair = namedtuple("Pair", "controller oracle steps end place lines questions")

CLOSES = "line(); os.close(0); say(ANSWER + b'\\n')"
WRONG = "answer_lines(1); line(); say(b'x ')"
PAIRS = (
    Pair("line()", GOOD, 0, "ended controller 1", None, 1, 0),
    Pair(CLOSES, GOOD, 1, "device controller 2", None, 1, 1),
    Pair(WRONG, GOOD, 1, "malformed controller NotAValue 2", 2, 2, 1),
    Pair(GOOD, "line()", 0, "ended oracle 1", None, 1, 1),
    Pair(GOOD, CLOSES, 1, "device oracle 2", None, 2, 1),
    Pair(GOOD, WRONG, 1, "malformed oracle NotAValue 2", 2, 2, 2),
)

STATUSES = {"limit": 0, "malformed": 7, "ended": 8, "device": 9}


class Sides(Fault):
    def check_end(self, role, found, steps, end, place=None):
        """A run beside a side has so many steps and this end."""
        end = end.replace("WHO", role.who)
        status = STATUSES[end.split()[0]]
        line = end if place is None else f"{end} at {place}"
        self.check(found, status, line if status else "", f"{texts(role, steps)}#end {end}\n")

    def test_runs_beside_a_side(self):
        for name, row in SIDES.items():
            for role in ROLES:
                with self.subTest(f"the {role.who} {name}"):
                    command = self.side(role, row.deeds)
                    found = self.call(*self.words_beside(role, command))
                    self.check_end(role, found, row.steps, row.end, row.place)

    def test_an_input_that_is_closed_before_the_first_line(self):
        # The header waits for room, and the first line comes after it.
        for role in ROLES:
            with self.subTest(role.who):
                told = self.queue(f"{role.who}-closed")
                command = self.side(role, f"os.close(0); tell('{role.who}-closed'); say(ANSWER)")
                found = self.call_when(told, *self.words_beside(role, command))
                self.check_end(role, found, 0, "device WHO 1")

    def call_when(self, told, *words):
        """What comes of a call whose trace has no room before a side has told something."""
        trace, end = os.pipe()
        filled = fill(end)
        call = self.begin(words, {"stdout": end})
        os.close(end)
        self.assertTrue(select.select([told], [], [], SECONDS)[0], "nothing was told")
        with open(trace, "rb") as stream:
            output = stream.read()
        return self.finish(call)._replace(output=text_of(output[filled:]))

    def test_a_side_that_answers_and_takes_no_line(self):
        # Each line has 242 bytes at least. So its pipe is full before all of them are sent.
        names = [f"x{it}" for it in range(22)]
        for role, given in ((CONTROLLER, "y: int"), (ORACLE, "")):
            with self.subTest(role.who):
                values = f"{', '.join(names)}: int [1000000000; 1000000000]"
                self.write("f", f"node n({given}) returns ({values}) = loop true")
                command = self.side(role, "say_for_ever(ANSWER + b' ')")
                found = self.call("run", "f", "-l", "1000000", role.option, command)
                steps = found.output.count("#step ")
                self.assertGreater(steps, 0)
                end = f"device {role.who} {steps + 1}"
                self.assertEqual((found.status, found.errors), (9, f"lurette: {end}\n"))
                self.assertTrue(found.output.endswith(f"{role.replied}\n#end {end}\n"))

    def test_a_side_that_takes_its_lines_late(self):
        if GIVEN.quick:
            self.skipTest("it makes 30,000 steps")
        # They are more than a pipe has room for, and its answers are fewer than 65,536 bytes.
        for role in ROLES:
            with self.subTest(role.who):
                scenario = role.scenario.replace("[0;3]", "[0;1000000]")
                self.write("f", scenario.replace("x = 1", "x = 1000000"))
                command = self.side(role, "say((ANSWER + b' ') * 30000); rest()")
                found = self.call("run", "f", "-l", "30000", role.option, command)
                self.assertEqual((found.status, found.errors), (0, ""))
                self.assertTrue(found.output.endswith("\n#end limit 30000\n"))
                self.assertEqual(self.got(role).count("\n"), 30000)

    def test_the_other_side_has_its_lines(self):
        for pair in PAIRS:
            with self.subTest(pair):
                oracle = self.side(ORACLE, pair.oracle)
                command = self.side(CONTROLLER, pair.controller)
                found = self.call(*self.words_beside(CONTROLLER, command, "--oracle", oracle))
                self.check_end(CONTROLLER, found, pair.steps, pair.end, pair.place)
                got = self.got(CONTROLLER), self.got(ORACLE)
                self.assertEqual(got, ("1\n" * pair.lines, "1 5\n" * pair.questions))


def fill(end):
    """Fills a pipe, and says with how many bytes."""
    os.set_blocking(end, False)
    count = 0
    try:
        while True:
            count += os.write(end, b".")
    except BlockingIOError:
        pass
    os.set_blocking(end, True)
    return count


# -- The trace and standard error ------------------------------------------------------------------


class Outputs(Fault):
    DEAD = "node n() returns (b: bool) = b fby b and not b"
    TRACE = '#seed 0\n#inputs "b":bool\n#outputs\n#step 1\nt #outs\n#end deadlock 2\n'

    def broken_pipe(self):
        """The end of a pipe that nobody reads."""
        reading, writing = os.pipe()
        os.close(reading)
        return self.closed_later(writing)

    def full_device(self):
        if not os.path.exists("/dev/full"):
            self.skipTest("no full device is known")
        return self.closed_later(os.open("/dev/full", os.O_WRONLY))

    def closed_later(self, end):
        self.addCleanup(os.close, end)
        return end

    def ways_to_fail(self, name, number):
        """How a call has a stream that can't be written to."""
        return (
            {name: self.broken_pipe()},
            {name: self.full_device()},
            {"preexec_fn": lambda: os.close(number)},
        )

    def test_a_trace_that_cannot_be_written(self):
        self.write("f", self.DEAD)
        for how in self.ways_to_fail("stdout", 1):
            for words in (("run", "f"), ("print", "f"), ("stress", "0")):
                with self.subTest(words=words, how=how):
                    self.check(self.call(*words, **how), 9, "device trace 0", "")

    def test_a_trace_that_cannot_be_written_beside_sides(self):
        oracle = self.side(ORACLE, GOOD)
        command = self.side(CONTROLLER, GOOD)
        words = self.words_beside(CONTROLLER, command, "--oracle", oracle)
        for end in (self.broken_pipe(), self.full_device()):
            self.check(self.call(*words, stdout=end), 9, "device trace 0", "")
            self.assertEqual((self.got(CONTROLLER), self.got(ORACLE)), ("", ""))

    def test_standard_streams_that_are_closed_beside_sides(self):
        # What is opened gets the least number that is free: else a side would get the trace.
        oracle = self.side(ORACLE, GOOD)
        command = self.side(CONTROLLER, GOOD)
        words = self.words_beside(CONTROLLER, command, "--oracle", oracle)
        whole = (0, "", f"{texts(CONTROLLER, 3)}#end limit 3\n")
        untraced = (9, "device trace 0", "")
        rows = (
            ((0,), *whole, 3),
            ((0, 2), *whole, 3),
            ((1,), *untraced, 0),
            ((0, 1), *untraced, 0),
            ((0, 1, 2), 9, "", "", 0),
        )
        for numbers, status, line, output, steps in rows:
            with self.subTest(numbers=numbers):
                how = {"preexec_fn": lambda numbers=numbers: close_all(numbers)}
                self.check(self.call(*words, **how), status, line, output)
                got = self.got(CONTROLLER), self.got(ORACLE)
                self.assertEqual(got, ("1\n" * steps, "1 5\n" * steps))

    def test_a_trace_whose_reader_goes_away(self):
        # The side answers once the reader has gone, and the step is written after that.
        for role in ROLES:
            with self.subTest(role.who):
                gone = self.queue(f"{role.who}-gone")
                deeds = f"line(); wait_for('{role.who}-gone'); say(ANSWER + b' '); rest()"
                command = self.side(role, deeds)
                trace, end = os.pipe()
                call = self.begin(self.words_beside(role, command), {"stdout": end})
                os.close(end)
                header = texts(role, 0).encode()
                with open(trace, "rb") as stream:
                    self.assertEqual(stream.read(len(header)), header)
                os.write(gone, b"\n")
                self.check(self.finish(call), 9, "device trace 1", "")
                self.assertEqual(self.got(role), "1\n")

    def test_a_trace_that_may_only_grow_so_long(self):
        # The header has 34 bytes, the step 16, and the end line the rest.
        self.write("f", self.DEAD)
        for most in range(len(self.TRACE) + 1):
            number = sum(most >= it for it in (34, 50))
            whole = most == len(self.TRACE)
            end = (4, "deadlock 2") if whole else (9, f"device trace {number}")
            with self.subTest(most=most):
                with open(self.path("trace"), "w+", encoding="utf-8") as trace:
                    how = {"stdout": trace, "preexec_fn": lambda most=most: grow_to(most)}
                    found = self.call("run", "f", **how)
                    trace.seek(0)
                    self.check(found._replace(output=trace.read()), *end, self.TRACE[:most])

    def steady(self):
        """The words of a run that waits for nobody, and its trace."""
        self.write("f", "node n() returns (b: bool) = loop { b fby not b }")
        words = ("run", "f", "-l", "9999")
        return words, self.call(*words).output

    def step_at_hand(self, text):
        """0 in the header, of three lines, and else 1 more than the whole steps, of two lines each."""
        lines = text.count("\n")
        return 0 if lines < 3 else (lines - 3) // 2 + 1

    def test_steps_that_are_written_together(self):
        # Many steps are one write. The number is that of the first one that isn't there whole.
        words, whole = self.steady()
        for most in (33, 34, 35, 50, 51, 65_569, 65_570, 65_571, 131_000, len(whole) - 1):
            with self.subTest(most=most):
                with open(self.path("trace"), "w+", encoding="utf-8") as trace:
                    how = {"stdout": trace, "preexec_fn": lambda most=most: grow_to(most)}
                    found = self.call(*words, **how)
                    trace.seek(0)
                    line = f"device trace {self.step_at_hand(whole[:most])}"
                    self.check(found._replace(output=trace.read()), 9, line, whole[:most])

    def test_a_reader_that_goes_away_where_nobody_is_waited_for(self):
        words, whole = self.steady()
        for most in (0, 1, 100, 70_000):
            with self.subTest(most=most):
                trace, end = os.pipe()
                call = self.begin(words, {"stdout": end})
                os.close(end)
                with open(trace, "rb", buffering=0) as stream:
                    text = piece = stream.read(most)
                    while piece and len(text) < most:
                        piece = stream.read(most - len(text))
                        text += piece
                found = self.finish(call)
                self.assertEqual(text.decode(), whole[:most])
                head, number = found.errors.rsplit(" ", 1)
                self.assertEqual((found.status, head), (9, "lurette: device trace"))
                self.assertGreaterEqual(int(number), self.step_at_hand(whole[:most]))

    def test_each_step_is_there_while_a_side_is_waited_for(self):
        # The side answers its second line once the first step was read.
        for role in ROLES:
            with self.subTest(role.who):
                seen = self.queue(f"{role.who}-seen")
                waits = f"line(); wait_for('{role.who}-seen'); say(ANSWER + b' ')"
                command = self.side(role, f"answer_lines(1); {waits}; answer_lines(9)")
                trace, end = os.pipe()
                call = self.begin(self.words_beside(role, command), {"stdout": end})
                os.close(end)
                due = texts(role, 1).encode()
                with open(trace, "rb") as stream:
                    self.assertEqual(stream.read(len(due)), due)
                    os.write(seen, b"\n")
                    rest = stream.read().decode()
                self.check(self.finish(call), 0, "", "")
                self.assertEqual(due.decode() + rest, texts(role, 3) + "#end limit 3\n")

    def test_standard_error_that_cannot_be_written(self):
        self.write("f", self.DEAD)
        rows = (
            (("run", "f"), 4, self.TRACE),
            (("run", "none"), 9, ""),
            (("run", "f", "--node", "m"), 3, ""),
            (("run",), 2, ""),
            (("run", "f", "-l", "0"), 0, self.TRACE[:34] + "#end limit 0\n"),
        )
        for how in self.ways_to_fail("stderr", 2):
            for words, status, output in rows:
                with self.subTest(words=words, how=how):
                    self.check(self.call(*words, **how), status, "", output)

    def test_standard_error_that_cannot_be_written_beside_sides(self):
        for role in ROLES:
            command = self.side(role, "line()")
            for how in self.ways_to_fail("stderr", 2):
                with self.subTest(role.who, how=how):
                    found = self.call(*self.words_beside(role, command), **how)
                    end = f"#end ended {role.who} 1\n"
                    self.check(found, 8, "", texts(role, 0) + end)
                    self.assertEqual(self.got(role), "1\n")

    def test_all_that_can_be_written_fails(self):
        self.write("f", self.DEAD)
        ends = {"stdout": self.full_device(), "stderr": self.full_device()}
        self.check(self.call("run", "f", **ends), 9, "", "")


def close_all(numbers):
    for number in numbers:
        os.close(number)


def grow_to(most):
    """Lets files grow to so many bytes. Writing more fails, and raises no signal."""
    signal.signal(signal.SIGXFSZ, signal.SIG_IGN)
    resource.setrlimit(resource.RLIMIT_FSIZE, (most, most))


if __name__ == "__main__":
    GIVEN = check_docs.given(sys.argv[1:])
    unittest.main(argv=["test_faults.py", "--quiet"])
