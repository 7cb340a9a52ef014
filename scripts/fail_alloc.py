"""Has each allocation of a call fail in turn, and judges what comes of each.

    python3 scripts/fail_alloc.py [--kept FOLDER] [--jobs N] [--later] [--list] [WORD ..]

Where memory runs out a call ends with the status 11 and its line, and nothing was written or sent
before. So each call of `memory_calls.py` is made once for each of its allocations, which fails, and
must end so, or as it does where none fails. For each call a line says how many allocations it has,
how many of them end it, and which of them make no difference. A finding is any other end, a fault
or a call that hangs: it is told with the number of its allocation. A call that is told how many
steps it makes is also made for ten times as many: a finding is that it has more allocations then.

Nothing is proved of the program: `rt try` builds it of the source as it stands, with checks that
stop it at an overflow or a bad access. That takes some minutes, and once is enough: the number of
the allocation that is to fail is written into a copy of it before each call. With --kept it is kept
in a folder, and a later call takes it from there, whatever the source is then. Words choose the
calls whose names have one of them. With --later all allocations behind the one that fails fail too.
With --list no call is made, and their names are printed.
"""

import argparse
import os
import shutil
import signal
import struct
import subprocess
import sys
from collections import namedtuple
from concurrent.futures import ThreadPoolExecutor

import memory_calls
import unproved
from calls import TOP

SECONDS = 60
OUT_OF_MEMORY = (11, b"", b"lurette: memory\n")

# What came of a call: its status, or None where it hadn't ended; what it wrote; and what its sides
# were sent.
Outcome = namedtuple("Outcome", "status output errors sent")

# -- The program -----------------------------------------------------------------------------------

# The allocation that fails in the program as it is built: no call has so many.
NONE = 0x112210F47DE98115
MARK = struct.pack("<Q", NONE)

# Behind the comparison with the mark comes what answers that memory ran out. It begins with an
# instruction in whose place one may stand that ends the program.
ANSWERS, STOPS = b"\x31\xc0", b"\x0f\x0b"

# Right before it stands a jump past it, for all allocations but that one. In its place one may stand
# for those before it, so that all later ones fail too. It has a byte more.
BUT_ONE, BEFORE = b"\x75", b"\x72"
TO_ANSWER = len(BUT_ONE) + 1

# A controller that keeps the program which has started it, and the words that did, in its own
# folder. The program is the last of these words before those of its call.
KEEPER = """#!/bin/sh
PATH=/usr/bin:/bin
cd "${0%/*}"
tr '\\0' '\\n' <"/proc/$PPID/cmdline" | sed '/^run$/,$d' >start
cp "$(tail -n 1 start)" program
"""


class NoProgram(Exception):
    """Why there is no program to call."""


def build(kept):
    """Has `rt try` build the program, and keeps it in a folder, with the words that start it."""
    with unproved.room_without_blanks() as room:
        keeper, scenario = os.path.join(room, "keeper"), os.path.join(room, "scenario")
        write(keeper, KEEPER.encode())
        write(scenario, b"node n(a: bool) returns (b: bool) = b")
        call = ["run", scenario, "--sut", keeper]
        words = ["rt", "try", "--steps", "1", "--fail-alloc", str(NONE), "--", *call]
        how = {"stdin": subprocess.DEVNULL, "stdout": subprocess.PIPE, "stderr": subprocess.STDOUT}
        crate = os.path.join(TOP, "crates", "lurette")
        said = subprocess.run(words, cwd=crate, check=False, **how).stdout
        if not os.path.exists(os.path.join(room, "program")):
            raise NoProgram(said.decode(errors="replace"))
        os.makedirs(kept, exist_ok=True)
        for name in ("start", "program"):
            shutil.copy(os.path.join(room, name), kept)


def write(path, content):
    with open(path, "wb") as file:
        file.write(content)
    os.chmod(path, 0o700)


def marks_of(program):
    """Where the number of the allocation that fails stands in a program: where memory is taken, and
    where a piece of it grows."""
    places, place = [], program.find(MARK)
    while place >= 0:
        places.append(place)
        place = program.find(MARK, place + 1)
    if len(places) != 2:
        raise NoProgram(f"the number of an allocation stands {len(places)} times in the program")
    return places


def answers_of(program, marks):
    """Where it begins to answer that memory ran out, behind each mark."""
    found = [program.find(ANSWERS, mark + len(MARK), mark + 2 * len(MARK)) for mark in marks]
    if any(it < 0 or program[it - TO_ANSWER : it - 1] != BUT_ONE for it in found):
        raise NoProgram("where the program answers that memory ran out isn't found")
    return found


class Program:
    """A copy of the program, in a folder of its own where it is called. The jump says which
    allocations fail."""

    def __init__(self, kept, folder, jump):
        self.folder, self.path, self.jump = folder, os.path.join(folder, "program"), jump
        shutil.copy(os.path.join(kept, "program"), self.path)
        with open(self.path, "rb") as file:
            content = file.read()
        self.marks = marks_of(content)
        self.answers = answers_of(content, self.marks)
        with open(os.path.join(kept, "start"), encoding="utf-8") as file:
            self.start = [*file.read().splitlines()[:-1], self.path]

    def change(self, number, answer):
        """Has the allocation of this number be answered in this way."""
        with open(self.path, "r+b") as file:
            for mark, begin in zip(self.marks, self.answers):
                os.pwrite(file.fileno(), struct.pack("<Q", number), mark)
                os.pwrite(file.fileno(), self.jump, begin - TO_ANSWER)
                os.pwrite(file.fileno(), answer, begin)

    def outcome(self, words, number=NONE, answer=ANSWERS):
        """What comes of a call whose allocation of this number fails."""
        self.change(number, answer)
        for name in memory_calls.KEPT:
            remove(os.path.join(self.folder, name))
        pipes = {it: subprocess.PIPE for it in ("stdout", "stderr")}
        how = {"cwd": self.folder, "env": {}, "stdin": subprocess.DEVNULL, **pipes}
        run = subprocess.Popen([*self.start, *words], start_new_session=True, **how)
        try:
            output, errors = run.communicate(timeout=SECONDS)
        except subprocess.TimeoutExpired:
            os.killpg(run.pid, signal.SIGKILL)
            return Outcome(None, *run.communicate(), self.sent())
        return Outcome(run.returncode, output, errors, self.sent())

    def sent(self):
        return tuple(content_of(os.path.join(self.folder, it)) for it in memory_calls.KEPT)

    def stops_at(self, words, number):
        """Whether a call has an allocation of this number."""
        return self.outcome(words, number, STOPS).status in (-signal.SIGILL, -signal.SIGABRT)

    def prepare(self, call):
        """Writes the files of a call."""
        for name in (*memory_calls.FILES, "f", "g", "earlier"):
            remove(os.path.join(self.folder, name))
        for name, text in {**memory_calls.FILES, **call.files}.items():
            write(os.path.join(self.folder, name), text.encode())
        if call.earlier:
            write(os.path.join(self.folder, "earlier"), self.outcome(call.earlier).output)


def remove(path):
    if os.path.exists(path):
        os.remove(path)


def content_of(path):
    """What stands in a file; nothing where there is none."""
    if not os.path.exists(path):
        return b""
    with open(path, "rb") as file:
        return file.read()


# -- What may come of a call -----------------------------------------------------------------------


def last_that(holds):
    """The last number for which something holds that holds up to there, from 1; or 0."""
    low, high = 0, 1
    while holds(high):
        low, high = high, 2 * high
    while high - low > 1:
        middle = (low + high) // 2
        low, high = (middle, high) if holds(middle) else (low, middle)
    return low


def fault_of(found, usual):
    """What is wrong with the outcome of a call in which an allocation failed, beside the outcome
    where none does. None where nothing is."""
    if found == usual:
        return None
    if found.status is None:
        return f"had not ended after {SECONDS} seconds"
    if found.status < 0:
        return f"was ended by the signal {-found.status}: {found.errors[-400:]!r}"
    if found.status != OUT_OF_MEMORY[0]:
        return f"ended with the status {found.status}, {found.errors!r} and {found.output!r}"
    if found[:3] != OUT_OF_MEMORY:
        return f"has with the status 11 {found.errors!r} and wrote {found.output!r}"
    if any(found.sent):
        return f"has with the status 11 sent {found.sent!r}"
    return None


def longer(words):
    """The words of a call for ten times as many steps; none where it isn't told how many."""
    if "-l" not in words:
        return None
    at = words.index("-l") + 1
    return [*words[:at], f"{words[at]}0", *words[at + 1 :]]


def spans(numbers):
    """Numbers that rise, in short: 1, 2, 3 and 7 are `1-3 7`."""
    found = []
    for number in numbers:
        if found and found[-1][1] == number - 1:
            found[-1][1] = number
        else:
            found.append([number, number])
    return " ".join(f"{low}-{high}" if low < high else f"{low}" for low, high in found)


# -- Calls -----------------------------------------------------------------------------------------


def report(call, outcomes, usual):
    """Says what came of a call's allocations, and returns how many findings there are."""
    faults = [fault_of(it, usual) for it in outcomes]
    for number, fault in enumerate(faults, 1):
        if fault:
            print(f"{call.name} {number}: {fault}", flush=True)
    same = [number for number, it in enumerate(outcomes, 1) if it == usual]
    findings = sum(it is not None for it in faults)
    ended = len(outcomes) - len(same) - findings
    where = f" ({spans(same)})" if same else ""
    print(
        f"{call.name}: status {usual.status}, {len(outcomes)} allocations, {ended} end with 11,"
        f" {len(same)} make no difference{where}, {findings} findings",
        flush=True,
    )
    return findings


def try_steps(call, program, count):
    """Makes a call with so many allocations for more steps, and returns how many findings come."""
    words = longer(call.words)
    if words is None or program.outcome(words).status != call.status:
        return 0
    found = last_that(lambda number: program.stops_at(words, number))
    if found != count:
        print(f"{call.name}: for ten times as many steps it has {found} allocations", flush=True)
    return int(found != count)


def try_call(call, programs, pool):
    """Makes a call for each of its allocations, and returns how many findings there are."""
    for it in programs:
        it.prepare(call)
    usual = programs[0].outcome(call.words)
    if usual.status != call.status:
        print(f"{call.name}: ends with {usual}", flush=True)
        return 1
    count = last_that(lambda number: programs[0].stops_at(call.words, number))
    findings = try_steps(call, programs[0], count)
    part = lambda first: [
        programs[first].outcome(call.words, number)
        for number in range(first + 1, count + 1, len(programs))
    ]
    outcomes = [None] * count
    for first, found in enumerate(pool.map(part, range(len(programs)))):
        outcomes[first :: len(programs)] = found
    return findings + report(call, outcomes, usual)


def try_calls(kept, chosen, jobs, jump):
    """Tries calls with a program that is kept, and returns how many findings there are."""
    with unproved.room_without_blanks() as room, ThreadPoolExecutor(jobs) as pool:
        programs = []
        for number in range(jobs):
            folder = os.path.join(room, str(number))
            os.mkdir(folder)
            programs.append(Program(kept, folder, jump))
        return sum(try_call(call, programs, pool) for call in chosen)


def main(words):
    parser = argparse.ArgumentParser(prog="fail_alloc.py")
    parser.add_argument("words", nargs="*")
    parser.add_argument("--kept")
    parser.add_argument("--jobs", type=int, default=1)
    parser.add_argument("--later", action="store_true")
    parser.add_argument("--list", action="store_true")
    given = parser.parse_args(words)
    is_chosen = lambda name: not given.words or any(it in name for it in given.words)
    chosen = [it for it in memory_calls.CALLS if is_chosen(it.name)]
    if given.list:
        print("\n".join(it.name for it in chosen))
        return 0
    with unproved.room_without_blanks() as room:
        kept = os.path.abspath(given.kept or room)
        try:
            if not os.path.exists(os.path.join(kept, "program")):
                build(kept)
            findings = try_calls(kept, chosen, given.jobs, BEFORE if given.later else BUT_ONE)
        except NoProgram as why:
            print(f"fail_alloc: {why}", file=sys.stderr)
            return 2
    print(f"fail_alloc: {len(chosen)} calls, {findings} findings")
    return 1 if findings else 0


if __name__ == "__main__":
    sys.exit(main(sys.argv[1:]))
