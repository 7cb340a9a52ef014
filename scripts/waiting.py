"""Whether a run of lurette waits long for one of its sides, by what the system tells of it."""

import os
import time

SECONDS, PAUSE = 5, 0.5

# The number of the system's call that reads, on x86-64.
READS = "0"

HINT = "it may not flush its answer: fflush(stdout) in C, flush=True in Python, or stdbuf -oL CMD"


def content(path):
    """The text of a file of the system, or an empty one where it tells nothing."""
    try:
        with open(path, encoding="utf-8", errors="replace") as file:
            return file.read()
    except OSError:
        return ""


def link(process, number):
    try:
        return os.readlink(f"/proc/{process}/fd/{number}")
    except OSError:
        return None


def side_read(process):
    """Which child a process reads from at this moment, by its place among the children; or None."""
    call = content(f"/proc/{process}/syscall").split()
    if call[:1] != [READS]:
        return None
    pipe = link(process, int(call[1], 16))
    children = content(f"/proc/{process}/task/{process}/children").split()
    return next((at for at, it in enumerate(children) if pipe and link(it, 1) == pipe), None)


def calls_so_far(process):
    """How often a process has read and written."""
    lines = content(f"/proc/{process}/io").splitlines()
    return [it for it in lines if it.startswith("sysc")]


class Waiting:
    """Looks at a process again and again, and tells once that it waits, and since when."""

    def __init__(self, process, sides, now=time.time):
        self.process, self.sides, self.now = process, sides, now
        self.seen, self.since = None, now()

    def line(self):
        """What is to be said at this moment, or None."""
        at = side_read(self.process)
        seen = None if at is None else (at, calls_so_far(self.process))
        if seen is None or seen != self.seen:
            self.seen, self.since = seen, self.now()
            return None
        if self.now() - self.since < SECONDS or at >= len(self.sides):
            return None
        clock = time.strftime("%H:%M:%S", time.localtime(self.since))
        return f"lurette: waiting for the {self.sides[at]} since {clock}: {HINT}"


def tell_once(run, sides, say):
    """Looks at a process until it has ended, or until it was said that it waits."""
    waiting, line = Waiting(run.pid, sides), None
    while line is None and run.poll() is None:
        time.sleep(PAUSE)
        line = waiting.line()
    if line:
        say(line)
