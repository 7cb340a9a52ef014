"""Calls of the programs, and what comes of them."""

import ctypes
import os
import resource
import subprocess
import tempfile
from collections import namedtuple

TOP = os.path.dirname(os.path.dirname(os.path.abspath(__file__)))
# How long a call is waited for: one that should end at once, and one on a machine that may be busy.
SECONDS, PATIENCE = 10, 120

# The number that has `prctl` hand a process the orphans of those below it.
SUBREAPER = 36

# What comes of a call. The status is None where the call hadn't ended. `seconds` are those of the
# processor.
Outcome = namedtuple("Outcome", "status output errors seconds")


def built(name):
    """Where `rt ci` leaves a program in the checkout."""
    return os.path.join(TOP, "crates", name, "out", name)


def seconds_so_far():
    used = resource.getrusage(resource.RUSAGE_CHILDREN)
    return used.ru_utime + used.ru_stime


def outcome_of(program, *words, memory=None, seconds=SECONDS):
    """What comes of a call of a program, which may take so many bytes of memory where a number
    says so, and is waited for so long."""
    how = {"stdin": subprocess.DEVNULL, "stdout": subprocess.PIPE, "stderr": subprocess.PIPE}
    if memory is not None:
        how["preexec_fn"] = lambda: resource.setrlimit(resource.RLIMIT_AS, (memory, memory))
    before = seconds_so_far()
    try:
        run = subprocess.run([program, *words], timeout=seconds, check=False, **how)
    except subprocess.TimeoutExpired:
        return Outcome(None, b"", b"", seconds)
    return Outcome(run.returncode, run.stdout, run.stderr, seconds_so_far() - before)


def outcome(program, text, *words, **how):
    """What comes of such a call with a text as its file."""
    with tempfile.NamedTemporaryFile(prefix="lurette-") as file:
        file.write(text)
        file.flush()
        return outcome_of(program, *words, file.name, **how)


def memory_of(program, text, *words):
    """The most bytes of memory that a call with a text as its file takes.

    The system counts to a program what was there of the process that started it. So a shell does,
    which is small. It ends first, and then the call is this process's to wait for.
    """
    ctypes.CDLL(None).prctl(SUBREAPER, 1, 0, 0, 0)
    script = 'exec 3<&0; { read go && exec "$@" </dev/null 3<&-; } <&3 >/dev/null 2>&1 & echo $!'
    with tempfile.NamedTemporaryFile(prefix="lurette-") as file:
        file.write(text)
        file.flush()
        starts = ["sh", "-c", script, "sh", program, *words, file.name]
        pipes = {"stdin": subprocess.PIPE, "stdout": subprocess.PIPE}
        with subprocess.Popen(starts, **pipes) as shell:
            number = int(shell.stdout.readline())
            shell.wait()
            shell.stdin.write(b"go\n")
        _, _, used = os.wait4(number, 0)
    return used.ru_maxrss << 10
