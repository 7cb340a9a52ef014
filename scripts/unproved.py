"""Builds a program of the source as it stands, with no proof, and keeps it.

    python3 scripts/unproved.py NAME TO

The program is put into the file TO. `rt try` alone builds one without a proof: it runs it at once
and removes it when it has ended. So it is given a call that doesn't end for some seconds, and while
that runs its file is there and is copied. The program runs with the checks of `rt try`: it stops at
an overflow or a bad access. It stands alone, and no limit of `rt try` bounds its later runs.
"""

import os
import shutil
import signal
import subprocess
import sys
import tempfile
import time

TOP = os.path.dirname(os.path.dirname(os.path.abspath(__file__)))
NO_PROGRAM = 125
BLANKS = " \t\r\n"

# How often it is looked for the program. A look goes through all processes of the machine.
PAUSE = 0.2

# A scenario that waits for its controller, and a controller that waits.
SCENARIO = b"node n(a: bool) returns (b: bool) = b"
WAITS = "sleep 60"

# What a plant replies to for some seconds: `rt try` hands no more than 64 MiB to a program.
LINES = (b"1" * 4000 + b"\n") * 12_000


def room_without_blanks():
    """A new folder for programs, whose path can stand in a command, which is split at blanks."""
    parent = tempfile.gettempdir()
    parent = "/tmp" if any(it in parent for it in BLANKS) else parent
    return tempfile.TemporaryDirectory(prefix="lurette-", dir=parent)


def long_call(name, room):
    """The words of a call that doesn't end at once, and the file that is its standard input."""
    given = os.path.join(room, "given")
    with open(given, "wb") as file:
        file.write(SCENARIO if name == "lurette" else LINES)
    if name != "lurette":
        return ["constant", "1"], given
    first, *rest = WAITS.split()
    return ["run", given, "--sut", " ".join([shutil.which(first) or first, *rest])], os.devnull


def words_of_processes():
    """The words with which each process that runs was started."""
    for number in filter(str.isdigit, os.listdir("/proc")):
        try:
            with open(f"/proc/{number}/cmdline", "rb") as file:
                yield os.fsdecode(file.read()).split("\0")[:-1]
        except OSError:
            continue


def running_program(room, call):
    """The file of the program that runs this call out of a folder, or None where none runs."""
    for words in words_of_processes():
        before, behind = words[: -len(call)], words[-len(call) :]
        if behind == call and before and before[-1].startswith(room + os.sep):
            return before[-1]
    return None


def is_kept(program, to):
    """Copies a program that runs, under a name of its own first, so that no half of it is there."""
    own = f"{to}.{os.getpid()}"
    try:
        shutil.copyfile(program, own)
        os.chmod(own, 0o755)
        os.replace(own, to)
    except FileNotFoundError:
        return False
    finally:
        if os.path.exists(own):
            os.remove(own)
    return True


def stop(run):
    """Stops `rt try` and all that it started. It removes its folder."""
    if run.poll() is None:
        os.killpg(run.pid, signal.SIGTERM)
    run.wait()


def build(name, to, room):
    """Whether the program was built and kept. What `rt try` said stands in the folder if not."""
    call, given = long_call(name, room)
    built = os.path.join(room, "built")
    os.mkdir(built)
    with open(given, "rb") as stdin, open(os.path.join(room, "said"), "wb") as said:
        # In a session of its own, so that all of it can be stopped.
        run = subprocess.Popen(
            ["rt", "try", "--steps", "1", "--", *call],
            cwd=os.path.join(TOP, "crates", name),
            env={**os.environ, "TMPDIR": built},
            stdin=stdin,
            stdout=subprocess.DEVNULL,
            stderr=said,
            start_new_session=True,
        )
    try:
        while run.poll() is None:
            program = running_program(built, call)
            if program and is_kept(program, to):
                return True
            time.sleep(PAUSE)
    finally:
        stop(run)
    return False


def end_by(number, _):
    sys.exit(128 + number)


def main(name, to):
    for number in (signal.SIGINT, signal.SIGTERM, signal.SIGHUP):
        signal.signal(number, end_by)
    os.makedirs(os.path.dirname(os.path.abspath(to)), exist_ok=True)
    with room_without_blanks() as room:
        if build(name, to, room):
            return 0
        with open(os.path.join(room, "said"), "rb") as file:
            shutil.copyfileobj(file, sys.stderr.buffer)
    print(f"{name}: the program can't be built, so there is none to run", file=sys.stderr)
    return NO_PROGRAM


if __name__ == "__main__":
    sys.exit(main(*sys.argv[1:]))
