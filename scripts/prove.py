"""Proves a program and all below it, and builds it, by `rt ci` on a copy of these crates alone.

    python3 scripts/prove.py NAME TO

The proved program is put into the file TO. `rt ci` works on as many crates at once as processors
and memory allow, those first on which the most others wait. Where the kit keeps what was proved,
it takes what an earlier `rt ci` on this machine proved of the same text, and keeps what it proves
here for later ones. The copy has no wrong bodies: those are for the gate.
"""

import os
import queue
import re
import shutil
import signal
import subprocess
import sys
import tempfile
import threading
import time

TOP = os.path.dirname(os.path.dirname(os.path.abspath(__file__)))
NO_PROGRAM = 125

# What `rt ci` says where a crate is done.
DONE = re.compile(r"rt: (\w+) (proved$|is kept)")


def say(name, line):
    print(f"{name}: {line}", file=sys.stderr, flush=True)


def listed(text):
    """The crates that a text of crates.txt lists, each with the names that it stands on."""
    lines = [line.partition("#")[0] for line in text.splitlines()]
    pairs = [line.partition(":") for line in lines if ":" in line]
    return {head.split()[0]: rest.split() for head, _, rest in pairs}


def with_those_below(name, crates):
    """The crates that a crate stands on, lowest first, and the crate itself."""
    found = []

    def visit(name):
        for below in crates.get(name, []):
            visit(below)
        if name in crates and name not in found:
            found.append(name)

    visit(name)
    return found


def copy_crates(names, top, to):
    """Copies some crates, their lines of crates.txt and HANDLES, as a repository of their own."""
    for name in names:
        crate, leave = os.path.join("crates", name), shutil.ignore_patterns("out", "must-fail")
        shutil.copytree(os.path.join(top, crate), os.path.join(to, crate), ignore=leave)
    with open(os.path.join(top, "crates.txt"), encoding="utf-8") as file:
        lines = [it for it in file if set(listed(it)) & set(names)]
    with open(os.path.join(to, "crates.txt"), "w", encoding="utf-8") as file:
        file.writelines(lines)
    if os.path.isfile(os.path.join(top, "HANDLES")):
        shutil.copyfile(os.path.join(top, "HANDLES"), os.path.join(to, "HANDLES"))
    os.mkdir(os.path.join(to, ".git"))


def size_of(crate):
    """How many bytes of text the proof of a crate reads, by which its part of the time is told."""
    found = 0
    for at, _, names in os.walk(crate):
        texts = [it for it in names if it.endswith((".rt", ".antt"))]
        found += sum(os.path.getsize(os.path.join(at, it)) for it in texts)
    return found


class Progress:
    """How far a proof is: which crates are done, and how long the others are likely to take."""

    def __init__(self, name, sizes, now=time.monotonic, out=sys.stderr):
        self.name, self.sizes, self.now, self.out = name, sizes, now, out
        self.began, self.done, self.proved, self.told = now(), set(), 0, ""

    def take(self, line):
        """Takes a line of `rt ci`."""
        found = DONE.match(line)
        if found and found[1] in self.sizes and found[1] not in self.done:
            self.done.add(found[1])
            if found[2] == "proved":
                self.proved += self.sizes[found[1]]
            return True
        return False

    def minutes_left(self):
        """How many minutes are left at the pace so far, or None where nothing was proved yet."""
        left = sum(size for name, size in self.sizes.items() if name not in self.done)
        gone = self.now() - self.began
        return max(round(left * gone / self.proved / 60), 1) if self.proved else None

    def line(self):
        left = self.minutes_left()
        gone = int(self.now() - self.began) // 60
        about = f", about {left} min left" if left and len(self.done) < len(self.sizes) else ""
        return f"{len(self.done)} of {len(self.sizes)} crates proved, {gone} min gone{about}"

    def tell(self, has_news):
        """Says how far the proof is: on a terminal in one line, and else where there is news."""
        line = f"{self.name}: {self.line()}"
        if self.out.isatty():
            if line != self.told:
                self.out.write(f"\r\033[K{line}")
        elif has_news:
            self.out.write(line + "\n")
        self.told = line
        self.out.flush()

    def end(self):
        if self.out.isatty():
            self.out.write("\n")


def proves(room, progress):
    """Runs `rt ci` in a folder, and returns whether all passed. Its lines are said where not."""
    run = subprocess.Popen(
        ["rt", "ci"],
        cwd=room,
        stdin=subprocess.DEVNULL,
        stdout=subprocess.PIPE,
        stderr=subprocess.STDOUT,
        start_new_session=True,
        text=True,
        errors="replace",
    )
    for number in (signal.SIGINT, signal.SIGTERM, signal.SIGHUP):
        signal.signal(number, lambda told, _: stop(run, told))
    lines = []
    for line in lines_or_none(run.stdout, 5):
        lines.append(line or "")
        progress.tell(progress.take(line or ""))
    progress.end()
    if run.wait():
        sys.stderr.writelines(lines)
    return run.returncode == 0


def lines_or_none(stream, seconds):
    """The lines of a stream, and None where so many seconds pass without one."""
    waiting = queue.Queue()

    def read():
        for line in stream:
            waiting.put(line)
        waiting.put("")

    threading.Thread(target=read, daemon=True).start()
    while True:
        try:
            line = waiting.get(timeout=seconds)
        except queue.Empty:
            line = None
        if line == "":
            return
        yield line


def stop(run, number):
    """Stops `rt ci` and all that it started, and ends."""
    os.killpg(run.pid, signal.SIGTERM)
    run.wait()
    sys.exit(128 + number)


def main(name, to):
    with open(os.path.join(TOP, "crates.txt"), encoding="utf-8") as file:
        names = with_those_below(name, listed(file.read()))
    with tempfile.TemporaryDirectory(prefix="lurette-proof-") as room:
        copy_crates(names, TOP, room)
        sizes = {it: size_of(os.path.join(room, "crates", it)) for it in names}
        if not proves(room, Progress(name, sizes)):
            say(name, "not all is proved, so there is no program to run")
            return NO_PROGRAM
        os.makedirs(os.path.dirname(to), exist_ok=True)
        shutil.copyfile(os.path.join(room, "crates", name, "out", name), to)
        os.chmod(to, 0o755)
    return 0


if __name__ == "__main__":
    sys.exit(main(*sys.argv[1:]))
