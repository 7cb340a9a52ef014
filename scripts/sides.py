"""Plays lines to a controller and an oracle, one after another, as a run of lurette does.

docs/COMMAND.md has the protocol, and docs/TRACE.md the form of replies.
"""

import os
import re
import select
import subprocess
import time
from collections import namedtuple
from fractions import Fraction

import traces

# What a value of a reply may be: its kind, and the ends of its range as raw numbers.
Slot = namedtuple("Slot", "kind low high")
VERDICT = Slot("bool", 0, 1)

# What came of lines: the answers, each as words of a trace; why the line after the last good one
# failed, as an end line says it, or None; and the number of that line.
Played = namedtuple("Played", "answers why number")

BLANKS, LINE_FEED = frozenset(b" \t\r\n"), 10
# The most bytes of a reply, what is sent at once, and the greatest raw number.
MOST, PIECE, BOUND = 65_536, 4_096, 10**12

TRUTHS = {**dict.fromkeys(("f", "F", "false", "0"), 0), **dict.fromkeys(("t", "T", "true", "1"), 1)}
FORMS = {
    "int": re.compile(r"[+-]?[0-9]{1,18}"),
    "real": re.compile(
        r"[+-]?(?=\.?[0-9])[0-9]{0,18}(\.[0-9]{0,18})?([eE][+-]?[0-9]{1,3})?"
    ),
}

# How long a program may take to end by itself once its input has ended.
SECONDS_TO_END = 1


class Failed(Exception):
    """How a side failed, as an end line says it but for the side's name."""


class TooLate(Exception):
    """That a side hadn't answered when the time was over."""


def raw_of(slot, word, decimals):
    """The raw number that a word of a reply says."""
    if slot.kind == "bool":
        if word not in TRUTHS:
            raise Failed("malformed", "NotAValue")
        return TRUTHS[word]
    if not FORMS[slot.kind].fullmatch(word):
        raise Failed("malformed", "NotAValue")
    raw = traces.rounded(Fraction(word), decimals if slot.kind == "real" else 0)
    if abs(raw) > BOUND or not slot.low <= raw <= slot.high:
        raise Failed("malformed", "OutOfRange")
    return raw


class Replies:
    """The replies that a program writes into a pipe, read as far as each of them goes."""

    def __init__(self, read):
        # A function that waits for bytes, and gives none once the pipe has ended.
        self.read = read
        self.bytes, self.taken = iter(()), 0

    def byte(self):
        """The next byte, or None where the pipe has ended."""
        if self.taken == MOST:
            raise Failed("malformed", "TooLong")
        found = next(self.bytes, None)
        if found is None:
            self.bytes = iter(self.read())
            found = next(self.bytes, None)
        self.taken += 1
        return found

    def word(self):
        """The next word that is neither a comment nor a mark."""
        byte = self.byte()
        while True:
            while byte in BLANKS:
                byte = self.byte()
            if byte is None:
                raise Failed("ended")
            word = bytearray()
            while byte is not None and byte not in BLANKS:
                word.append(byte)
                byte = self.byte()
            is_comment = word.startswith((b"--", b"#")) and word != b"#outs"
            while is_comment and byte not in (None, LINE_FEED):
                byte = self.byte()
            if not is_comment and word != b"#outs":
                return word.decode("latin-1")

    def reply(self, slots, decimals):
        """The raw numbers of the next reply."""
        self.taken = 0
        return [raw_of(slot, self.word(), decimals) for slot in slots]


class Side:
    """A program that was started, and answers lines."""

    def __init__(self, command, children, until):
        pipes = {"stdin": subprocess.PIPE, "stdout": subprocess.PIPE, "stderr": subprocess.DEVNULL}
        self.run = children.start(command.split(), bufsize=0, **pipes)
        self.children, self.until, self.replies = children, until, Replies(self.read)

    def wait(self, *pipes):
        """Waits until one of the pipes to read from, or to write to, can be used."""
        left = None if self.until is None else max(0, self.until - time.monotonic())
        if not any(select.select(*pipes, [], left)):
            raise TooLate

    def read(self):
        self.wait([self.run.stdout], [])
        return os.read(self.run.stdout.fileno(), MOST)

    def tell(self, words):
        """Sends a line. A program that takes none any more ended without an answer to it."""
        line = " ".join(words).encode() + b"\n"
        for at in range(0, len(line), PIECE):
            self.wait([], [self.run.stdin])
            try:
                os.write(self.run.stdin.fileno(), line[at : at + PIECE])
            except BrokenPipeError:
                raise Failed("ended") from None

    def end(self):
        self.run.stdin.close()
        left = SECONDS_TO_END if self.until is None else self.until - time.monotonic()
        self.children.end(self.run, max(0, min(SECONDS_TO_END, left)))
        self.run.stdout.close()


class Programs:
    """A controller, and an oracle if there is one: both are started anew for each play.

    What judges a step is this oracle. Another kind of judge takes its place in `play`.
    """

    def __init__(self, controller, oracle, slots, decimals, children):
        self.controller, self.oracle = controller, oracle
        self.slots, self.decimals, self.children = slots, decimals, children

    def play(self, lines, until=None):
        """What comes of lines, each of them words, up to the first one that fails."""
        commands = {"controller": self.controller, "oracle": self.oracle}
        sides, answers = {}, []
        try:
            for name, command in commands.items():
                if command is not None:
                    sides[name] = Side(command, self.children, until)
            for number, words in enumerate(lines, 1):
                why = self.step(words, sides, answers)
                if why is not None:
                    return Played(answers, why, number)
            return Played(answers, None, len(answers))
        finally:
            for side in sides.values():
                side.end()

    def step(self, words, sides, answers):
        """Plays a line, and says why it fails, or None. Its answer is put behind those so far."""
        name = "controller"
        try:
            sides[name].tell(words)
            raws = sides[name].replies.reply(self.slots, self.decimals)
            kinds = [it.kind for it in self.slots]
            answers.append([traces.written(*it, self.decimals) for it in zip(kinds, raws)])
            name = "oracle"
            if name not in sides:
                return None
            sides[name].tell([*words, *answers[-1]])
            return None if sides[name].replies.reply([VERDICT], 0) == [1] else "oracle"
        except Failed as how:
            return " ".join([how.args[0], name, *how.args[1:]])
