"""Traces of lurette, read from their text and written again. docs/TRACE.md has their form.

What is no trace is refused with the number of its line. The trace of a campaign, which frames those
of its sessions, is read piece by piece, and refused with the place of a byte.
"""

import io
import re
from collections import namedtuple

Variable = namedtuple("Variable", "name kind role")
# A trace: its seed, its rule of drawing, the roles of its variables, these variables, each step's
# words or values in their order, and its end. The words of a step are those that the text has.
Trace = namedtuple("Trace", "seed rule roles variables steps end")

DECLARED = re.compile(r'"([^"\s]+)":(bool|int|real)')
VALUES = {
    "bool": re.compile(r"[ft]"),
    "int": re.compile(r"-?[0-9]+"),
    "real": re.compile(r"-?[0-9]+(\.[0-9]+)?"),
}
ROLES = ("#inputs", "#outputs", "#locals")
# What stands in a step's line before the values of each role.
MARKS = {"#outputs": "#outs", "#locals": "#locs"}


class NoTrace(Exception):
    """Why a text is no trace, with the number of the line."""


# -- Values ---------------------------------------------------------------------------------------


def written(kind, value, decimals=2):
    """A raw number as a trace has it, or what stands for a local out of scope."""
    if value is None:
        return "?"
    if kind == "bool":
        return "ft"[value]
    if kind == "int" or decimals == 0:
        return str(value)
    whole, rest = divmod(abs(value), 10**decimals)
    return f"{'-' if value < 0 else ''}{whole}.{rest:0{decimals}}"


def rounded(value, decimals):
    """The raw number that is nearest to a fraction; of two that are, the one farther from zero."""
    raw = (2 * abs(value) * 10**decimals + 1) // 2
    return -raw if value < 0 else raw


def raw_of(kind, word):
    """The raw number that a word of a trace writes, or None of a local out of scope."""
    if word == "?":
        return None
    return "ft".index(word) if kind == "bool" else int(word.replace(".", ""))


def value_of(kind, word):
    """The value that a word of a trace writes: a truth, a number, or None out of scope."""
    if word == "?":
        return None
    return word == "t" if kind == "bool" else float(word)


def with_values(trace):
    """A trace with the values of its steps in place of their words."""
    kinds = [it.kind for it in trace.variables]
    return trace._replace(steps=[list(map(value_of, kinds, words)) for words in trace.steps])


# -- Reading --------------------------------------------------------------------------------------


class Lines:
    """The lines of a text, taken one after another."""

    def __init__(self, text):
        self.lines, self.at = text.split("\n"), 0

    def peek(self):
        return self.lines[self.at] if self.at < len(self.lines) else ""

    def take(self):
        self.at += 1
        return self.lines[self.at - 1] if self.at <= len(self.lines) else ""

    def wrong(self, wanted):
        return NoTrace(f"line {self.at}: {wanted}")


def rest_of(lines, beginning):
    """What stands in the next line behind what it has to begin with."""
    line = lines.take()
    if line != beginning and not line.startswith(beginning + " "):
        raise lines.wrong(f"{beginning} is expected here")
    return line[len(beginning) + 1 :]


def declared(lines, role):
    """The variables that a line of the header declares."""
    words = rest_of(lines, role).split()
    matches = [DECLARED.fullmatch(it) for it in words]
    if None in matches:
        raise lines.wrong(f'{words[matches.index(None)]} is not "NAME":KIND')
    return [Variable(it[1], it[2], role) for it in matches]


def is_value(variable, word):
    is_away = word == "?" and variable.role == "#locals"
    return is_away or VALUES[variable.kind].fullmatch(word) is not None


def step_of(lines, sides, number):
    """The words of a step, which takes two lines. `sides` has the variables of each role."""
    if rest_of(lines, "#step") != str(number):
        raise lines.wrong(f"#step {number} is expected here")
    words, found = lines.take().split(), []
    for role, variables in sides.items():
        # Each part of the line but the first begins with its mark, also where no value is in it.
        if role in MARKS:
            if words[:1] != [MARKS[role]]:
                raise lines.wrong(f"{MARKS[role]} is expected here")
            words.pop(0)
        for variable in variables:
            if not words or words[0] in MARKS.values():
                raise lines.wrong(f"a value of {variable.name} is missing")
            if not is_value(variable, words[0]):
                raise lines.wrong(f"{words[0]} is no value of {variable.name}")
            found.append(words.pop(0))
    if words:
        raise lines.wrong(f"{words[0]} is too much")
    return found


def trace_of(text):
    """The trace that a text is."""
    if text.startswith(("#from ", "#campaign ")):
        raise NoTrace(IS_FRAMED)
    lines = Lines(text)
    seed, rule = rest_of(lines, "#seed"), "1"
    if not re.fullmatch("[0-9]+", seed):
        raise lines.wrong("#seed S is expected here")
    if lines.peek() in ("#draw 2", "#draw 3"):
        rule = lines.take()[-1]
    sides = {role: declared(lines, role) for role in ROLES[:2]}
    if lines.peek().startswith("#locals"):
        sides["#locals"] = declared(lines, "#locals")
    steps = []
    while lines.peek().startswith("#step"):
        steps.append(step_of(lines, sides, len(steps) + 1))
    end = rest_of(lines, "#end")
    if not re.fullmatch(r"\S.* [0-9]+", end):
        raise lines.wrong("#end WHY K is expected here")
    if lines.take():
        raise lines.wrong("nothing comes after the end")
    variables = [it for variables in sides.values() for it in variables]
    return Trace(seed, rule, tuple(sides), variables, steps, end)


def why_and_number(end):
    """Why a run ended, and the number, of what its end line says."""
    why, _, number = end.rpartition(" ")
    return why, int(number)


# -- Many traces in one text ----------------------------------------------------------------------

# The most sessions of a campaign, and how many bytes are read at once.
MOST_SESSIONS, BLOCK = 64, 65_536
# The line before a piece, and the last line. No such line is longer than this.
FROM = re.compile(rb"#from (0|[1-9][0-9]*) (0|[1-9][0-9]*)\n")
LAST = re.compile(rb"#campaign ([1-9][0-9]*) ended (0|[1-9][0-9]*)\n")
LONGEST = 64
IS_FRAMED = "this is a campaign's trace: `lurette parts` takes one session out of it"


class CutShort(NoTrace):
    """That the trace of a campaign ends before it is whole."""


class Frames:
    """The pieces of a campaign's trace, read from a file of bytes as they come.

    Going through them gives the number of a session and some bytes of its trace, in turn. Behind
    the last one the numbers of sessions are known: of all, and of those with the status 0.
    """

    def __init__(self, file):
        self.file, self.at, self.highest = file, 0, -1
        self.count = self.ended = None

    def wrong(self, wanted):
        return NoTrace(f"byte {self.at}: {wanted}")

    def cut_short(self, where):
        return CutShort(f"byte {self.at}: it ends {where}, so it isn't whole")

    def __iter__(self):
        while self.count is None:
            line = self.file.readline(LONGEST)
            head = FROM.fullmatch(line)
            if head is None:
                self.conclude(line)
            else:
                yield from self.piece(int(head[1]), int(head[2]), len(line))

    def piece(self, session, length, taken):
        """The blocks of a piece, behind its line."""
        if session >= MOST_SESSIONS:
            raise self.wrong(f"no session has the number {session}")
        self.at, self.highest = self.at + taken, max(self.highest, session)
        left = length
        while left:
            data = self.file.read(min(left, BLOCK))
            self.at, left = self.at + len(data), left - len(data)
            if not data:
                there = f"{length - left} of {length} bytes are there"
                raise self.cut_short(f"in a piece of session {session}, of which {there}")
            yield session, data

    def conclude(self, line):
        """Reads the last line, and that nothing comes after it."""
        last = LAST.fullmatch(line)
        if last is None:
            raise self.why_not(line)
        count, ended = int(last[1]), int(last[2])
        if not max(self.highest, ended - 1) < count <= MOST_SESSIONS:
            raise self.wrong("#campaign has other numbers than the pieces before it")
        self.at += len(line)
        if self.file.read(1):
            raise self.wrong("nothing comes after the line #campaign")
        self.count, self.ended = count, ended

    def why_not(self, line):
        """Why a line is neither that of a piece nor the last one."""
        if line.startswith(b"#seed "):
            return self.wrong("this is the trace of one run, and not that of a campaign")
        begins = any(it.startswith(line[: len(it)]) for it in (b"#from ", b"#campaign "))
        if begins and len(line) < LONGEST and not line.endswith(b"\n"):
            return self.cut_short("within a line" if line else "before the line #campaign")
        return self.wrong("#from SESSION LENGTH or #campaign N ended E is expected here")


class Part:
    """What is known of the trace of one session, of which only so much is kept: how many bytes it
    has, and its first and its last line."""

    def __init__(self):
        self.length, self.first, self.last, self.open = 0, b"", b"", b""

    def take(self, data):
        """Takes some more bytes."""
        self.length += len(data)
        self.first += data[: LONGEST - len(self.first)]
        end = data.rfind(b"\n")
        if end >= 0:
            start = data.rfind(b"\n", 0, end) + 1
            self.last = (b"" if start else self.open) + data[start:end]
            self.open = b""
        self.open = (self.open + data[end + 1 :])[:BLOCK]

    def seed(self):
        """The seed in its first line, or None."""
        found = re.match(rb"#seed ([0-9]+)\n", self.first)
        return found and found[1].decode()

    def end(self):
        """Why it ended, and the number of its end line, or None where it has no such line."""
        is_end = self.last.startswith(b"#end ") and not self.open
        return self.last[5:].decode("utf-8", "replace") if is_end else None

    def is_well(self):
        """Whether its session has the status 0."""
        return self.end() is not None and self.end().split()[0] in ("normal", "limit")


def is_framed(data):
    """Whether the bytes at the beginning of a file are those of a campaign's trace."""
    return data.startswith((b"#from ", b"#campaign "))


def parts_of(data):
    """The texts of the traces that the bytes of a file have: one, or that of each session of a
    campaign that began."""
    if not is_framed(data):
        return [data.decode()]
    found = {}
    for session, some in Frames(io.BytesIO(data)):
        found.setdefault(session, []).append(some)
    if not found:
        raise NoTrace("no session of this campaign began")
    return [b"".join(found[it]).decode() for it in sorted(found)]


# -- Writing --------------------------------------------------------------------------------------


def own(trace, role, words):
    """The words of a step that belong to the variables of a role."""
    return [word for it, word in zip(trace.variables, words) if it.role == role]


def line_of(trace, words):
    """The line of a step."""
    parts = ((MARKS.get(role), *own(trace, role, words)) for role in trace.roles)
    return " ".join(it for part in parts for it in part if it is not None)


def text_of(trace):
    """The text of a trace."""
    names = [f'"{it.name}":{it.kind}' for it in trace.variables]
    lines = [f"#seed {trace.seed}"] + [f"#draw {trace.rule}"] * (trace.rule != "1")
    lines += [" ".join([role, *own(trace, role, names)]) for role in trace.roles]
    for number, words in enumerate(trace.steps, 1):
        lines += [f"#step {number}", line_of(trace, words)]
    return "\n".join([*lines, f"#end {trace.end}", ""])
