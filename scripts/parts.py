"""Takes the trace of a campaign apart. `./lurette parts` calls it.

    python3 scripts/parts.py TRACE                the trace of each session, into TRACE.0 and so on
    python3 scripts/parts.py TRACE --to NAME      into NAME.0 and so on
    python3 scripts/parts.py TRACE --session I    that of one session, to standard output
    python3 scripts/parts.py TRACE --list         a line for each session: its seed and its end

The trace of a session is what stands in the pieces behind the lines `#from I LENGTH`. With --failed
those sessions that ended well are left out. TRACE may be -, which is standard input. However long a
trace is, only a block of it is kept at a time.

A trace that ends too early is taken apart as far as it goes, and the status is 1. So is one in
which something is wrong, and the status is 2. A line says what is wrong, and at which byte.
"""

import argparse
import os
import sys

import traces

TITLE = "parts"
# The statuses of a trace that isn't whole, and of a call that can't be served.
IS_CUT, IS_WRONG = 1, 2


def say(text):
    print(f"{TITLE}: {text}", file=sys.stderr)


def session_number(text):
    """The number of a session, from a word."""
    if not (text.isdigit() and text.isascii() and int(text) < traces.MOST_SESSIONS):
        raise argparse.ArgumentTypeError(f"{text} isn't from 0 to {traces.MOST_SESSIONS - 1}")
    return int(text)


def parser():
    """What reads the words of the command line."""
    found = argparse.ArgumentParser(
        prog="lurette parts",
        description="Takes the trace of a campaign apart: each session gets a trace of its own.",
        epilog="Without --session and --list the files are TRACE.0, TRACE.1 and so on.",
        allow_abbrev=False,
    )
    found.add_argument("trace", metavar="TRACE", help="a campaign's trace; - is standard input")
    way = found.add_mutually_exclusive_group()
    way.add_argument("--to", metavar="NAME", help="name the files NAME.0, NAME.1 and so on")
    way.add_argument(
        "--session", metavar="I", type=session_number, help="write the trace of this session only"
    )
    way.add_argument("--list", action="store_true", help="say of each session how it ended")
    found.add_argument("--failed", action="store_true", help="leave out sessions that ended well")
    return found


# -- What becomes of the pieces --------------------------------------------------------------------


class Files:
    """A file for each session."""

    def __init__(self, name, is_for_failed):
        self.name, self.is_for_failed, self.files = name, is_for_failed, {}

    def file_of(self, session):
        if session not in self.files:
            self.files[session] = open(f"{self.name}.{session}", "wb")
        return self.files[session]

    def take(self, session, data):
        self.file_of(session).write(data)

    def conclude(self, parts):
        for session, part in parts.items():
            self.file_of(session).close()
            if self.is_for_failed and part.is_well():
                os.remove(f"{self.name}.{session}")


class One:
    """Standard output, for one session."""

    def __init__(self, session):
        self.session = session

    def take(self, session, data):
        if session == self.session:
            sys.stdout.buffer.write(data)

    def conclude(self, _):
        sys.stdout.buffer.flush()


class Summary:
    """A line for each session, at the end."""

    def __init__(self, is_for_failed):
        self.is_for_failed = is_for_failed

    def take(self, session, data):
        """Keeps nothing."""

    def conclude(self, parts):
        for session, part in sorted(parts.items()):
            if not (self.is_for_failed and part.is_well()):
                told = f"seed {part.seed() or '-'} bytes {part.length} end {part.end() or '-'}"
                print(f"session {session} {told}")
        sys.stdout.flush()


def way_of(given):
    """Where the pieces go that the words ask for."""
    if given.session is not None:
        return One(given.session)
    return Summary(given.failed) if given.list else Files(given.to or given.trace, given.failed)


# -- A call ----------------------------------------------------------------------------------------


def taken_apart(file, way):
    """What is known of each session, and what is wrong with the trace, or None."""
    frames, parts, why = traces.Frames(file), {}, None
    try:
        for session, data in frames:
            parts.setdefault(session, traces.Part()).take(data)
            way.take(session, data)
    except traces.NoTrace as wrong:
        why = wrong
    # A session whose programs couldn't be started has an empty trace.
    for session in range(frames.count or 0):
        parts.setdefault(session, traces.Part())
    way.conclude(parts)
    return parts, why


def served(given, file):
    """Does what the words ask for with a trace, and gives the status."""
    parts, why = taken_apart(file, way_of(given))
    if why is not None:
        say(f"{given.trace}: {why}")
        return IS_CUT if isinstance(why, traces.CutShort) else IS_WRONG
    if given.session is not None and given.session not in parts:
        say(f"{given.trace}: it has no session {given.session}, but {len(parts)} from 0 on")
        return IS_WRONG
    return 0


def main(words):
    found = parser()
    given = found.parse_args(words)
    if given.trace == "-" and given.to is None and given.session is None and not given.list:
        found.error("standard input has no name: give --to NAME, --session I or --list")
    if given.failed and given.session is not None:
        found.error("--failed and --session don't go together")
    try:
        if given.trace == "-":
            return served(given, sys.stdin.buffer)
        with open(given.trace, "rb") as file:
            return served(given, file)
    except BrokenPipeError:
        # Who reads standard output wants no more.
        os.dup2(os.open(os.devnull, os.O_WRONLY), sys.stdout.fileno())
        return 0
    except OSError as why:
        say(why)
        return IS_WRONG


if __name__ == "__main__":
    sys.exit(main(sys.argv[1:]))
