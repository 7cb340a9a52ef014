"""How far something is, in a line of a terminal that is written again and again.

Of a campaign it says how many of its sessions are over, and how many of them found something. Both
are read from its trace while that grows, which has to be a file: nothing stands between the program
and its standard output.
"""

import fcntl
import io
import os
import stat
import threading
import time

import traces

PAUSE = 0.1


class Line:
    """A line on a terminal. Where the file is none, nothing is written."""

    def __init__(self, file, title):
        self.file, self.title = file if file.isatty() else None, title
        self.text, self.lock = "", threading.Lock()

    def write(self, text):
        self.file.write(f"\r\x1b[K{text}")
        self.file.flush()

    def tell(self, text):
        """Writes a text in place of the one before."""
        with self.lock:
            if self.file:
                self.text = f"{self.title}: {text}"
                self.write(self.text)

    def clear(self):
        """Takes the line away."""
        with self.lock:
            if self.text:
                self.text = ""
                self.write("")

    def close(self):
        """Takes the line away for good."""
        with self.lock:
            if self.text:
                self.write("")
            self.file, self.text = None, ""

    def beside(self, say, is_whole):
        """Has something said above the line, which stands again below it if that ends a line."""
        with self.lock:
            if self.text:
                self.write("")
            say()
            if self.text and is_whole:
                self.write(self.text)


class Growing(io.RawIOBase):
    """A file that is still written: at its end it is waited for more, until it is over."""

    def __init__(self, file, is_over):
        self.file, self.is_over = file, is_over

    def readable(self):
        return True

    def readinto(self, buffer):
        while True:
            # What was written before it was over is read.
            was_over, count = self.is_over(), self.file.readinto(buffer)
            if count or was_over:
                return count
            time.sleep(PAUSE)


def told(over, count):
    """How far a campaign of so many sessions is, by whether each one that is over ended well."""
    found = sum(not is_well for is_well in over.values())
    some = f", {found} found something" if found else ""
    return f"{len(over)} of {count} sessions over{some}"


def follow(file, count, line):
    """Tells how far a campaign is, from a file of its trace, up to its end."""
    parts, over = {}, {}
    try:
        for session, data in traces.Frames(file):
            is_first, part = not parts, parts.setdefault(session, traces.Part())
            part.take(data)
            if part.end() is not None:
                over[session] = part.is_well()
            if is_first or part.end() is not None:
                line.tell(told(over, count))
    except traces.NoTrace:
        # What happened is for the program to say.
        pass


def opened(number):
    """The file that a number of this process stands for, to be read from where the next bytes are
    written; None where it is no plain file, or may not be read."""
    try:
        if not stat.S_ISREG(os.fstat(number).st_mode):
            return None
        is_added = fcntl.fcntl(number, fcntl.F_GETFL) & os.O_APPEND
        start = os.lseek(number, 0, os.SEEK_END if is_added else os.SEEK_CUR)
        file = open(f"/proc/self/fd/{number}", "rb", buffering=0)
        file.seek(start)
    except OSError:
        return None
    return file
