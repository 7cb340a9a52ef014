"""Programs that a script has started, so that all of them can be stopped at once."""

import os
import signal
import subprocess
import threading


class Stopped(Exception):
    """That no program is started any more."""


class Children:
    """Starts programs, each in a group of its own, and knows those that may still run."""

    def __init__(self):
        self.lock, self.runs, self.is_stopped = threading.Lock(), set(), False

    def start(self, words, **how):
        """A program that has begun. What the terminal sends doesn't come to it."""
        with self.lock:
            if self.is_stopped:
                raise Stopped
            run = subprocess.Popen(words, start_new_session=True, **how)
            self.runs.add(run)
            return run

    def end(self, run, seconds=0):
        """Waits so long for a program to end by itself, and then ends it with those it started."""
        try:
            run.wait(seconds)
        except subprocess.TimeoutExpired:
            kill(run)
        run.wait()
        with self.lock:
            self.runs.discard(run)

    def stop(self):
        """Ends all of them, and starts no more."""
        with self.lock:
            self.is_stopped = True
            for run in self.runs:
                kill(run)


def kill(run):
    """Ends the group of a program that wasn't waited for yet."""
    if run.returncode is None:
        try:
            os.killpg(run.pid, signal.SIGKILL)
        except ProcessLookupError:
            pass
