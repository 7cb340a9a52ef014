"""Takes a lock that the caller holds from then on, on an open file of its own.

    python3 scripts/lock.py NUMBER NAME

The file of this number was opened by the caller, whose the lock is until that file is closed. Where
another one holds it, that is said under the name, and waited for.
"""

import fcntl
import sys


def main(number, name):
    try:
        fcntl.flock(int(number), fcntl.LOCK_EX | fcntl.LOCK_NB)
    except BlockingIOError:
        print(f"{name}: another call builds the program; waiting for it", file=sys.stderr)
        fcntl.flock(int(number), fcntl.LOCK_EX)
    return 0


if __name__ == "__main__":
    sys.exit(main(*sys.argv[1:]))
