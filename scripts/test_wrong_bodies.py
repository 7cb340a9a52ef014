"""That wrong bodies are tried in a copy, and that those that are refused are counted."""

import os
import shutil
import subprocess
import tempfile
import unittest

from test_start import TOP, write

# What stands for the kit's command: it refuses each edit but one with the text `same`.
RT = r"""#!/bin/sh
case $1 in
    check) ! grep -q wrong src/lib.rt || { echo 'an open goal'; exit 1; } ;;
    must-fail)
        for edit in crates/$2/must-fail/*; do
            if grep -q same "$edit"; then said='NOT REFUSED: still proved'
            else said='refused, as it must be'; fi
            echo "rt: must-fail $2/${edit##*/}: $said"
        done
        ;;
esac
"""


class WrongBodies(unittest.TestCase):
    def setUp(self):
        room = tempfile.TemporaryDirectory(prefix="lurette-")
        self.addCleanup(room.cleanup)
        self.room, self.top = room.name, os.path.join(room.name, "top")
        shutil.copytree(os.path.join(TOP, "scripts"), os.path.join(self.top, "scripts"))
        write(f"{self.top}/crates.txt", "low:\nhigh: low\nother:\n")
        for name in ("low", "high", "other"):
            write(f"{self.top}/crates/{name}/src/lib.rt", "right")
        write(f"{self.top}/crates/high/must-fail/gate.edit", "same")
        for name in ("a", "b", "c"):
            write(f"{self.top}/wrong-bodies/high/{name}.edit", "other")
        write(f"{self.top}/wrong-bodies/low/d.edit", "other")
        write(f"{self.room}/bin/rt", RT)

    def tried(self, *crates):
        """The status of a call, and the last line that it wrote."""
        env = {**os.environ, "PATH": f"{self.room}/bin:{os.environ['PATH']}"}
        call = [f"{self.top}/scripts/wrong_bodies", *crates]
        run = subprocess.run(call, env=env, capture_output=True, text=True, check=False)
        return run.returncode, (run.stdout + run.stderr).splitlines()[-1]

    def test_all_are_refused(self):
        wanted = "wrong_bodies: no commit known: high low: 4 refused of 4"
        self.assertEqual(self.tried("high", "low"), (0, wanted))
        self.assertEqual(os.listdir(f"{self.top}/crates/high/must-fail"), ["gate.edit"])

    def test_one_is_not_refused(self):
        write(f"{self.top}/wrong-bodies/high/b.edit", "the same")
        status, line = self.tried("high")
        self.assertEqual((status, line.rpartition(": ")[2]), (1, "2 refused of 3"))

    def test_a_crate_that_is_not_proved(self):
        write(f"{self.top}/crates/high/src/lib.rt", "wrong")
        status, line = self.tried("low", "high")
        self.assertEqual((status, line.rpartition(": ")[2]), (1, "1 refused of 4"))

    def test_crates_without_edits(self):
        for crates in ([], ["other"], ["high", "none"]):
            status, line = self.tried(*crates)
            self.assertEqual((status, line.rpartition(": ")[2]), (2, "high low"))


if __name__ == "__main__":
    unittest.main()
