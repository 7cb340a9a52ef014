"""That the controllers and oracles of examples/controllers answer as their comments say.

    python3 scripts/test_controllers.py [--program PATH] [--plant PATH] [--quick]

The options are those of check_docs.py. What a missing compiler would have to build isn't tried, and
where no program is there, nothing is run with it.
"""

import os
import select
import shutil
import subprocess
import sys
import tempfile
import unittest

import calls
import check_docs

GIVEN = check_docs.given([])
PLACE = os.path.join(calls.TOP, "examples", "controllers")

# How each file is started or built: by an interpreter, or by a compiler of the file's kind.
STARTED = {".py": [sys.executable], ".sh": ["sh"]}
COMPILED = {".c": ["cc", "-Wall", "-Wextra", "-Werror"], ".rs": ["rustc", "-D", "warnings"]}

THERMOSTATS = ("thermostat.py", "thermostat.sh", "thermostat.c", "thermostat.rs", "around_step.c")
ORACLES = ("judge.py", "judge.c")

# Lines with the answers that follow from what a thermostat is and from what the oracles judge.
HEATING = (
    ("20.00 f", "f"),
    ("19.00 f", "f"),
    ("18.99 t", "t"),
    ("-0.50 f", "t"),
    ("0.05 f", "t"),
    ("21.00 f", "t"),
    ("21.01 t", "f"),
    ("19.00 f", "f"),
    ("100.00 f", "f"),
    ("18.50 f", "t"),
)
JUDGED = (
    ("18.99 f f", "f"),
    ("18.99 f t", "t"),
    ("19.00 t f", "t"),
    ("21.00 f t", "t"),
    ("21.01 t t", "f"),
    ("21.01 t f", "t"),
)


class Controllers(unittest.TestCase):
    @classmethod
    def setUpClass(cls):
        cls.room = tempfile.mkdtemp(prefix="controllers-")

    @classmethod
    def tearDownClass(cls):
        shutil.rmtree(cls.room)

    def command(self, name):
        """The words that start a file of the folder, compiled; None without a compiler."""
        path, ending = os.path.join(PLACE, name), os.path.splitext(name)[1]
        if ending in STARTED:
            return [*STARTED[ending], path]
        compiler, built = COMPILED[ending], os.path.join(self.room, name + ".out")
        if shutil.which(compiler[0]) is None:
            return None
        if not os.path.exists(built):
            subprocess.run([*compiler, "-o", built, path], check=True, timeout=calls.PATIENCE)
        return [built]

    def commands(self, names):
        found = [(name, self.command(name)) for name in names]
        return [(name, command) for name, command in found if command is not None]

    def answers_at_once(self, name, command, rows):
        """Sends each line once the one before is answered, as lurette does."""
        how = {"stdin": subprocess.PIPE, "stdout": subprocess.PIPE}
        with subprocess.Popen(command, **how) as run:
            for line, wanted in rows:
                run.stdin.write(line.encode() + b"\n")
                run.stdin.flush()
                ready, _, _ = select.select([run.stdout], [], [], calls.PATIENCE)
                self.assertTrue(ready, f"{name} has no answer to {line}")
                self.assertEqual(run.stdout.readline().decode(), f"{wanted}\n", f"{name}: {line}")
            run.stdin.close()
            self.assertEqual(run.wait(calls.PATIENCE), 0, name)

    def test_thermostats_answer_each_line_at_once(self):
        for name, command in self.commands(THERMOSTATS):
            self.answers_at_once(name, command, HEATING)

    def test_oracles_answer_each_line_at_once(self):
        for name, command in self.commands(ORACLES):
            self.answers_at_once(name, command, JUDGED)

    def test_each_file_of_the_folder_is_tried(self):
        tried = {*THERMOSTATS, *ORACLES, "faulty.py", "thermostat_step.h"}
        self.assertEqual(set(os.listdir(PLACE)), tried)

    def run_with(self, sut, oracle=None):
        if not os.access(GIVEN.program, os.X_OK):
            self.skipTest(f"{GIVEN.program} is not there")
        words = ["run", os.path.join(calls.TOP, "examples", "drafty.lut"), "-l", "200"]
        words += ["--sut", " ".join(sut)] + (["--oracle", " ".join(oracle)] if oracle else [])
        return calls.outcome_of(GIVEN.program, *words, seconds=calls.PATIENCE)

    def test_runs_with_each_thermostat_are_the_same(self):
        usual = self.run_with(self.command("thermostat.py"))
        self.assertEqual(usual.status, 0)
        for name, command in self.commands(THERMOSTATS):
            found = self.run_with(command)
            self.assertEqual((found.status, found.output), (0, usual.output), name)

    def test_each_oracle_finds_the_fault_and_no_other(self):
        for name, command in self.commands(ORACLES):
            found = self.run_with(self.command("faulty.py"), command)
            self.assertEqual((found.status, found.errors), (1, b"lurette: oracle 61\n"), name)
            found = self.run_with(self.command("thermostat.py"), command)
            self.assertEqual((found.status, found.errors), (0, b""), name)


if __name__ == "__main__":
    GIVEN = check_docs.given(sys.argv[1:])
    unittest.main(argv=["test_controllers.py", "--quiet"])
