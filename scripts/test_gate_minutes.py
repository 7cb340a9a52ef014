"""That what the prover's processes use is counted for their crates, and shown in a table."""

import os
import subprocess
import tempfile
import unittest
from importlib.machinery import SourceFileLoader
from importlib.util import module_from_spec, spec_from_loader

from test_start import TOP, write

PATH = os.path.join(TOP, "scripts", "gate_minutes")

# What stands for the kit's command, and for its prover, which is busy for a while.
RT = """#!/bin/sh
echo "rt: $*"
rattle build --crate-name low src/lib.rt & rattle build --crate-name low --test src/lib.rt
wait
exit 3
"""
RATTLE = """#!/usr/bin/env python3
import time
while time.process_time() < 1.5:
    pass
"""


def module():
    loader = SourceFileLoader("gate_minutes", PATH)
    found = module_from_spec(spec_from_loader("gate_minutes", loader))
    loader.exec_module(found)
    return found


class Minutes(unittest.TestCase):
    def test_what_a_process_works_for(self):
        kind_of = module().kind_of
        check = ["/kit/rattle", "check", "--crate-name", "low", "src/lib.rt"]
        self.assertEqual(kind_of(check, "/top/crates/low"), ("low", "proof"))
        self.assertEqual(kind_of([*check, "--test"], "/top/crates/low"), ("low", "tests"))
        self.assertEqual(kind_of(check, "rt-edit-7-x"), ("low", "wrong bodies"))
        self.assertIsNone(kind_of(["/kit/clang", "--crate-name", "low"], ""))
        self.assertIsNone(kind_of([""], ""))

    def test_the_table_begins_with_the_dearest(self):
        crates = {
            "a": {"proof": 60, "tests": 0, "wrong bodies": 30},
            "b": {"proof": 600, "tests": 6, "wrong bodies": 0},
        }
        wanted = [
            "| `b` | 10.0 | 0.1 |  | 10.1 |",
            "| `a` | 1.0 |  | 0.5 | 1.5 |",
            "| all crates | 11.0 | 0.1 | 0.5 | 11.6 |",
            "| what else is done | | | | 1.0 |",
            "| all | | | | 12.6 |",
        ]
        self.assertEqual(module().table(crates, 60)[2:], wanted)

    def test_tables_of_several_runs_are_added(self):
        gate_minutes = module()
        kinds = lambda *seconds: dict(zip(gate_minutes.KINDS, seconds))
        runs = [
            ({"a": kinds(60, 0, 300), "b": kinds(600, 6, 0), "c": kinds(30, 60, 0)}, 60),
            ({"b": kinds(0, 600, 0), "d": kinds(0, 0, 90)}, 120),
        ]
        texts = ["\n".join(["rt: b proved", *gate_minutes.table(*it), ""]) for it in runs]
        crates, rest = gate_minutes.summed(texts)
        self.assertEqual((crates["b"], rest), (kinds(600, 606, 0), 180))
        wanted = [
            "| `b` | 10.0 | 10.1 |  | 20.1 |",
            "| `a` | 1.0 |  | 5.0 | 6.0 |",
            "| the other crates | 0.5 | 1.0 | 1.5 | 3.0 |",
            "| all crates | 11.5 | 11.1 | 6.5 | 29.1 |",
            "| what else is done | | | | 3.0 |",
            "| all | | | | 32.1 |",
        ]
        found = gate_minutes.table(gate_minutes.with_few_together(crates), rest)
        self.assertEqual(found[2:], wanted)
        # What comes of it is such a table too.
        again, rest = gate_minutes.summed(["\n".join(found)])
        self.assertEqual(gate_minutes.table(again, rest), found)

    def test_the_sum_of_the_document_has_its_rows(self):
        path = os.path.join(TOP, "docs", "TESTS.md")
        run = subprocess.run([PATH, "--sum", path], capture_output=True, text=True, check=False)
        self.assertEqual((run.returncode, run.stderr), (0, ""))
        rows = [it for it in run.stdout.splitlines() if it.startswith("| `")]
        self.assertGreater(len(rows), 10)
        with open(path, encoding="utf-8") as file:
            text = file.read()
        for row in rows:
            self.assertIn(row.replace("|  |", "| |").replace("|  |", "| |") + "\n", text)

    def test_a_number_that_is_used_again_is_another_process(self):
        gate_minutes = module()
        minutes = gate_minutes.Minutes(1)
        minutes.kinds[7, 100] = "low", "proof"
        for began, seconds in ((100, 30), (200, 2)):
            minutes.take({7: gate_minutes.Process(0, began, seconds)})
        self.assertEqual(minutes.by_crate()["low"]["proof"], 30)

    def test_a_run_is_watched(self):
        with tempfile.TemporaryDirectory(prefix="lurette-") as room:
            for name, text in (("rt", RT), ("rattle", RATTLE)):
                write(f"{room}/bin/{name}", text)
            env = {**os.environ, "PATH": f"{room}/bin:{os.environ['PATH']}"}
            run = subprocess.run([PATH], env=env, capture_output=True, text=True, check=False)
        self.assertEqual((run.returncode, run.stderr), (3, ""))
        lines = run.stdout.splitlines()
        self.assertEqual(lines[0], "rt: ci")
        self.assertTrue(any(it.startswith("| `low` | ") for it in lines), lines)


if __name__ == "__main__":
    unittest.main()
