"""That what is installed, or unpacked, runs where there is no kit."""

import os
import shutil
import subprocess
import sys
import unittest

import check_docs
import manual
from test_start import TOP, Repository


class Packed(Repository):
    """Trees that have programs and no source, called where there is no kit."""

    BARE = "/usr/bin:/bin"

    def setUp(self):
        super().setUp()
        for name in ("docs", "examples", "editors"):
            shutil.copytree(os.path.join(TOP, name), os.path.join(self.top, name))
        for name in ("README.md", "CHANGELOG.md"):
            shutil.copy(os.path.join(TOP, name), self.top)

    def made(self, script, *words):
        """What a script says that ends well, in its last line."""
        status, output, said = self.call(*words, name=f"scripts/{script}")
        self.assertEqual(status, 0, said)
        return output.splitlines()[-1]

    def test_what_is_installed_runs_without_a_kit(self):
        place = f"{self.room}/a place"
        self.assertIn("not proved; kit-0", self.made("install", place))
        status, output, said = self.call("run", "f", name=f"{place}/bin/lurette", PATH=self.BARE)
        self.assertEqual((status, output), (0, "unproved run f\n"))
        self.assertEqual(said, ["lurette: not proved: it was built without a proof"])
        self.assertIn("proved with kit-0", self.made("install", "--prove", place))
        found = self.call("run", "f", name=f"{place}/bin/lurette", PATH=self.BARE)
        self.assertEqual(found, (0, "proved run f\n", []))
        found = self.call("gate", name=f"{place}/bin/lt_plant", PATH=self.BARE)
        self.assertEqual(found, (0, "proved gate\n", []))
        self.assertEqual(self.call("--unproved", name=f"{place}/bin/lurette")[0], 2)
        found = self.call("--unproved", "run", "f", name=f"{place}/bin/lurette")
        self.assertEqual(found[0], 125)
        for name in ("shorten", "reached", "parts"):
            found = self.call(name, "--help", name=f"{place}/bin/lurette", PATH=self.BARE)
            self.assertEqual((found[0], found[2]), (0, []))
        for path in ("man/man1/lurette.1", "zsh/site-functions/_lurette"):
            self.assertTrue(os.path.getsize(f"{place}/share/{path}"))
        self.scripts_are_whole(f"{place}/lib/lurette/scripts")

    def scripts_are_whole(self, folder):
        """Asks that what its scripts take of other scripts stands in a folder too."""
        names = [it[:-3] for it in os.listdir(folder) if it.endswith(".py")]
        call = [sys.executable, "-B", "-c", f"import {', '.join(names)}"]
        run = subprocess.run(call, cwd=folder, capture_output=True, text=True, check=False)
        self.assertEqual((run.returncode, run.stderr), (0, ""))

    def test_a_release_runs_without_a_kit(self):
        self.assertEqual(self.call(name="scripts/release")[0], 1)
        self.call("--prove")
        self.call("--prove", name="lt_plant")
        archive = self.made("release")
        version = check_docs.read("VERSION").strip()
        self.assertEqual(archive, f"out/lurette-{version}.tar.gz")
        subprocess.run(["tar", "-C", self.room, "-xzf", f"{self.top}/{archive}"], check=True)
        shutil.rmtree(self.top)
        tree = f"{self.room}/lurette-{version}"
        found = self.call("run", "f", name=f"{tree}/lurette", PATH=self.BARE)
        self.assertEqual(found, (0, "proved run f\n", []))
        _, output, _ = self.call("--version", name=f"{tree}/lurette", PATH=self.BARE)
        self.assertEqual(output, f"lurette {version}, proved with kit-0 logic 0\n")
        self.assertEqual(self.call("--is-proved", name=f"{tree}/lurette")[0], 0)
        self.assertTrue(check_docs.read(f"{tree}/program/lurette.proved"))

    def test_what_completes_words_is_read_by_a_shell(self):
        bash = shutil.which("bash")
        if bash is None:
            self.skipTest("there is no bash")
        line = 'COMP_WORDS=(lurette --pre); COMP_CWORD=1; _lurette; echo "${COMPREPLY[@]}"'
        run = subprocess.run([bash, "-c", manual.bash() + line], capture_output=True, text=True)
        self.assertEqual((run.stdout, run.stderr), ("--precision\n", ""))
        line = line.replace("--pre", "sh")
        run = subprocess.run([bash, "-c", manual.bash() + line], capture_output=True, text=True)
        self.assertEqual((run.stdout, run.stderr), ("shorten\n", ""))


if __name__ == "__main__":
    unittest.main()
