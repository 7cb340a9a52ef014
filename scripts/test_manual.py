"""That the text of help says what COMMAND's tables say, and what the program takes.

    python3 scripts/test_manual.py [--program PATH] [--plant PATH] [--quick]

The options are those of check_docs.py. Where no program is there, it isn't called.
"""

import argparse
import os
import re
import shutil
import subprocess
import sys
import unittest

import call_words
import calls
import check_docs
import manual
import parts
import reached
import shorten

GIVEN = check_docs.given([])

# A run in which each option with a default makes a difference.
SCENARIO = b"node n() returns (x: real [0.0; 9.0]; y: int [0; 9]) = loop x > 0.005"


def said_of(option):
    """The default and the ends of an option's numbers, as COMMAND's row has them; or None."""
    default = re.search(r"\b(\w+) by default|the (first) one of", option.meaning)
    ends = re.search(r"\bfrom (\d+) to (\d+)|, (\d) or (\d);", option.meaning)
    default = default and (default[1] if default[1] and default[1].isdigit() else None)
    return default, ends and tuple(it for it in ends.groups() if it)


def lines_of_help():
    """What the text of help says of each option: its words, its default, the ends of its numbers."""
    for line in manual.part("Options of run"):
        name, operand = re.match(r"  (\S+)( [A-Z]+)?", line).groups()
        ends = re.search(r"(\d+) \.\. (\d+)$", line)
        default = re.search(r"  +(\d+)  +\d+ \.\. ", line)
        yield name, (operand or "").strip(), default and default[1], ends and ends.groups()


class Help(unittest.TestCase):
    def test_options_are_those_of_the_table(self):
        wanted = {(it.name, it.operand, *said_of(it)) for it in manual.options()}
        self.assertEqual(set(lines_of_help()), wanted)
        self.assertEqual(len(wanted), 11)

    def test_scripts_and_their_words_are_those_of_the_tables(self):
        known = manual.of_the_scripts()
        calls_of = [it.name for it in known if not it.name.startswith("-")]
        self.assertEqual(calls_of, list(manual.SCRIPTS))
        for name in calls_of:
            self.assertIn(f"./lurette {name} ", manual.help_text())
        rows = [it.split() for it in manual.part("Further options")]
        told = [(row[0], row[1] if row[1].isupper() and row[1] != "JSON" else "") for row in rows]
        wanted = [(it.name, it.operand) for it in known if it.name.startswith("-")]
        self.assertEqual(told, wanted)

    def test_scripts_take_the_words_of_their_tables(self):
        for name, script in (("shorten", shorten), ("reached", reached), ("parts", parts)):
            rows = manual.table(f"| Word of `{name}` | Meaning |")
            wanted = {it for head, _ in rows for it in re.findall(r"--[a-z]+", head)}
            actions = [it for it in script.parser()._actions if it.help != argparse.SUPPRESS]
            taken = {word for it in actions for word in it.option_strings}
            self.assertEqual(taken - {"-h", "--help"}, wanted, name)
        seconds = shorten.parser().get_default("seconds")
        self.assertRegex("\n".join(manual.part("Further options")), rf"--seconds N .* {seconds} ")

    def test_modes_are_those_of_the_table(self):
        modes = [it.name for it in manual.words() if not it.name.startswith("-")]
        self.assertEqual(modes, list(manual.MODES))
        for mode in modes:
            self.assertIn(f"./lurette {mode} ", manual.help_text())

    def test_statuses_are_those_of_the_table(self):
        told = [it.split()[0] for it in manual.part("Statuses")]
        self.assertEqual(told, [status for status, _ in manual.statuses()] + ["125"])

    def test_scripts_read_the_same_options(self):
        valued = {it.name for it in manual.options() if it.operand}
        self.assertEqual(set(call_words.VALUED), valued)

    def test_lines_fit_a_terminal(self):
        self.assertLessEqual(max(map(len, manual.help_text().splitlines())), 100)

    def test_words_before_the_mode_are_those_of_the_table(self):
        known = [name for name, _ in manual.of_the_script()]
        table = manual.page().partition("\n## The script\n")[2].partition("\n## ")[0]
        self.assertEqual(known, re.findall(r"^\| `(--[a-z]+)` \|", table, re.M))


class Program(unittest.TestCase):
    def setUp(self):
        if not os.access(GIVEN.program, os.X_OK):
            self.skipTest(f"{GIVEN.program} is not there")

    def outcome(self, *words):
        return calls.outcome(GIVEN.program, SCENARIO, "run", *words, seconds=calls.PATIENCE)

    def test_its_own_line_has_these_options(self):
        shown = calls.outcome_of(GIVEN.program, seconds=calls.PATIENCE).errors.decode().splitlines()
        wanted = [f"{name} {operand}".strip() for name, operand, *_ in lines_of_help()]
        self.assertEqual(sorted(re.findall(r"\[(.*?)\]", shown[1])), sorted(wanted))

    def test_a_default_is_what_it_does_without_the_option(self):
        usual = self.outcome()
        self.assertEqual(usual.status, 0)
        tried = [(name, default) for name, _, default, _ in lines_of_help() if default]
        self.assertEqual(len(tried), 6)
        for name, default in tried:
            found = self.outcome(f"{name}={default}")
            self.assertEqual((found.status, found.output), (0, usual.output), name)

    def test_the_ends_of_numbers_are_taken_and_no_more(self):
        for name, _, _, ends in lines_of_help():
            for number, status in ((int(ends[1]) + 1, 2), (int(ends[0]) - 1, 2)) if ends else ():
                self.assertEqual(self.outcome(f"{name}={number}").status, status, name)
            for number in ends or ():
                words = [] if name == "-l" else ["-l", "0"]
                if (name, number) != ("-l", "1000000"):
                    self.assertEqual(self.outcome(*words, f"{name}={number}").status, 0, name)


class Page(unittest.TestCase):
    def test_each_row_stands_in_the_manual_page(self):
        page = manual.man()
        rows = len(manual.words()) + len(manual.of_the_scripts()) + 3 + 16
        self.assertEqual(page.count("\n.TP\n"), rows)
        self.assertIn(".B shorten TRACE FILE\nlooks for a shorter run", page)
        self.assertIn(".B \\-\\-seed N\nthe seed of a run, from 0 to 18446744073709551615", page)
        self.assertNotIn("](", page)

    @unittest.skipUnless(shutil.which("groff"), "there is no groff")
    def test_it_is_set_without_a_warning(self):
        call = ["groff", "-man", "-Tutf8", "-ww", "-P-c"]
        run = subprocess.run(call, input=manual.man().encode(), capture_output=True, check=False)
        self.assertEqual((run.returncode, run.stderr), (0, b""))
        self.assertIn(b" MODE FILE [OPTIONS]\n", run.stdout)


if __name__ == "__main__":
    GIVEN = check_docs.given(sys.argv[1:])
    unittest.main(argv=["test_manual.py", "--quiet"])
