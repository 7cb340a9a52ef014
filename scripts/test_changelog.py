"""That the changelog has the form that people know, and the version that the file VERSION has."""

import re
import unittest

import check_docs


class Changelog(unittest.TestCase):
    def test_versions_go_down_to_the_first(self):
        text = check_docs.read("CHANGELOG.md")
        heads = re.findall(r"^## (.*)$", text, re.M)
        self.assertEqual(heads[0], "Unreleased")
        rows = [re.fullmatch(r"(\d+)\.(\d+)\.(\d+) - (\d{4}-\d\d-\d\d)", it) for it in heads[1:]]
        numbers = [tuple(map(int, it.groups()[:3])) for it in rows]
        self.assertEqual(numbers, sorted(numbers, reverse=True))
        self.assertEqual([it[4] for it in rows], sorted((it[4] for it in rows), reverse=True))
        version = ".".join(map(str, numbers[0]))
        self.assertEqual(check_docs.read("VERSION"), f"{version}\n")

    def test_sorts_of_changes(self):
        sorts = re.findall(r"^### (.*)$", check_docs.read("CHANGELOG.md"), re.M)
        self.assertLessEqual(set(sorts), {"Added", "Changed", "Fixed"})


if __name__ == "__main__":
    unittest.main()
