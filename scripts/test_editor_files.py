"""That the files of editors/ are those that editor_files.py writes, and colour every keyword."""

import json
import os
import re
import shutil
import subprocess
import tempfile
import unittest

import check_docs
import editor_files

TEXT = "node n() returns (x: int [0; 9] = 1) = -- run\n(*) loop *) loop { true |> x = pre x }\n"
# Words of the text, each with where it is, its vim group and its scope.
PLACES = (
    ("node", 0, "lutinDeclaration", "keyword.declaration.lutin"),
    ("int", 0, "lutinType", "storage.type.lutin"),
    ("9", 0, "lutinNumber", "constant.numeric.lutin"),
    ("run", 0, "lutinComment", "comment.line.double-dash.lutin"),
    ("loop", 1, "lutinComment", "comment.block.lutin"),
    ("true", 1, "lutinBoolean", "constant.language.lutin"),
    ("|>", 1, "lutinSymbol", "keyword.operator.lutin"),
    ("pre", 1, "lutinOperator", "keyword.operator.word.lutin"),
)


def place(word, row):
    return TEXT.splitlines()[row].index(word)


def scope_at(line, column):
    """The scope that the grammar gives to a place: that of the leftmost match, as editors do it."""
    at, patterns = 0, editor_files.grammar()["patterns"]
    while at <= column:
        found = []
        for number, it in enumerate(patterns):
            match = re.compile(it.get("match", it.get("begin"))).search(line, at)
            if match:
                found.append((match.start(), number, match.end()))
        if not found:
            return None
        start, number, end = min(found)
        if "end" in patterns[number]:
            end = re.compile(patterns[number]["end"]).search(line, end).end()
        if start <= column < end:
            return patterns[number]["name"]
        at = end
    return None


class EditorFiles(unittest.TestCase):
    def test_they_are_those_that_are_made(self):
        for name, text in editor_files.files().items():
            self.assertEqual(check_docs.read(f"editors/{name}"), text, name)
            if name.endswith(".json"):
                self.assertTrue(json.loads(text))

    def test_each_keyword_is_of_one_kind(self):
        kinds = [word for *_, words in editor_files.KINDS.values() for word in words.split()]
        self.assertEqual(sorted(kinds), sorted(editor_files.language_keywords()))
        self.assertEqual(len(kinds), 32)

    def test_scopes(self):
        for word, row, _, scope in PLACES:
            self.assertEqual(scope_at(TEXT.splitlines()[row], place(word, row)), scope, word)

    def test_groups_of_vim(self):
        if shutil.which("vim") is None:
            self.skipTest("there is no vim")
        with tempfile.TemporaryDirectory(prefix="editor-files-") as room:
            scenario, said, script = (f"{room}/{it}" for it in ("s.lut", "said", "script.vim"))
            with open(scenario, "w", encoding="utf-8") as file:
                file.write(TEXT)
            ask = "echo synIDattr(synID({}, {}, 1), 'name')"
            lines = [ask.format(row + 1, place(word, row) + 1) for word, row, *_ in PLACES]
            with open(script, "w", encoding="utf-8") as file:
                steps = ["syntax on", f"edit {scenario}", f"redir! > {said}", *lines]
                file.write("\n".join([*steps, "redir END", "qa!"]) + "\n")
            path = os.path.join(editor_files.TOP, "editors", "vim")
            words = ["--cmd", f"set rtp^={path}", "--cmd", "filetype on", "-S", script]
            subprocess.run(["vim", "-Nu", "NONE", "-es", *words], check=False, timeout=60)
            with open(said, encoding="utf-8") as file:
                self.assertEqual(file.read().split(), [group for _, _, group, _ in PLACES])


if __name__ == "__main__":
    unittest.main()
