"""Writes the files of editors/, which colour scenarios, from the keywords that LANGUAGE lists.

    python3 scripts/editor_files.py
"""

import json
import os
import re

TOP = os.path.dirname(os.path.dirname(os.path.abspath(__file__)))

# The keywords by what they are: for vim the group of colours, for TextMate the scope.
KINDS = {
    "Declaration": ("Structure", "keyword.declaration", "node returns let exception exist in run"),
    "Trace": ("Statement", "keyword.control", "loop fby assert raise catch trap try do"),
    "Operator": ("Operator", "keyword.operator.word", "pre not and or xor if then else div mod"),
    "Type": ("Type", "storage.type", "bool int real trace ref"),
    "Boolean": ("Boolean", "constant.language", "true false"),
}

VIM = """" Colours for scenarios. scripts/editor_files.py writes this file.
if exists("b:current_syntax")
  finish
endif
KEYWORDS
syn match lutinNumber "\\<\\d\\+\\(\\.\\d*\\)\\="
syn match lutinSymbol "|>\\|&>\\|=>\\||"
syn match lutinComment "--.*$"
syn region lutinComment start="(\\*" end="\\*)"
LINKS
hi def link lutinNumber Number
hi def link lutinSymbol Special
hi def link lutinComment Comment
let b:current_syntax = "lutin"
"""

DETECTION = "au BufRead,BufNewFile *.lut setfiletype lutin\n"

PACKAGE = {
    "name": "lutin",
    "displayName": "Lutin scenarios",
    "version": "1.0.0",
    "publisher": "lurette",
    "engines": {"vscode": "^1.50.0"},
    "contributes": {
        "languages": [{"id": "lutin", "aliases": ["Lutin"], "extensions": [".lut"]}],
        "grammars": [
            {
                "language": "lutin",
                "scopeName": "source.lutin",
                "path": "./syntaxes/lutin.tmLanguage.json",
            }
        ],
    },
}


def language_keywords():
    """The keywords that LANGUAGE lists."""
    with open(os.path.join(TOP, "docs", "LANGUAGE.md"), encoding="utf-8") as file:
        return re.search(r"^node returns let [a-z\n ]*", file.read(), re.M)[0].split()


def vim():
    keywords = [f"syn keyword lutin{kind} {words}" for kind, (_, _, words) in KINDS.items()]
    links = [f"hi def link lutin{kind} {group}" for kind, (group, _, _) in KINDS.items()]
    return VIM.replace("KEYWORDS", "\n".join(keywords)).replace("LINKS", "\n".join(links))


def grammar():
    """The grammar of TextMate, which also serves VS Code and others."""
    patterns = [
        {"name": "comment.line.double-dash.lutin", "match": r"--.*$"},
        {"name": "comment.block.lutin", "begin": r"\(\*", "end": r"\*\)"},
        {"name": "constant.numeric.lutin", "match": r"\b\d+(\.\d*)?"},
    ]
    for _, scope, words in KINDS.values():
        match = rf"\b({'|'.join(words.split())})\b"
        patterns.append({"name": f"{scope}.lutin", "match": match})
    symbols = r"\|>|&>|=>|<>|<=|>=|[|<>=+*/~-]"
    patterns.append({"name": "keyword.operator.lutin", "match": symbols})
    head = {"name": "Lutin", "scopeName": "source.lutin", "fileTypes": ["lut"]}
    return {**head, "patterns": patterns}


def files():
    """Each file below editors/ with its text."""
    as_json = lambda it: json.dumps(it, indent=2) + "\n"
    return {
        "vim/syntax/lutin.vim": vim(),
        "vim/ftdetect/lutin.vim": DETECTION,
        "vscode/package.json": as_json(PACKAGE),
        "vscode/syntaxes/lutin.tmLanguage.json": as_json(grammar()),
    }


def main():
    for name, text in files().items():
        path = os.path.join(TOP, "editors", name)
        os.makedirs(os.path.dirname(path), exist_ok=True)
        with open(path, "w", encoding="utf-8") as file:
            file.write(text)


if __name__ == "__main__":
    main()
