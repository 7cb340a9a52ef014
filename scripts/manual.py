"""The manual page of lurette, and what completes its words in a shell, from COMMAND's tables.

    python3 scripts/manual.py man|bash|zsh
"""

import os
import re
import sys
from collections import namedtuple

TOP = os.path.dirname(os.path.dirname(os.path.abspath(__file__)))

# A row of the table of words: the word with what follows it, and its meaning.
Word = namedtuple("Word", "name operand meaning")

MODES = ("run", "campaign", "print", "check", "stress")
# What the script takes in place of a mode: each is a script of its own.
SCRIPTS = ("shorten", "reached", "parts")

BASH = """_lurette() {
    local word=${COMP_WORDS[COMP_CWORD]} before=${COMP_WORDS[COMP_CWORD - 1]}
    COMPREPLY=()
    case $before in
        PLAIN) return ;;
        COMMANDS) COMPREPLY=($(compgen -c -- "$word")); return ;;
    esac
    if [[ $word == -* ]]; then
        COMPREPLY=($(compgen -W "OPTIONS" -- "$word"))
    elif ((COMP_CWORD == 1)); then
        COMPREPLY=($(compgen -W "MODES" -- "$word"))
    else
        COMPREPLY=($(compgen -f -- "$word"))
    fi
}
complete -o filenames -F _lurette lurette
"""

ZSH = """#compdef lurette
_arguments \\
LINES
    '1:mode:(MODES)' '2:file:_files'
"""

# What is completed behind an option, by the word that COMMAND has for it.
ZSH_KINDS = {
    "": "", "N": ":number:", "I": ":session:", "NAME": ":name:", "CMD": ":command:_command_names -e"
}


def page():
    with open(os.path.join(TOP, "docs", "COMMAND.md"), encoding="utf-8") as file:
        return file.read()


def help_text():
    with open(os.path.join(TOP, "scripts", "lurette.help"), encoding="utf-8") as file:
        return file.read()


def table(head):
    """The cells of each row of the table that begins with this head."""
    rows = page().partition(f"\n{head}\n")[2].partition("\n\n")[0].splitlines()[1:]
    return [[it.strip() for it in row.strip("|").split(" | ")] for row in rows]


def words():
    """The words of a call, as COMMAND's table has them."""
    found = []
    for head, meaning in table("| Word | Meaning |"):
        name, _, operand = head.strip("`").partition(" ")
        found.append(Word(name, operand, meaning))
    return found


def options():
    return [it for it in words() if it.name.startswith("-") and it.name != "--"]


def statuses():
    """Each status with when it comes, as COMMAND's table has them."""
    return [tuple(cells[:2]) for cells in table("| Status | When | Line, after `lurette: ` |")]


def part(title):
    """The lines of the text of help below a title."""
    return re.search(rf"^{title}\b.*\n((?:.+\n)*)", help_text(), re.M)[1].splitlines()


def of_the_script():
    """The words before the mode, which the script takes, each with what it says."""
    return [tuple(it.split(None, 1)) for it in part("Before the mode") if it.startswith("  --")]


def of_the_scripts():
    """The calls of the scripts over traces, and the words that they alone take, by COMMAND."""
    known, found = {it.name for it in options()}, []
    for script in SCRIPTS:
        for head, meaning in table(f"| Word of `{script}` | Meaning |"):
            name, _, operand = head.strip("`").partition(" ")
            found += [Word(name, operand, meaning)] if name not in known else []
    return found


def all_options():
    """The options of the program and of the scripts over traces."""
    return options() + [it for it in of_the_scripts() if it.name.startswith("-")]


def plain(text):
    """The text of a cell without its links."""
    return re.sub(r"\[([^]]*)\]\([^)]*\)", r"\1", text)


def set_in(text):
    """A text as the language of manual pages writes it, words between backticks in bold."""
    text = plain(text).replace("\\", "\\e").replace("-", "\\-")
    text = re.sub(r"`([^`]*)`", r"\\fB\1\\fR", text)
    return re.sub(r"(?m)^(?=[.'])", r"\\&", text)


def listed(pairs):
    return "".join(f".TP\n.B {set_in(head)}\n{set_in(text)}\n" for head, text in pairs)


def man():
    heads = [(f"{it.name} {it.operand}".strip(), it.meaning) for it in words()]
    scripts = [(f"{it.name} {it.operand}".strip(), it.meaning) for it in of_the_scripts()]
    examples = "\n".join(part("Examples"))
    return (
        '.TH LURETTE 1\n.SH NAME\nlurette \\- test a reactive controller by a scenario\n'
        ".SH SYNOPSIS\n.B lurette\nMODE FILE [OPTIONS]\n"
        f".SH DESCRIPTION\n{set_in(help_text().splitlines()[0])}\n"
        f".SH WORDS\n{listed(heads)}"
        f".SH SCRIPTS\n{listed(scripts)}"
        f".SH WORDS BEFORE THE MODE\n{listed(of_the_script())}"
        f".SH EXIT STATUS\n{listed([*statuses(), ('125', 'there is no program to run')])}"
        f".SH EXAMPLES\n.nf\n{set_in(examples)}\n.fi\n"
        ".SH SEE ALSO\nIn the folder docs: TUTORIAL.md, COMMAND.md, LANGUAGE.md and TRACE.md.\n"
    )


def bash():
    known = all_options()
    names = [it.name for it in known] + [name for name, _ in of_the_script()]
    takes = lambda *operands: "|".join(it.name for it in known if it.operand in operands)
    text = BASH.replace("PLAIN", takes("N", "I", "NAME")).replace("COMMANDS", takes("CMD"))
    return text.replace("OPTIONS", " ".join(names)).replace("MODES", " ".join(MODES + SCRIPTS))


def zsh_line(name, operand, meaning):
    said = re.split(r"[.;:(,]", plain(meaning).replace("`", ""))[0].replace("'", "'\\''")
    return f"    '{name}[{said}]{ZSH_KINDS.get(operand, ':file:_files')}' \\"


def zsh():
    lines = [zsh_line(it.name, it.operand, it.meaning) for it in all_options()]
    lines += [zsh_line(name, "", meaning) for name, meaning in of_the_script()]
    return ZSH.replace("LINES", "\n".join(lines)).replace("MODES", " ".join(MODES + SCRIPTS))


if __name__ == "__main__":
    print({"man": man, "bash": bash, "zsh": zsh}[sys.argv[1]](), end="")
