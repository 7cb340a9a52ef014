"""Runs every command that the documents and the examples print, and compares what comes of it.

    python3 scripts/check_docs.py [--program PATH] [--plant PATH] [--quick]

The programs are those that `rt ci` leaves in the checkout, where no option names others. With
--quick this and other tests leave out what takes long where nothing is proved of the program.

- A command follows `$ ` in a block of a document, or `-- $ ` in the comment of an example. Below it
  is what it writes, with standard error. A line `..` there may be any lines.
- A command begins at the top of a checkout, which is `~/lurette`. A `cd` or an `export` also holds
  for the later commands of its document's blocks.
- A block whose fence names a language and a file, as ```c heater.c, is written into that file.
- A command in a sentence has to end well, or by an end of its run.
- The row of a table that has the text of a node is run too: it says the outputs and the end, or a
  refusal with its place.

Commands that ask for the program itself, as --prove, are left out, and so are those with a word in
capitals. Where a tool is missing that a command calls, as a compiler, this command and those after
it in its block are left out, and the last line says so.
"""

import argparse
import os
import re
import shlex
import shutil
import subprocess
import sys
import tempfile
from collections import namedtuple

import calls

DOCUMENTS = (
    "README.md",
    "docs/TUTORIAL.md",
    "docs/LANGUAGE.md",
    "docs/COMMAND.md",
    "docs/TRACE.md",
    "docs/SEEDS.md",
    "docs/CI.md",
    "docs/QUESTIONS.md",
    "docs/FROM-LUTIN.md",
)

# How long a command is waited for, also on a machine that does much else.
SECONDS = 600

# A command, with its file and line; the lines that are to come of it, or None where the document
# prints none; the commands before it that still hold; and the tool that it lacks here, or None.
Shown = namedtuple("Shown", "file line command wanted before lacks", defaults=["", None])

# The beginning of a block that is a file, and a command that holds for those after it.
FILE_FENCE = re.compile(r"```\w+ (\S+)")
LASTING = re.compile(r"(cd|export) ")

# What a machine may lack of what the documents call.
TOOLS = ("cc", "make", "parallel")

# Where a program stands that runs from a sentence: what names a file or a word by capitals is none.
INLINE = re.compile(r"`(\./(?:lurette|lt_plant) [^`]*)`")
PLACEHOLDER = re.compile(r"\b[A-Z]{2,}\b|(^| )N( |$)| \.\.( |$)")

# Rows of tables: a text with its outputs and its end, and one with its refusal.
TEXT = r"^\| `((?:node|exception|let) [^`]*)`"
RUN_ROW = re.compile(TEXT + r"(?:, with `-l (\d+)`)? \| ([tf0-9, ]*)\| ([^|]*) \|$")
REFUSED_ROW = re.compile(TEXT + r" \| `(\w+)` at (\d+)")
# What shows the outputs of a run and its end in one line.
IN_A_LINE = """awk '/#outs/ {print $1} /#end/ {$1 = ""; print}' | xargs"""

# The statuses of a run that ended in one of its ways, and of a call that went well.
ENDED = (0, 1, 4, 5, 6, 7, 8, 10, 14)

# What a program with checks takes more than a minute for: a search that is given up.
LONG = "examples/pigeons.lut"

# Words that ask for the program, and not for what it does.
OF_THE_SCRIPT = ("--unproved", "--is-proved", "--prove", "--version", "--which")


def sessions(file, lines):
    """The commands of a block, with what comes of each. `lines` are pairs of number and text."""
    found, lines = [], list(lines)
    while lines:
        number, text = lines.pop(0)
        if not text.startswith("$ "):
            continue
        command = text[2:]
        while command.endswith("\\") and lines:
            command = command[:-1] + lines.pop(0)[1].strip()
        wanted = []
        while lines and not lines[0][1].startswith("$ "):
            wanted.append(lines.pop(0)[1])
        found.append(Shown(file, number, command, wanted))
    return found


def blocks(text):
    """The blocks of a document, each with the line of its fence, and the other lines. Each line has
    its number."""
    inside, outside, block = [], [], None
    for number, line in enumerate(text.splitlines(), 1):
        if line.startswith("```"):
            if block is not None:
                inside.append((fence, block))
            fence, block = line, [] if block is None else None
        elif block is None:
            outside.append((number, line))
        else:
            block.append((number, line))
    return inside, outside


def given_text(text):
    """The beginning of a command that runs a text of a table."""
    return f"printf %s {shlex.quote(text.replace(chr(92) + '|', '|'))} >f; ./lurette run f"


def command_of_row(file, number, line):
    """The command that a row of a table stands for, where it is one; in a list."""
    run, refused = RUN_ROW.match(line), REFUSED_ROW.match(line)
    if refused:
        command = f"{given_text(refused[1])} 2>&1 | cut -d . -f 2"
        return [Shown(file, number, command, [f"{refused[2]} at {refused[3]}"])]
    if not run:
        return []
    outputs = run[3].replace(",", "").split()
    end = run[4].replace("`", "").replace(" in instant", "")
    wanted = [*outputs, end if end[-1].isdigit() else f"{end} {len(outputs)}"]
    command = f"{given_text(run[1])} -l {run[2] or 100} 2>/dev/null | {IN_A_LINE}"
    return [Shown(file, number, command, [" ".join(wanted)])]


def is_run(command):
    return not any(it in command for it in OF_THE_SCRIPT)


def missing_tool(command):
    """The tool that a command calls and this machine lacks, or None."""
    calls_it = lambda tool: re.search(rf"(?:^|[|;&] *){tool} ", command)
    return next((it for it in TOOLS if calls_it(it) and shutil.which(it) is None), None)


def writing(file, name, block):
    """The command that writes a block into the file that its fence names."""
    text = "".join(f"{line}\n" for _, line in block)
    command = f"mkdir -p $(dirname {name}); printf %s {shlex.quote(text)} >{name}"
    return Shown(file, block[0][0], command, [])


def commands_of_blocks(file, inside):
    """The commands of a document's blocks, each with those before it that still hold."""
    found, before = [], ""
    for fence, block in inside:
        named, lacks = FILE_FENCE.match(fence), None
        for shown in [writing(file, named[1], block)] if named else sessions(file, block):
            lacks = lacks or missing_tool(shown.command)
            found.append(shown._replace(before=before, lacks=lacks))
            if LASTING.match(shown.command):
                before += f"{shown.command}; "
    return found


def commands_of_document(file, text):
    inside, outside = blocks(text)
    found = commands_of_blocks(file, inside)
    for number, line in outside:
        found += command_of_row(file, number, line)
        for command in INLINE.findall(line):
            if not PLACEHOLDER.search(command):
                found.append(Shown(file, number, command.replace("\\|", "|"), None))
    return [it for it in found if is_run(it.command)]


def commands_of_example(file, text):
    """The commands of an example's comments. What comes of one ends with its comment."""
    block, found = [], []
    for number, line in [*enumerate(text.splitlines(), 1), (0, "")]:
        if line.startswith("-- "):
            block.append((number, line[3:]))
        else:
            found += sessions(file, block)
            block = []
    return found


def read(path):
    with open(os.path.join(calls.TOP, path), encoding="utf-8") as file:
        return file.read()


def all_commands():
    """The commands of each file, in turn."""
    for file in DOCUMENTS:
        yield commands_of_document(file, read(file))
    for name in sorted(os.listdir(os.path.join(calls.TOP, "examples"))):
        if name.endswith(".lut"):
            yield commands_of_example(f"examples/{name}", read(f"examples/{name}"))


def furnish(room, program, plant):
    """Puts into a folder what commands at the top of the repository find there. It is a tree as
    `scripts/install` makes one: it has the scripts and the programs, and no source."""
    os.makedirs(os.path.join(room, "program"))
    for name in ("docs", "examples", "scripts"):
        shutil.copytree(os.path.join(calls.TOP, name), os.path.join(room, name))
    for name, path in (("lurette", program), ("lt_plant", plant)):
        shutil.copy(os.path.join(calls.TOP, name), os.path.join(room, name))
        kept = os.path.join(room, "program", name)
        os.symlink(path, kept)
        # The program says the same where nothing is proved of it, but for a line of the script's.
        with open(f"{kept}.proved", "w", encoding="utf-8"):
            pass


def outcome(command, room):
    """The status of a command, and the lines that it writes."""
    how = {"stdout": subprocess.PIPE, "stderr": subprocess.STDOUT, "stdin": subprocess.DEVNULL}
    how["env"] = {**os.environ, "HOME": os.path.dirname(room)}
    try:
        run = subprocess.run(["sh", "-c", command], cwd=room, timeout=SECONDS, check=False, **how)
    except subprocess.TimeoutExpired:
        return None, [f"(it had not ended after {SECONDS} seconds)"]
    return run.returncode, run.stdout.decode("utf-8", "replace").splitlines()


def fits(found, wanted):
    """Whether lines are those that are wanted, in which `..` stands for any lines."""
    if ".." not in wanted:
        return found == wanted
    at = wanted.index("..")
    rest, places = wanted[at + 1 :], range(at, len(found) + 1)
    return found[:at] == wanted[:at] and any(fits(found[it:], rest) for it in places)


def fault_of(shown, room):
    """What is wrong with a command, in lines; none where it gives what is printed."""
    status, found = outcome(shown.before + shown.command, room)
    if shown.wanted is None:
        is_well = status in ENDED
        wanted = ["(a status of a run that ended)"]
        found = [f"(the status {status})", *found]
    else:
        is_well = fits(found, shown.wanted)
        wanted = shown.wanted
    if is_well:
        return []
    indented = lambda lines: [f"    {it}" for it in lines]
    head = f"{shown.file}:{shown.line}: $ {shown.command}"
    return [head, "  printed:", *indented(wanted), "  found:", *indented(found)]


def check(named):
    """How many commands were run, what is wrong with them, and the tools that others lack."""
    count, faults, lacking = 0, [], []
    for commands in all_commands():
        with tempfile.TemporaryDirectory(prefix="check-docs-") as home:
            room = os.path.join(home, "lurette")
            furnish(room, named.program, named.plant)
            for shown in commands:
                if named.quick and LONG in shown.command:
                    continue
                if shown.lacks:
                    lacking.append(shown.lacks)
                    continue
                count += 1
                faults += fault_of(shown, room)
    return count, faults, lacking


def given(words):
    """What words of the command line say: the paths of both programs, and whether what takes long
    is left out."""
    parser = argparse.ArgumentParser(prog="check_docs.py")
    parser.add_argument("--program", default=calls.built("lurette"))
    parser.add_argument("--plant", default=calls.built("lt_plant"))
    parser.add_argument("--quick", action="store_true")
    found = parser.parse_args(words)
    found.program, found.plant = os.path.abspath(found.program), os.path.abspath(found.plant)
    return found


def main(words):
    named = given(words)
    for path in (named.program, named.plant):
        if not os.access(path, os.X_OK):
            print(f"check_docs: {path} is not there, so no command can be run", file=sys.stderr)
            return 2
    count, faults, lacking = check(named)
    for line in faults:
        print(line)
    wrong = sum(not it.startswith(" ") for it in faults)
    print(f"check_docs: {count - wrong} of {count} commands give what is printed")
    for tool in sorted(set(lacking)):
        print(f"check_docs: {tool} isn't here, so {lacking.count(tool)} commands are left out")
    return 1 if faults else 0


if __name__ == "__main__":
    sys.exit(main(sys.argv[1:]))
