"""Runs a program of lurette, and says below the line that it ends with what that line means.

    python3 scripts/explain.py PROGRAM WORD ..

Standard output, standard error and the status are the program's own. What is said more comes behind
its last line, on standard error: a sentence, the line of the file with a caret at the place, and
behind a run that found something the call that plays it again. Of a campaign that is said of the
session that its line names. Of an earlier trace that is replayed by another seed or rule of drawing
it is said which ones it has, also where all went well. On a terminal it is also said where the
program waits long for a controller or an oracle, and how many sessions of a campaign are over.
"""

import io
import os
import re
import signal
import subprocess
import sys
import threading

import call_words
import next_calls
import progress
import traces
import waiting

# Each code of a refusal.
CODES = {
    "file.TooLong": "The file is larger than lurette reads: 1 MiB of scenario, 64 MiB of trace.",
    "lex.BadByte": "This byte begins no word, number, symbol or comment of the language.",
    "lex.OpenComment": "This comment isn't closed: a `*)` is missing.",
    "lex.NumberTooLong": "This number has more than 18 digits.",
    "parse.Unexpected": "No program continues like this: something before it is missing or too much.",
    "parse.TooDeep": "More than 200 constructs are nested here.",
    "type.Unknown": "This name isn't known here: it is misspelled, or declared further on.",
    "type.Twice": "This name is declared a second time.",
    "type.Mismatch": "This has the wrong type here. `1` is an int, `1.0` is a real.",
    "type.Arity": "The name takes a different number of arguments.",
    "type.PreOfExpression": "`pre` takes the name of a variable, and this isn't one.",
    "type.EmptyRange": "The low end of this range is over its high end.",
    "type.RangeTooLarge": "This number of a range is past 10^12 units of the last decimal.",
    "type.NoNode": "The text declares no node, so there is nothing to run.",
    "type.BadStep": "This step is 0 or less, in units of the last decimal.",
    "expand.UnknownNode": "The text has no node of the name that --node gives.",
    "expand.TooLarge": "With its macros replaced the node is past a limit of size or depth.",
    "expand.BadStatic": "This bound or first value isn't fixed, or isn't allowed here.",
    "expand.NonLinear": "Of two values that are multiplied or divided, one has to be known before the draw.",
    "expand.ControllableCondition": "An `if` between numbers can't depend on what is drawn now.",
    "expand.ControllableWeight": "A weight can't depend on what is drawn in the same instant.",
    "expand.ControllableArgument": "An argument of a run can't depend on what is drawn now.",
    "expand.TooManyRuns": "The node runs over 16 nodes, with those that these run themselves.",
    "run.HasRuns": "The node runs others: neither runs nor checks take such a node yet.",
    "run.TooManyAtoms": "A part of a constraint joins over 16 conditions by `or` and the like: split it.",
    "run.NeedsController": "The scenario has inputs: give them values by --sut or --replay.",
    "check.BadLine": "This line isn't the next one of a trace of this scenario, or it is missing.",
}

# Each kind of a fault of the words.
USAGES = {
    "words": "An option is unknown, given twice or lacks its argument, or MODE or FILE is missing.",
    "mode": "The first word is none of the modes run, campaign, print, check and stress.",
    "number": "After stress comes a number from 0 to 999999, in digits only.",
    "both": "A run takes its inputs from --sut or from --replay, not from both.",
    "trace": "A check takes the trace to check from --replay.",
}

# Each kind of an arithmetic fault.
FAULTS = {
    "NoPrevious": "`pre` of a variable has no value yet: give it a first value, as in `x: int = 0`",
    "DivisionByZero": "A constraint or a weight divides by 0.",
    "Overflow": "A result is past 10^12 units of the last decimal.",
    "NegativeWeight": "The weight of an alternative is below 0.",
}

# Each kind of a refused reply.
REPLIES = {
    "NotAValue": "It answered a word that isn't a value of the right kind.",
    "OutOfRange": "It answered a number outside the range that the scenario declares.",
    "TooLong": "It wrote 65,536 bytes without a whole answer.",
}

# What failed of each device.
DEVICES = {
    "file": "A file couldn't be read: is its name right, and may it be read?",
    "controller": "The connection to the controller failed.",
    "oracle": "The connection to the oracle failed.",
    "trace": "What was to be written to standard output couldn't be written.",
}

# What `device controller 0` and `device oracle 0` say.
NOT_STARTED = "It couldn't be started. Is its name right? A program of this folder is ./NAME."

# What the first word of any other line says.
ENDS = {
    "oracle": "The oracle found this step wrong: it is the last one of the trace.",
    "deadlock": "No values are possible for this instant. Look at its constraints and ranges.",
    "raise": "The scenario raised this exception, and no `catch` catches it.",
    "ended": "It closed its output, or ended, when the run needed an answer.",
    "budget": "The search for these values was given up: whether there are any isn't known.",
    "memory": "Memory ran out.",
    "toolarge": "This instant offers more than 65,536 alternatives.",
    "illegal": "No run of the scenario goes on with this step after those before it, or ends so.",
    "candidates": "Over 4,096 ways of the scenario lead to this step: the check goes no further.",
}

# What `ended controller` says where an earlier trace answers.
NO_MORE = "The trace that is replayed has no answer for this step."

# The beginning of a line of a campaign, which names a session.
OF_A_SESSION = re.compile(r"session (\d+): ")

# What is said of an earlier trace that is that of a campaign.
MANY_RUNS = "this is a campaign's trace, with the answers of all its sessions in turn. One of them:"

# The beginning of a trace, with its seed and the rule of drawing, which isn't there if it is 1.
HEADER = re.compile(rb"#seed (\d+)\n(?:#draw (\d)\n)?")

# First words of a line, each with the table that has the sentence of a word after it.
TABLES = {
    "usage": USAGES,
    "refused": CODES,
    "fault": FAULTS,
    "malformed": REPLIES,
    "device": DEVICES,
}

# The modes that make runs.
RUNNING = ("run", "campaign")

# The greatest budget that a call may have, and how many lines of hard constraints are shown.
MOST_BUDGET, MOST_LINES = 10**12, 3

# What is no part of a scenario's text, and what stands between the parts that are looked at one by
# one; a comparison, and a name whose value isn't that of the instant before.
COMMENT = re.compile(r"--[^\n]*|\(\*.*?\*\)", re.S)
BETWEEN = re.compile(r"&>|\|>|=>|[;:|{}]|\b(?:and|or|xor|fby|in|do|then|else)\b")
COMPARES = re.compile(r"<>|<=|>=|[<>=]")
NAMES = re.compile(r"(?<!\bpre )\b[A-Za-z_]\w*")
WORDS = "assert bool div else exist if int let loop mod node not pre real ref returns then trace"


def sentence(line):
    """What a line of the program means, which is given without its name; or None."""
    words = line.replace(":", " ", 1).split()
    if not words:
        return None
    if words[0] == "device" and words[2:] == ["0"] and words[1] in ("controller", "oracle"):
        return NOT_STARTED
    table = TABLES.get(words[0])
    if table is None:
        return ENDS.get(words[0])
    return next((table[it] for it in words[1:3] if it in table), None)


def place_in(line):
    """The place that a line tells, or None."""
    words = line.split()
    told = words[-2:-1] == ["at"] and words[-1].isdigit()
    return int(words[-1]) if told else None


def file_of(line, words):
    """The file that the place of a line is in, or None."""
    if line.startswith("refused"):
        return call_words.text_of(words, "file")
    if line.startswith("malformed controller"):
        return call_words.text_of(words, "--replay")
    return None


def shown_place(text, place):
    """The number of a line and of a column, both from 1, of a place in a text, with the line."""
    before = text[:place].decode("utf-8", "replace")
    line = text.split(b"\n")[before.count("\n")].decode("utf-8", "replace").rstrip("\r")
    return before.count("\n") + 1, len(before) - (before.rfind("\n") + 1) + 1, line


def caret_below(line, column):
    """The blanks up to a column, with the tabs of the line above, and a caret."""
    return "".join("\t" if it == "\t" else " " for it in line[: column - 1].ljust(column - 1)) + "^"


def joins_numbers(part):
    """Whether a part of a text compares something of at least two names."""
    names = set(NAMES.findall(part)) - set(WORDS.split())
    return COMPARES.search(part) is not None and len(names) > 1


def hard_lines(text, node):
    """The lines, with their numbers from 1, in which a node compares something of several names."""
    bare = COMMENT.sub(lambda it: "\n" * it[0].count("\n"), text)
    starts = [it for it in re.finditer(r"\bnode\s+(\w+)", bare) if node in (None, it[1])]
    if not starts:
        return []
    others = re.compile(r"\bnode\b").search(bare, starts[0].end())
    body = bare[starts[0].start() : others.start() if others else len(bare)]
    first, lines = bare[: starts[0].start()].count("\n"), text.split("\n")
    return [
        (number, lines[number - 1].rstrip("\r"))
        for number, line in enumerate(body.split("\n"), first + 1)
        if any(map(joins_numbers, BETWEEN.split(line)))
    ]


def help_of_search(line, words):
    """What helps where a search was given up, and the lines that may have made it hard."""
    need = line.split()[1]
    raised = f"; or --budget {need}" if int(need) <= MOST_BUDGET else ""
    helps = f"What helps: fewer constraints at once, or smaller ranges of their numbers{raised}."
    name = call_words.text_of(words, "file")
    try:
        with open(name or "", encoding="utf-8", errors="replace", newline="") as file:
            found = hard_lines(file.read(), call_words.text_of(words, "--node"))
    except OSError:
        return [helps]
    if not found:
        return [helps]
    shown = [f"{name}:{number}: {text.strip()}" for number, text in found[:MOST_LINES]]
    more = len(found) - len(shown)
    rest = [f".. and {more} lines more"] if more > 1 else [".. and a line more"] * more
    head = "These constraints join several numbers, so they may be the hard ones:"
    return [helps, head, *shown, *rest]


def bad_line(meant, number, words):
    """What is said of a line of the trace that is checked, with the line where there is one."""
    name = call_words.text_of(words, "--replay")
    try:
        with open(name or "", "rb") as file:
            lines = file.read().split(b"\n")
    except OSError:
        return [meant]
    shown = lines[number - 1].decode("utf-8", "replace") if number <= len(lines) else ""
    hint = framed_hint(name) if traces.is_framed(lines[0] + b"\n") else []
    return [f"{name}:{number}: {meant}", *([f"    {shown}"] if shown else []), *hint]


def framed_hint(name):
    """What is said of an earlier trace that is that of a campaign."""
    return [f"{name}: {MANY_RUNS}", f"    {next_calls.parts_call(name, 0)}"]


def replay_hint(line, words):
    """What a replay needs whose earlier trace has another seed or rule of drawing than the call, or
    too few answers; in a list."""
    name = call_words.text_of(words, "--replay")
    try:
        with open(name or "", "rb") as file:
            beginning = file.read(64)
    except OSError:
        return []
    header, mode = HEADER.match(beginning), call_words.text_of(words, "mode")
    if mode not in RUNNING or line.startswith(("usage", "refused", "device")):
        return []
    if traces.is_framed(beginning):
        return framed_hint(name)
    if header is None or mode != "run":
        return []
    number = lambda role, default: (call_words.text_of(words, role) or default).lstrip("0") or "0"
    seed, rule = header[1].decode(), (header[2] or b"1").decode()
    is_same = (number("--seed", "0"), number("--draw", "1")) == (seed, rule)
    if is_same and not line.startswith("ended controller"):
        return []
    needs = f"--seed {seed} --draw {rule}"
    return [f"{name} was written with {needs}: its replay needs these, and the same -l."]


def explanation(line, words):
    """The lines that explain a line of the program."""
    meant, place, name = sentence(line), place_in(line), file_of(line, words)
    if line.startswith("ended controller") and call_words.text_of(words, "--replay") is not None:
        meant = NO_MORE
    if meant is None:
        return []
    if line.startswith("refused check.BadLine"):
        return bad_line(meant, place or 0, words)
    if line.startswith("budget "):
        return [meant, *help_of_search(line, words)]
    try:
        with open(name or "", "rb") as file:
            text = file.read()
    except OSError:
        return [meant]
    if place is None or place > len(text):
        return [meant]
    number, column, shown = shown_place(text, place)
    head = f"{name}:{number}:{column}: {meant}"
    return [head, f"    {shown}", f"    {caret_below(shown, column)}"]


def line_of(said):
    """The line that the program ended with, without its name, from the end of standard error."""
    name = "lurette: "
    lines = said.decode("utf-8", "replace").splitlines()
    own = [it[len(name) :] for it in lines if it.startswith(name)]
    return own[-1] if own else ""


def copied(stream, kept, shown):
    """Hands standard error on as it comes, beside a line that is shown, and keeps the end of it."""

    def hand_on(chunk):
        sys.stderr.buffer.write(chunk)
        sys.stderr.flush()

    for chunk in iter(lambda: os.read(stream.fileno(), 65536), b""):
        shown.beside(lambda: hand_on(chunk), chunk.endswith(b"\n"))
        kept[:] = (kept + chunk)[-65536:]


def say(line):
    print(line, file=sys.stderr, flush=True)


def count_of(words):
    """How many sessions a campaign has; 0 where the words ask for none."""
    count = call_words.text_of(words, "--count") or "1"
    is_campaign = call_words.text_of(words, "mode") == "campaign"
    return int(count) if is_campaign and re.fullmatch(r"\+?[0-9]+", count) else 0


def sides_of(words):
    """The names of the programs that a call starts, in turn."""
    names = {"--sut": "controller", "--oracle": "oracle"}
    sides = [name for role, name in names.items() if call_words.text_of(words, role) is not None]
    if call_words.text_of(words, "mode") != "campaign":
        return sides
    count = min(count_of(words), traces.MOST_SESSIONS)
    return [f"{side} of session {session}" for session in range(count) for side in sides]


def in_the_background(work, *given):
    found = threading.Thread(target=work, args=given, daemon=True)
    found.start()
    return found


def watch(run, words, shown):
    """Has it said where a run waits long for a side."""
    sides = sides_of(words)
    if sides:
        tell = lambda line: shown.beside(lambda: say(line), True)
        in_the_background(waiting.tell_once, run, sides, tell)


def watch_trace(run, words, file, shown):
    """Has it shown how many sessions of a campaign are over, if its trace goes to a file. Gives what
    does so, or None."""
    if file is None or not count_of(words):
        return None
    grown = io.BufferedReader(progress.Growing(file, lambda: run.poll() is not None))
    return in_the_background(progress.follow, grown, count_of(words), shown)


def told_lines(line, words, trace):
    """What is said below a line of the program, which didn't go well."""
    session = OF_A_SESSION.match(line)
    if session is None or call_words.text_of(words, "mode") != "campaign":
        return explanation(line, words)
    number, rest = int(session[1]), line[session.end() :]
    run = next_calls.alone(words, number)
    return explanation(rest, run) + next_calls.session_lines(number, rest, run, trace)


def main(program, *words):
    # What the terminal sends goes to the program too. It ends by it, and this with it.
    signal.signal(signal.SIGINT, lambda *_: None)
    shown, file = progress.Line(sys.stderr, "lurette"), None
    if sys.stderr.isatty():
        file = progress.opened(1)
    run = subprocess.Popen([program, *words], stderr=subprocess.PIPE)
    follower = None
    if sys.stderr.isatty():
        watch(run, words, shown)
        follower = watch_trace(run, words, file, shown)
    kept = bytearray()
    copier = in_the_background(copied, run.stderr, kept, shown)
    status = run.wait()
    # A program that still runs may hold standard error open, and a long trace be read no further.
    for it in (copier, follower):
        if it is not None:
            it.join(1)
    shown.close()
    line, trace = line_of(bytes(kept)), next_calls.trace_file()
    if status > 0:
        for told in told_lines(line, words, trace):
            say(told)
    if status >= 0:
        for told in replay_hint(line, words) + next_calls.lines(line, words, trace):
            say(told)
    return status if status >= 0 else 128 - status


if __name__ == "__main__":
    sys.exit(main(*sys.argv[1:]))
