"""What to type behind a run that found something: the same again, and a picture of its trace."""

import os
import re
import shlex
import stat

import call_words

TOP = os.path.dirname(os.path.dirname(os.path.abspath(__file__)))

# The lines of the statuses 1, 4 to 8 and 10, which name a step.
FOUND = re.compile(
    r"(?:(?:oracle|deadlock|(?:raise|fault|ended|budget) \S+|malformed \S+ \S+)) (\d+)(?: at \d+)?"
)


def shown(path):
    """A path as it is typed here: the short one of a file below this folder."""
    near = os.path.relpath(path)
    return path if near.startswith(os.pardir + os.sep) else near


def with_option(words, name, text):
    """The words with a text for an option, in place of the one that it has there."""
    parts = call_words.parts_of(words)
    if any(it.role == name for it in parts):
        change = lambda part: text if part.role == name else part.text
        return call_words.with_texts(words, change)
    file = next(it.index for it in parts if it.role == "file")
    at = 0 if "--" in words[:file] else file + 1
    return [*words[:at], name, text, *words[at:]]


def without_option(words, name):
    """The words without an option."""
    part = next((it for it in call_words.parts_of(words) if it.role == name), None)
    if part is None:
        return list(words)
    return [*words[: part.index - (part.start == 0)], *words[part.index + 1 :]]


def again(words, step):
    """The words of the same run up to a step."""
    return with_option(words, "-l", step)


def alone(words, session):
    """The words of the run that a session of a campaign is."""
    change = lambda part: "run" if part.role == "mode" else part.text
    run = without_option(call_words.with_texts(words, change), "--count")
    seed = int(call_words.text_of(words, "--seed") or "0")
    return with_option(run, "--seed", str((seed + session) % 2**64))


def called(words):
    script = shown(os.path.join(TOP, "lurette"))
    return shlex.join([script if os.sep in script else f"./{script}", *words])


def trace_file():
    """The file that standard output goes to, or None where it is no file."""
    try:
        is_file = stat.S_ISREG(os.fstat(1).st_mode)
        path = os.readlink("/proc/self/fd/1")
    except OSError:
        return None
    return path if is_file and os.path.exists(path) else None


def picture_lines(trace):
    """What to type to have a picture of a trace; none where it is in no file."""
    if not trace:
        return []
    drawing = shown(os.path.join(TOP, "scripts", "draw_trace.py"))
    call = shlex.join(["python3", drawing, shown(trace)])
    return ["A picture of the trace:", f"    {call} >picture.svg"]


def lines(line, words, trace):
    """What to type behind a line of the program; none where it names no step."""
    found = FOUND.fullmatch(line)
    if found is None or call_words.text_of(words, "mode") != "run":
        return []
    seed, step = call_words.text_of(words, "--seed") or "0", found[1]
    told = [f"Seed {seed}, step {step}. The same again:", f"    {called(again(words, step))}"]
    return told + picture_lines(trace)


def parts_call(trace, session):
    """The call that takes a session out of the trace of a campaign."""
    return called(["parts", shown(trace), "--session", str(session)])


def session_lines(session, line, words, trace):
    """What to type behind a line of a campaign, whose session is the run of these words."""
    found, seed = FOUND.fullmatch(line), call_words.text_of(words, "--seed")
    step = f", step {found[1]}" if found else ""
    call = called(again(words, found[1]) if found else words)
    told = [f"Session {session} has the seed {seed}{step}. The same run alone:", f"    {call}"]
    if not trace:
        return told
    each = called(["parts", shown(trace), "--list"])
    return told + [
        "Its trace, and how each session ended:",
        f"    {parts_call(trace, session)} >{session}.trace",
        f"    {each}",
    ]
