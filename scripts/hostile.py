"""Feeds hostile texts to the program, and judges what comes of each.

    python3 scripts/hostile.py tokens SEED BYTES [--program PATH]
    python3 scripts/hostile.py (mutated | traces) SEED COUNT [--program PATH]
    python3 scripts/hostile.py (tokens | mutated | traces) SEED NUMBER --show

`tokens` makes texts of the language's tokens, from any one after another to those of a program, as
long as so many bytes weren't tried. `mutated` changes the scenarios of `examples/`: it flips bytes,
drops lines, swaps tokens, repeats pieces and enlarges numbers. Each text goes through `print` and
through `run -l 3`, and what `print` wrote goes through `print` once more. `traces` makes traces of
one scenario, or what is nearly one, and changes some of them so too. They go through `check`.

A finding is an end that docs/COMMAND.md doesn't have: a signal, another status, another line on
standard error, a trace that ends otherwise, a call that hadn't ended after ten seconds, took more
than one of the processor each time of three, or more memory than a text of its length may, or a
printed text that is printed in another way. So is a trace that is refused for another line than the
first that is wrong, or that is judged though one is. It is told with the number of its text. The
same seed and number make the same text, in every version of Python, as long as the examples stay as
they are: --show writes it to standard output, and tries nothing. The program is the one that
`rt ci` leaves in the checkout, where no option names another.
"""

import argparse
import glob
import os
import re
import sys
import tempfile
from collections import Counter

import calls
import explain
import trace_texts
from chance import Chance

STEPS = 3

# How often a call is made that took too long.
CALLS = 3

# -- Texts -----------------------------------------------------------------------------------------

WORDS = """node returns let in exist bool int real trace ref fby loop assert raise catch do trap try
exception pre not and or xor if then else div mod true false run b c i j x e t m n Deadlock"""
SYMBOLS = "( ) { } [ ] : ; , = <> < <= > >= + - * / => | |> &> ~"
NUMBERS = """0 1 2 3 9 64 65 1000 10001 65536 1000000 1000001 999999999999 1000000000000
1000000000001 999999999999999999 1234567890123456789 0. 0.5 0.005 9.99 1000000000000.5"""
TOKENS = (WORDS + " " + SYMBOLS + " " + NUMBERS).split()
BLANKS = (" ", "\n", "\t", "\r\n", "(* b *)", "-- b\n", "(**)", "", "&", "\0", "\xe9")

# What a word in capitals may be spelled out to. The first way of each comes to an end.
RULES = {
    "PROGRAM": ["BEGIN NODE", "BEGIN NODE", "BEGIN NODE", "BEGIN NODE OTHER"],
    "BEGIN": ["exception e LET_K LET_M LET_T"],
    "LET_K": ["let k : int = NUMBER", "let k : int = NUMBER + NUMBER * ( - NUMBER )"],
    "LET_M": ["let m ( b , c : bool ref ; i , j : int ref ; x : real ref ) : bool = PLAIN"],
    "LET_T": ["let t ( t : trace ) : trace = SHAPE"],
    "OTHER": ["exception b , c", "let u : trace = raise e", "node m ( ) returns ( ) = b", "NODE"],
    "NODE": [
        "node n ( ) returns ( b , c : bool = false ; i , j : int RANGE ; x : real SPAN ) = TRACE",
        "node n ( ) returns ( b , c : bool ; i , j : int [ 0 ; 9 ] = 0 ; x : real SPAN ) = TRACE",
        "node n ( ) returns ( b , c : bool ; i , j : int [ 0 ; 2 ] ; x : real SPAN ) = TRACE",
        "node n ( ) returns ( b , c : bool ; i , j : int [ - 9 ; 9 ] = 1 ; x : real ) = TRACE",
        "node n ( y : int ) returns ( b , c : bool ; i , j : int ; x : real ) = TRACE",
    ],
    "RANGE": ["[ 0 ; 9 ] = 3", "[ - NUMBER ; NUMBER ] = 0", "[ NUMBER ; NUMBER ]", "= NUMBER"],
    "SPAN": ["[ 0.0 ; 1.0 ] = 0.5", "[ - 9.99 ; 9.99 ] = 0.0", "= 1.0"],
    "PLAIN": ["b", "b and pre c", "i < 3 => b", "i = pre i + j", "x < 0.5", "not b xor c"],
    "TRACE": ["ITEM", "ITEM fby TRACE", "ITEM"],
    "SHAPE": ["t", "{ | NUMBER : t | t }", "{ t |> true }", "{ &> t &> t }", "loop t", "t fby t"],
    "ITEM": [
        "BOOL",
        "BOOL",
        "{ TRACE }",
        "{ | KNOWN : TRACE | NUMBER : TRACE }",
        "{ TRACE |> TRACE }",
        "{ &> TRACE &> TRACE }",
        "loop ITEM",
        "loop [ SMALL , LIMIT ] ITEM",
        "loop ~ LIMIT : SMALL ITEM",
        "assert BOOL in TRACE",
        "exist i : int RANGE in TRACE",
        "exist b : bool in TRACE",
        "let l ( b : bool ref ) : bool = BOOL in l ( c ) fby TRACE",
        "exception e in TRACE",
        "raise e",
        "raise Deadlock",
        "catch e in TRACE do TRACE",
        "trap e in TRACE do TRACE",
        "catch Deadlock in TRACE do TRACE",
        "try TRACE do TRACE",
        "t ( BOOL )",
        "t ( { TRACE } )",
    ],
    "BOOL": [
        "b",
        "c",
        "pre b",
        "true",
        "not BOOL",
        "( BOOL )",
        "BOOL and BOOL",
        "BOOL or BOOL",
        "BOOL xor BOOL",
        "BOOL => BOOL",
        "INT = INT",
        "INT <= INT",
        "INT <> INT",
        "INT > INT",
        "REAL < REAL",
        "REAL = REAL",
        "( if BOOL then BOOL else BOOL )",
        "m ( b , c , i , j , x )",
    ],
    "KNOWN": ["1", "k", "pre i", "NUMBER", "KNOWN + KNOWN", "KNOWN * KNOWN", "KNOWN div KNOWN"],
    "INT": [
        "i",
        "j",
        "NUMBER",
        "INT + INT",
        "INT - INT",
        "KNOWN * INT",
        "KNOWN mod KNOWN",
        "- INT",
        "( if pre b then INT else INT )",
    ],
    "REAL": ["x", "pre x", "0.5", "9.99", "REAL + REAL", "0.5 * REAL", "REAL / 0.5", "- REAL"],
    "NUMBER": ["1", "0", "2", "3", "9", "1", "1", "2", "64", "1000000", "1000000000000"],
    "SMALL": ["1", "0"],
    "LIMIT": ["2", "1", "64", "1000000"],
}

# What numbers are enlarged to.
LARGE = [it.encode() for it in NUMBERS.split() if len(it) > 1]


def spelled_out(word, depth, chance):
    """The tokens of a word of RULES, in which so many words are open in one another."""
    if word not in RULES:
        return [word]
    rule = chance.one_of(RULES[word]) if depth else RULES[word][0]
    rest = max(depth - 1, 0)
    return [it for part in rule.split() for it in spelled_out(part, rest, chance)]


def text_of_tokens(seed, number):
    """Tokens of a program, of which few, some or all are others, with blanks that may be none."""
    chance = Chance(f"tokens {seed} {number}")
    tokens = spelled_out("PROGRAM", 3 + chance.below(9), chance)
    others = chance.one_of([0, 0, 0, 400, 100, 20, 1])
    blanks = chance.one_of([0, 2, 300])
    found = []
    for token in tokens:
        if others and chance.is_one_in(others):
            token = chance.one_of(TOKENS)
        blank = chance.one_of(BLANKS) if blanks == 300 and chance.is_one_in(300) else " "
        found.append(token + (chance.one_of(BLANKS[:-4]) if blanks == 2 else blank))
    return "".join(found).encode("latin-1")


def split(text):
    """A text as its words, its blanks and its signs."""
    return re.findall(rb"\w+|\s+|[^\w\s]", text)


def flipped(text, chance):
    """One byte has another bit."""
    at = chance.below(len(text))
    return text[:at] + bytes([text[at] ^ 1 << chance.below(8)]) + text[at + 1 :]


def without_lines(text, chance):
    lines = text.splitlines(True)
    begin, end = chance.piece(len(lines), 3)
    return b"".join(lines[:begin] + lines[end:])


def swapped(text, chance):
    """Two tokens stand in each other's place, or one in that of another."""
    parts = split(text)
    one, other = chance.below(len(parts)), chance.below(len(parts))
    if chance.is_one_in(2):
        parts[one] = chance.one_of(TOKENS).encode()
    else:
        parts[one], parts[other] = parts[other], parts[one]
    return b"".join(parts)


def repeated(text, chance):
    """A piece of a few tokens stands once more, or many times."""
    parts = split(text)
    begin, end = chance.piece(len(parts), 12)
    times = 1 << chance.below(12)
    return b"".join(parts[:begin] + parts[begin:end] * times + parts[begin:])


def enlarged(text, chance):
    """One number is another one, near a limit or past it."""
    places = [it.span() for it in re.finditer(rb"\b\d+\.?\d*", text)]
    if not places:
        return text
    begin, end = chance.one_of(places)
    return text[:begin] + chance.one_of(LARGE) + text[end:]


CHANGES = (flipped, without_lines, swapped, repeated, enlarged)


def examples():
    """The texts of the examples, by their names."""
    found = []
    for path in sorted(glob.glob(os.path.join(calls.TOP, "examples", "*.lut"))):
        with open(path, "rb") as file:
            found.append(file.read())
    return found


def mutated_text(seed, number):
    """An example that was changed in one place to four."""
    chance = Chance(f"mutated {seed} {number}")
    text = chance.one_of(examples())
    for _ in range(1 + chance.below(4)):
        text = chance.one_of(CHANGES)(text, chance) if text else text
    return text


def text_of_trace(seed, number):
    return trace_texts.text_of_trace(seed, number, CHANGES)


TEXTS = {"tokens": text_of_tokens, "mutated": mutated_text, "traces": text_of_trace}

# -- What may come of a call -----------------------------------------------------------------------

WITHOUT_PLACE = (
    "file.TooLong",
    "type.NoNode",
    "expand.UnknownNode",
    "expand.TooLarge",
    "expand.TooManyRuns",
    "run.HasRuns",
    "run.NeedsController",
    "run.TooManyAtoms",
)
OF_PRINT = ("file.", "lex.", "parse.")
OF_RUN = (*OF_PRINT, "type.", "expand.", "run.")
UNREAD = (b"lurette: refused lex.", b"lurette: refused parse.")

K = rf"[1-{STEPS}]"
KINDS = "|".join(explain.FAULTS)

# The line of each status that may come of `run` without a controller, an oracle and a word that is
# wrong; but for refusals.
RUN_LINES = {
    0: "",
    4: rf"deadlock {K}",
    5: rf"raise [A-Za-z]\w* {K}",
    6: rf"fault (?:{KINDS}) {K}",
    10: rf"budget [1-9]\d* {K}",
    11: "memory",
    14: rf"toolarge {K}",
}
LINES = {"run": RUN_LINES, "print": {0: "", 11: "memory"}}


def is_refusal(mode, line, length):
    """Whether a line refuses a text of so many bytes, as the mode may."""
    code = line[len("refused ") :].split(" ")[0]
    if code not in explain.CODES or not code.startswith(OF_PRINT if mode == "print" else OF_RUN):
        return False
    if code in WITHOUT_PLACE:
        return line == f"refused {code}"
    told = re.fullmatch(rf"refused {re.escape(code)} at (0|[1-9]\d*)", line)
    return told is not None and int(told[1]) <= length


def line_of(errors):
    """The one line of standard error without its name; "" where nothing stands there, else None."""
    if not errors:
        return ""
    told = re.fullmatch(r"lurette: ([ -~]+)\n", errors.decode("utf-8", "replace"))
    return told[1] if told else None


def is_output_right(mode, status, line, output):
    """Whether standard output has what a call of this end writes."""
    if status in (3, 11):
        return status == 11 or not output
    if mode == "print":
        return not output or output.endswith(b"\n")
    last = output.decode("utf-8", "replace").rpartition("\n#end ")[2]
    if status == 0:
        return re.fullmatch(rf"normal [0-{STEPS}]\n|limit {STEPS}\n", last) is not None
    return last == line + "\n"


def fault_of(mode, length, outcome):
    """What is wrong with what came of a text of so many bytes; None where nothing is."""
    status, line = outcome.status, line_of(outcome.errors)
    if status is None:
        return f"had not ended after {calls.SECONDS} seconds"
    if status < 0:
        return f"was ended by the signal {-status}"
    if status != 3 and status not in LINES[mode]:
        return f"ended with the status {status}"
    if line is None:
        is_line_right = False
    elif status == 3:
        is_line_right = is_refusal(mode, line, length)
    else:
        is_line_right = re.fullmatch(LINES[mode][status], line) is not None
    if not is_line_right:
        return f"has with the status {status} on standard error {outcome.errors[:200]!r}"
    if not is_output_right(mode, status, line, outcome.output):
        return f"has with the status {status} on standard output {outcome.output[-200:]!r}"
    return None


def fault_between(printed, again, run):
    """What is wrong with a text's outcomes beside each other; None where nothing is."""
    if printed.status == 0 and (again.status, again.output) != (0, printed.output):
        return "prints another text of what it printed"
    if printed.status == 3 and (run.status, run.errors) != (3, printed.errors):
        return f"runs what it doesn't print: {run.errors[:200]!r}"
    if printed.status == 0 and run.errors.startswith(UNREAD):
        return f"prints what it doesn't read: {run.errors[:200]!r}"
    return None


# -- Calls -----------------------------------------------------------------------------------------


def name_of_end(mode, found):
    """How an outcome is counted."""
    line = (line_of(found.errors) or "").split(" ")
    what = " ".join(line[: 2 if line[0] == "refused" else 1])
    return f"{mode} {found.status} {what}".rstrip()


def fault_of_cost(length, found):
    """What is wrong with what a call took for a text of so many bytes; None where nothing is."""
    if found.seconds > 1:
        return f"took {found.seconds:.1f} seconds of the processor"
    if found.status == 11:
        return f"took more than {memory_for(length)} bytes of memory"
    return None


def memory_for(length):
    """How many bytes of memory a call may take for a text of so many bytes."""
    return (64 << 20) + 256 * length


def cheapest(call):
    """What comes of a call, or of the cheapest of CALLS where the first one took too long: a busy
    machine may charge a call for time in which others ran."""
    found = call()
    for _ in range(CALLS - 1):
        if found.seconds > 1:
            found = min(found, call(), key=lambda it: it.seconds)
    return found


def tried(program, text):
    """The ends of a text's calls, and what is wrong with them."""
    memory = memory_for(len(text))
    made = lambda *words: cheapest(lambda: calls.outcome(program, text, *words, memory=memory))
    printed, run = made("print"), made("run", "-l", str(STEPS))
    again = calls.outcome(program, printed.output, "print") if printed.status == 0 else printed
    ends, faults = [], []
    for mode, found in (("print", printed), ("run", run)):
        ends.append(name_of_end(mode, found))
        fault = fault_of(mode, len(text), found) or fault_of_cost(len(text), found)
        faults += [f"{mode} {fault}"] if fault else []
    beside = fault_between(printed, again, run)
    return ends, faults + ([beside] if beside else [])


def checked(program, scenario, text):
    """The end of a check of a trace, and what is wrong with it."""
    words, memory = ("check", scenario, "--replay"), memory_for(len(text))
    found = cheapest(lambda: calls.outcome(program, text, *words, memory=memory))
    if found.status is None:
        return ["check"], [f"check had not ended after {calls.SECONDS} seconds"]
    fault = trace_texts.fault_of(text, found.status, line_of(found.errors), found.output)
    fault = fault or fault_of_cost(len(text), found)
    return [name_of_end("check", found)], [f"check {fault}"] if fault else []


def try_kind(program, kind, seed, most):
    """Tries texts of a kind; `traces` are all of one scenario."""
    if kind != "traces":
        return try_texts(lambda text: tried(program, text), kind, seed, most)
    with tempfile.NamedTemporaryFile(prefix="lurette-") as scenario:
        scenario.write(trace_texts.SCENARIO)
        scenario.flush()
        return try_texts(lambda text: checked(program, scenario.name, text), kind, seed, most)


def try_texts(found_of, kind, seed, most):
    """Tries texts up to so many bytes of tokens, or so many others."""
    counts, findings, number, size = Counter(), 0, 0, 0
    while (size if kind == "tokens" else number) < most:
        text = TEXTS[kind](seed, number)
        ends, faults = found_of(text)
        counts.update(ends)
        for fault in faults:
            print(f"{kind} {seed} {number}: {fault}", flush=True)
        findings += len(faults)
        number, size = number + 1, size + len(text)
    for end in sorted(counts):
        print(f"{counts[end]:8} {end}")
    print(f"hostile: {number} texts of {size} bytes, {findings} findings")
    return findings


def main(words):
    parser = argparse.ArgumentParser(prog="hostile.py")
    parser.add_argument("kind", choices=sorted(TEXTS))
    parser.add_argument("seed", type=int)
    parser.add_argument("most", type=int)
    parser.add_argument("--show", action="store_true")
    parser.add_argument("--program", default=calls.built("lurette"))
    given = parser.parse_args(words)
    if given.show:
        sys.stdout.buffer.write(TEXTS[given.kind](given.seed, given.most))
        return 0
    if not os.access(given.program, os.X_OK):
        print(f"hostile: {given.program} is not there, so no text can be tried", file=sys.stderr)
        return 2
    return 1 if try_kind(given.program, given.kind, given.seed, given.most) else 0


if __name__ == "__main__":
    sys.exit(main(sys.argv[1:]))
