"""The calls that `fail_alloc.py` makes, each of which ends in one way where memory is ample."""

from collections import namedtuple

from hard_texts import pigeons

# A call: its name, its words, the status that it ends with, the files that it has beside those of
# all calls, and the words of a call that writes the trace `earlier` before it.
Call = namedtuple("Call", "name words status files earlier", defaults=({}, None))

# Most constructs of the language, in a node that runs alone and in one beside a controller.
FULL = """
exception Jam, Spare
let half: real = 0.5
let within (x, lo, hi: real): bool = lo <= x and x <= hi
let moved (x: int ref; by: int): bool = x = pre x + by
let twice (t: trace): trace = t fby t
let walk (x: int ref): trace = exist by: int [-1; 1] in loop [1, 3] moved(x, by)
let work (i, j: int ref; b, c: bool ref; x, y: real ref): trace =
  let up: bool = moved(i, 1) or i = pre i in
  exist k: int [0; 3] = 1 in
  exist z: real [0.0; 1.0; 0.5] in
  assert within(y, pre y - half, pre y + half) in
  {
    &> loop { | 3: up | 1 + pre j mod 2: i = 0 | 0: false }
    &> catch Jam in { walk(j) fby { | 9: raise Jam | 1: twice(j = 2) } }
       do loop ~ 4:1 (j <= 5 and k <> 2)
    &> trap over in { loop [2, 2] (b xor c) fby raise over } do loop { b => c |> not b }
    &> try { c fby false } do loop { x > (if pre b then pre x - 2.0 else half) }
    &> exception Spare in catch Spare in loop { k <= 2 => not (i = 9) or b } do raise Spare
    &> loop z < 2.0 * half
  }
node alone() returns (i, j: int [0; 9] = 3; b, c: bool = false; x: real [0.0; 9.0; 0.25] = 1.0;
    y: real [-5.0; 5.0] = 0.5) = work(i, j, b, c, x, y)
node beside(h: bool; n: int [0; 9] = 1; r: real = 0.5)
returns (i, j: int [0; 9] = 3; b, c: bool = false; x: real [0.0; 9.0; 0.25] = 1.0;
    y: real [-5.0; 5.0] = 0.5) =
  assert h => i <= n + 1 and y <= r + 5.0 in work(i, j, b, c, x, y)
"""

# A smaller scenario, for calls in which what stands beside a run counts.
ROOM = """
let near (x: real ref; by: real): bool = pre x - by <= x and x <= pre x + by
node room(heat: bool; n: int [0; 3] = 1) returns (temp: real [0.0; 40.0] = 20.0; door: bool) =
  exist gust: int [0; 3] in assert near(temp, 0.5) and (heat => temp >= pre temp) in
  { &> loop { | 3: gust <= n | 1: { door |> not door } } &> loop [1, 9] not door }
"""

# A program that answers each line with the words given, and keeps in a file what it was sent.
SIDE = """#!/bin/sh
got=$1
shift
: >>"$got"
while read -r line; do
    printf '%s\\n' "$line" >>"$got"
    printf '%s\\n' "$*"
done
"""

# What all calls find in their folder, and which files their sides keep.
FILES = {"full": FULL, "room": ROOM, "side": SIDE}
KEPT = ("got.controller", "got.oracle")

OPTIONS = "-l 5 --budget 100000000"
ALONE = f"run full {OPTIONS}".split()
BESIDE = ["run", "room", "-l", "5"]
SUT, ORACLE = ["--sut", "./side got.controller t 3"], ["--oracle", "./side got.oracle t"]
FULL_SUT = ["--node", "beside", "--sut", "./side got.controller t 3 0.25"]

NODE = "node n() returns (b: bool) = "
INT = "node n() returns (i: int [0; 9] = 7) = "
INPUT = "node n(a: bool) returns (b: bool) = loop b"
# Leaves of which it has to be known which ones are live.
CHOOSING = NODE + "exist i: int [0; 9] in loop { { b and i > 3 | i = 2 } |> not b }"
# One side of a conjunct has 17 atoms.
ATOMS = "node n() returns (i: int [0; 99]) = " + " or ".join(f"i = {it}" for it in range(17))
# 17 choices of two, side by side, have over 2^17 leaves.
LARGE = NODE + "{ " + " &> ".join(["{ b | b }"] * 17) + " }"


def on(name, text, status, words="run f"):
    """A call of one small text."""
    return Call(name, words.split(), status, {"f": text})


def on_trace(name, text, status, values, end="limit 1"):
    """A check of a trace of one step of an int."""
    header = '#seed 0\n#inputs "i":int\n#outputs\n#locals\n#step 1\n'
    files = {"f": text, "earlier": f"{header}{values}\n#end {end}\n"}
    return Call(name, ["check", "f", "--replay", "earlier"], status, files)


CALLS = (
    # Runs to their limit, alone and beside each side.
    Call("run", ALONE, 0),
    Call("run, with locals", [*ALONE, *"--locals --draw 3 --seed 3".split()], 0),
    Call("run, all beside a controller", [*ALONE, *FULL_SUT], 0),
    Call("run beside a controller", [*BESIDE, *SUT], 0),
    Call("run beside both", [*BESIDE, "--locals", *SUT, *ORACLE], 0),
    Call("run beside an oracle", ["run", "f", "-l", "3", *ORACLE], 0, {"f": NODE + "loop b"}),
    Call("run, played again", [*BESIDE, "--replay", "earlier"], 0, earlier=[*BESIDE, *SUT]),
    Call(
        "run, played again beside an oracle",
        [*BESIDE, "--locals", "--draw=2", "--replay=earlier", "=".join(ORACLE)],
        0,
        earlier=[*BESIDE, "--draw", "2", *SUT],
    ),
    # Campaigns. Of two sessions with programs it isn't known whose piece comes first.
    Call("campaign", ["campaign", *ALONE[1:], "--count", "3"], 0),
    Call("campaign beside both", ["campaign", *BESIDE[1:], "--locals", *SUT, *ORACLE], 0),
    Call(
        "campaign, played again",
        ["campaign", *BESIDE[1:], "--count", "2", "--replay", "earlier"],
        0,
        earlier=[*BESIDE, *SUT],
    ),
    on("campaign of deadlocks", NODE + "b and not b", 4, "campaign f --count 64"),
    on("campaign, a controller isn't there", INPUT, 9, "campaign f --count 2 --sut ./nothing"),
    # Runs that end otherwise.
    on("run to its end", NODE + "b fby not b", 0),
    Call("verdict", ["run", "f", "--oracle", "./side got.oracle f"], 1, {"f": NODE + "b"}),
    on("deadlock", NODE + "b and not b", 4),
    on("raise", "exception Stop " + NODE + "{ b fby raise Stop }", 5),
    on("fault", INT + "i = 1 div 0", 6),
    Call("malformed", ["run", "f", "--sut", "./side got.controller maybe"], 7, {"f": INPUT}),
    Call("ended", ["run", "f", "--replay", "earlier"], 8, {"f": INPUT, "earlier": "t t\nf"}),
    on("budget", pigeons(10, 9), 10),
    on("toolarge", LARGE, 14),
    # Checks. Each of the first four checks a trace that a run wrote before.
    Call("check", ["check", "full", "--replay", "earlier"], 0, earlier=[*ALONE, "--locals"]),
    Call(
        "check, all beside a controller",
        ["check", "full", "--node", "beside", "--replay", "earlier"],
        0,
        earlier=[*ALONE, *FULL_SUT, "--locals"],
    ),
    Call(
        "check beside a controller",
        ["check", "room", "--replay", "earlier"],
        0,
        earlier=[*BESIDE, "--locals", *SUT],
    ),
    Call(
        "check where leaves are searched",
        ["check", "f", "--replay", "earlier"],
        0,
        {"f": CHOOSING},
        "run f -l 3 --locals".split(),
    ),
    on_trace("illegal", INT + "{ i < 5 |> i = 7 }", 12, "7 #outs #locs"),
    on_trace("a check of a deadlock", INT + "i = 7 fby i > 9", 0, "7 #outs #locs", "deadlock 2"),
    Call("usage trace", ["check", "full"], 2),
    on_trace("refused check.BadLine", INT + "i = 7", 3, "07 #outs #locs"),
    on("check of a trace that isn't there", INPUT, 9, "check f --replay nothing"),
    # The other modes.
    Call("print", ["print", "full"], 0),
    Call("stress", ["stress", "0"], 0),
    # Words that are wrong.
    Call("usage words", ["run", "full", "--see", "5"], 2),
    Call("usage words, a number", ["run", "full", "--seed", "-5"], 2),
    Call("usage help", ["run", "--help", "full"], 2),
    Call("usage mode", ["walk", "full"], 2),
    Call("usage number", ["stress", "1000000"], 2),
    Call("usage both", ["run", "full", "--sut", "a b", "--replay", "c"], 2),
    # Texts that are refused.
    on("refused file.TooLong", " " * ((1 << 20) + 1), 3),
    on("refused lex.BadByte", NODE + "b ? b", 3),
    on("refused lex.OpenComment", NODE + "b (*", 3, "print f"),
    on("refused lex.NumberTooLong", INT + "i = 1234567890123456789", 3),
    on("refused parse.Unexpected", NODE + "loop { b fby", 3),
    on("refused parse.TooDeep", NODE + "{ " * 201 + "b" + " }" * 201, 3, "print f"),
    on("refused type.Unknown", NODE + "b and c", 3),
    on("refused type.Twice", "let m: bool = true let m: bool = true " + NODE + "b", 3),
    on("refused type.Mismatch", INT + "i", 3),
    on("refused type.NoNode", "exception e", 3),
    on("refused expand.UnknownNode", NODE + "b", 3, "run f --node m"),
    on("refused expand.TooLarge", NODE + "{ " + "| b " * 65 + "}", 3),
    on("refused expand.BadStatic", INT + "loop [2, 1] i = 1", 3),
    on("refused expand.NonLinear", INT + "i * i = 4", 3),
    on("refused expand.ControllableWeight", INT + "{ | i: i = 1 }", 3),
    on("refused run.TooManyAtoms", ATOMS, 3),
    on("refused run.NeedsController", INPUT, 3),
    # Files that can't be read, and programs that can't be started.
    Call("a file that isn't there", ["run", "nothing"], 9),
    on("a trace that isn't there", INPUT, 9, "run f --replay nothing"),
    on("a controller that isn't there", INPUT, 9, "run f --sut ./nothing"),
    Call(
        "an oracle that isn't there",
        ["run", "f", "--sut", "./side got.controller t", "--oracle", "./nothing at all"],
        9,
        {"f": INPUT},
    ),
    Call("a command of blanks", ["run", "f", "--sut", "  "], 9, {"f": INPUT}),
)
