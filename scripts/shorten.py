"""Looks for a shorter run that fails as that of a trace does. `./lurette shorten` calls it.

    python3 scripts/shorten.py --program PATH TRACE FILE --sut CMD [--oracle CMD] [OPTIONS]

First other seeds are run in campaigns, with a limit below the step that failed. Then steps are taken
out of the shortest run that was found, and values are made simple. Each such try drives the
controller and the oracle anew, and is kept if it fails likewise and `check` says that it is legal.

The trace of the shortest run is written to standard output, with its locals, also if the time ran
out or the search was interrupted.
"""

import argparse
import os
import signal
import sys

import failing
import next_calls
import progress
import shortening
import traces

TITLE = "shorten"
INTERRUPTED = 130


def say(text):
    print(f"{TITLE}: {text}", file=sys.stderr)


# -- What is given ---------------------------------------------------------------------------------


def number(low, high=None):
    """What reads a number from low on."""

    def read(text):
        found = int(text)
        if found < low or high is not None and found > high:
            raise argparse.ArgumentTypeError(f"{text} isn't from {low} to {high}")
        return found

    return read


def parser():
    """What reads the words of the command line."""
    found = argparse.ArgumentParser(
        prog="lurette shorten",
        description="Looks for a shorter run that fails as that of TRACE, and writes its trace.",
        epilog="Give the --node, --precision and --budget of the run that wrote TRACE.",
        allow_abbrev=False,
    )
    found.add_argument("trace", metavar="TRACE", help="the trace of a run that failed")
    found.add_argument("file", metavar="FILE", help="its scenario")
    found.add_argument("--sut", metavar="CMD", required=True, help="the controller")
    # An oracle is a program. A judge that isn't one is to be an option beside this one.
    found.add_argument("--oracle", metavar="CMD", help="the oracle, if one judged the run")
    found.add_argument("--node", metavar="NAME", help="the node that was run")
    found.add_argument("--precision", metavar="N", type=number(0, 6), help="decimals of a real")
    found.add_argument("--budget", metavar="N", help="the most work of one search")
    found.add_argument(
        "--seconds", metavar="N", type=number(0), default=10, help="how long to look; 10 by default"
    )
    found.add_argument(
        "--seeds", metavar="N", type=number(0),
        help="how many other seeds are run; by default as many as a third of the time allows",
    )
    found.add_argument(
        "--jobs", metavar="N", type=number(1), default=len(os.sched_getaffinity(0)),
        help="how many tries go on side by side; by default as many as there are processors",
    )
    found.add_argument("--program", metavar="PATH", required=True, help=argparse.SUPPRESS)
    return found


def given_trace(path):
    """The trace in a file, which has to be that of a run that failed."""
    try:
        with open(path, encoding="utf-8") as file:
            trace = traces.trace_of(file.read())
    except (OSError, UnicodeDecodeError, traces.NoTrace) as why:
        raise failing.CannotShorten(f"{path}: {why}") from None
    failed = failing.failure(trace.end)
    if failed is None:
        raise failing.CannotShorten(f"{path}: the run didn't fail: its end is {trace.end}")
    if failed[1] < 1 or len(trace.steps) != failed[1] - (failed[0] != "oracle"):
        raise failing.CannotShorten(f"{path}: its end has another number than its steps")
    return trace


def decimals_of(trace):
    """How many decimals the reals of a trace have, or None where it has none."""
    for words in trace.steps[:1]:
        for variable, word in zip(trace.variables, words):
            if variable.kind == "real" and word != "?":
                return len(word.partition(".")[2])
    return None


def bench_of(given, trace):
    """Where runs are tried that should fail as the run of a trace."""
    known = decimals_of(trace) if given.precision is None else given.precision
    decimals = 2 if known is None else known
    options = ["--precision", str(decimals)] if decimals != 2 else []
    for name, text in (("--node", given.node), ("--budget", given.budget)):
        options += [name, text] if text is not None else []
    if given.oracle is None and "oracle" in failing.failure(trace.end)[0].split():
        raise failing.CannotShorten(f"{given.trace}: an oracle ended it, so --oracle is needed")
    scenario = failing.Scenario(given.program, given.file, options)
    return failing.Bench(scenario, trace, given.sut, given.oracle, decimals)


def first_steps(bench, trace, path):
    """The steps of the run of a trace, if it is legal and fails when its lines are played again."""
    steps = bench.recovered(trace)
    said = bench.verdict(bench.trace_of(steps))
    if not said.startswith("legal"):
        raise failing.CannotShorten(f"{path}: no run of the scenario writes this trace: {said}")
    again = failing.failing_again(bench, steps)
    for at, (old, new) in enumerate(zip(steps, again), 1):
        if old.answer != new.answer and new.answer is not None and at <= len(trace.steps):
            words = f"`{' '.join(new.answer)}` in step {at}, and not `{' '.join(old.answer)}`"
            raise failing.CannotShorten(f"{path}: the controller answers {words}, as it did")
    return again


# -- What is told ----------------------------------------------------------------------------------


def is_drawn(search, steps_before):
    """Whether a seed draws the run that was found, or at least one that is shorter than before."""
    return search.best is search.drawn or len(search.drawn) < steps_before


def told_lengths(search, steps_before):
    """How long the run was before, and how long it is."""
    text = f"{steps_before} step{'s' * (steps_before > 1)} before, {len(search.best)} after"
    if search.best is search.drawn:
        return f"{text}, which the seed {search.seed} draws"
    more = f"; the seed {search.seed} draws one of {len(search.drawn)}"
    return text + more * is_drawn(search, steps_before)


def next_lines(given, search, steps_before):
    """What to type to see the trace, and to have the run again if a seed draws it."""
    trace = next_calls.trace_file()
    if not is_drawn(search, steps_before):
        return next_calls.picture_lines(trace)
    words = ["run", given.file, "--seed", search.seed, *search.bench.scenario.options]
    words += ["--draw", search.bench.head.rule] if search.bench.head.rule != "1" else []
    words += ["--sut", given.sut]
    words += ["--oracle", given.oracle] if given.oracle is not None else []
    return next_calls.lines(f"{search.bench.why} {len(search.drawn)}", words, trace)


def write(search):
    """Writes the trace of the shortest run so far."""
    sys.stdout.write(traces.text_of(search.bench.failing_trace(search.best)))
    sys.stdout.flush()


def conclude(search):
    """Says how short the run is, and plays it once more; gives the status."""
    bench, steps = search.bench, search.best
    trace, bench.until = bench.failing_trace(steps), None
    if search.is_least:
        say("no single step of it can be taken out")
    else:
        say("the time was over before each step had been tried: more --seconds may take out more")
    if len(trace.steps) < len(steps):
        say(f"in step {len(steps)} the controller gets: {' '.join(steps[-1].told)}")
    try:
        failing.failing_again(bench, steps)
        say(f"check says {bench.verdict(trace)}; played again it ends by {trace.end}")
    except failing.CannotShorten as why:
        say(why)
        return 1
    return 0


def searched(given, search, steps_before, line):
    """Searches, writes what was found, and says so; gives the status."""
    trouble, is_interrupted = None, False
    try:
        search.run(given.seeds)
    except KeyboardInterrupt:
        is_interrupted = True
        search.stop()
    except failing.CannotShorten as why:
        trouble = why
    line.clear()
    write(search)
    say(told_lengths(search, steps_before))
    if trouble is not None or is_interrupted:
        say(trouble or "it was interrupted, so this is the shortest run so far")
        return 1 if trouble else INTERRUPTED
    status = conclude(search)
    for told in next_lines(given, search, steps_before):
        print(told, file=sys.stderr)
    return status


def main(words):
    given, line = parser().parse_args(words), progress.Line(sys.stderr, TITLE)
    signal.signal(signal.SIGTERM, signal.default_int_handler)
    try:
        trace = given_trace(given.trace)
        bench = bench_of(given, trace)
    except failing.CannotShorten as why:
        say(why)
        return 2
    try:
        line.tell("the run is played again")
        steps = first_steps(bench, trace, given.trace)
    except failing.CannotShorten as why:
        line.clear()
        say(why)
        return 1
    except KeyboardInterrupt:
        bench.children.stop()
        return INTERRUPTED
    search = shortening.Search(bench, steps, given.jobs, given.seconds, line.tell)
    return searched(given, search, len(steps), line)


if __name__ == "__main__":
    sys.exit(main(sys.argv[1:]))
