"""A run that fails: played again, judged by `check`, and looked for by other seeds.

A run fails by a false verdict, or by a reply that is malformed or missing. Its trace is the steps
before that reply: what the controller got then is found by a replay of them.
"""

import subprocess
import tempfile
import time
from collections import namedtuple

import children
import explain
import nodes
import sides
import traces

# A step: the words that go to the controller, those that it answers, or None where it gave no good
# answer, and those of the locals.
Step = namedtuple("Step", "told answer locals")

# What a run is made of: the program that plays scenarios, the scenario's file, and the options of
# the call that say which node it is and how it is read.
Scenario = namedtuple("Scenario", "program file options")

# What comes of a call of the program.
Called = namedtuple("Called", "status output errors")

# A session of a campaign: the text of its trace, and what its end line says.
Session = namedtuple("Session", "text end")


class CannotShorten(Exception):
    """Why a run can't be shortened."""


def failure(end):
    """Why a run failed, as its end line says it, and in which step; None where it didn't.

    A program that ends is told as one that didn't answer: whether its line could still be sent is
    a matter of time.
    """
    why, number = traces.why_and_number(end)
    if why.startswith("device ") and why != "device trace" and number > 0:
        why = why.replace("device", "ended")
    return (why, number) if why.split()[0] in ("oracle", "malformed", "ended") else None


def line_of(called):
    """The line that a call ended with: on standard output if it went well, else the one it said."""
    if called.status == 0:
        return "".join(called.output.splitlines()[-1:])
    return explain.line_of(called.errors.encode()) or f"the status {called.status}"


def is_whole(trace):
    """Whether a trace that fails has all of the steps that failed, and the locals of them."""
    return "#locals" in trace.roles and failure(trace.end)[0] == "oracle"


class Bench:
    """Where runs of a scenario are tried that should fail in the way of a trace."""

    def __init__(self, scenario, trace, controller, oracle, decimals):
        self.scenario, self.controller, self.oracle = scenario, controller, oracle
        self.children, self.until = children.Children(), None
        self.inputs, self.outputs = self.declared(decimals)
        slots = [sides.Slot(it.kind, it.low, it.high) for it in self.inputs]
        self.programs = sides.Programs(controller, oracle, slots, decimals, self.children)
        self.decimals, self.why = decimals, failure(trace.end)[0]
        self.head = trace._replace(steps=[])

    # -- Calls of the program ----------------------------------------------------------------------

    def called(self, *words, file=subprocess.PIPE):
        """The status of a call of the program, and its two texts. What it writes may go to a file."""
        left = None if self.until is None else max(0, self.until - time.monotonic())
        pipes = {"stdin": subprocess.DEVNULL, "stdout": file, "stderr": subprocess.PIPE}
        how = {**pipes, "encoding": "utf-8", "errors": "replace"}
        with self.children.start([self.scenario.program, *words], **how) as run:
            try:
                output, errors = run.communicate(timeout=left)
            except subprocess.TimeoutExpired:
                raise sides.TooLate from None
            finally:
                self.children.end(run)
        return Called(run.returncode, output, errors)

    def declared(self, decimals):
        """The inputs and the outputs of the node."""
        printed, options = self.called("print", self.scenario.file), self.scenario.options
        if printed.status != 0:
            raise CannotShorten(f"{self.scenario.file}: {line_of(printed)}")
        node = dict(zip(options[::2], options[1::2])).get("--node")
        try:
            return nodes.declared(printed.output, node, decimals)
        except nodes.NoNode as why:
            raise CannotShorten(f"{self.scenario.file}: {why}") from None

    def on_trace(self, mode, trace, *words):
        """What comes of a call of a mode on the scenario, with a trace to replay or to check."""
        with tempfile.NamedTemporaryFile("w", prefix="lurette-", encoding="utf-8") as file:
            file.write(traces.text_of(trace))
            file.flush()
            more = [*self.scenario.options, *words]
            return self.called(mode, self.scenario.file, "--replay", file.name, *more)

    def verdict(self, trace):
        """What `check` says of a trace, without the name of the program."""
        found = self.on_trace("check", trace)
        if found.status not in (0, 10, 12, 13):
            raise CannotShorten(f"check says: {line_of(found)}")
        return line_of(found)

    def is_legal(self, steps):
        return self.verdict(self.trace_of(steps)).startswith("legal")

    # -- Steps and traces --------------------------------------------------------------------------

    def stand_in(self, variables):
        """Words that may stand where the variables have none."""
        near = [(it.kind, nodes.nearest_to_zero(it), self.decimals) for it in variables]
        return tuple(traces.written(*it) for it in near)

    def trace_of(self, steps):
        """A trace that has some steps, whatever its end. An answer that wasn't good has another."""
        answer = lambda it: self.stand_in(self.inputs) if it.answer is None else it.answer
        rows = [[*it.told, *answer(it), *it.locals] for it in steps]
        return self.head._replace(steps=rows, end=f"limit {len(rows)}")

    def failing_trace(self, steps):
        """The trace of a run that failed in the last of some steps."""
        shown = steps if self.why == "oracle" else steps[:-1]
        return self.trace_of(shown)._replace(end=f"{self.why} {len(steps)}")

    def steps_of(self, trace):
        """The steps of a trace that has all of them."""
        part = lambda role, words: tuple(traces.own(trace, role, words))
        return [Step(*(part(role, it) for role in traces.ROLES)) for it in trace.steps]

    def recovered(self, trace):
        """All steps of the run of a trace that fails, with locals; the last one failed.

        What the trace doesn't say of them is drawn again, with the answers that it has.
        """
        if is_whole(trace):
            self.head = trace._replace(steps=[])
            return self.steps_of(trace)
        number, rows = failure(trace.end)[1], [list(it) for it in trace.steps]
        if len(rows) < number:
            ready = [*self.stand_in(self.outputs), *self.stand_in(self.inputs)]
            rows.append(ready + ["?" for it in trace.variables if it.role == "#locals"])
        words = ["-l", str(number), "--seed", trace.seed, "--draw", trace.rule, "--locals"]
        replayed = trace._replace(steps=rows, end=f"limit {number}")
        found = self.on_trace("run", replayed, *words)
        if found.status != 0:
            raise CannotShorten(f"the seed {trace.seed} ends otherwise: {line_of(found)}")
        again = traces.trace_of(found.output)
        width = len(trace.variables)
        for at, row in enumerate(trace.steps):
            if again.steps[at : at + 1] == [] or again.steps[at][:width] != row:
                raise CannotShorten(f"the seed {trace.seed} gives another step {at + 1}")
        self.head = again._replace(steps=[])
        return self.steps_of(again)

    # -- Tries -------------------------------------------------------------------------------------

    def play(self, steps, until=None):
        try:
            return self.programs.play([it.told for it in steps], until)
        except (OSError, IndexError) as why:
            raise CannotShorten(f"a program can't be started: {why}") from None

    def answered(self, steps, played):
        """The steps up to the one that failed, with the answers that were given to them."""
        answers = [*map(tuple, played.answers), None]
        return [it._replace(answer=answers[at]) for at, it in enumerate(steps[: played.number])]

    def tried(self, steps, at):
        """The steps that some lead to if they fail likewise and are legal, else None.

        Those before the place `at` are legal, and have the answers that they got.
        """
        try:
            if not self.is_legal(steps[: at + 1]):
                return None
            played = self.play(steps, self.until)
            if played.why != self.why or self.children.is_stopped:
                return None
            found = self.answered(steps, played)
            return found if self.is_legal(found) else None
        except (sides.TooLate, children.Stopped):
            return None

    def by_seeds(self, seed, count, limit):
        """The trace of the shortest run that fails likewise in so many steps, of so many seeds from
        one on; None where there is none among those that were over in time."""
        words = ["-l", str(limit), "--seed", str(seed), "--count", str(count), "--locals"]
        words += ["--draw", self.head.rule, "--sut", self.controller]
        words += [] if self.oracle is None else ["--oracle", self.oracle]
        with tempfile.TemporaryFile(prefix="lurette-") as file:
            try:
                more = [*self.scenario.options, *words]
                self.called("campaign", self.scenario.file, *more, file=file)
            except (sides.TooLate, children.Stopped):
                pass
            file.seek(0)
            found = [] if self.children.is_stopped else ended_sessions(file)
        failed = [it for it in found if failure(it.end) and failure(it.end)[0] == self.why]
        shortest = min(failed, key=lambda it: failure(it.end)[1], default=None)
        return None if shortest is None else traces.trace_of(shortest.text)


def ended_sessions(file):
    """Each session of a campaign that was over, in turn, from a file of its trace, which may end too
    early."""
    parts, pieces = {}, {}
    try:
        for session, some in traces.Frames(file):
            parts.setdefault(session, traces.Part()).take(some)
            pieces.setdefault(session, []).append(some)
    except traces.CutShort:
        pass
    ends = {session: part.end() for session, part in sorted(parts.items())}
    text = lambda session: b"".join(pieces[session]).decode()
    return [Session(text(it), end) for it, end in ends.items() if end is not None]


def failing_again(bench, steps):
    """The steps of a run with the answers given to them, which have to be the same twice."""
    first, second = (bench.play(steps) for _ in range(2))
    if first != second:
        raise CannotShorten(f"asked again, {otherwise(first, second)}: it isn't deterministic")
    if first.why != bench.why or first.number != len(steps):
        ended = f"{first.why} {first.number}" if first.why else "no failure"
        raise CannotShorten(f"played again, the run ends otherwise: {ended}")
    return bench.answered(steps, first)


def otherwise(one, other):
    """Where two plays of the same lines part."""
    for number, (first, second) in enumerate(zip(one.answers, other.answers), 1):
        if first != second:
            words = f"`{' '.join(first)}` and then `{' '.join(second)}`"
            return f"the controller answers {words} in step {number}"
    return f"a step ends by {one.why or 'no failure'} and then by {other.why or 'no failure'}"
