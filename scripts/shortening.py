"""The search for a short run that fails as another one does."""

import itertools
import time
from concurrent.futures import ThreadPoolExecutor

import failing
import smaller
import traces

SEEDS = 2**64
# Into how many parts a range is cut where a number is brought near to a simple one.
SECTIONS = 5
# The part of the time in which other seeds are tried, and that by whose end no further number is
# brought near to a simple one.
PART_OF_SEEDS, PART_UP_TO_NARROWING = 1 / 3, 4 / 5


def key_of(steps):
    return tuple((it.told, it.locals) for it in steps)


def windows(items, size):
    """The items in lists of a size."""
    items = iter(items)
    return iter(lambda: list(itertools.islice(items, size)), [])


class Search:
    """A search with a bench, which begins with the steps of a run that fails.

    `best` is the shortest run so far, and `is_least` whether no single step of it can be taken out.
    `seed` is that of the shortest run that was drawn, and `drawn` are the steps of that.
    """

    def __init__(self, bench, steps, jobs, seconds, tell):
        self.bench, self.best, self.jobs, self.tell = bench, steps, jobs, tell
        self.start, self.seconds = time.monotonic(), seconds
        self.until = self.start + seconds
        self.until_narrow = self.start + PART_UP_TO_NARROWING * seconds
        self.seed, self.drawn = bench.head.seed, steps
        self.is_least, self.tries, self.seeds = False, 0, 0
        self.rejected, self.pool = set(), ThreadPoolExecutor(jobs)

    def is_over(self):
        return time.monotonic() >= self.until

    def stop(self):
        """Ends what is still tried."""
        self.bench.children.stop()
        self.pool.shutdown()

    def told(self):
        left = max(0, round(self.until - time.monotonic()))
        counts = f"{self.seeds} seeds and {self.tries} changes tried"
        self.tell(f"{len(self.best)} steps; {counts}, {left} s left")

    # -- Other seeds -------------------------------------------------------------------------------

    def by_seeds(self, count):
        """Looks for a shorter run of the next seeds: so many, or as many as the time allows. As many
        of them as may go on side by side are the sessions of a campaign."""
        first, over = int(self.seed) + 1, self.start + PART_OF_SEEDS * self.seconds
        self.bench.until = over
        while len(self.best) > 1 and time.monotonic() < over and self.seeds != count:
            left = self.jobs if count is None else count - self.seeds
            size = min(left, self.jobs, traces.MOST_SESSIONS)
            self.told()
            seed = (first + self.seeds) % SEEDS
            found = self.bench.by_seeds(seed, size, len(self.best) - 1)
            self.seeds += size
            if found is not None:
                self.take(found)
                self.bench.until = over

    def take(self, trace):
        """Goes on with the run of a trace, whatever the time is."""
        head, self.bench.until = self.bench.head, None
        try:
            steps = self.bench.recovered(trace)
            self.best = self.drawn = failing.failing_again(self.bench, steps)
            self.seed = trace.seed
        except failing.CannotShorten:
            self.bench.head = head
            raise

    # -- Fewer steps -------------------------------------------------------------------------------

    def first(self, candidates):
        """The first of some candidates that fails, as it stands and as it came out, or None."""
        fresh = (it for it in candidates if key_of(it.steps) not in self.rejected)
        for window in windows(fresh, self.jobs):
            if self.is_over():
                return None
            self.told()
            self.tries += len(window)
            found = list(self.pool.map(lambda it: self.bench.tried(*it), window))
            for candidate, steps in zip(window, found):
                if steps is not None:
                    self.best, self.is_least = steps, False
                    return candidate
                self.rejected.add(key_of(candidate.steps))
        return None

    def cut(self):
        """Takes out what stands between steps that are alike, as long as that can be done."""
        kinds = [it.kind for it in self.bench.head.variables if it.role != "#outputs"]
        while self.first(smaller.cuts(self.best, kinds)):
            pass

    def without_pieces(self):
        """Takes out halves, quarters, and so on to single steps, until no single step can be."""
        size = max(1, (len(self.best) - 1) // 2)
        while size:
            taken, is_changed = smaller.Candidate((), 0), False
            while taken:
                taken = self.first(smaller.pieces(self.best, size, taken.at))
                is_changed = is_changed or taken is not None
            if size > 1 or not is_changed:
                size //= 2
        self.is_least = self.is_least or not self.is_over()

    def shrink(self):
        """Takes out steps as long as that can be done."""
        before = None
        while before is not self.best and not self.is_over():
            before = self.best
            self.cut()
            self.without_pieces()

    # -- Simpler values ----------------------------------------------------------------------------

    def simplify(self):
        """Makes values simple that may be, and says whether any was."""
        before, variables, decimals = self.best, self.bench.outputs, self.bench.decimals
        taken = smaller.Candidate((), 0)
        while taken:
            taken = self.first(smaller.simpler(self.best, variables, decimals, taken.at))
        return self.best is not before

    def narrow(self):
        """Brings each number that isn't simple as near to a simple one as it may be, and says
        whether any was brought nearer."""
        before = self.best
        numbers = [it for it in enumerate(self.bench.outputs) if it[1].kind != "bool"]
        for at in range(len(self.best)):
            for place, variable in numbers:
                if at < len(self.best) and time.monotonic() < self.until_narrow:
                    self.narrow_value(at, place, variable)
        return self.best is not before

    def narrow_value(self, at, place, variable):
        """Brings a number near to the simplest one: what is between them is cut into parts."""
        raw = traces.raw_of(variable.kind, self.best[at].told[place])
        goal = smaller.simple_values(variable)[0]
        step = variable.step if raw > goal else -variable.step
        bad, good = 0, (raw - goal) // step
        while good - bad > 1 and not self.is_over() and at < len(self.best):
            parts = min(SECTIONS, good - bad)
            points = [bad + (good - bad) * it // parts for it in range(1, parts)]
            words = [self.word(variable, goal + it * step) for it in points]
            tried = [smaller.with_value(self.best, at, place, it) for it in words]
            taken = self.first(tried)
            at_hand = tried.index(taken) if taken else len(points)
            bad, good = ([bad, *points][at_hand], [*points, good][at_hand])

    def word(self, variable, raw):
        return traces.written(variable.kind, raw, self.bench.decimals)

    def run(self, count):
        """The whole search."""
        self.by_seeds(count)
        self.bench.until = self.until
        self.shrink()
        while not self.is_over() and (self.simplify() or self.narrow()):
            self.shrink()
