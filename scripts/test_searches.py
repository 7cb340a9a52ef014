"""That the program finds in searches what follows from the rules.

    python3 scripts/test_searches.py [--program PATH] [--seed SEED] [--count COUNT]

Each problem is a call. problem_maker.py makes it from the seed and a number, and what is to come of
it is worked out apart from the program, by going through all points in the order of the rules. A
call of which anything else comes is printed, with the text of its file `f`, what was wanted and
what was found. The program is the one that `rt ci` leaves in the checkout, where no option names
another.
"""

import argparse
import os
import sys

import calls
import problems
from problem_maker import problem_of

COUNT = 4_000


def found_of(program, problem):
    """What comes of a problem's call."""
    text = problems.text_of(problem).encode()
    found = calls.outcome(program, text, *problems.words_of(problem))
    return problems.Outcome(found.status, found.output.decode(), found.errors.decode())


def told(outcome):
    """An outcome in lines."""
    written = (outcome.errors + outcome.output).splitlines()
    return [f"(the status {outcome.status})", *written]


def fault_of(program, seed, number):
    """What is wrong with the call of a problem, in lines; none where nothing is."""
    problem, wanted = problem_of(seed, number)
    found = found_of(program, problem)
    if found == wanted:
        return []
    call = " ".join(["lurette", *problems.words_of(problem), "f"])
    indented = lambda lines: [f"    {it}" for it in lines]
    lines = [f"problem {number} of the seed {seed}: {call}"]
    lines += ["  f:", *indented(problems.text_of(problem).splitlines())]
    return lines + ["  wanted:", *indented(told(wanted)), "  found:", *indented(told(found))]


def main(words):
    parser = argparse.ArgumentParser(prog="test_searches.py")
    parser.add_argument("--program", default=calls.built("lurette"))
    parser.add_argument("--seed", type=int, default=1)
    parser.add_argument("--count", type=int, default=COUNT)
    # `scripts/test` hands on words of check_docs.py too.
    given, _ = parser.parse_known_args(words)
    if not os.access(given.program, os.X_OK):
        print(f"test_searches: {given.program} is not there to be called", file=sys.stderr)
        return 2
    wrong = 0
    for number in range(given.count):
        lines = fault_of(given.program, given.seed, number)
        wrong += bool(lines)
        for line in lines:
            print(line, flush=True)
    print(f"test_searches: {given.count - wrong} of {given.count} calls give what is worked out")
    return 1 if wrong else 0


if __name__ == "__main__":
    sys.exit(main(sys.argv[1:]))
