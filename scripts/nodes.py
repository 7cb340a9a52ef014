"""What a node declares of its inputs and outputs, from the text that `print` writes of its program.

Each declaration is a line there, and one blank stands between two tokens.
"""

from collections import namedtuple
from fractions import Fraction

import traces

# A variable: its name and its kind, and as raw numbers the ends of its range, the step of it, and
# its first value, which is None where it isn't written as a number or a truth.
Declared = namedtuple("Declared", "name kind low high step first")

# The ends of a range that isn't written, of an input and of an output.
OF_INPUTS, OF_OUTPUTS = (-(10**12), 10**12), (-10_000, 10_000)
OPENING, CLOSING = ("(", "["), (")", "]")


class NoNode(Exception):
    """That a text has no such node."""


def parts(tokens, separator):
    """The parts of some tokens between separators that are in no bracket."""
    found, depth = [[]], 0
    for token in tokens:
        depth += (token in OPENING) - (token in CLOSING)
        if token == separator and depth == 0:
            found.append([])
        else:
            found[-1].append(token)
    return [it for it in found if it]


def bracketed(tokens):
    """What stands in the bracket that some tokens begin with, and what comes after it."""
    depth = 0
    for at, token in enumerate(tokens):
        depth += (token in OPENING) - (token in CLOSING)
        if depth == 0:
            return tokens[1:at], tokens[at + 1 :]
    return tokens[1:], []


def literal(kind, tokens, decimals):
    """The raw number that some tokens write, or None where they are no single value."""
    if tokens in (["false"], ["true"]):
        return int(tokens == ["true"])
    digits = tokens[-1].replace(".", "", 1) if tokens else ""
    if len(tokens) > 2 or tokens[:-1] not in ([], ["-"]) or not digits.isdigit():
        return None
    return traces.rounded(Fraction("".join(tokens)), decimals if kind == "real" else 0)


def group(tokens, unwritten, decimals):
    """The variables of a group, as `x , y : int [ 0 ; 9 ] = 5`."""
    names, (kind, *rest) = parts(tokens[: tokens.index(":")], ","), tokens[tokens.index(":") + 1 :]
    span = (0, 1) if kind == "bool" else unwritten
    if rest[:1] == ["["]:
        inside, rest = bracketed(rest)
        span = [literal(kind, it, decimals) for it in parts(inside, ";")]
    low, high, step = (*span, 1)[:3]
    first = literal(kind, rest[1:], decimals) if rest[:1] == ["="] else None
    return [Declared(name, kind, low, high, step, first) for (name,) in names]


def declared(text, node=None, decimals=2):
    """The inputs and the outputs of a node of a printed program, which is the first one if its name
    isn't given."""
    for line in text.splitlines():
        tokens = line.split()
        if tokens[:1] == ["node"] and node in (None, tokens[1]):
            inputs, rest = bracketed(tokens[2:])
            outputs, _ = bracketed(rest[1:])
            found = []
            for groups, unwritten in ((inputs, OF_INPUTS), (outputs, OF_OUTPUTS)):
                own = [group(it, unwritten, decimals) for it in parts(groups, ";")]
                found.append([it for part in own for it in part])
            return found
    raise NoNode(f"there is no node {node}" if node else "there is no node")


def nearest_to_zero(variable):
    return min(max(0, variable.low), variable.high)
