"""Texts that are long, deep or wide, and the end of a call on one."""

# What stands before a trace over one Boolean output, before one over an int and a real too, and
# what declares an exception and two macros that hand their argument on.
NODE = "node n() returns (b: bool) = "
NUMBERS = "node n() returns (b: bool; i: int [0; 9]; x: real [0.0; 9.0]) = "
DECLARED = "exception e let f (t: trace): trace = t let g (t: bool): bool = t "

MIB = 1 << 20


def names(letter, count):
    """So many names in a list."""
    return ", ".join(f"{letter}{it}" for it in range(count))


def doubled(first, kind, count):
    """Macros d1 to dk of one parameter, of which each but the first is the one before, twice."""
    found = [f"let d1 (a: {kind}): {kind} = {first}"]
    for it in range(2, count + 1):
        found.append(f"let d{it} (a: {kind}): {kind} = d{it - 1}(d{it - 1}(a))")
    return " ".join(found) + " "


def nested(way, kind, count, inside, name="d"):
    """Macros, and their use that puts `inside` at the bottom of so many levels of a way.

    A way is the body of a macro whose parameter is `a`, as `not a`. The text is short: macros stand
    for 1, 2, 4 levels and so on.
    """
    macros, use = [], inside
    for it in range(count.bit_length()):
        body = way if it == 0 else f"{name}{it - 1}({name}{it - 1}(a))"
        macros.append(f"let {name}{it} (a: {kind}): {kind} = {body} ")
        if count >> it & 1:
            use = f"{name}{it}({use})"
    return "".join(macros), use


def padded(text, length, filler=" "):
    """A text that a filler makes so long."""
    return text + filler * (length - len(text))


def end_of(outcome):
    """The status of a call, and how it ended in words: a line of its own, or what the last one of
    the trace says."""
    if outcome.status is None:
        return "it had not ended"
    if outcome.status < 0:
        return f"the signal {-outcome.status}"
    said = outcome.errors.decode("utf-8", "replace").partition("\n")[0]
    last = outcome.output[-200:].decode("utf-8", "replace").rstrip("\n").rpartition("\n")[2]
    words = said[len("lurette: ") :] if said else last.partition(" ")[2] if last[:1] == "#" else ""
    return f"{outcome.status} {words}".rstrip()
