"""Draws a trace of lurette.

    python3 scripts/draw_trace.py TRACE >picture.svg        a picture with a lane for each variable
    python3 scripts/draw_trace.py --vcd TRACE >waves.vcd    for GTKWave and other viewers of waves

What is no trace is refused with the number of its line, and the status 2.
"""

import sys
from xml.sax.saxutils import escape

import traces
from traces import ROLES


def bad_step(trace):
    """The number of the last step where it was judged false, or None."""
    why, number = traces.why_and_number(trace.end)
    return number if why == "oracle" else None


# -- A picture ------------------------------------------------------------------------------------

LEFT, TOP, RIGHT, LANE, GAP = 150, 42, 20, 44, 16
COLOURS = {"#inputs": "#1f6fb2", "#outputs": "#b2431f", "#locals": "#6b6b6b"}
TOLD = {"#inputs": "to the controller", "#outputs": "from the controller", "#locals": "local"}


def width_of_step(trace):
    return max(3, min(24, 1000 // max(len(trace.steps), 1)))


def written(value):
    """A number without needless decimals."""
    return f"{value:.6f}".rstrip("0").rstrip(".")


def range_of(values):
    """The least and the greatest of some values that are there."""
    known = [it for it in values if it is not None]
    return (min(known), max(known)) if known else (0, 0)


def path_of(values, low, high, top, width):
    """The stepped line of a variable. It has a gap where there is no value."""
    parts, is_open = [], False
    for at, value in enumerate(values):
        if value is None:
            is_open = False
            continue
        part = (value - low) / (high - low) if high > low else 0.5
        height = round(top + LANE - part * LANE, 1)
        left = LEFT + at * width
        parts.append(f"{'L' if is_open else 'M'}{left} {height}H{left + width}")
        is_open = True
    return "".join(parts)


def text_at(x, y, text, extra=""):
    return f'<text x="{x}" y="{y}"{extra}>{escape(text)}</text>'


def lane(trace, at, width):
    """The lines of a picture that show one variable."""
    variable, top = trace.variables[at], TOP + at * (LANE + GAP)
    values = [step[at] for step in trace.steps]
    is_bool = variable.kind == "bool"
    low, high = (0, 1) if is_bool else range_of(values)
    colour, right = COLOURS[variable.role], LEFT + width * len(trace.steps)
    ends = ("f", "t") if is_bool else (written(low), written(high))
    small = ' class="small" text-anchor="end"'
    yield f'<path class="rule" d="M{LEFT} {top + LANE}H{right}M{LEFT} {top}H{right}"/>'
    yield text_at(10, top + 18, variable.name, f' fill="{colour}"')
    yield text_at(10, top + 34, TOLD[variable.role], ' class="small"')
    yield text_at(LEFT - 6, top + 10, ends[1], small)
    yield text_at(LEFT - 6, top + LANE, ends[0], small)
    path = path_of(values, low, high, top, width)
    yield f'<path class="line" stroke="{colour}" d="{path}"/>'


def ruler(trace, width, bottom):
    """The numbers of steps, above the lanes."""
    every = next(it for it in (1, 2, 5, 10, 20, 50, 100, 200, 500, 10**9) if it * width >= 36)
    for number in range(every, len(trace.steps) + 1, every):
        middle = LEFT + number * width - width / 2
        yield text_at(middle, TOP - 10, str(number), ' class="small" text-anchor="middle"')
        yield f'<path class="tick" d="M{middle} {TOP - 6}V{bottom}"/>'


def marked(trace, width, bottom):
    """What marks a bad last step, or that the run ended in another way than it should."""
    right = LEFT + width * len(trace.steps)
    if bad_step(trace) is not None and trace.steps:
        box = f'x="{right - width}" y="{TOP - 4}" width="{width}" height="{bottom - TOP + 8}"'
        yield f'<rect class="bad" {box}/>'
    elif trace.end.split()[0] not in ("normal", "limit"):
        yield f'<path class="stop" d="M{right} {TOP - 4}V{bottom + 4}"/>'


STYLE = """text{font:13px sans-serif}.small{font-size:11px;fill:#555}
.line{fill:none;stroke-width:1.6}
.rule{fill:none;stroke:#ddd}.tick{fill:none;stroke:#f0f0f0}.stop{stroke:#d00000;stroke-width:2}
.bad{fill:#d00000;fill-opacity:.25}"""


def picture_of(trace):
    """A trace as a picture in SVG."""
    width = width_of_step(trace)
    bottom = TOP + len(trace.variables) * (LANE + GAP) - GAP
    whole = LEFT + max(width * len(trace.steps), 300) + RIGHT
    lines = [
        f'<svg xmlns="http://www.w3.org/2000/svg" width="{whole}" height="{bottom + 36}">',
        f"<style>{STYLE}</style>",
        f'<rect width="{whole}" height="{bottom + 36}" fill="#fff"/>',
        *ruler(trace, width, bottom),
        *marked(trace, width, bottom),
    ]
    for at in range(len(trace.variables)):
        lines += lane(trace, at, width)
    lines.append(text_at(LEFT, bottom + 24, f"seed {trace.seed}, end: {trace.end}"))
    return "\n".join([*lines, "</svg>", ""])


# -- Waves ----------------------------------------------------------------------------------------

MODULES = {"#inputs": "to_controller", "#outputs": "from_controller", "#locals": "locals"}


def sign_of(at):
    """The sign that stands for the variable of this number, in printable letters."""
    found = chr(33 + at % 94)
    return found if at < 94 else found + sign_of(at // 94 - 1)


def wave_of(variable, value, sign):
    """The line of a value."""
    if variable.kind == "bool":
        return f"{'x' if value is None else int(value)}{sign}"
    return f"r{'nan' if value is None else written(value)} {sign}"


def waves_of(trace):
    """A trace as a value change dump: a step takes one unit of time."""
    lines = ["$version lurette $end", "$timescale 1 ns $end"]
    for role in ROLES:
        own = [(at, it) for at, it in enumerate(trace.variables) if it.role == role]
        lines += [f"$scope module {MODULES[role]} $end"] * bool(own)
        for at, it in own:
            sort = "wire 1" if it.kind == "bool" else "real 64"
            lines.append(f"$var {sort} {sign_of(at)} {it.name.replace('.', '_')} $end")
        lines += ["$upscope $end"] * bool(own)
    lines.append("$enddefinitions $end")
    last = [()] * len(trace.variables)
    for number, values in enumerate(trace.steps, 1):
        lines.append(f"#{number}")
        for at, (variable, value) in enumerate(zip(trace.variables, values)):
            if value != last[at]:
                lines.append(wave_of(variable, value, sign_of(at)))
        last = values
    return "\n".join([*lines, f"#{len(trace.steps) + 1}", ""])


def main(words):
    is_vcd = words[:1] == ["--vcd"]
    files = words[1:] if is_vcd else words
    if len(files) != 1 or files[0].startswith("--"):
        print("draw_trace: usage: draw_trace.py [--vcd] TRACE", file=sys.stderr)
        return 2
    try:
        with open(files[0], encoding="utf-8") as file:
            trace = traces.with_values(traces.trace_of(file.read()))
    except (OSError, UnicodeDecodeError, traces.NoTrace) as why:
        print(f"draw_trace: {files[0]}: {why}", file=sys.stderr)
        return 2
    sys.stdout.write(waves_of(trace) if is_vcd else picture_of(trace))
    return 0


if __name__ == "__main__":
    sys.exit(main(sys.argv[1:]))
