"""A picture in SVG of what runs reached, in the form of those of traces."""

from draw_trace import COLOURS, GAP, LANE, LEFT, RIGHT, STYLE, TOLD, TOP, text_at
from reach_counts import Number, counted, ended_line, head_line, pair_line, share

# How wide a part of a range is, and what is told at its right; how far two lines are apart; and how
# many pairs the picture has.
PART, BESIDE, LINE, MOST_PAIRS = 36, 240, 18, 10
WIDE = 10 * PART

MORE = """
.part{fill-opacity:.75}.whole{fill:#eee}"""


def told_beside(top, lines):
    """Small lines at the right of a lane."""
    for at, line in enumerate(lines):
        yield text_at(LEFT + WIDE + 50, top + 14 + 16 * at, line, ' class="small"')


def box(kind, x, y, width, height, extra=""):
    place = f'x="{x:g}" y="{y:g}" width="{width:g}" height="{height:g}"'
    return f'<rect class="{kind}" {place}{extra}/>'


def number_lane(it, top, colour):
    """The bars of a number, one for each part of its range."""
    width = WIDE / max(len(it.parts), 1)
    for at, steps in enumerate(it.parts):
        height = round(LANE * steps / max(it.parts), 1)
        left = LEFT + at * width
        yield box("part", left + 1, top + LANE - height, width - 2, height, f' fill="{colour}"')
    yield f'<path class="rule" d="M{LEFT} {top + LANE}H{LEFT + WIDE}"/>'
    small = ' class="small"'
    if it.least is not None:
        yield text_at(LEFT - 6, top + LANE, it.least, f'{small} text-anchor="end"')
        yield text_at(LEFT + WIDE + 6, top + LANE, it.greatest, small)
    yield from told_beside(top, [counted(it.distinct, "value")])


def truth_lane(it, top, colour):
    """The part of the steps in which a Boolean is true."""
    true = WIDE * it.true / it.steps if it.steps else 0
    yield box("whole", LEFT, top + 8, WIDE, LANE - 16)
    yield box("part", LEFT, top + 8, true, LANE - 16, f' fill="{colour}"')
    rows = f"at most {it.longest_true} t, {it.longest_false} f in a row"
    yield from told_beside(top, [f"t in {share(it.true, it.steps)}", rows])


def lane(it, top):
    """The lines of the picture that show one variable."""
    variable = it.variable
    colour = COLOURS[variable.role]
    yield text_at(10, top + 18, variable.name, f' fill="{colour}"')
    yield text_at(10, top + 34, TOLD[variable.role], ' class="small"')
    yield from (number_lane if isinstance(it, Number) else truth_lane)(it, top, colour)


def lines_below(found, note):
    """The lines of text below the lanes."""
    ends = [ended_line(why, it) for why, it in found.ends.items()]
    pairs = [f"never together: {pair_line(it)}" for it in found.pairs[:MOST_PAIRS]]
    more = len(found.pairs) - MOST_PAIRS
    return [*ends, *pairs, *[f"and {counted(more, 'more pair')}"] * (more > 0), note]


def picture_of(found, note):
    """What runs reached as a picture in SVG."""
    bottom = TOP + len(found.variables) * (LANE + GAP)
    below = lines_below(found, note)
    whole, high = LEFT + WIDE + 50 + BESIDE + RIGHT, bottom + LINE * len(below) + 16
    lines = [
        f'<svg xmlns="http://www.w3.org/2000/svg" width="{whole}" height="{high}">',
        f"<style>{STYLE}{MORE}</style>",
        f'<rect width="{whole}" height="{high}" fill="#fff"/>',
        text_at(LEFT, TOP - 20, head_line(found)),
    ]
    for at, it in enumerate(found.variables):
        lines += lane(it, TOP + at * (LANE + GAP))
    lines += [text_at(LEFT, bottom + LINE * at + 14, it) for at, it in enumerate(below)]
    return "\n".join([*lines, "</svg>", ""])
