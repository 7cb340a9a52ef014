"""Texts whose searches are hard, and whether they have a solution, worked out apart."""


def pigeons(count, holes):
    """So many numbers of so many values, all of which differ."""
    names = [f"p{it}" for it in range(count)]
    pairs = [f"{a} <> {b}" for at, a in enumerate(names) for b in names[at + 1 :]]
    return f"node n() returns ({', '.join(names)}: int [1; {holes}]) = {' and '.join(pairs)}"


def pigeons_need(count):
    """What a search for them needs: each pair is a choice among truths."""
    return 180 * (count + 1) * 3 ** (count * (count - 1) // 2)


# A market is split in two halves that are equal by each of four measures: so many shops have these
# sizes, by a rule that has no meaning.
SHOPS, MEASURES = 24, 4
SIZES = [[pow(5 + row, shop + 2, 97) for shop in range(SHOPS)] for row in range(MEASURES)]
TOTALS = [sum(row) // 2 for row in SIZES]
# All numbers stand in equations, and each has two values.
MARKET_NEED = 180 * (SHOPS + 1) * 2**SHOPS


def market():
    """The text of the split. What it says of each shop alone is true in any case."""
    names = [f"s{it}" for it in range(SHOPS)]
    sums = [" + ".join(f"{size} * {it}" for size, it in zip(row, names)) for row in SIZES]
    said = [f"{it} = {total}" for it, total in zip(sums, TOTALS)]
    said += [f"{it} >= 0 and {it} <= 1 and {it} > -1 and {it} < 2" for it in names]
    return f"node n() returns ({', '.join(names)}: int [0; 1]) = {' and '.join(said)}"


def sums_of(shops):
    """All sums of the sizes of some of these shops."""
    found = [(0,) * MEASURES]
    for shop in shops:
        sizes = [row[shop] for row in SIZES]
        found += [tuple(map(sum, zip(it, sizes))) for it in found]
    return found


def market_is_split():
    """Whether the market can be split, by the sums of each half of the shops."""
    half = set(sums_of(range(SHOPS // 2)))
    others = sums_of(range(SHOPS // 2, SHOPS))
    return any(tuple(a - b for a, b in zip(TOTALS, it)) in half for it in others)
