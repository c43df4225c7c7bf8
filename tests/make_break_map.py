"""Writes crates/test_break_map/stdin and stdout.

    python3 tests/make_break_map.py

The independent model's lines for map, rank and next are taken (vectors/maps.txt). The other lines are made here: the
ends of the cuts of the other vectors, the model's and the Rust's; ends, positions and maps that are wrong in each way
that 02's ticket 9 speaks of; lengths on both sides of a cell, of the longest text and of the largest number. What they
are answered with, `write`, `count` and `find` say: 02's sentences over Python's numbers of any size. All lines are held to
them, and the script stops where the two differ.
"""
import random

import vectors

# The longest text, the largest cell of 32 bits, of 64, and the largest number.
LONGEST, ANY, CELL, LARGEST = 65535, 2 ** 32 - 1, 2 ** 64 - 1, 2 ** 64 - 1

# Lengths on both sides of a cell and of the longest text; longer ones are refused.
SIZES = [0, 1, 5, 62, 63, 64, 65, 126, 127, 128, 129, 191, 192, 300, LONGEST - 64, LONGEST - 1, LONGEST]
TOO_LONG = [LONGEST + 1, LONGEST + 64, ANY, ANY + 1, 2 ** 63, LARGEST - 64, LARGEST - 63, LARGEST - 1, LARGEST]


def needed(n):
    """02: (n+1)/64 cells rounded up."""
    return -(-(n + 1) // 64)


def sizes(n, cells):
    """2, then 6."""
    if n > LONGEST:
        return "! 2 %d" % n
    if cells < needed(n):
        return "! 6 %d" % needed(n)
    return None


def halves(cells):
    """Cells of 64 bits as cells of 32, the lower half first."""
    return vectors.cells([half for cell in cells for half in (cell & ANY, cell >> 32)])


def write(n, ends, room):
    """A line of map, and its answer."""
    told = sizes(n, room)
    for i, end in enumerate(ends):
        if told is None and (end == 0 or end > n or i > 0 and end <= ends[i - 1]):
            told = "! 10 %d" % i
    if told is None:
        bits = sum(1 << end for end in ends)
        told = "ok %s" % halves([bits >> 64 * i & CELL for i in range(needed(n))])
    return ["map", str(n), vectors.cells(ends), str(room)], told


def unread(n, row, position):
    """2, 6, 10, 11; else None."""
    told = sizes(n, len(row))
    if told is None and position > n:
        told = "! 10 %d" % position
    if told is None:
        last = needed(n) - 1
        above = [p for p in range(n + 1, 64 * needed(n)) if row[last] >> p % 64 & 1]
        told = "! 11 %d" % above[0] if above else None
    return told


def breaks(n, row):
    """The positions 0 to n whose bit is set."""
    return [p for p in range(n + 1) if row[p // 64] >> p % 64 & 1]


def count(n, row, position):
    told = unread(n, row, position)
    if told is None:
        told = "ok %d" % sum(p <= position for p in breaks(n, row))
    return ["rank", str(n), halves(row), str(position)], told


def find(n, row, position):
    told = unread(n, row, position)
    if told is None:
        above = [p for p in breaks(n, row) if p > position]
        told = "ok %s" % (above[0] if above else "none")
    return ["next", str(n), halves(row), str(position)], told


def both(n, row, position):
    return [count(n, row, position), find(n, row, position)]


def numbers(field):
    return [] if field == "-" else [int(x) for x in field.split(",")]


def given():
    """The model's lines, held to the answers here."""
    for (op, n, row, last), expected in vectors.read("maps.txt", ["map", "rank", "next"]):
        n = int(n)
        if op == "map":
            ends = numbers(row)
            made = write(n, ends, needed(n) if last == "*" else int(last))
            if expected.startswith("ok"):
                expected = "ok %s" % halves([int(cell, 16) for cell in expected[3:].split(",")])
        else:
            cells = [int(cell, 16) for cell in row.split(",")] if row != "-" else []
            made = (count if op == "rank" else find)(n, cells, int(last))
        assert made[1] == expected, (op, n, row, last, expected, made)
        yield made


def cuts(draw):
    """The ends of cuts: their map, and every break of it found from the one before."""
    for i, (fields, expected) in enumerate(vectors.model("cut") + vectors.rust("cut")[::12]):
        if not expected.startswith("ok") or expected.split()[1] == "-":
            continue
        ends = numbers(expected.split()[1])
        n = ends[-1]
        if n > 400:
            continue
        yield write(n, ends, needed(n) + draw.randrange(3))
        row = [sum(1 << end for end in ends) >> 64 * k & CELL for k in range(needed(n))] + [draw.randrange(CELL + 1)] * draw.randrange(2)
        if i % 8 == 0:
            for p in [0] + ends:
                yield find(n, row, p)
        for p in {0, n, draw.randrange(n + 1)}:
            yield from both(n, row, p)


def rising(n, draw):
    """Right ends of different numbers."""
    yield []
    if n > 0:
        yield [1]
        yield [n]
        yield sorted(draw.sample(range(1, n + 1), min(n, 9)))
        yield sorted({p for p in (1, 62, 63, 64, 65, 127, 128, n - 1, n) if 0 < p <= n})
        if n < 400:
            yield list(range(1, n + 1))


def wrong(ends, n, draw):
    """Ends that are near right ones."""
    for k in sorted({0, len(ends) - 1, draw.randrange(len(ends))} if ends else ()):
        before, e, behind = ends[:k], ends[k], ends[k + 1:]
        for other in 0, e - 1, n, n + 1, ANY, draw.randrange(n + 2), draw.randrange(ANY + 1):
            yield before + [other] + behind
        yield before + [e, e] + behind
        yield before + behind[:1] + [e] + behind[1:]
    yield ends + [n]
    yield ends + [n + 1]
    yield [0] + ends
    yield [n + 1]


def written(draw):
    for n in SIZES:
        for ends in rising(n, draw):
            for room in sorted({needed(n), needed(n) - 1, needed(n) + draw.randrange(1, 4)}):
                yield write(n, ends, room)
            near = list(wrong(ends, n, draw))
            for bad in near if len(ends) < 30 else draw.sample(near, 6):
                yield write(n, bad, needed(n))
            yield write(n, [0] + ends, needed(n) - 1)
    for n in TOO_LONG:
        for ends in [], [1], [0], [ANY]:
            for room in 0, 1030:
                yield write(n, ends, room)
    yield write(LONGEST, list(range(1, LONGEST + 1, 7)), 1024)
    yield write(LONGEST, [1] * 66000, 1024)


def rows(n, draw):
    """Maps that are given: without a bit, with position 0, with all, with few."""
    cells, top = needed(n), (1 << (n + 1)) - 1
    few = sum(1 << draw.randrange(n + 1) for _ in range(3))
    for bits in 0, 1, top, 1 << n, few & top, draw.randrange(top + 1) if n < 1000 else 1 << n // 2:
        yield [bits >> 64 * i & CELL for i in range(cells)]


def asked(draw):
    for n in SIZES:
        edges = [p for p in (0, 1, 62, 63, 64, 65, 126, 127, 128, n - 1, n) if 0 <= p <= n]
        for row in rows(n, draw):
            for p in sorted(set(edges if n < 1000 else [0, 63, n // 2, n - 1, n])):
                yield from both(n, row, p)
            for p in n + 1, n + 64, ANY, LARGEST:
                yield from both(n, row, p)
            yield from both(n, row[:-1], 0)
            yield from both(n, row[:-1], n + 1)
            behind = row + [CELL, draw.randrange(CELL + 1)]
            yield from both(n, behind, 0)
            yield from both(n, behind, n)
            if n % 64 != 63:
                for p in sorted({n + 1, 64 * needed(n) - 1, draw.randrange(n + 1, 64 * needed(n))}):
                    high = row[:-1] + [row[-1] | 1 << p % 64]
                    yield from both(n, high, n // 2)
                    yield from both(n, high + [CELL], n)
                    yield from both(n, high, n + 1)
                yield from both(n, row[:-1] + [CELL], 0)
    for n in TOO_LONG:
        for row in [], [0], [CELL] * 1030:
            for p in 0, n, LARGEST:
                yield from both(n, row, p)


def main():
    draw = random.Random(9)
    lines = list(given()) + list(written(draw)) + list(asked(draw)) + list(cuts(draw))
    told = {expected.split()[0] + (expected.split()[1] if expected[0] == "!" else "") for _, expected in lines}
    assert {"ok", "!2", "!6", "!10", "!11"} <= told and "ok none" in {expected for _, expected in lines}, told
    vectors.write("test_break_map", lines)


main()
