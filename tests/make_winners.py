"""Writes crates/test_winners/stdin and stdout.

    python3 tests/make_winners.py

The independent model's lines for alts are taken (vectors/alts.txt). The Rust's lines for clusters are taken too, each
with its ends as the Rust gives them. The texts of make_tcc are the others, and 02's cases, which are written out below.
Which alternative wins a cluster is told by Python's `re` over the patterns as nlpo3 has them (vectors/patterns.txt). It is
held to all ends and winners that come from elsewhere, and the script stops where the two differ. Rows are lent as long as
is needed, one cell shorter, each by itself, and longer.
"""
import vectors
from make_tcc import MAX_SCALARS, answer, clusters, parsed, read, tables, texts_for

# 02, ticket 5.
SHEET = [
    ("เมียนต์", [6, 7], [7, 0]),
    ("กรรม์ ็", [7], [14]),
    ("ก็a", [2, 3], [15, 0]),
    ("เดิยก์", [5, 6], [6, 0]),
]


def told(row, room, more, rules):
    """Refusals as for clusters, 6 for either row; or the ends and the winners."""
    ends = answer(row, min((x for x in (room, more) if x != "*"), key=int, default="*"), rules)
    if ends.startswith("!"):
        return ends
    won = clusters("".join(map(chr, row)), rules)[1]
    return "%s %s" % (ends, ",".join(map(str, won)) or "-")


def line(row, room, more, rules):
    return ["alts", vectors.cells(row), str(room), str(more)], told(row, room, more, rules)


def lines(rules, texts):
    """All vectors, as (fields, expected)."""
    for fields, expected in vectors.read("alts.txt", ("alts",)):
        assert told(parsed(fields[1]), fields[2], fields[3], rules) == expected, fields
        yield fields, expected
    for text, ends, won in SHEET:
        assert clusters(text, rules) == (ends, won), text
    for fields, expected in vectors.rust("clusters"):
        row = parsed(fields[1])
        made = line(row, "*", "*", rules)
        assert made[1].split()[:2] == expected.split(), fields
        yield made
    rows = [[ord(x) for x in text] for text in [text for text, _, _ in SHEET] + texts]
    for row in rows:
        yield line(row, "*", "*", rules)
    for row in rows[:120]:
        n = len(clusters("".join(map(chr, row)), rules)[0])
        for room, more in (n, n), (n - 1, n), (n, n - 1), (0, "*"), ("*", 0), (n + 2, n + 1):
            if room != -1 and more != -1:
                yield line(row, room, more, rules)
    long = [0x61] * MAX_SCALARS
    for room, more in (MAX_SCALARS - 1, "*"), ("*", MAX_SCALARS - 1):
        yield line(long, room, more, rules)
    for row in long + [0x61], [0xD800] * (MAX_SCALARS + 1), [0xE01, 0xD800], [0x110000], [0xE40, 0xE01, 0xDFFF, 0x110000]:
        for room, more in (0, "*"), ("*", 0), ("*", "*"):
            yield line(row, room, more, rules)


if __name__ == "__main__":
    WRITTEN = read()
    RULES = tables(WRITTEN)
    vectors.write("test_winners", list(lines(RULES, texts_for(WRITTEN, RULES))))
