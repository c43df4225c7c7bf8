"""Writes crates/test_cut/stdin and stdout.

    python3 tests/make_cut.py

The independent model's lines for cut are taken, those in the three modes too, and from them lines with too little scratch,
too little output, a bad text or a bad pool, and lines with other classes, whose answers are the same. What those refuse
with, document 01 says: the conditions in their order, each with its detail. tests/fewest.py has more texts, each told
stretch by stretch. The Rust's lines stand behind them, and those in the profile "sheet", whose parts the Rust has cut.
"""
import classes
import fewest
import vectors
from pools import pools
from trie_model import cells_of

LONGEST = 65535

# Lines with fewer bytes of words and text are lent other rows too.
SHORT = 150


def refusal(text, passes, scratch, out, ends):
    """The first condition of document 01 that holds, with its detail."""
    if len(text) > LONGEST:
        return "! 2 %d" % len(text)
    for i, cell in enumerate(text):
        if 0xD800 <= cell < 0xE000 or cell > 0x10FFFF:
            return "! 3 %d" % i
    if not passes:
        return "! 4 0"
    if scratch < 9 * len(text) + 128:
        return "! 5 %d" % (9 * len(text) + 128)
    if out < len(ends):
        return "! 6 %d" % len(ends)
    return "ok"


def lent_rows(fields, expected):
    """An accepted line with scratch and output one cell short, just right and one cell longer."""
    _, mode, words, text, _, _ = fields
    row, ends = vectors.parsed_cells(text), [] if expected.split()[1] == "-" else expected.split()[1].split(",")
    need = 9 * len(row) + 128
    for scratch in need - 1, need, need + 1:
        for out in len(ends) - 1, len(ends), len(ends) + 1:
            if out >= 0:
                answer = refusal(row, True, scratch, out, ends)
                yield ["cut", mode, words, text, str(scratch), str(out)], expected if answer == "ok" else answer


def bad_calls():
    """Texts that are too long or hold a cell that is no scalar, with pools that pass and that don't, and rows of no cells."""
    a, good, empty = 0x61, cells_of({(0x61,): 0}, 16), []
    texts = [[a] * (LONGEST + 1), [a] * LONGEST + [0xD800], [0xD800], [a, 0xDFFF, 0x110000], [a, a, 0x110000], [0xFFFFFFFF], [a, 0xD7FF, 0xE000, 0x10FFFF]]
    for mode in "plain", "safe", "sheet":
        for text in texts:
            for pool in good, empty:
                answer = refusal(text, pool == good, 0, 0, [])
                yield ["cut_pool", mode, vectors.cells(pool), vectors.cells(text), "0", "0"], answer


def pool_calls():
    """Each rule of docs/POOL.md broken: refused before scratch and output are looked at. Pools that pass are left to other lines."""
    for line, answer in pools():
        cells = line.split("\t")[1]
        if answer.startswith("!"):
            for mode, scratch, out in ("plain", "*", "*"), ("safe", "0", "0"), ("sheet", "*", "0"):
                yield ["cut_pool", mode, cells, "E01.E02", scratch, out], "! 4 0"


def short(found):
    """The short lines that are accepted."""
    return [line for line in found if line[1].startswith("ok") and len(line[0][2] + line[0][3]) < SHORT]


def other_rows(found, every):
    """Other rows lent to one in so many of the short lines."""
    return [line for fields, expected in short(found)[::every] for line in lent_rows(fields, expected)]


def main():
    model, modes = vectors.model("cut"), vectors.read("cuts.txt", ["cut"])
    sheet = [line for line in modes if line[0][1] == "sheet"]
    lines = model + other_rows(model, 6) + modes + other_rows(sheet, 3)
    lines += list(classes.cuts(short(model)[3::6] + short(sheet)[1::3]))
    lines += fewest.lines() + list(bad_calls()) + list(pool_calls())
    vectors.write("test_cut", lines + vectors.rust("cut") + vectors.read("sheet.txt", ["cut"]))


if __name__ == "__main__":
    main()
