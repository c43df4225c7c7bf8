"""Writes crates/test_tcc/stdin and stdout.

    python3 tests/make_tcc.py

The independent model's lines for clusters are taken. The patterns are those of nlpo3's tcc_rules.rs as they are
written there (vectors/patterns.txt), and Python's `re` runs them, which like the regex crate takes the first
alternative that matches and each optional part where it can.

The other lines are made here, with document 01's shorthand for the patterns, its rule on the look-ahead and its
refusals in their order, 2, 3, 6. 01's own cases are written out below. All lines are held to `re`, and the script
stops where the two differ. The Rust's lines stand behind them.
"""
import os
import random
import re

import vectors

MAX_SCALARS = 65535

# 01, "Sheets on both sides of a line".
SHEET = [
    ("", []),
    ("ก็", [2]),
    ("เปลี่ยน", [2, 5, 6, 7]),
    ("เมีย", [4]),
    ("เมียนต์", [6, 7]),
    ("กรรม์", [1, 5]),
    ("เมียน", [4, 5]),
    ("เดิยก์", [5, 6]),
    ("สัตว์", [5]),
    ("กรรม์ ็", [7]),
]

# The alternatives that can win.
WINNERS = [n for n in range(1, 25) if n != 17]

# 01's shorthand. A class stands bare within another class.
CONSONANT, TONE, D = "ก-ฮ", "่-๋", "ุู"
CONSONANTS = "กขยรวอหฮ"
CHARACTERS = "กยรวอหฮะัาำิีึืุูเแโใไ็่๋์ a๑"


def expanded(pattern):
    """A pattern without its shorthand."""
    pattern = pattern.replace("k", "(?:cc?[dิ]?์)?").replace("d", D)
    return pattern.replace("c", "[%s]" % CONSONANT).replace("t", "[%s]?" % TONE)


def read():
    """The alternatives of the two patterns as they are written, in their order."""
    written = open(os.path.join(vectors.FOLDER, "patterns.txt"), encoding="utf-8").read().splitlines()
    assert len(written) == 31, "29 alternatives and 2 that look ahead"
    return written


def tables(written):
    """The alternatives, and those that look ahead."""
    found = [re.compile(expanded(p)) for p in written]
    return found[:29], found[29:]


def match(text, alternatives):
    """The number of the first alternative that matches at the text's start and where it ends, or (0, 1)."""
    for n, alternative in enumerate(alternatives, 1):
        m = alternative.match(text)
        if m:
            return n, m.end()
    return 0, 1


def clusters(text, rules):
    """The ends of the text's clusters, and the alternative that won each, 0 for none."""
    alternatives, ahead = rules
    ends, won, p = [], [], 0
    while p < len(text):
        n, size = match(text[p:p + 20], alternatives)
        if any(a.match(text[p:p + size]) for a in ahead):
            size -= 1
        p += size
        ends.append(p)
        won.append(n)
    return ends, won


def answer(row, room, rules):
    """Refusals 2, 3 and 6 in that order, or the ends."""
    if len(row) > MAX_SCALARS:
        return "! 2 %d" % len(row)
    for i, x in enumerate(row):
        if 0xD800 <= x <= 0xDFFF or x > 0x10FFFF:
            return "! 3 %d" % i
    ends = clusters("".join(map(chr, row)), rules)[0]
    if room != "*" and int(room) < len(ends):
        return "! 6 %d" % len(ends)
    return "ok %s" % (",".join(map(str, ends)) or "-")


def parsed(text):
    """The cells of a field."""
    row = []
    for part in [] if text == "-" else text.split("."):
        cell, _, times = part.partition("*")
        row += [int(cell, 16)] * int(times or 1)
    return row


def row_after(row, room, rules):
    """The output after the call, each cell 7 before it."""
    told = answer(row, str(room), rules)
    if told.startswith("!"):
        return "! " + vectors.cells([7] * room)
    ends = [] if told == "ok -" else [int(e) for e in told[3:].split(",")]
    return "ok " + vectors.cells(ends + [7] * (room - len(ends)))


def flags_after(row, room, rules):
    """The flags by position, and the cells behind them as they were."""
    ends = clusters("".join(map(chr, row)), rules)[0]
    flags = [int(p in ends) for p in range(len(row) + 1)]
    return "ok " + vectors.cells(flags + [7] * (room - len(flags)))


def sample(pattern, draw):
    """A text that a pattern matches."""
    text = re.sub(r"\[([^]]*)\]", lambda m: draw.choice(CONSONANTS if "-" in m[1] and "ก" in m[1] else m[1].replace("-", "")), pattern[1:])
    text = text.replace("k", "").replace("t", draw.choice(["", "่", "๋"]))
    text = re.sub("(.)[?]", lambda m: draw.choice(["", m[1]]), text)
    return re.sub("c", lambda m: draw.choice(CONSONANTS), text)


def winning(written, rules, draw):
    """A short text for each alternative that can win, at its very start."""
    found = []
    for n in WINNERS:
        text = sample(written[n - 1], draw)
        while match(text, rules[0])[0] != n:
            text = sample(written[n - 1], draw)
        found.append(text)
    return found


def texts_for(written, rules):
    """01's texts, one for each alternative that can win, and drawn ones; every winner is among them."""
    draw = random.Random(1)
    for text, ends in SHEET:
        assert clusters(text, rules)[0] == ends, text
    texts = [text for text, _ in SHEET] + winning(written, rules, draw)
    for length in (3, 8, 30, 60):
        texts += ["".join(draw.choice(CHARACTERS) for _ in range(length)) for _ in range(150)]
    texts += ["".join(draw.choice(CHARACTERS) for _ in range(3000)) for _ in range(4)]
    won = set().union(*(clusters(text, rules)[1] for text in texts))
    assert won == {0, *WINNERS}, sorted(won)
    return texts


def lines(written):
    """All vectors, as (fields, expected)."""
    rules = tables(written)
    made = []
    for fields, expected in vectors.model("clusters"):
        assert answer(parsed(fields[1]), fields[2], rules) == expected, fields
        made.append((fields, expected))
    texts = texts_for(written, rules)
    for text in texts:
        row = [ord(x) for x in text]
        made.append((["clusters", vectors.cells(row), "*"], answer(row, "*", rules)))
    for text in texts[:200]:
        row = [ord(x) for x in text]
        n = len(clusters(text, rules)[0])
        for room in sorted({max(n - 1, 0), n, len(row), len(row) + 2}):
            made.append((["clusters", vectors.cells(row), str(room)], answer(row, room, rules)))
            made.append((["row", vectors.cells(row), str(room)], row_after(row, room, rules)))
        for room in (len(row) + 1, len(row) + 3):
            made.append((["flags", vectors.cells(row), str(room)], flags_after(row, room, rules)))
    long = [0x61] * MAX_SCALARS
    made.append((["last", vectors.cells(long), "*"], "ok %d %d" % (MAX_SCALARS, MAX_SCALARS)))
    made.append((["clusters", vectors.cells(long), str(MAX_SCALARS - 1)], answer(long, MAX_SCALARS - 1, rules)))
    for row in (long + [0x61], [0xD800] * (MAX_SCALARS + 1), [0xE01, 0xD800], [0x110000], [0xE40, 0xE01, 0xDFFF, 0x110000], [0xD7FF, 0xE000, 0x10FFFF]):
        made.append((["clusters", vectors.cells(row), "0"], answer(row, 0, rules)))
        made.append((["clusters", vectors.cells(row), "*"], answer(row, "*", rules)))
    return made


if __name__ == "__main__":
    vectors.write("test_tcc", lines(read()) + vectors.rust("clusters"))
