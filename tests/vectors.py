"""Vector lines: reading the files of tests/vectors, spelling fields, and writing a program's stdin and stdout.

A vector is a line of fields parted by tabs, `op  inputs..  =>  expected`. A test program's stdin holds the
input side of each line, and its stdout the expected side of each. They are written below crates/, or below the
folder that the variable MADE names.
"""
import os
import unicodedata

ROOT = os.path.dirname(os.path.dirname(os.path.abspath(__file__)))
FOLDER = os.path.join(ROOT, "tests", "vectors")

# Unicode's White_Space, by its own data: of the controls U+0009 to U+000D and U+0085, and every separator (Zs, Zl, Zp).
# Python's str.isspace takes U+001C to U+001F too.
WHITE_SPACE = "".join(c for c in map(chr, range(0x110000)) if c in "\t\n\v\f\r\x85" or unicodedata.category(c) in ("Zs", "Zl", "Zp"))
if len(WHITE_SPACE) != 25:
    raise SystemExit("Unicode %s has %d characters of White_Space" % (unicodedata.unidata_version, len(WHITE_SPACE)))

# Characters that look like blanks, or stand beside one, and are never trimmed.
NEVER_TRIMMED = "\x08\x0e\x1c\x1d\x1e\x1f\x21\x84\x86\x9f\xa1\u167f\u1681\u180e\u1fff\u200b\u2027\u202a\u202e\u2030\u205e\u2060\u2fff\u3001\ufeff"


def model(*ops):
    """The independent model's lines for these operations."""
    return read("model.txt", ops)


def classes(*ops):
    """The independent model's lines over words with classes."""
    return read("classes.txt", ops)


def rust(*ops):
    """The Rust's lines for these operations: what differential/sample.py has kept."""
    return read("rust.txt", ops)


def read(name, ops):
    """The vectors of a file whose operation is among ops, as (fields, expected), in the file's order."""
    found = []
    for line in open(os.path.join(FOLDER, name), encoding="ascii"):
        fields = line.rstrip("\n").split("\t")
        mark = fields.index("=>")
        if fields[0] in ops:
            found.append((fields[:mark], "\t".join(fields[mark + 1:])))
    return found


def cells(row):
    """Cells in hexadecimal joined by `.`; four or more equal ones as `cell*count`; `-` for none."""
    parts = []
    i = 0
    while i < len(row):
        end = i
        while end < len(row) and row[end] == row[i]:
            end += 1
        if end - i >= 4:
            parts.append("%X*%d" % (row[i], end - i))
            i = end
        else:
            parts.append("%X" % row[i])
            i += 1
    return ".".join(parts) or "-"


def parsed_cells(field):
    """The cells of a field."""
    parts = [part.partition("*") for part in field.split(".")] if field != "-" else []
    return [int(cell, 16) for cell, _, times in parts for _ in range(int(times or 1))]


def parsed_bytes(field):
    """The bytes of a field that hex_bytes spells."""
    parts = [part.partition("*") for part in field.split(".")] if field != "-" else []
    return b"".join(bytes.fromhex(unit) * int(times or 1) for unit, _, times in parts)


def hex_bytes(row, long=64):
    """Bytes in hexadecimal; where one to four bytes are repeated over `long` bytes or more, `bytes*count` joined by `.`; `-` for none."""
    parts = []
    plain = b""
    i = 0
    while i < len(row):
        size, times = repeated(row, i)
        if size * times >= long:
            if plain:
                parts.append(plain.hex())
                plain = b""
            parts.append("%s*%d" % (row[i:i + size].hex(), times))
            i += size * times
        else:
            plain += row[i:i + 1]
            i += 1
    if plain:
        parts.append(plain.hex())
    return ".".join(parts) or "-"


def repeated(row, i):
    """The size of one to four bytes that are repeated from i on, and how often, where that covers most."""
    best = (1, 1)
    for size in range(1, 5):
        unit = row[i:i + size]
        times = 1
        while len(unit) == size and row[i + size * times:i + size * (times + 1)] == unit:
            times += 1
        if size * times > best[0] * best[1]:
            best = (size, times)
    return best


def made(crate, name):
    """The path of a program's stdin or stdout."""
    folder = os.path.join(os.environ.get("MADE") or os.path.join(ROOT, "crates"), crate)
    os.makedirs(folder, exist_ok=True)
    return os.path.join(folder, name)


def write(crate, vectors):
    """Writes the stdin and the stdout of a test program, a line for each vector; a vector that comes twice is written once."""
    vectors = list(dict.fromkeys(("\t".join(fields), expected) for fields, expected in vectors))
    if len(dict(vectors)) != len(vectors):
        raise SystemExit("a line has two answers")
    for name, side in ("stdin", 0), ("stdout", 1):
        with open(made(crate, name), "w", encoding="ascii") as out:
            out.writelines(vector[side] + "\n" for vector in vectors)
    print("%s: %d lines" % (crate, len(vectors)))
