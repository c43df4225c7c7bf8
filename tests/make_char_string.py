"""Writes crates/test_char_string/stdin and stdout.

    python3 tests/make_char_string.py

The independent model's lines for decode, trim, rspace and part are taken (vectors/model.txt), and those for decode with
positions and for ends in bytes (vectors/positions.txt). A part line is taken twice: for the plain part, and for the view
that is held in a struct.

The other lines are made here. The expected side of each comes from Python's own UTF-8 codec: where bytes.decode
fails, its `start` is where the first ill-formed sequence starts; the positions come from the lengths of the characters'
own encodings. Refusals are in the order of documents 01 and 02: 1, 2, 6 for the scalar row, 6 for the position row. The
model's lines are held to the same codec, and the script stops where the two differ.

A position row is spelled by its first cell and the steps between its cells, so that a long one is short.
"""
import vectors

MAX_SCALARS = 65535

# The Unicode Standard, section 3.9: the example of D92 whole and in its parts, the sequences that the text names at
# D84 to D86, beside table 3-7 and in "Constraints on Conversion Processes", table 3-8 as versions 5.2 to 10 had it,
# and tables 3-8 to 3-11 as they stand since.
UNICODE = """
4D D0 B0 E4 BA 8C F0 90 8C 82
4D
D0 B0
E4 BA 8C
F0 90 8C 82
41 C3 B1 42
41 C2 C3 B1 42
C3 B1
C2
C2 C3
C0 AF
E0 9F 80
F4 80 83 92
C2 41 42
F0 80 80 41
61 F1 80 80 E1 80 C2 62 80 63 80 BF 64
C0 AF E0 80 BF F0 81 82 41
ED A0 80 ED BF BF ED AF 41
F4 91 92 93 FF 41 80 BF 42
E1 80 E2 F0 91 92 F1 BF 41
"""

PREFIX = "aé\u0e01\U0001f600".encode()

# Below, at and above each end of a second byte's range.
SECOND = bytes.fromhex("7F 80 8F 90 9F A0 BF C0")

# The same for later bytes, whose range is always 80 to BF.
LATER = bytes.fromhex("7F 80 BF C0")

# The two sides of each boundary in the lengths of sequences and in the scalar values; U+110000 has no other form than these bytes.
EDGES = [chr(x).encode() for x in (0x0, 0x7F, 0x80, 0x7FF, 0x800, 0xD7FF, 0xE000, 0xFFFD, 0xFFFF, 0x10000, 0x10FFFF)]
EDGES.append(bytes.fromhex("F4 90 80 80"))
EDGES.extend(bytes.fromhex(s) for s in ("C1 BF", "E0 9F BF", "ED A0 80", "ED BF BF", "F0 8F BF BF"))


def positions(text):
    """The byte position of each character and of the end."""
    row = [0]
    for c in text:
        row.append(row[-1] + len(c.encode("utf-8")))
    return row


def steps(row):
    """The first cell of a row, and how far each other is from the one before it."""
    return [b - a for a, b in zip([0] + row, row)]


def short(room, needed):
    return room != "*" and int(room) < needed


def decoded(data, room, places):
    """The answer of decode: `room` is the number of output cells, `places` of position cells, or `*`."""
    try:
        text = data.decode("utf-8")
    except UnicodeDecodeError as error:
        return "! 1 %d" % error.start
    n = len(text)
    if n > MAX_SCALARS:
        return "! 2 %d" % n
    if short(room, n):
        return "! 6 %d" % n
    if short(places, n + 1):
        return "! 6 %d" % (n + 1)
    return "ok %d %s %s" % (n, vectors.cells([ord(c) for c in text]), vectors.cells(steps(positions(text))))


def decode(data, room="*", places="*"):
    return ["decode", vectors.hex_bytes(data), str(room), str(places)], decoded(data, room, places)


def held(fields, given, made):
    """Stops where the model has another answer than was made."""
    if given != made:
        raise SystemExit("the codec has %s: %s" % (made[:80], "\t".join(fields)[:80]))


def scalars_alone(answer):
    """The answer without its positions."""
    return answer.rpartition(" ")[0] if answer.startswith("ok") else answer


def given():
    """The model's lines."""
    for fields, expected in vectors.model("decode", "trim", "rspace", "part"):
        if fields[0] == "part":
            yield ["view_part"] + fields[1:], expected
        if fields[0] != "decode":
            yield fields, expected
            continue
        made = decode(vectors.parsed_bytes(fields[1]), fields[2])
        held(fields, expected, scalars_alone(made[1]))
        yield made


def given_positions():
    """The model's lines with positions."""
    for fields, expected in vectors.read("positions.txt", ("decode", "endbytes")):
        data = vectors.parsed_bytes(fields[1])
        if fields[0] == "endbytes":
            made = ends_in_bytes(data, numbers(fields[2]))
        else:
            made = decode(data, *fields[2:4])
            if expected.startswith("ok"):
                told, _, row = expected.rpartition(" ")
                expected = "%s %s" % (told, vectors.cells(steps(numbers(row))))
        held(fields, expected, made[1])
        yield made


def numbers(field):
    return [] if field == "-" else [int(x) for x in field.split(",")]


def ends_in_bytes(data, ends):
    """What the ends of well-formed bytes are in bytes: `x` for one over n."""
    row = positions(data.decode("utf-8"))
    told = [str(row[end]) if end < len(row) else "x" for end in ends]
    return ["endbytes", vectors.hex_bytes(data), vectors.cells(ends)], "ok %s" % (",".join(told) or "-")


def end_in_bytes(row, n, end):
    """An end in bytes by any row: the row's cell at that end; none over n, and none where the row has no such cell."""
    return ["end_in_bytes", vectors.cells(row), str(n), str(end)], "ok %s" % (row[end] if end <= n and end < len(row) else "x")


def ends():
    """Every end of some texts and the first over n; rows that are too short and longer than n+1 cells, and the largest numbers."""
    largest = 2 ** 64 - 1
    for text in "", "a", "é", "\u0e01", "\U0001f600", "กa\U0001f600é", "กขค" * 30:
        yield ends_in_bytes(text.encode(), list(range(len(text) + 3)) + [65535, 0xFFFFFFFF])
    for row in [], [0], [7], [0, 3, 4, 8, 10], [0xFFFFFFFF] * 9:
        for n in 0, 1, 4, 5, 8, 9, largest:
            for end in 0, 1, 3, 4, 5, 8, 9, largest:
                yield end_in_bytes(row, n, end)


def unicode_examples():
    """Unicode's sequences, as they stand and behind a well-formed prefix."""
    for line in UNICODE.split("\n"):
        data = bytes.fromhex(line)
        yield decode(data)
        yield decode(PREFIX + data)


def first_bytes():
    """Every first byte, alone and with each second byte, followed by no, one and two bytes 80: enough for each length, and too few."""
    for first in range(256):
        yield decode(bytes([first]))
        for second in SECOND:
            for tail in range(3):
                yield decode(bytes([first, second]) + b"\x80" * tail)


def later_bytes():
    """Third and fourth bytes at the ends of their range, behind each first byte of a longer sequence."""
    for first in range(0xE0, 0xF5):
        second = {0xE0: 0xA0, 0xF0: 0x90}.get(first, 0x80)
        for third in LATER:
            yield decode(bytes([first, second, third]))
            for fourth in LATER:
                yield decode(bytes([first, second, third, fourth]))


def edges():
    """Each boundary by itself, between letters, and before each other."""
    for one in EDGES:
        yield decode(one)
        yield decode(b"a" + one + b"b")
        for other in EDGES:
            yield decode(one + other)


def long_texts():
    """65,535 scalars and one more, of each length in bytes; refusal 1 before 2 before 6."""
    for one in "a", "é", "\u0e01", "\U0001f600":
        data = one.encode()
        for n in MAX_SCALARS, MAX_SCALARS + 1:
            yield decode(data * n)
            yield decode(data * n + b"\xff")
            yield decode(data * n + b"\xff", 0)
            yield decode(data * n, 0)
            yield decode(data * n, n - 1)
            yield decode(data * n, n)
            yield decode(data * n, n, n)
            yield decode(data * n, n, n + 1)
            yield decode(data * n, n - 1, 0)
    yield decode("\u0e01".encode() * 70000 + b"\xe0\xb8")
    yield decode("\u0e01".encode() * 70000)


def short_rows():
    """Each length of both rows up to one more than is needed, for well-formed and for ill-formed bytes: each row a cell short, both short, and the scalar row looked at first."""
    text = "กขค a\U0001f600é".encode()
    for room in range(9):
        for places in range(11):
            yield decode(text, room, places)
            yield decode(text + b"\xe0\xb8", room, places)
        for places in range(3):
            yield decode(b"", room, places)


def is_scalar(x):
    try:
        chr(x).encode("utf-8")
    except (UnicodeEncodeError, ValueError, OverflowError):
        return False
    return True


def scalars(row):
    bad = [i for i, x in enumerate(row) if not is_scalar(x)]
    return ["scalars", vectors.cells(row)], "ok %s" % (bad[0] if bad else "none")


def scalar_cells():
    """Cells on both sides of each end of the scalar values, at the start, in the middle and at the end of a text, and in pairs."""
    ends = (0x0, 0xD7FF, 0xD800, 0xDBFF, 0xDC00, 0xDFFF, 0xE000, 0xFFFF, 0x10000, 0x10FFFF, 0x110000, 0x7FFFFFFF, 0x80000000, 0xFFFFFFFF)
    yield scalars([])
    for x in ends:
        yield scalars([x])
        yield scalars([x, 0x61, 0xE01])
        yield scalars([0x61, x, 0xE01])
        yield scalars([0x61, 0xE01, x])
        yield scalars([0x61] * MAX_SCALARS + [x])
        for y in ends:
            yield scalars([0x61, x, y])


def text(row):
    bad = [i for i, x in enumerate(row) if not is_scalar(x)]
    if len(row) > MAX_SCALARS:
        return ["text", vectors.cells(row)], "! 2 %d" % len(row)
    return ["text", vectors.cells(row)], "! 3 %d" % bad[0] if bad else "ok %d" % len(row)


def texts():
    """Lengths around the limit, with and without a cell that is no scalar value: refusal 2 before 3."""
    for n in 0, 1, MAX_SCALARS - 1, MAX_SCALARS, MAX_SCALARS + 1:
        yield text([0xE01] * n)
        yield text([0xD800] * n)
        yield text([0xE01] * n + [0x110000])
        yield text([0x61] + [0xE01] * n + [0xDFFF])


def word(text):
    """A word, and what Python's strip of Unicode's White_Space leaves of it."""
    kept = text.strip(vectors.WHITE_SPACE)
    return ["word", vectors.cells([ord(c) for c in text])], "ok %s" % vectors.cells([ord(c) for c in kept])


def words():
    """Each character of White_Space, and each that is never trimmed, at the edges and inside of words, among other blanks."""
    for c in list(vectors.WHITE_SPACE) + list(vectors.NEVER_TRIMMED):
        for text in c, c + c, c + "a", "a" + c, "a" + c + "b", c + "a" + c + "b" + c, " " + c + "\u0e01" + c + "\t", "\u00a0" + c + "\u3000":
            yield word(text)
    for text in "", "a", "\u0e01 \u0e02", vectors.WHITE_SPACE, vectors.WHITE_SPACE[::-1] + "a" + vectors.WHITE_SPACE:
        yield word(text)
    for front in "", " ", "\t\r\n", vectors.WHITE_SPACE:
        for back in "", "\u00a0", "\v\f", vectors.WHITE_SPACE:
            yield word(front + "a" + vectors.WHITE_SPACE + "b" + back)
            yield word(front + vectors.NEVER_TRIMMED + back)


def view(n, start, end, index, a, b):
    """The answers for a view of the text 0, 1, .., n - 1, by Python's own slices."""
    right = start <= end <= n
    shown = list(range(n))[start:end] if right else []
    base = start if right else 0
    char = shown[index] if index < len(shown) else "none"
    sub = (base + a, base + b) if a <= b <= len(shown) else (base, base)
    return ["view"] + [str(x) for x in (n, start, end, index, a, b)], "ok %d %s %d %d" % (len(shown), char, *sub)


def views():
    """Pairs that fit and pairs that don't, and in each view sub-views that fit and don't, with the largest numbers among them."""
    largest = 2 ** 64 - 1
    for n in 0, 1, 3:
        for start in 0, 1, 2, 3, 4, largest:
            for end in 0, 1, 3, 4, largest:
                for a in 0, 1, 2, 3, largest:
                    for b in 0, 1, 2, 3, largest:
                        yield view(n, start, end, a, a, b)


def part(row, start, end):
    return row[start:end] if start <= end <= len(row) else []


def sub_view(n, start, end, a, b, index):
    """The answers for a sub-view of a view of the text 0, 1, .., n - 1, by Python's own slices."""
    shown = part(part(list(range(n)), start, end), a, b)
    char = shown[index] if index < len(shown) else "none"
    return ["sub_view"] + [str(x) for x in (n, start, end, a, b, index)], "ok %d %s %s" % (len(shown), char, vectors.cells(shown))


def right_pairs(n):
    return [(a, b) for a in range(n + 1) for b in range(a, n + 1)]


def sub_views():
    """Each sub-view of each view of six characters, at each index up to its length; wrong pairs for the sub-view, for the view and for both."""
    largest = 2 ** 64 - 1
    wrong = [(1, 0), (3, 2), (0, 7), (7, 7), (0, largest), (largest, 0), (largest, largest)]
    for start, end in right_pairs(6):
        for a, b in right_pairs(end - start):
            for index in range(b - a + 1):
                yield sub_view(6, start, end, a, b, index)
    for start, end in right_pairs(6) + wrong:
        for a, b in wrong:
            yield sub_view(6, start, end, a, b, 0)
    for start, end in wrong:
        for a, b in right_pairs(2):
            yield sub_view(6, start, end, a, b, largest)


def main():
    made = list(given()) + list(given_positions())
    for group in unicode_examples, first_bytes, later_bytes, edges, long_texts, short_rows, ends, scalar_cells, texts, words, views, sub_views:
        made.extend(group())
    vectors.write("test_char_string", made)


main()
