"""Writes crates/why_lines/stdin and stdout.

    python3 tests/make_why_lines.py

The cuts with reasons of the independent model and of the Rust are taken (vectors/reasons.txt, vectors/rust_reasons.txt): the
words are added, the text is cut in the line's mode, and the words are removed again. A token's line is its text, taken from
the text by Python, its end, and why in the words below. The label of the README comes first, with the reasons that
make_reasons gives by 02's sentences. Behind the vectors come lines that are refused, that ask nothing, and the longest ones.
"""
import vectors
from make_reasons import told as reasons
from make_tcc import read, tables

OPERATOR = {"plain": b"=", "safe": b"~", "sheet": b"#"}

MAX_LINE, MAX_NODES = 1024, 2048

# The cells of the row that the program lends for a reply.
REPLY = 50127

WHY = {
    1: "word",
    2: "run of letters, digits or blanks",
    3: "no word here: skipped to the word at %d",
    4: "no word here: skipped to the run at %d",
    5: "no word here: skipped to the end",
}

# A Thai label: the words that are held, the text, and the ends of its tokens.
LABEL = ["น้ำปลา", "แท้", "ตรา"], "น้ำปลาแท้ ตราฉลาม 700 มล.", [6, 9, 10, 13, 17, 18, 21, 22, 25]


def told(text, pairs):
    """The lines of a cut; an empty line where there is no token."""
    lines, start = [], 0
    for end, reason in pairs:
        why = WHY[reason] % end if reason in (3, 4) else WHY[reason]
        lines.append("%s\t%d\t%s" % (text[start:end], end, why))
        start = end
    return "\n".join(lines or [""]).encode()


def run(mode, words, text, pairs):
    """The lines of a run that leaves no word, each with what is written for it; None where a line can't ask it."""
    held = list(dict.fromkeys(word.strip(vectors.WHITE_SPACE) for word in words))
    lines = [(b"+" + word.encode(), b"1") for word in held if word]
    lines += [(OPERATOR[mode] + text.encode(), told(text, pairs))]
    lines += [(b"-" + word.encode(), b"1") for word in held if word]
    if sum(map(len, held)) >= MAX_NODES or any(len(word) > 255 for word in held):
        return None
    return None if any(len(line) > MAX_LINE or b"\n" in line for line, _ in lines) else lines


def label():
    words, text, ends = LABEL
    return run("plain", words, text, reasons("plain", text, set(words), ends, tables(read())))


def spelled(field):
    return "".join(map(chr, vectors.parsed_cells(field)))


def held(field):
    """The words of a field."""
    return [spelled(word.split(":")[0]) for word in field.split(",")] if field != "-" else []


def vector_runs():
    for fields, expected in vectors.read("reasons.txt", ["reasons"]) + vectors.read("rust_reasons.txt", ["reasons"]):
        _, mode, words, text, _, _ = fields
        if expected.startswith("ok"):
            given = expected.split()[1]
            pairs = [tuple(map(int, pair.split(":"))) for pair in given.split(",")] if given != "-" else []
            found = run(mode, held(words), spelled(text), pairs)
            if found:
                yield found


def letters(op, n):
    """A line of n bytes: with no words a row of letters is one token."""
    text = "a" * (n - 1)
    return op + text.encode(), told(text, [(n - 1, 2)]) if n <= MAX_LINE else b"?"


def alternating(op, n):
    """A line of n bytes whose text has a letter and a digit by turns: with no words each character is a run of its own."""
    text = ("a1" * n)[:n - 1]
    return op + text.encode(), told(text, [(end, 2) for end in range(1, n)])


def framing():
    """Lines that ask nothing, are refused, or are as long as a line may be, in each mode, without a word."""
    yield b"", b"?"
    yield b"+", b"0"
    yield b"-", b"0"
    yield b"-a", b"0"
    for first in range(256):
        if first not in b"\n+-=~#":
            yield bytes([first]), b"?"
            yield bytes([first]) + b"#a", b"?"
    for op in OPERATOR.values():
        yield op, b""
        yield op + b"\xff", b"! 1 0"
        yield op + b"a\xe0\xb8", b"! 1 1"
        yield op + b"\t", told("\t", [(1, 2)])
        yield op + b"a\tb", told("a\tb", [(1, 2), (2, 2), (3, 2)])
        for n in 2, 100, 140, 1024, 1025, 1026, 70000:
            if op == b"=" or n < 140 or n > MAX_LINE:
                yield letters(op, n)
        for n in 3, 12, 139:
            yield alternating(op, n)
    yield alternating(b"=", MAX_LINE)
    yield b"+" + b"a" * 256, b"! 7 256"
    yield b"-" + b"a" * 1023, b"! 7 1023"


def main():
    lines = label() + [line for found in vector_runs() for line in found] + list(framing())
    longest = max(len(answer) + 1 for _, answer in lines)
    if longest > REPLY:
        raise SystemExit("a reply has %d bytes" % longest)
    lines.append(letters(b"#", 2))
    data = b"\n".join(line for line, _ in lines)
    answers = b"".join(answer + b"\n" for _, answer in lines)
    for name, side in ("stdin", data), ("stdout", answers):
        with open(vectors.made("why_lines", name), "wb") as out:
            out.write(side)
    print("why_lines: %d lines, the longest reply has %d bytes" % (len(lines), longest))


if __name__ == "__main__":
    main()
