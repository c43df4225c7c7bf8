"""Writes crates/sheet_lines/stdin and stdout, and crates/test_sheet_lines/stdin and stdout.

    python3 tests/make_sheet_lines.py

The independent model's lines for program are taken.

The program's own stdin starts with the whole run of document 01. Then come the runs of FRAMING, and the model's. A
run starts with an empty dictionary, so between two runs the words that are held are removed: they are known from the
answers, since a 1 for `+` or `-` says that the word came or went.

The test program gives each run a fresh pool, and hands the bytes over in parts of several lengths. Its lines are
`program  bytes  most bytes at a time  =>  ok bytes`.
"""
import vectors

# 01, "Sheets on both sides of a line": the whole run.
WHOLE = "+กข\n+กขค\n=กขคก\n-กขค\n=กขค\n".encode(), b"1\n1\n3 4\n1\n2 3\n"

MAX_LINE = 1024

LONGEST_REPLY = 4008

PARTS = (1, 2, 3, 7, 1023, 1024, 1025, 4096)


def letters(op, n):
    """A line of n bytes: with no words a row of letters is one token, and a word of more than 255 letters is refused with 7."""
    if n > MAX_LINE:
        answer = b"?"
    elif op == b"=":
        answer = b"%d" % (n - 1)
    else:
        answer = b"! 7 %d" % (n - 1)
    return op + b"a" * (n - 1), answer


def alternating(op, n):
    """A line of n bytes whose text has a letter and a digit by turns: with no words each character is a token of its own, so
    the ends are all positions. The longest line's reply is the longest reply."""
    answer = b" ".join(b"%d" % end for end in range(1, n))
    return op + (b"a1" * n)[:n - 1], answer


def framing():
    """Runs of lines with the answers that document 01 gives for them; each line is (bytes, answer)."""
    yield []
    yield [(b"", b"?")]
    yield [(b"", b"?"), (b"", b"?"), (b"=a", b"1")]
    # `+` or `-` alone adds or removes a word that is empty, `=` and `~` alone cut an empty text
    yield [(b"+", b"0"), (b"-", b"0"), (b"=", b""), (b"~", b"")]
    yield [(b"+ \t", b"0"), (b"-\r", b"0")]
    # each character of White_Space is trimmed at both edges and kept inside; what only looks like one belongs to the word
    blanks = [c.encode() for c in vectors.WHITE_SPACE if c != "\n"]
    yield [line for c in blanks for line in ((b"+" + c, b"0"), (b"+" + c + b"a" + c, b"1"), (b"-a", b"1"), (b"+a" + c + b"b", b"1"), (b"-" + c + b"a" + c + b"b", b"1"))]
    others = [c.encode() for c in vectors.NEVER_TRIMMED]
    yield [line for c in others for line in ((b"+a" + c, b"1"), (b"-a", b"0"), (b"-" + c, b"0"), (b"-a" + c, b"1"))]
    # 255 letters are a word, whatever is trimmed off them
    yield [(b"+" + b"a" * 255 + "\u00a0\u3000".encode(), b"1"), (b"+" + b"a" * 256 + "\u00a0".encode(), b"! 7 256"), (b"-" + b"a" * 255, b"1")]
    # every first byte that is no operator, alone and before a text
    others = [bytes([first]) for first in range(256) if first not in b"\n+-=~"]
    yield [(first, b"?") for first in others] + [(first + b"+a", b"?") for first in others] + [(b"-a", b"0")]
    # \r and NUL belong to the text
    yield [(b"=\r", b"1"), (b"=\0", b"1"), (b"+a\r", b"1"), (b"-a", b"1"), (b"+a\0", b"1"), (b"-a", b"0"), (b"-a\0", b"1")]
    # bytes that aren't UTF-8: the detail counts from the byte after the operator
    yield [(b"=\xff", b"! 1 0"), (b"+a\xe0\xb8", b"! 1 1"), (b"~ab\xc3", b"! 1 2"), (b"-abc\x80", b"! 1 3")]
    # a line of 1,024 bytes is the longest; a longer one changes nothing, whatever stands in it
    for n in 2, 256, 257, 1022, 1023, 1024, 1025, 1026, 2047, 2048, 2049, 2050, 4097, 70000:
        yield [letters(b"=", n), (b"=a", b"1")]
    for n in 257, 1023, 1024, 1025, 1026:
        yield [letters(b"+", n), letters(b"-", n), (b"=a", b"1")]
    yield [(b"=" + b"a" * 1023 + b"\r", b"?"), (b"=" + b"\xff" * 1024, b"?"), (b"=" + b"\xff" * 1023, b"! 1 0")]
    # the longest reply has 4,008 bytes with its line feed
    for op in b"=", b"~":
        longest = alternating(op, MAX_LINE)
        if len(longest[1] + b"\n") != LONGEST_REPLY:
            raise SystemExit("the longest reply has %d bytes" % len(longest[1] + b"\n"))
        yield [alternating(op, 12), longest, (b"=a", b"1"), longest]
    yield [(b"?" * 3000, b"?"), (b"+a", b"1"), (b"+b" + b"c" * 5000, b"?"), (b"-b", b"0"), (b"-a", b"1")]


def trimmed(word):
    return word.decode().strip(vectors.WHITE_SPACE).encode()


def held(data, answers):
    """The words that a run leaves, by its answers."""
    words = {}
    for line, answer in zip(lines(data), lines(answers)):
        if answer == b"1" and line[:1] == b"+":
            words[trimmed(line[1:])] = True
        if answer == b"1" and line[:1] == b"-":
            del words[trimmed(line[1:])]
    return words


def lines(data):
    return data.split(b"\n")[:-1] if data.endswith(b"\n") or not data else data.split(b"\n")


def runs():
    """Each run: the bytes, and what the program writes."""
    yield WHOLE
    for made in framing():
        data = b"".join(line + b"\n" for line, _ in made)
        answers = b"".join(answer + b"\n" for _, answer in made)
        yield data, answers
        # the last line without its line feed; an empty one is then no line
        if made and made[-1][0]:
            yield data[:-1], answers
    for fields, expected in vectors.model("program"):
        status, answers = expected.split(" ")
        if status != "ok":
            raise SystemExit("a run is never refused: %s" % expected)
        yield (b"" if text == "-" else bytes.fromhex(text) for text in (fields[1], answers))


def program(found):
    """One run over all: the words that a run leaves are removed after it. The very last line has no line feed."""
    data, answers = b"", b""
    for run, answer in found:
        data += run if run.endswith(b"\n") or not run else run + b"\n"
        answers += answer
        for word in held(run, answer):
            data += b"-" + word + b"\n"
            answers += b"1\n"
    data += b"=a"
    answers += b"1\n"
    for name, side in ("stdin", data), ("stdout", answers):
        with open(vectors.made("sheet_lines", name), "wb") as out:
            out.write(side)
    print("sheet_lines: %d lines" % answers.count(b"\n"))


def tests(found):
    made = []
    for i, (run, answers) in enumerate(found):
        for most in (PARTS[i % len(PARTS)], "*"):
            made.append((["program", vectors.hex_bytes(run), str(most)], "ok " + (answers.hex() or "-")))
    vectors.write("test_sheet_lines", made)


def main():
    found = [tuple(run) for run in runs()]
    program(found)
    tests(found)


main()
