"""Writes crates/test_figures/stdin and stdout.

    python3 tests/make_figures.py

The independent model's lines are taken (vectors/figures.txt): texts fed one after the other from zeros, and batches joined.
Each is held here to 02's sentences over Python's numbers, and the script stops where the two differ. Behind them stand texts
with the reasons that the model and the Rust give (vectors/reasons.txt, rust_reasons.txt), each fed to figures of many kinds;
texts that were refused elsewhere; and figures at their limits, for each cell by itself. What these are answered is summed
here, by 02's sentences.

A text in a line is four fields: mode, scalars, scratch cells and records of room.
"""
import random

import vectors
from make_cut import LONGEST, refusal

TEXTS, CHARACTERS, TOKENS, EDGES, MOST, REFUSED = 0, 1, 2, 8, 9, 9
CELLS = 16
LIMITS = [2 ** 32 - 1] + [2 ** 64 - 1] * (CELLS - 1)

# The model's dictionary of the samples in 01, and its texts: two that are cut, an empty one, a surrogate, and one with a
# single scratch cell.
SAMPLE_WORDS = "E01.E02:0,E01.E02.E04:0,E04.E07:0,E07:0"
SAMPLE_TEXTS = [("plain", "E01.E02.E04.E07", "*", "*"), ("plain", "31.32.2C.35.2E.61", "*", "*"), ("plain", "-", "*", "*"),
                ("plain", "D800", "*", "*"), ("plain", "61", "1", "*")]
SAMPLE_FIGURES = [5, 10, 5, 2, 2, 0, 1, 0, 4, 4, 0, 0, 1, 0, 1, 0]

# Lines with fewer bytes of words and text are fed to other figures.
SHORT = 150


def numbers(field):
    return [int(number) for number in field.split(",")]


def spelled(figures):
    return ",".join(map(str, figures))


def joined(a, b):
    """Two batches as one: the larger of the most edges, the sums of the others."""
    return [max(x, y) if i == MOST else x + y for i, (x, y) in enumerate(zip(a, b))]


def full(a, b):
    return any(x > most for x, most in zip(joined(a, b), LIMITS))


def of_cut(characters, reasons, edges):
    return [1, characters, len(reasons)] + [reasons.count(reason) for reason in range(1, 6)] + [edges, edges] + [0] * 6


def of_refused(number):
    one = [1] + [0] * (CELLS - 1)
    one[REFUSED + number] = 1
    return one


# ---- the model's lines

def feeds(field):
    return [feed.split("/") for feed in field.split(";")]


def hold_run(fields, expected):
    """Stops where figures of texts don't fit 02: what can be told of them without a cut."""
    given, texts = numbers(expected.split()[1]), feeds(fields[2])
    refused, most = [0] * 7, 0
    for _, scalars, scratch, _ in texts:
        text = vectors.parsed_cells(scalars)
        cells = 9 * len(text) + 128 if scratch == "*" else int(scratch)
        answer = refusal(text, True, cells, len(text), [])
        most += len(text) if answer == "ok" else 0
        refused[0 if answer == "ok" else int(answer.split()[1])] += 1
    fits = (given[TEXTS] == len(texts) and sum(given[3:8]) == given[TOKENS] <= given[CHARACTERS] <= most
            and given[MOST] <= given[EDGES] and given[10:15] == refused[1:6] and given[15] <= refused[0]
            and (given[15] > 0 or given[CHARACTERS] == most))
    if not fits:
        raise SystemExit("02 and %s differ" % "\t".join(fields))


def answer_join(a, b):
    return "! 13 0 %s" % spelled(a) if full(a, b) else "ok %s" % spelled(joined(a, b))


def hold_join(fields, expected):
    a, b = numbers(fields[1]), numbers(fields[2])
    if expected != ("! 13 0" if full(a, b) else "ok %s" % spelled(joined(a, b))):
        raise SystemExit("02 and %s differ" % "\t".join(fields))


def run_line(words, texts, figures):
    fields = ["figures", words, str(len(texts))] + [field for text in texts for field in text]
    return fields, "ok %s" % spelled(figures)


def join_line(a, b):
    return ["join", spelled(a), spelled(b)], answer_join(a, b)


def model_lines():
    found = vectors.read("figures.txt", ["figures", "join"])
    for fields, expected in found:
        (hold_run if fields[0] == "figures" else hold_join)(fields, expected)
        if fields[0] == "figures":
            yield run_line(fields[1], feeds(fields[2]), numbers(expected.split()[1]))
        else:
            yield join_line(numbers(fields[1]), numbers(fields[2]))
    print("%d lines with figures held to 02" % len(found))


# ---- texts with their reasons, fed to any figures

def outcome(text, expected):
    """The figures of one text, and what its call answers and leaves of scratch, by the line of its cut with reasons."""
    first, second, third = expected.split()
    if first == "!":
        return of_refused(int(second)), "! %s %s" % (second, third), "zero" if second == "6" else "kept"
    pairs = second.replace(":", ",")
    reasons = [int(pair.split(":")[1]) for pair in second.split(",")] if second != "-" else []
    return of_cut(len(text), reasons, int(third)), "ok %s %s" % (pairs, third), "zero"


def feed_line(line, figures):
    """A text of a line of reasons, fed to figures. After 13 scratch is as the call would else leave it."""
    (_, mode, words, text, scratch, records), expected = line
    one, answer, left = outcome(vectors.parsed_cells(text), expected)
    fields = ["feed", words, spelled(figures), mode, text, scratch, records]
    if full(figures, one):
        return fields, "! 13 0 %s %s" % (left, spelled(figures))
    return fields, "%s %s" % (answer, spelled(joined(figures, one)))


def any_figures(draw):
    """Sixteen numbers: small ones, and some at the limits of their cells."""
    figures = [draw.choice([0, 1, 5, 1000, 2 ** 32, 2 ** 63]) for _ in range(CELLS)]
    figures[TEXTS] = draw.choice([0, 1, 1000, 2 ** 32 - 2, 2 ** 32 - 2])
    for cell in draw.sample(range(1, CELLS), draw.randrange(3)):
        figures[cell] = LIMITS[cell] - draw.randrange(3)
    return figures


def at_limit(cell, below):
    """Figures of which one stands so far below its limit."""
    return [LIMITS[i] - below if i == cell else 0 for i in range(CELLS)]


def fed_lines(lines, draw):
    for line in lines:
        yield feed_line(line, [0] * CELLS)
        if len(line[0][2] + line[0][3]) < SHORT:
            yield feed_line(line, any_figures(draw))


def limit_lines(lines):
    """Each of some texts, fed to figures that it just fills, and that it would fill by one too many, cell by cell."""
    for line in lines:
        one = outcome(vectors.parsed_cells(line[0][3]), line[1])[0]
        for cell in range(CELLS):
            for below in {one[cell], one[cell] - 1, 0} - {-1}:
                yield feed_line(line, at_limit(cell, below))
        yield feed_line(line, LIMITS)
        yield feed_line(line, [2 ** 64 - 1] * CELLS)


def long_texts():
    """Texts that are too long, or just not, with a cell that is no scalar, and with rows of no cells."""
    for mode in "plain", "safe", "sheet":
        for text in [[0x61] * (LONGEST + 1), [0x61] * LONGEST + [0xD800], [0x61] * LONGEST, [0xD800], []]:
            answer = refusal(text, True, 0, 0, [])
            yield ["reasons", mode, "61:0", vectors.cells(text), "0", "0"], answer


# ---- texts that were refused elsewhere, and batches

def refused_lines(draw):
    """Numbers 1 to 6 count a text. Any other number counts nothing."""
    for number in list(range(19)) + [255, 256, 2 ** 16 + 1, 2 ** 32 - 10, 2 ** 32 - 1]:
        counts = 1 <= number <= 6
        figures = [[0] * CELLS, any_figures(draw), LIMITS, [2 ** 64 - 1] * CELLS, at_limit(TEXTS, 0), at_limit(TEXTS, 1)]
        for cell in range(10, CELLS):
            figures += [at_limit(cell, 0), at_limit(cell, 1)]
        for a in figures:
            one = of_refused(number) if counts else [0] * CELLS
            answer = answer_join(a, one) if counts else "ok %s" % spelled(a)
            yield ["refused", spelled(a), str(number)], answer


def join_lines(draw):
    """Each cell at its limit and one past it, in either order; and figures of any numbers."""
    for cell in range(CELLS):
        for x, y in (0, 0), (1, 0), (1, 1), (2, 1), (2 ** 31, 2 ** 31 - 1), (2 ** 31, 2 ** 31):
            a, b = at_limit(cell, x), [y if i == cell else 0 for i in range(CELLS)]
            yield join_line(a, b)
            yield join_line(b, a)
    for _ in range(100):
        yield join_line(any_figures(draw), any_figures(draw))
    yield join_line([2 ** 64 - 1] * CELLS, [0] * CELLS)
    yield join_line([0] * CELLS, [0] * CELLS)
    yield join_line(LIMITS, [0] * CELLS)


def main():
    draw = random.Random(14)
    model, rust = vectors.read("reasons.txt", ["reasons"]), vectors.read("rust_reasons.txt", ["reasons"])
    short = [line for line in model if len(line[0][2] + line[0][3]) < SHORT]
    lines = [run_line(SAMPLE_WORDS, SAMPLE_TEXTS, SAMPLE_FIGURES)] + list(model_lines())
    lines += list(fed_lines(model + rust[::6] + list(long_texts()), draw))
    lines += list(limit_lines(short[::8]))
    lines += list(refused_lines(draw)) + list(join_lines(draw))
    vectors.write("test_figures", lines)


if __name__ == "__main__":
    main()
