"""Writes crates/release_figures/stdin and stdout.

    python3 tests/make_release_figures.py

A release of some of the texts with reasons and edges that the independent model and the Rust give (vectors/reasons.txt,
vectors/rust_reasons.txt): the words are added, the text is cut in the line's mode, and the words are removed again. Among
them stand texts that decoding refuses, and lines that count nothing. The figures are summed here, by 02's sentences.
"""
import vectors
from make_figures import CELLS, joined, of_refused, outcome
from make_why_lines import MAX_LINE, OPERATOR, held, run, spelled

NAMES = ["texts", "characters", "tokens", "words", "runs", "skipped-to-word", "skipped-to-run", "skipped-to-end", "edges",
         "most-edges"] + ["refused-%d" % number for number in range(1, 7)]

# Every so-many-th line of the vectors.
EACH = 7

NOTHING = [0] * CELLS


def vector_lines():
    """Lines with the figures that each adds."""
    for fields, expected in (vectors.read("reasons.txt", ["reasons"]) + vectors.read("rust_reasons.txt", ["reasons"]))[::EACH]:
        _, mode, words, text, _, _ = fields
        found = run(mode, held(words), spelled(text), []) if expected.startswith("ok") else None
        for line, _ in found or []:
            cut = line[:1] in OPERATOR.values()
            yield line, outcome(vectors.parsed_cells(text), expected)[0] if cut else NOTHING


def other_lines():
    """Lines that count nothing, and texts that decoding refuses."""
    for line in b"", b"?", b"=" + b"a" * MAX_LINE, b"+", b"-", b"-a", b"+\xff", b"-\xff", b"+" + b"a" * 256:
        yield line, NOTHING
    for op in OPERATOR.values():
        yield op + b"\xff", of_refused(1)
        yield op + b"a\xe0\xb8", of_refused(1)


def main():
    lines = list(vector_lines()) + list(other_lines()) + [(b"~\xff", of_refused(1))]
    figures = NOTHING
    for _, one in lines:
        figures = joined(figures, one)
    table = "".join("%s %d\n" % line for line in zip(NAMES, figures))
    for name, side in ("stdin", b"\n".join(line for line, _ in lines)), ("stdout", table.encode()):
        with open(vectors.made("release_figures", name), "wb") as out:
            out.write(side)
    print("release_figures: %d lines, %d texts" % (len(lines), figures[0]))


main()
