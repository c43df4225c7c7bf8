"""Writes crates/test_many/stdin and stdout.

    python3 tests/make_many.py

Batches of texts whose single answers are known: the lines for cut of the independent model and of the Rust, and those in the
profile "sheet", joined by mode and words. What a batch is told is a fold of the single answers, each text by document 01's conditions in their order, with
the output that the texts before it left over. Behind them stand batches with reasons and of a plant (many_forms.py).
"""
import random
from collections import defaultdict

import many_forms
import vectors
from make_cut import LONGEST, refusal
from trie_model import cells_of

# Texts that no line has: none for an empty text, and refusals 2 and 3. A refused text has no ends.
STRANGERS = [((), ([], 0)), ((0x61, 0xD800, 0x110000), ([], 0)), ((0xFFFFFFFF,), ([], 0))]

# What stands behind the last text is not read.
BEHIND = [], [0xE01], [0xD800, 0xFFFFFFFF, 0]


def known():
    """By mode and words, the texts of accepted lines with their ends and edges."""
    groups = defaultdict(dict)
    for fields, expected in vectors.model("cut") + vectors.rust("cut") + vectors.read("cuts.txt", ["cut"]) + vectors.read("sheet.txt", ["cut"]):
        told = expected.split()
        if told[0] == "ok":
            ends = [] if told[1] == "-" else [int(end) for end in told[1].split(",")]
            groups[fields[1], fields[2]][tuple(vectors.parsed_cells(fields[3]))] = ends, int(told[2])
    return {key: sorted(texts.items()) for key, texts in sorted(groups.items())}


def cells_of_tokens(tokens):
    """Ends as they are, and of pairs both."""
    return [cell for token in tokens for cell in (token if isinstance(token, tuple) else [token])]


def folded(batch, passes, scratch, room, width):
    """The cells of the answers, those that are written, so many for a token, and what is left of scratch."""
    cells, written, left = [], [], "kept"
    for text, (tokens, edges) in batch:
        told = refusal(text, passes, scratch, (room - len(written)) // width, tokens)
        number, detail = (0, 0) if told == "ok" else (int(field) for field in told.split()[1:])
        if number in (0, 6) and scratch:
            left = "zero"
        cells += [number, 0, 0, detail] if number else [0, len(tokens), edges, 0]
        written += [] if number else cells_of_tokens(tokens)
    return cells, written, left


def line(mode, words, batch, scratch, room, answers, behind=(), ends=None, passes=True, op=None):
    """A line for a batch, with the answer of the whole call."""
    op = op or ("many" if isinstance(words, str) else "many_pool")
    row, right = [], []
    for text, _ in batch:
        row += text
        right.append(len(row))
    row += behind
    ends = right if ends is None else ends
    wrong = [i for i, end in enumerate(ends) if end > len(row) or end < ([0] + ends)[i]]
    if wrong:
        expected = "! 10 %d" % wrong[0]
    elif answers < 4 * len(ends):
        expected = "! 6 %d" % (4 * len(ends))
    else:
        cells, written, left = folded(batch, passes, scratch, room, 2 if op.startswith("pairs") else 1)
        expected = "ok %d %s %s %s" % (len(batch), listed(cells), listed(written), left)
    pool = words if isinstance(words, str) else vectors.cells(words)
    fields = [op, mode, pool, vectors.cells(row), vectors.cells(ends), str(answers), str(room), str(scratch)]
    return fields, expected


def listed(numbers):
    return ",".join(str(number) for number in numbers) or "-"


def needs(batch):
    """The scratch of the longest text that is cut, and the cells of all texts."""
    longest = max([len(text) for text, _ in batch if len(text) <= LONGEST] or [0])
    return 9 * longest + 128, sum(len(cells_of_tokens(tokens)) for _, (tokens, _) in batch)


def batches(rng, texts):
    """Texts of a group in random order, some twice, with strangers between them."""
    for _ in range(1 + min(len(texts), 24) // 3):
        batch = [rng.choice(texts) for _ in range(rng.randrange(1, 9))]
        for _ in range(rng.randrange(3)):
            batch.insert(rng.randrange(len(batch) + 1), rng.choice(STRANGERS))
        yield batch


def random_lines(rng):
    for (mode, words), texts in known().items():
        if len(texts) < 2 or len(words) > 400:
            continue
        for batch in batches(rng, [text for text in texts if len(text[0]) <= 300]):
            scratch, room = needs(batch)
            some = 9 * len(rng.choice(batch)[0]) + 128
            answers = 4 * len(batch)
            yield line(mode, words, batch, scratch, room, answers, rng.choice(BEHIND))
            yield line(mode, words, batch, rng.choice([scratch, some, some - 1, 0]), rng.randrange(room + 2), answers + rng.randrange(3), rng.choice(BEHIND))


def rows(rng):
    """Batches with the rows one cell short, just right and one cell longer, and no texts at all."""
    groups = [(key, texts) for key, texts in known().items() if len(texts) > 20]
    for (mode, words), texts in groups:
        batch = [text for text in texts if text[1][0] and len(text[0]) <= 60][:5]
        if not batch:
            continue
        scratch, room = needs(batch)
        for cells in scratch - 1, scratch + 1:
            for out in room - 1, room, room + 1, len(batch[0][1][0]) - 1:
                yield line(mode, words, batch, cells, out, 4 * len(batch) + 1)
        for answers in 0, 3, 4 * len(batch) - 1:
            yield line(mode, words, batch, scratch, room, answers)
        for behind in BEHIND:
            yield line(mode, words, [], rng.choice([0, 128]), rng.choice([0, 5]), rng.choice([0, 2]), behind)


def wrong_ends(rng):
    """An end over the row's length or below the one before it, refused before the answers' row is looked at."""
    (mode, words), texts = next((key, texts) for key, texts in known().items() if len(texts) > 20)
    batch = [text for text in texts if text[0]][:4]
    total = sum(len(text) for text, _ in batch)
    for answers in 0, 15, 16:
        for ends in [total + 1], [0, total + 1], [1, 0], [0, 0, 2, 1, 9999], [total, total, total - 1], [0xFFFFFFFF], [2, 0xFFFFFFFF, 1]:
            yield line(mode, words, batch, 128, 100, answers, ends=ends)


def bad_pools():
    """A pool that is no dictionary is told to each text that is one, and scratch and output are not looked at."""
    good = cells_of({}, 16)
    for mode in "plain", "safe", "sheet":
        one, two = [text for text in known()[mode, "-"] if text[1][0]][:2]
        many = (0x61,) * (LONGEST + 1), ([], 0)
        batch = [one, STRANGERS[0], STRANGERS[1], two, many, STRANGERS[2], one]
        scratch, room = needs(batch)
        for pool, passes in (good, True), (good[:-1] + [1], False), ([], False):
            for cells, out in (scratch, room), (scratch - 1, room), (scratch, room - 1), (scratch, 0), (0, 0):
                yield line(mode, pool, batch, cells, out, 28, passes=passes)


def main():
    rng = random.Random(19)
    lines = list(random_lines(rng)) + list(rows(rng)) + list(wrong_ends(rng)) + list(bad_pools())
    vectors.write("test_many", lines + many_forms.lines(line, batches, needs, BEHIND))


main()
