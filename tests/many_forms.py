"""Lines of many texts in one call with reasons, and by the words of a plant: for make_many.py.

The single answers are the lines for reasons of the independent model and of the Rust. A plant's ends are those of its
pairs. The pools are spelled from their words (trie_model.py, plants_model.py); the other plant has words of its own.
"""
import random
from collections import defaultdict

import vectors
from plants_model import A, B, plants_cells
from trie_model import cells_of, prefixes

# The words of the other plant.
OTHER = {(0xE01,): 3, (0xE01, 0xE02, 0xE04): 0}

OPS = "pairs_pool", "many_a", "many_b", "pairs_a", "pairs_b"


def known():
    """By mode and words, the texts of accepted lines with their pairs and edges."""
    groups = defaultdict(dict)
    for fields, expected in vectors.read("reasons.txt", ["reasons"]) + vectors.read("rust_reasons.txt", ["reasons"]):
        told = expected.split()
        if told[0] == "ok" and len(fields[2]) <= 80 and len(fields[3]) <= 400:
            pairs = [] if told[1] == "-" else [tuple(map(int, pair.split(":"))) for pair in told[1].split(",")]
            groups[fields[1], fields[2]][tuple(vectors.parsed_cells(fields[3]))] = pairs, int(told[2])
    return {key: sorted(texts.items()) for key, texts in sorted(groups.items())}


def parsed(words):
    """The words of a field, with their classes."""
    parts = [part.split(":") for part in words.split(",")] if words != "-" else []
    return {tuple(vectors.parsed_cells(word)): int(word_class) for word, word_class in parts}


def pool_for(op, words):
    """The cells of a pool whose words, or those of the plant, these are."""
    nodes = 1 + len(prefixes(words))
    if op == "pairs_pool":
        return cells_of(words, 8 * nodes + 8)
    plant, other = (A, B) if op.endswith("a") else (B, A)
    limits = {plant: nodes - 1, other: len(prefixes(OTHER))}
    return plants_cells({plant: words, other: OTHER}, limits, 8 * (1 + sum(limits.values())))


def wanted(op, batch):
    """The batch with what the call writes: pairs, or their ends."""
    if op.startswith("pairs"):
        return batch
    return [(text, ([end for end, _ in pairs], edges)) for text, (pairs, edges) in batch]


def accepted(rng, line, batches, needs, behind):
    """Batches of every second group with rows that are just enough, and with one that isn't."""
    for (mode, words), texts in list(known().items())[::2]:
        op = rng.choice(OPS)
        pool = pool_for(op, parsed(words))
        for batch in list(batches(rng, texts))[:2]:
            batch = wanted(op, batch)
            scratch, room = needs(batch)
            yield line(mode, pool, batch, scratch, room, 4 * len(batch), rng.choice(behind), op=op)
            some, fewer = rng.choice([scratch, scratch - 1, 128]), rng.randrange(room + 2)
            yield line(mode, pool, batch, some, fewer, 4 * len(batch) + 1, rng.choice(behind), op=op)


def refused(rng, line, needs):
    """Each form with wrong ends, with answers a cell short, and on a pool that another form takes."""
    (mode, words), texts = next((key, texts) for key, texts in known().items() if key[1] != "-" and len(texts) > 3)
    for op in OPS:
        batch = wanted(op, texts[:4])
        scratch, room = needs(batch)
        pool, other = pool_for(op, parsed(words)), pool_for("many_a" if op == "pairs_pool" else "pairs_pool", parsed(words))
        for answers in 15, 16:
            yield line(mode, pool, batch, scratch, room, answers, op=op)
            yield line(mode, pool, batch, scratch, room, answers, ends=[1, 0], op=op)
            for cells in other, pool[:-8], []:
                yield line(mode, cells, batch, scratch, room, answers, passes=cells == pool[:-8] and op == "pairs_pool", op=op)


def lines(line, batches, needs, behind):
    rng = random.Random(31)
    return list(accepted(rng, line, batches, needs, behind)) + list(refused(rng, line, needs))
