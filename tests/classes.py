"""Scripts over words with classes (02, ticket 6), with trie_model's answers, and cuts by words that differ in classes alone."""
import itertools
import random

import vectors
from trie_model import A, B, C, MAX_CLASS, cells_of, script, text

# The least, the largest, and those beside them; a byte's edge, and the mark's.
EDGES = (0, 1, 2, 255, 256, 32767, 32768, MAX_CLASS - 1, MAX_CLASS)


def replaced():
    """A word added with one class and then with another, with the same again, without one, and removed."""
    word = (A, B)
    for old, new in itertools.product(EDGES, EDGES):
        yield script(32, [("f",), ("+", word, old), ("?", word), ("+", word, old), ("+", word, new), ("?", word), ("+", word), ("?", word),
                          ("+", word, new), ("c",), ("-", word), ("?", word), ("+", word), ("?", word), ("#",), ("n",)])


def questions():
    """Contains tells the class of the word as it is: not of its prefix, of a longer word, trimmed, blank or too long."""
    long = (A,) * 255
    asked = [("?", w) for w in ((A,), (A, B), (A, B, C), (A, B, C, A), (B,), (), (32,), (A, 32), (32, A), (A, C), long, long + (A,))]
    yield script(4096, [("f",)] + asked + [("+", (A, B, C), 4)] + asked + [("+", (A,), MAX_CLASS)] + asked + [("-", (A, B, C))] + asked)
    yield script(4096, [("f",), ("+", (9, A, 32), 7)] + asked + [("+", (32,) + long + (13,), 300)] + asked + [("+", long + (A,), 300)] + asked)
    yield script(4096, [("f",), ("+", long, 9), ("+", long[1:], 8), ("-", long), ("?", long[1:]), ("?", long), ("n",), ("c",)])


def full():
    """No room is left. A held word's class is replaced, a word inside another gets one, a blank word is taken; a longer word isn't."""
    for n in range(32, 40):
        yield script(n, [("f",), ("+", (A, B, C), 5), ("n",), ("+", (A, B, C), 6), ("+", (A, B, C), 6), ("+", (A, B, C)), ("+", (A, B), 65535),
                         ("+", (A, B), 1), ("+", (A, B, C, A), 1), ("+", (B,), 2), ("+", (), 3), ("+", (32, 9), 65535), ("?", (A, B, C)),
                         ("?", (A, B)), ("c",), ("-", (A, B, C)), ("+", (A, C), 9), ("+", (A, B), 9), ("#",), ("n",), ("c",)])
    yield script(8, [("f",), ("+", (), 1), ("+", (10,), 65535), ("+", (A,), 1), ("+", (A, B)), ("c",)])


def refused():
    """The order of refusals is that of an add without a class, and a refused add changes no class."""
    bad = (A, 0xD800)
    for n in (0, 7, 8, 24):
        yield script(n, [("+", (0xD800,) * 65536, 1), ("+", bad, 2), ("+", (A,), 3), ("+", (), 4), ("?", (A,)), ("f",), ("+", (A,), 5),
                         ("+", (0xDFFF,) * 65536, 6), ("+", bad, 7), ("+", (A,) * 256, 8), ("+", (A, B, C), 9), ("?", bad), ("?", (A,)),
                         ("?", (A,) * 65536), ("#",), ("c",)])


def neighbours():
    """Classes stay while words before, behind, above and below come and go, and nodes move with them."""
    kept = {(B,): 1, (B, B): 65535, (B, B, B): 2, (C, B, A): 40000}
    others = [w for n in (1, 2, 3) for w in itertools.product((A, B, C), repeat=n) if w not in kept]
    asked = [("?", w) for w in kept]
    begin = [("f",)] + [("+", w, c) for w, c in kept.items()]
    for w in others:
        yield script(80 + 8 * len(w), begin + [("+", w, 7), ("c",)] + asked + [("-", w), ("c",)])
    some = random.Random(6)
    for _ in range(6):
        steps = list(begin)
        for w in some.sample(others, len(others)):
            steps += [("+", w, some.choice(EDGES)), some.choice(asked)]
        for w in some.sample(others, len(others)):
            steps += [("-", w), some.choice(asked)]
        yield script(480, steps + asked + [("#",), ("n",), ("c",)])


def orders():
    """Equal words and classes give equal cells in any order; with one other class they don't."""
    words = [((A, B), 3), ((A, B, C), 0), ((A,), 65535), ((B, A), 3)]
    for order in itertools.permutations(words):
        yield script(80, [("f",)] + [("+", w, c) for w, c in order] + [("c",)])
    for w, _ in words:
        yield script(80, [("f",)] + [("+", v, c) for v, c in words] + [("c",), ("+", w, 4), ("c",)])


def drawn():
    some = random.Random(66)
    for _ in range(80):
        n, steps = some.choice([24, 40, 64, 81, 100, 160, 400]), [("f",)]
        for _ in range(some.randint(5, 25)):
            w = tuple(some.choice([A, B, C, 0x20]) for _ in range(some.randint(0, 4)))
            op = some.choice("++++---??p")
            steps.append((op, w, some.choice(EDGES[:3] + EDGES[-2:])) if op == "+" and some.random() < 0.8 else (op, w))
            if some.random() < 0.2:
                steps.append((some.choice("#nc"),))
        yield script(n, steps + [("c",)])


def scripts():
    return itertools.chain(replaced(), questions(), full(), refused(), neighbours(), orders(), drawn())


def parsed(field):
    """The words of a field, without their classes."""
    return [tuple(vectors.parsed_cells(word.split(":")[0])) for word in field.split(",")] if field != "-" else []


def cuts(found):
    """Accepted cuts again, by the same words with other classes, and by such a pool given as cells: the answers stay."""
    some = random.Random(16)
    for fields, expected in found:
        _, mode, words, *rest = fields
        given = {word: some.choice(EDGES[1:]) for word in parsed(words)}
        if given:
            yield ["cut", mode, ",".join("%s:%d" % (text(w), c) for w, c in given.items())] + rest, expected
        if 0 < len(given) < 4 and len(rest[0]) < 40:
            pool = cells_of(given, 8 * (1 + sum(map(len, given))))
            yield ["cut_pool", mode, text(pool)] + rest, expected
