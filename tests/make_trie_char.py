"""Writes crates/test_trie_char/stdin and stdout.

    python3 tests/make_trie_char.py

The independent model's lines for dict and prefix are taken, and the Rust's stand behind all others.

The other lines are made here, with trie_model's answers: a pool is its words with their classes, and its cells are
written down level by level. classes.py and edits.py have more scripts, and pools.py cells that break a rule. A step of a script that
only these lines have: c, all cells of the pool. A line `pool` gives the cells themselves: ok with the number of words,
or refusal 4.
"""
import itertools
import random

import classes
import edits
import vectors
from pools import pools
from trie_model import A, B, C, NEVER, TRIMMED, script, text


def scripts():
    """Small pools, capacity, orders of adding and removing, long words, blanks, the order of refusals, and random ones."""
    for n in (0, 1, 7, 8, 15, 16, 17, 23, 24):
        yield script(n, [("c",), ("f",), ("c",), ("n",), ("+", (A,)), ("c",), ("+", (A, B)), ("-", (A,)), ("c",)])
    for n in (32, 39, 40, 47):
        yield script(n, [("f",), ("+", (A, B, C)), ("n",), ("c",), ("+", (A, B, C, A)), ("+", (B,)), ("+", (A, B)), ("-", (A, B, C)), ("c",),
                         ("+", (B, B)), ("+", (B,)), ("c",)])
    words = [(A, B), (A, B, C), (A,), (B, A)]
    for order in itertools.permutations(words):
        yield script(80, [("f",)] + [("+", w) for w in order] + [("c",)])
    for added in itertools.permutations(words[:3]):
        for removed in itertools.permutations(words[:3]):
            steps = [("f",)] + [("+", w) for w in added]
            for w in removed:
                steps += [("-", w), ("#",), ("n",)]
            yield script(40, steps + [("c",)])
    long = (A,) * 255
    yield script(16400, [("f",), ("+", long), ("+", (A,) * 256), ("+", (32, 9) + long + (13,)), ("?", long), ("?", (A,) * 256), ("-", (A,) * 300),
                         ("#",), ("n",), ("-", (10,) + long), ("#",), ("n",)])
    yield script(16400, [("f",), ("+", (A,) * 254 + (32, A)), ("+", (32,) * 300), ("-", (9,) * 70), ("+", (32, A, 32, A, 32)), ("?", (A, 32, A)),
                         ("?", (32, A, 32, A, 32)), ("p", (A, 32, A, B)), ("c",)])
    bad = (A, 0xD800)
    for n in (7, 8, 40):
        yield script(n, [("+", (0xD800,) * 65536), ("+", bad), ("+", (A,)), ("f",), ("+", (0xD800,) * 65536), ("-", (0xDFFF,) * 65536),
                         ("?", (A,) * 65536), ("p", (A,) * 65536), ("+", bad), ("-", bad), ("?", bad), ("p", (A, 0x110000)), ("+", (A,) * 65535),
                         ("?", (A,) * 65535), ("p", (A,) * 65535), ("#",), ("c",)])
    some = random.Random(4)
    for _ in range(60):
        n, steps = some.choice([24, 40, 64, 81, 100, 160, 400]), [("f",)]
        for _ in range(some.randint(5, 25)):
            w = tuple(some.choice([A, B, C, 0x20]) for _ in range(some.randint(0, 5)))
            steps.append((some.choice("++++---?p"), w))
            if some.random() < 0.2:
                steps.append((some.choice("#nc"),))
        yield script(n, steps + [("c",)])


def spaced():
    """Each character of White_Space and each that is never trimmed: at the edges and inside of words, in every call."""
    for x in sorted(TRIMMED) + NEVER:
        steps = [("f",), ("+", (x,)), ("+", (x, A, x)), ("#",), ("?", (A,)), ("?", (x, A, x)), ("+", (A, x, B)), ("+", (x, x, A, x, B)), ("?", (A, x, B)),
                 ("p", (A, x, B)), ("p", (x, A, x)), ("n",), ("-", (A, x)), ("-", (x, A, x, B, x)), ("-", (x,)), ("#",), ("c",)]
        yield script(80, steps)
    # the limit of 255 counts the trimmed word; so does the room in the pool
    for x in sorted(TRIMMED) + NEVER[:4]:
        yield script(2064, [("f",), ("+", (A,) * 255 + (x,)), ("#",), ("+", (x,) * 3 + (A,) * 256 + (x,)), ("-", (x,) + (A,) * 256), ("-", (x,) + (A,) * 255), ("#",)])
        yield script(24, [("f",), ("+", (x, A, B, x)), ("+", (x, B)), ("-", (x, A, B)), ("+", (B, x)), ("n",)])
    blanks = tuple(sorted(TRIMMED))
    yield script(400, [("f",), ("+", blanks), ("-", blanks), ("+", blanks + (A,) + blanks[::-1]), ("?", (A,)), ("?", (A,) + blanks), ("+", (A,) + blanks + (B,)), ("#",), ("n",),
                       ("p", (A,) + blanks + (B,)), ("-", blanks + (A,) + blanks + (B,) + blanks), ("n",), ("c",)])
    some = random.Random(16)
    near = list(blanks) + NEVER
    for _ in range(60):
        n, steps = some.choice([24, 40, 64, 81, 160, 400]), [("f",)]
        odd = some.sample(near, 3)
        for _ in range(some.randint(5, 20)):
            w = tuple(some.choice([A, B] + odd) for _ in range(some.randint(0, 5)))
            steps.append((some.choice("++++---?p"), w))
            if some.random() < 0.2:
                steps.append((some.choice("#n"),))
        yield script(n, steps + [("#",), ("n",)])


def around(children):
    """Scalars to look for: each child, those beside it, one in the middle of each gap, and some below and above all."""
    inside = {(x + y) // 2 for x, y in zip(children, children[1:])}
    return sorted({0x21, 0x10FFFF} | inside | {x + d for x in children for d in (-1, 0, 1)})


THAI, CJK = list(range(0xE01, 0xE2F)), list(range(0x4E00, 0x4E00 + 300))


def many():
    """The children of a node with many: `a`, Thai and 300 CJK characters, and blocks with gaps."""
    yield [0x61] + THAI + CJK
    yield list(range(0x61, 0x7B)) + THAI[::2] + CJK[:150:3] + [0x10000 + 4099 * k for k in range(40)]


def gaps():
    """Children behind a gap: where its scalar puts it at most, a child stands d places too high.

    A search that starts there has d children to pass. With `a` before Thai characters it starts at the last child, and
    has any number to pass.
    """
    for d in range(5, 13):
        yield [A, A + 1, A + 2] + [A + 3 + d + k for k in range(16)]
    yield [0x61] + THAI[:13]


def crowded():
    """Nodes with many children: the root, and one below it. Answers come from the set of words alone."""
    some = random.Random(15)
    for children in itertools.chain(many(), gaps()):
        for above in ((), (B,)):
            words = [above + (x,) for x in children]
            looked = [("?", above + (x,)) for x in around(children)]
            removed = [("-", w) for w in some.sample(words, len(words) // 3)]
            steps = [("f",)] + [("+", w) for w in some.sample(words, len(words))] + looked
            yield script(8 * (len(words) + 2), steps + removed + [("#",), ("n",)] + (looked if len(words) < 50 else looked[::7]))
    for children in (next(many()), [0x61] + THAI[::2] + CJK[:60:3]):
        words = sorted([(x,) for x in children] + [(x, children[-1]) for x in children[::50]])
        named = ",".join(text(w) + ":0" for w in words)
        ends = [x for x, y in zip(children, children[1:]) if x + 3 < y][:3]
        for x in sorted({0x21, children[0], children[-1], children[-1] + 1} | {x + d for x in ends for d in (0, 1, 2)}):
            found = [k for k in (1, 2) if (x, children[-1])[:k] in words]
            yield "prefix\t%s\t%s\t*" % (named, text((x, children[-1], A))), "ok " + (",".join(map(str, found)) or "-")


def main():
    lines = [("prefix\tE01.E02:0,E01.E02.E04:0\tE01.E02.E04.E07.E08\t%s" % out, answer)
             for out, answer in (("*", "ok 2,3"), ("0", "! 6 2"), ("1", "! 6 2"), ("2", "ok 2,3"), ("3", "ok 2,3"))]
    lines += itertools.chain(scripts(), spaced(), crowded(), classes.scripts(), edits.scripts(), pools())
    made = [(line.split("\t"), answer) for line, answer in lines]
    vectors.write("test_trie_char", made + vectors.model("dict", "prefix") + vectors.classes("dict", "prefix") + vectors.rust("dict", "prefix"))


if __name__ == "__main__":
    main()
