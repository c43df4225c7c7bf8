"""Writes crates/test_claim/stdin and stdout.

    python3 tests/make_claim.py

The independent model's lines for claim are taken (vectors/claims.txt). The plain cuts of the other vectors, the model's
and the Rust's, are claims too: each of them has to pass. The other lines are made here: those ends damaged in every way
that 02's ticket 12 speaks of, its own cases and the refusals of 01. What they are answered with, `verdict` says: 02's
sentences over Python's `re` and sets, with the clusters of make_tcc. All lines are held to it, and the script stops where
the two differ.
"""
import random
import re

import fewest
import vectors
from make_tcc import clusters, parsed, read, tables
from pools import pools
from trie_model import cells_of

LONGEST, ANY = 65535, 0xFFFFFFFF

# Lines with fewer bytes of words and text are damaged too. Every so many have all the damage.
SHORT, ALL = 120, 48

# 01's five alternatives, and the words that are no place to stop at.
NON_THAI = re.compile(r"[-a-zA-Z]+|[0-9]+(?:[,.][0-9]+)*|[๐-๙]+(?:[,.][๐-๙]+)*|[ \t]+|\r?\n")
CONSONANTS = re.compile("[ก-ฮ]{1,2}")

# 02's and other claims, with their verdicts.
SHEET = [
    ("กข กขค คง ง", "กขคง", [2, 4], None),
    ("กข กขค คง ง", "กขคง", [3, 4], None),
    ("กข กขค คง ง", "กขคง", [2, 3, 4], 1),
    ("กข กขค คง ง", "กขคง", [4], 0),
    ("กข กขค คง ง", "กขคง", [2], 1),
    ("กข กขค คง ง", "กขคง", [], 0),
    ("กข กขค คง ง", "กขคง", [2, 4, 4], 2),
    ("กข กขค คง ง", "กขคง", [2, 4, 5], 2),
    ("กข กขค คง ง", "กขคง", [0, 2], 0),
    ("กข กขค คง ง", "กขคง", [2, 2, 4], 1),
    ("กข กขค คง ง", "กขคง", [3, 2, 4], 1),
    ("กข กขค คง ง", "กขคง", [2, 4, ANY], 2),
    ("กข", "", [], None),
    ("กข", "", [0], 0),
    ("กข", "", [1], 0),
    # a word that is no place to stop at is a word that starts there
    ("ข", "ขค", [1, 2], None),
    ("ข", "ขค", [2], 0),
    ("ก", "กา", [2], None),
    ("ก", "กา", [1, 2], 0),
    ("bc", "abc", [3], None),
    ("bc", "abc", [1, 3], 0),
    ("ab", "abc", [2, 3], None),
    ("ab", "abc", [3], 0),
]


def words_from(text, words, ends, b):
    """The ends of the dictionary words that start at b and end at a cluster end."""
    return {b + len(word) for word in words if text.startswith(word, b) and b + len(word) in ends}


def stops(text, words, ends, p):
    """Whether the non-dictionary rule stops at p."""
    return NON_THAI.match(text, p) or any(not CONSONANTS.fullmatch(text[p:e]) for e in words_from(text, words, ends, p))


def span(text, words, ends, b):
    """Where the non-dictionary rule ends the token at b."""
    found = NON_THAI.match(text, b)
    if found:
        return found.end()
    return next((p for p in range(b + 1, len(text)) if p in ends and stops(text, words, ends, p)), len(text))


def verdict(text, words, claim, rules):
    """02: None if the claim is right, else the first token that is not."""
    ends, b = set(clusters(text, rules)[0]), 0
    for k, e in enumerate(claim):
        if not b < e <= len(text):
            return k
        starting = words_from(text, words, ends, b)
        if e not in starting and (starting or e != span(text, words, ends, b)):
            return k
        b = e
    return None if b == len(text) else len(claim)


def refusal(row, passes, scratch):
    """The first of 2 to 5 whose condition holds, with its detail."""
    if len(row) > LONGEST:
        return "! 2 %d" % len(row)
    for i, cell in enumerate(row):
        if 0xD800 <= cell < 0xE000 or cell > 0x10FFFF:
            return "! 3 %d" % i
    if not passes:
        return "! 4 0"
    if scratch != "*" and int(scratch) < 9 * len(row) + 128:
        return "! 5 %d" % (9 * len(row) + 128)
    return None


def answer(words, scalars, claim, scratch, rules):
    """What the line of a claim is answered with; the pool passes."""
    row = parsed(scalars)
    refused = refusal(row, True, scratch)
    if refused:
        return refused
    held = {"".join(map(chr, parsed(word.split(":")[0]))) for word in words.split(",")} if words != "-" else set()
    token = verdict("".join(map(chr, row)), held, claim, rules)
    return "ok yes" if token is None else "ok %d" % token


def line(words, scalars, claim, scratch="*"):
    return ["claim", words, scalars, vectors.cells(claim), scratch]


def numbers(field):
    return [] if field == "-" else [int(x) for x in field.split(",")]


def plain_cuts():
    """The plain cuts of the vectors that were accepted, of the Rust's every third: words, text, ends."""
    for fields, expected in vectors.model("cut") + fewest.lines() + vectors.rust("cut")[::3]:
        if fields[1] == "plain" and expected.startswith("ok"):
            yield fields[2], fields[3], numbers(expected.split()[1])


def damaged(ends, n, draw):
    """Claims that are near the ends of a text of n characters."""
    for k in sorted({0, len(ends) - 1, draw.randrange(len(ends))}):
        before, e, behind = ends[:k], ends[k], ends[k + 1:]
        yield before + behind
        yield before + [e, e] + behind
        yield before + [e + 1] + behind
        yield before + [e - 1] + behind
        yield before + [0] + behind
        yield before + [draw.choice([n + 1, ANY, ANY - draw.randrange(n + 2)])] + behind
        yield before + [draw.randrange(n + 1)] + behind
        yield before + behind[:1] + [e] + behind[1:]
        yield before
        yield before + [draw.randrange(n + 1), e] + behind
    yield ends + [n]
    yield ends + [draw.randrange(ANY + 1) for _ in range(9)]
    yield list(range(1, min(n, 200) + 1))
    yield [n]
    yield []


def ours(rules, draw):
    """The plain cuts pass, and what they become by damage."""
    for i, (words, scalars, ends) in enumerate(plain_cuts()):
        row = parsed(scalars)
        assert answer(words, scalars, ends, "*", rules) == "ok yes", (words, scalars)
        yield line(words, scalars, ends), "ok yes"
        if not ends or len(words + scalars) >= SHORT:
            continue
        claims = list(damaged(ends, len(row), draw))
        for claim in claims if i % ALL == 0 else draw.sample(claims, 3):
            yield line(words, scalars, claim), answer(words, scalars, claim, "*", rules)
        need = 9 * len(row) + 128
        for scratch in (need - 1, need, need + 1) if i % ALL == 0 else ():
            for claim in ends, ends + ends:
                yield line(words, scalars, claim, str(scratch)), answer(words, scalars, claim, str(scratch), rules)


def spelled(words):
    return ",".join(vectors.cells([ord(x) for x in word]) + ":0" for word in words.split()) or "-"


def sheet(rules):
    for words, text, claim, token in SHEET:
        assert verdict(text, set(words.split()), claim, rules) == token, (words, text, claim)
        yield line(spelled(words), vectors.cells([ord(x) for x in text]), claim), "ok yes" if token is None else "ok %d" % token


def long_claims(rules):
    """Claims that are longer than their text, and texts as long as they may be."""
    a, k = 0x61, 0xE01
    letters, thai = vectors.cells([a] * LONGEST), vectors.cells([k] * LONGEST)
    for words, scalars, claim in [
        ("-", letters, [LONGEST]), ("-", letters, [LONGEST - 1]), ("-", letters, [LONGEST] * 2), ("-", letters, [LONGEST + 1]),
        ("-", thai, [LONGEST]), ("-", thai, []), ("E01:0", vectors.cells([k] * 3), [1, 2, 3] + [ANY] * 66000),
        ("E01:0", vectors.cells([k] * 3), [0] * 66000), ("E01:0", vectors.cells([k] * 3), [3] * 66000), ("-", "-", [0] * 66000),
        ("E01:0", vectors.cells([k] * 300), list(range(1, 301))), ("E01*255:0", vectors.cells([k] * 510), [255, 510]),
        ("E01*255:0", vectors.cells([k] * 511), [255, 511]), ("E01*255:0", vectors.cells([k] * 511), [256, 511]),
    ]:
        yield line(words, scalars, claim), answer(words, scalars, claim, "*", rules)


def bad_calls():
    """Texts that are too long or hold a cell that is no scalar, pools that pass and that don't, and too little scratch."""
    a, good, empty = 0x61, cells_of({(0x61,): 0}, 16), []
    texts = [[a] * (LONGEST + 1), [a] * LONGEST + [0xD800], [0xD800], [a, 0xDFFF, 0x110000], [a, a, 0x110000], [ANY], [a, 0xD7FF, 0xE000, 0x10FFFF]]
    for text in texts:
        for pool in good, empty:
            for claim in [], [1], [len(text)], [0] * 5:
                told = refusal(text, pool == good, "0")
                yield ["claim_pool", vectors.cells(pool), vectors.cells(text), vectors.cells(claim), "0"], told
    for text, told in pools():
        cells = text.split("\t")[1]
        if told.startswith("!"):
            for claim, scratch in ("-", "*"), ("1.2", "0"):
                yield ["claim_pool", cells, "E01.E02", claim, scratch], "! 4 0"


def main():
    rules, draw = tables(read()), random.Random(12)
    lines = []
    for fields, expected in vectors.read("claims.txt", ["claim"]):
        _, words, scalars, claim, scratch = fields
        assert answer(words, scalars, numbers(claim), scratch, rules) == expected, fields
        lines.append((line(words, scalars, numbers(claim), scratch), expected))
    lines += list(sheet(rules)) + list(long_claims(rules)) + list(ours(rules, draw)) + list(bad_calls())
    told = {expected.split()[0] + expected.split()[1] for _, expected in lines}
    assert {"okyes", "ok0", "ok1", "ok2", "!2", "!3", "!4", "!5"} <= told, told
    vectors.write("test_claim", lines)


if __name__ == "__main__":
    main()
