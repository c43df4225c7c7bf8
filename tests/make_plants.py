"""Writes crates/test_plants/stdin and stdout.

    python3 tests/make_plants.py

The independent model's lines for plants are taken (vectors/plants.txt). plants_model has 02's sentences over two Python
dicts, and all lines are held to it: the script stops where the two differ. It gives no cuts: those of the lines are held
to make_claim's `verdict`. The other lines are made here, and their cuts and reasons are those of lines in vectors/ with
the words of one plant, and other words in the other. Steps that only these lines have:

  c               all cells of the pool
  lN              N cells are lent from now on; where they are more, the new ones are 0
  x, y            a cut, and one with reasons: mode/scalars/scratch cells/output cells, or records; ends or ends and reasons,
                  and behind a `/` the edges

A line `halves` gives the cells of a pool: the answers of word count, plain, of plant A and of plant B.
"""
import itertools
import random

import vectors
from make_claim import verdict
from make_images import EXAMPLE, WORDS, image_of, last, word_record
from make_tcc import read, tables
from plants_model import A, B, Pool, answer, broken, plants_cells, read_step, script
from pools import GOOD, broken as plain_broken, halves as join_halves
from trie_model import A as KO, B as KHO, C as KHWAY, JUNK, MAX_CLASS, cells_of, prefixes, text

LARGEST = 2**64 - 1
PLANTS = A, B


# ---- the model's lines


def held():
    """The model's lines; the script stops where 02's sentences give another answer, or a cut is none that they allow."""
    rules = tables(read())
    for fields, expected in vectors.read("plants.txt", ["plants"]):
        pool = Pool(int(fields[1]))
        for field, told in zip(fields[2].split(";"), expected[3:].split(";")):
            step = read_step(field)
            if len(step) > 1 and step[1] == "=" and pool.passes(step[0]):
                row = "".join(map(chr, step[2]))
                words = {"".join(map(chr, word)) for word in pool.words[step[0]]}
                ends = [int(end) for end in told.split(".")] if told != "-" else []
                ours = told if verdict(row, words, ends, rules) is None else "no cut"
            else:
                ours = answer(pool, step)
            if ours != told:
                raise SystemExit("02 and the model differ: %s: %s and %s" % (field, ours, told))
        yield fields, expected


# ---- scripts


def asked(words):
    """Every question about these words, to both plants."""
    for plant in PLANTS:
        yield from ((plant, "?", word) for word in words)
        yield from ((plant, "p", word + (KO,)) for word in words)
        yield from ((plant, "#"), (plant, "i"))


def both():
    """The same words in both plants, with other classes: each tells its own, and one's change is not the other's."""
    words = [(KO,), (KO, KHO), (KO, KHO, KHWAY), (KHO,)]
    steps = [("s", 4, 4)]
    for i, word in enumerate(words):
        steps += [(A, "+", word, i), (B, "+", word, MAX_CLASS - i), (A, "+", word, i), (B, "+", word, MAX_CLASS - i)]
    yield script(72, steps + list(asked(words)) + [("c",)])
    for plant, other in (A, B), (B, A):
        changes = [(plant, "+", words[1], 9), (plant, "+", words[1]), (plant, "-", words[2]), (plant, "-", words[2])]
        yield script(72, steps + changes + list(asked(words)) + [("c",), (other, "-", words[0]), ("c",)])


def full():
    """Each plant fills its limit, at limits that sum to capacity less one, whatever the other has; one more is refused."""
    for nodes, limit_a in itertools.product((2, 3, 9, 10), range(10)):
        if limit_a < nodes:
            limit_b = nodes - 1 - limit_a
            steps = [("s", limit_a, limit_b)]
            for plant, limit in (A, limit_a), (B, limit_b):
                word = (KO,) * limit
                steps += [(plant, "+", word + (KHO,), 1), (plant, "+", word, 2), (plant, "+", word, 3), (plant, "+", word[:1], 4)]
                steps += [(plant, "+", word + (KO, KO)), (plant, "+", (KHWAY,)), (plant, "+", (32, 9)), ("c",)]
            for plant in PLANTS:
                steps += [(plant, "-", word), (plant, "+", (KHWAY,)), (plant, "-", (KO,)), (plant, "+", (KHWAY,)), ("c",)]
            yield script(8 * nodes + nodes % 8, steps)


def emptied():
    """One plant removed to nothing beside the other, in any order; the cells are then those of the other alone."""
    words = [(KO, KHO), (KO, KHO, KHWAY), (KHO, 32, KO)]
    for plant, other in (A, B), (B, A):
        begin = [("s", 9, 9)] + [(p, "+", w, 5 + i) for p in PLANTS for i, w in enumerate(words)]
        for order in itertools.permutations(words):
            removed = [step for w in order for step in ((plant, "-", w), (plant, "#"), (other, "#"))]
            yield script(160, begin + removed + [("c",)] + list(asked(words)) + [(plant, "+", words[2]), ("c",)])


def images():
    """Images of each plant: written, read into the other, over words, refused by the limit and by their records."""
    image, charge = image_of(WORDS), len(prefixes(WORDS))
    for plant, other in (A, B), (B, A):
        limits = (charge, 4) if plant == A else (4, charge)
        for n in 8 * (charge + 5), 8 * (charge + 5) + 7, 8 * (charge + 40):
            yield script(n, [("s", *limits), (other, "+", (KO, KHO), 3), (plant, "r", image), (plant, "i"), (other, "i"), ("c",),
                             (plant, "r", EXAMPLE), ("c",), (plant, "r", image), (other, "r", image), (other, "r", EXAMPLE), ("c",),
                             (other, "r", last(0)), (plant, "#"), (plant, "r", image[:-1]), (plant, "r", image + b"\0"), ("c",)])
        for less in 1, 2, charge:
            limits = (charge - less, less + 4) if plant == A else (less + 4, charge - less)
            yield script(8 * (charge + 5), [("s", *limits), (plant, "+", (KO,)), (other, "+", (KO,), 7), (plant, "r", image), ("c",),
                                            (plant, "r", EXAMPLE[:5]), (plant, "r", image[:40]), ("c",)])
        bad = word_record((KHO,)) + word_record((KO,)) + last(2)
        yield script(80, [("s", 3, 3), (plant, "r", bad), (plant, "r", b""), (plant, "r", b"\xff" * 9), (plant, "r", last(0)), (other, "r", bad), ("c",)])
    # equal words give equal images, whichever plant holds them, and a plain pool takes them
    yield script(200, [("s", 12, 12)] + [(p, "+", w, c) for p in PLANTS for w, c in sorted(WORDS.items())] + [(A, "i"), (B, "i"), ("f",), ("P", "r", image), ("P", "i")])


CALLS = [("+", (KO,)), ("+", (KO,), 7), ("+", ()), ("-", (KO,)), ("?", (KO,)), ("#",), ("p", (KO, KHO)), ("=", (KO, KHO)), ("i",), ("r", EXAMPLE), ("r", b"x")]
CALLS += [(op, (mode, (KO,), "*", "*")) for op in "xy" for mode in ("plain", "safe", "sheet")]


def wrong_calls():
    """Every plain call on a plants' pool and every plant call on a plain one, or on none: 4, and no cell changed."""
    plain = [("P", *call) for call in CALLS]
    of_plants = [(plant, *call) for plant in PLANTS for call in CALLS]
    yield script(80, [("s", 5, 4), (A, "+", (KO,), 3), (B, "+", (KO, KHO), 9)] + plain + [("c",)])
    yield script(80, [("s", 0, 0)] + plain + [("c",)])
    yield script(80, [("f",), ("P", "+", (KO,), 3)] + of_plants + [("c",)])
    yield script(8, [("f",)] + of_plants + [("s", 0, 0)] + plain + [("c",)])
    for n in 0, 7, 40:
        yield script(n, of_plants + plain + [("c",)])
    # 2 and 3 come before 4, and 4 before 5, 6, 7, 9
    early = [(op, row) for op in "+-?p=" for row in ((KO, 0xD800), (0x110000,), (KO,) * 65536, (0xDFFF,) * 65536)]
    early += [(op, (mode, row, "0", "0")) for op in "xy" for mode in ("plain", "safe", "sheet") for row in ((KO, 0xDFFF), (KO,) * 65536)]
    late = [("+", (KO,) * 256), ("-", (KO,) * 256), ("r", b""), ("x", ("plain", (KO,), "0", "0")), ("y", ("safe", (KO,), "0", "0"))]
    for begin, whose in ([("s", 5, 4)], "P"), ([("f",)], "AB"), ([], "ABP"):
        yield script(80, begin + [(plant, *call) for plant in whose for call in early[:12] + late] + [("c",)])
        yield script(80, begin + [(plant, *call) for plant in whose for call in early[12:]] + [("c",)])
    for plant in PLANTS:
        yield script(80, [("s", 5, 4)] + [(plant, *call) for call in early + late[:3]] + [("c",)])


def starts():
    """Limits at their edges: 0, just fitting, one over, and the largest numbers, which must not wrap."""
    for n in 0, 1, 7, 8, 15, 16, 24, 80, 81, 87:
        room = max(n // 8 - 1, 0)
        pairs = {(0, 0), (room, 0), (0, room), (room + 1, 0), (0, room + 1), (room // 2, room - room // 2), (room // 2 + 1, room - room // 2)}
        pairs |= {(LARGEST, LARGEST), (LARGEST, 0), (0, LARGEST), (1, LARGEST), (LARGEST, 1), (2**63, 2**63), (LARGEST - room, room), (2**32, 0), (0, 2**32)}
        for limits in sorted(pairs):
            yield script(n, [("s", *limits), ("c",), (A, "#"), (B, "#"), ("P", "#"), (A, "+", (KO,)), (B, "+", (KO, KHO)), ("c",)])
    # a refused start leaves a plain pool plain and a plants' pool as it was; an accepted one ends both
    yield script(80, [("f",), ("P", "+", (KO,)), ("s", 9, 1), ("P", "#"), ("s", LARGEST, LARGEST), ("P", "#"), ("c",), ("s", 8, 1), ("P", "#"), (A, "#"), ("c",)])
    yield script(80, [("s", 4, 4), (A, "+", (KO,)), (B, "+", (KHO,), 2), ("s", 5, 5), (A, "?", (KO,)), (B, "?", (KHO,)), ("c",), ("s", 0, 9), (B, "#"), ("c",),
                      (B, "+", (KO,) * 9), (A, "+", (KO,)), ("f",), (A, "#"), (B, "#"), ("P", "#"), ("c",)])


def lent():
    """A plants' pool lent shorter, so that its limits do not fit, is refused with 4; lent longer with zeros it answers as before."""
    words = [(KO,), (KO, KHO)]
    for limits in (2, 3), (0, 5), (5, 0):
        begin = [("s", *limits)] + [(plant, "+", word, 1) for plant in PLANTS for word in words]
        questions = list(asked(words)) + [("P", "#")]
        for n in 48, 49, 55, 80, 87:
            yield script(n, begin + [("l", 48)] + questions + [("l", 47)] + questions + [(A, "+", (KO,)), (B, "-", (KO,)), (A, "r", EXAMPLE)])
            yield script(n, begin + [("l", n // 8 * 8 + 8)] + questions + [("l", 400)] + questions + [(A, "+", (KO,) * 6), (B, "+", (KO,) * 6), ("c",)])
    yield script(80, [("f",), ("P", "+", (KO, KHO)), ("l", 120), ("P", "#"), (A, "#"), ("s", 7, 7), (A, "+", (KO,) * 7), (B, "+", (KO,) * 7), ("l", 119), (A, "#"), ("P", "#")])


def mixed():
    """Both plants at random, near their limits, with words that share prefixes; now and then a start, a freshening or a plain call."""
    some = random.Random(11)
    for _ in range(120):
        nodes = some.choice([1, 2, 4, 8, 12, 20, 40])
        limit = some.randint(0, nodes - 1)
        steps = [("s", limit, nodes - 1 - limit - some.choice([0, 0, 0, min(1, nodes - 1 - limit)]))]
        for _ in range(some.randint(5, 30)):
            plant, word = some.choice("AAAABBBBP" if some.random() < 0.3 else "AB"), tuple(some.choice([KO, KHO, KHWAY, 32]) for _ in range(some.randint(0, 4)))
            op = some.choice("+++++---??p#ir")
            if op == "r":
                words = {w: some.choice([0, 1, MAX_CLASS]) for w in (tuple(some.choice([KO, KHO]) for _ in range(some.randint(1, 3))) for _ in range(some.randint(0, 4)))}
                steps.append((plant, op, image_of(words)))
            else:
                steps.append((plant, op) if op in "#i" else (plant, op, word, some.choice([0, 1, MAX_CLASS])) if op == "+" else (plant, op, word))
            if some.random() < 0.02:
                steps.append(some.choice([("f",), ("s", 0, 0), ("s", limit, nodes - 1 - limit), ("s", nodes, 0)]))
        yield script(8 * nodes + some.randint(0, 7), steps + [("c",)])


# ---- cuts


def setting(one, other, plant, charge):
    """A start and the words of two lines, the first one's in the plant; with nodes for just these."""
    terms = {plant: one, B if plant == A else A: other}
    limits = {p: len(prefixes(terms[p])) + (charge if p == plant else 0) for p in PLANTS}
    steps = [("s", limits[A], limits[B])] + [(p, "+", word, given) for p in PLANTS for word, given in terms[p].items()]
    return 8 * (1 + limits[A] + limits[B]), steps


def words_of(field):
    parts = [part.split(":") for part in field.split(",")] if field != "-" else []
    return {tuple(vectors.parsed_cells(word)): int(given) for word, given in parts}


def cut_lines(found, op, least, spelled):
    """Lines for cut, or for reasons, asked of a plant that has their words, beside a plant that has another line's words."""
    kept = [(words_of(fields[2]), fields, expected) for fields, expected in found if len("".join(fields)) < 1500 and len(vectors.parsed_cells(fields[3])) < 1500]
    assert len(kept) >= least, len(kept)
    for i, (words, fields, expected) in enumerate(kept):
        plant, other = PLANTS[i % 2], kept[(7 * i + 3) % len(kept)][0]
        length, steps = setting(words, other, plant, i % 3)
        if length > 20000:
            continue
        row = tuple(vectors.parsed_cells(fields[3]))
        call = (plant, op, (fields[1], row, fields[4], fields[5]))
        told = spelled(expected[3:].split(" ")) if expected.startswith("ok") else "!" + ".".join(expected.split()[1:])
        yield script(length + i % 8, steps + [call, (plant, "#")], {call: told})
        if i % 4 == 0:
            # the same words in a plain pool, and the other plant's without them
            steps = [("f",)] + [("P", "+", word, given) for word, given in words.items()] + [("P", *call[1:])]
            yield script(length, steps, {("P", *call[1:]): told})


def ends_told(fields):
    return fields[0].replace(",", ".") + "/" + fields[1]


def cuts():
    found = vectors.read("cuts.txt", ["cut"])
    yield from cut_lines(found[::4], "x", 60, ends_told)
    yield from cut_lines(vectors.read("reasons.txt", ["reasons"])[::3], "y", 40, ends_told)


# ---- pools given by their cells


def halves_line(cells, plants=None):
    """What word count tells of the cells; `plants`: the rules of a plants' pool that they are meant to break."""
    if plants is not None and broken(cells) != plants:
        raise SystemExit("%s: meant to break %s and breaks %s" % (text(cells), plants, broken(cells)))
    marks = [sum(cells[8 * i + at] != 0 for i in range(1, cells[at - 3])) if len(cells) >= 8 and cells[at - 3] <= len(cells) // 8 else 0 for at in (3, 7)]
    told = [str(marks[0]) if not plain_broken(cells) else "!4.0"] + [str(n) if not broken(cells) else "!4.0" for n in marks]
    return ["halves", text(cells)], "ok " + ";".join(told)


OTHER = {(KO,): 2, (KHO, KHO): MAX_CLASS}
TWO = plants_cells({A: {(KO,): 0, (KO, KHO): 7, (KO, KHWAY): MAX_CLASS, (KHO, 32, KO): 1}, B: OTHER}, {A: 6, B: 4}, 88)

def halves():
    """A good plants' pool, each half damaged in turn, limits that do not fit, and pools of other kinds."""
    yield halves_line(TWO, set())
    yield halves_line(TWO + [5, 6, 7], set())
    yield halves_line(TWO + [0] * 8, set())
    yield halves_line(TWO[:80], {"15"})
    yield halves_line(TWO[:87], {"15"})
    for cells in TWO[:8], TWO[:7], [], [0] * 8, [0] * 96, [JUNK] * 96, cells_of({}, 80), GOOD:
        yield halves_line(list(cells))
    for node, cell, value in itertools.product((0, 1, 3, 10), range(8), (0, 1, 5, 8, 13, 65537, 0xD800, JUNK)):
        cells = list(TWO)
        cells[8 * node + cell] = value
        yield halves_line(cells)
    # a limit that the charge passes, and limits that sum to one more than capacity less one
    for at, value in (3, 6), (3, 7), (3, 8), (7, 3), (7, 4), (7, 5), (7, 6), (3, 0), (7, 0):
        cells = list(TWO)
        cells[at] = value
        yield halves_line(cells)
    row = TWO[:]
    row[3], row[7] = 7, 6
    yield halves_line(row, {"15"})
    row[3], row[7] = 7, 5
    yield halves_line(row, set())
    row[7] = 3
    yield halves_line(row, {"B1"})
    # the halves of two plain pools, changed about, and one of them twice
    plain, other = cells_of({(KO,): 0}, 96), cells_of(OTHER, 96)
    for one, two in (plain, other), (other, plain), (plain, plain), (plain, [0] * 96), ([0] * 96, plain):
        for rooms in (0, 0), (0, 5), (5, 0), (2, 4), (4, 2), (5, 5), (6, 7), (6, 8), (1, 1):
            first, second = list(one), list(two)
            first[3], second[3] = rooms
            yield halves_line(join_halves(first, second))
    deep = (KO,) * 255
    for plant in PLANTS:
        words, limits = {A: {}, B: {}}, {A: 300, B: 300}
        words[plant] = {deep: 3}
        cells = plants_cells(words, limits, 8 * 601)
        yield halves_line(cells, set())
        at = 0 if plant == A else 4
        cells[at] = 257
        cells[8 * 255 + at + 1 : 8 * 255 + at + 4] = [256, 1, 1]
        cells[8 * 256 + at : 8 * 256 + at + 4] = [KO, 257, 0, 1]
        yield halves_line(cells, {plant + "10"})


def main():
    made = itertools.chain(both(), full(), emptied(), images(), wrong_calls(), starts(), lent(), mixed(), cuts(), halves())
    vectors.write("test_plants", list(held()) + list(made))


if __name__ == "__main__":
    main()
