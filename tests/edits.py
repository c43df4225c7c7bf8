"""Scripts of edits in either order (02, ticket 8), with trie_model's answers.

A script is: what is held before, the edits, then the cells. Where the words differ after trimming and nothing is refused,
every order must end in the same cells and give each edit the same report; `alike` stops where the model's answers don't.
"""
import itertools
import random

from trie_model import A, B, C, script, trim

SPACE = 32


def told(line):
    """The steps' answers of a script, the last one being its cells."""
    return line[1][3:].split(";")


def run(length, before, edits):
    return script(length, [("f",)] + before + edits + [("c",)])


def reports(line, before, edits):
    """What each edit was told, in an order that does not depend on theirs."""
    return sorted(zip(map(repr, edits), told(line)[1 + len(before) : -1]))


def alike(length, before, orders):
    """These orders of edits, which must be accepted throughout, with equal reports and equal cells."""
    made = [run(length, before, edits) for edits in orders]
    if any("!" in answer for _, answer in made):
        raise SystemExit("refused: %s" % (made,))
    if any(told(line)[-1] != told(made[0])[-1] or reports(line, before, e) != reports(made[0], before, orders[0]) for line, e in zip(made, orders)):
        raise SystemExit("not alike: %s" % (made,))
    return made


def unlike(length, before, orders):
    """These orders, which must not end in the same cells."""
    made = [run(length, before, edits) for edits in orders]
    if len({told(line)[-1] for line in made}) != len(made):
        raise SystemExit("alike: %s" % (made,))
    return made


def pairs():
    """Every two edits whose words differ after trimming, in either order, on pools that hold none, some or all of the words."""
    edits = [("+", (A,), 1), ("-", (A,)), ("+", (A, B)), ("+", (SPACE, A, B, 9), 7), ("-", (A, B)), ("-", (A, B, 13)), ("+", (A, B, C), 65535),
             ("-", (A, B, C)), ("+", (B,)), ("+", (SPACE,), 5), ("-", ())]
    held = [[], [("+", (A, B), 7)], [("+", (A, B, C), 2), ("+", (A,), 1), ("+", (B, A))]]
    for before in held:
        for e, f in itertools.combinations(edits, 2):
            if trim(e[1]) != trim(f[1]):
                yield from alike(64, before, [[e, f], [f, e]])


def one_word():
    """The same word after trimming: the later edit stays, so the order does matter."""
    for same in ((SPACE, A, B), (A, B, 0x3000), (9, A, B, 0xA0)):
        yield from unlike(40, [], [[("+", (A, B), 1), ("+", same, 2)], [("+", same, 2), ("+", (A, B), 1)]])
        yield from unlike(40, [], [[("+", (A, B)), ("-", same)], [("-", same), ("+", (A, B))]])
        yield from unlike(40, [("+", same, 9)], [[("+", (A, B)), ("-", same)], [("-", same), ("+", (A, B))]])


def twice():
    """The same accepted edit twice is one, and its second report is 0: in a full pool too, and of a blank word."""
    for edit in (("+", (A, B, C), 5), ("+", (SPACE, A, B, C)), ("+", (A, B), 65535), ("+", (9,), 3), ("-", (A, B, C)), ("-", (C,)), ("-", ())):
        for before in [], [("+", (A, B, C), 1)]:
            once, again = run(32, before, [edit]), run(32, before, [edit, edit])
            if told(once)[-1] != told(again)[-1] or told(again)[-2] != "0":
                raise SystemExit("not once: %s" % (again,))
            yield again


def unions():
    """Two lists with a word in both, words that are one after trimming, and blanks: one after the other, and mixed."""
    a = [(A, B), (SPACE, A), (9,), (B, C), (A, B, 10)]
    b = [(A, SPACE), (C,), (), (0x3000, C, A, 0xA0), (A, B)]
    first, second = [("+", w) for w in a], [("+", w) for w in b]
    mixed = [edit for both in zip(first, second) for edit in both]
    made = [run(80, [], edits) for edits in (first + second, second + first, mixed, mixed[::-1])]
    if len({told(line)[-1] for line in made}) != 1:
        raise SystemExit("not the union: %s" % (made,))
    yield from made
    union = {trim(w) for w in a + b} - {()}
    asked = [("?", w) for w in sorted(union)] + [("#",), ("n",), ("?", (SPACE, A)), ("?", ()), ("p", (A, B, C)), ("p", (C, A))]
    for length in (56, 400):
        for edits in (first + second, second + first):
            line = script(length, [("f",)] + edits + asked)
            if told(line)[1 + len(edits) :][: len(union) + 1] != ["1.0"] * len(union) + [str(len(union))]:
                raise SystemExit("not the union: %s" % (line,))
            yield line


def one_short():
    """A pool that is one node short: removing and then adding fits, adding and then removing is refused with 8."""
    for before, added, removed, length in ([("+", (A, B))], ("+", (A, C), 4), ("-", (A, B)), 24), ([("+", (A, B, C)), ("+", (B,))], ("+", (B, A)), ("-", (SPACE, A, B, C)), 40):
        fits, short = run(length, before, [removed, added]), run(length, before, [added, removed])
        if "!" in fits[1] or told(short)[-3] != "!8.1":
            raise SystemExit("not one node short: %s %s" % (fits, short))
        yield fits
        yield short


def merged(some, a, b):
    """The edits of two files, mixed; each file keeps its order."""
    places, whole = set(some.sample(range(len(a) + len(b)), len(a))), len(a) + len(b)
    a, b = iter(a), iter(b)
    return [next(a if k in places else b) for k in range(whole)]


def files():
    """Drawn files whose words differ, one behind the other and mixed, with blanks at the edges of the words."""
    some = random.Random(8)
    words = [w for n in (1, 2, 3) for w in itertools.product((A, B, C), repeat=n)]

    def file(known):
        found = []
        for _ in range(some.randint(2, 6)):
            w = tuple(some.choices((SPACE, 9), k=some.randint(0, 1))) + some.choice(known)
            found.append(("-", w) if some.random() < 0.4 else ("+", w, some.choice((0, 1, 65535))) if some.random() < 0.6 else ("+", w))
        return found

    for _ in range(12):
        known = some.sample(words, 8)
        a, b = file(known[:4]), file(known[4:])
        before = [("+", w, some.randint(0, 9)) for w in some.sample(known, 3)]
        made = [run(240, before, edits) for edits in (a + b, b + a, merged(some, a, b))]
        if any("!" in answer for _, answer in made) or len({told(line)[-1] for line in made}) != 1:
            raise SystemExit("not alike: %s" % (made,))
        yield from made


def scripts():
    return itertools.chain(pairs(), one_word(), twice(), unions(), one_short(), files())
