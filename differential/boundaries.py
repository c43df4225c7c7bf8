"""Texts on both sides of a line of the cut's rules, with their words, and the mode.

Only inputs stand here: what comes out is the Rust's to say.
"""

KO, KHO, KHWO, NGO, AA, MAITAIKHU, THANTHAKHAT, DIGIT = "\u0e01\u0e02\u0e04\u0e07\u0e32\u0e47\u0e4c\u0e52"


# The cuts of document 01, "Sheets on both sides of a line", with the ends that it gives.
DOCUMENT = [
    ("plain", ["กข", "กขค"], "กขค", [3]),
    ("plain", ["กข", "กขค", "คง", "ง"], "กขคง", [2, 4]),
    ("plain", ["ขค"], "กขค", [3]),
    ("plain", ["ขค", "ขคง"], "กขคง", [1, 4]),
    ("plain", ["ก"], "กา", [2]),
    ("plain", [], "12,5.a", [4, 5, 6]),
    ("plain", [], "\r", [1]),
    ("plain", [], "\r\n", [2]),
    ("plain", [], "a" * 140, [140]),
    ("safe", [], "a" * 140, [100, 140]),
    ("safe", [], "a" * 139, [139]),
    ("safe", [], " " * 140, [40, 140]),
]


# The cuts that ticket 10 was planned with, in the profile "sheet" and without words, with the ends given for them.
SHEETS = [
    (KO * 139 + " ", [139, 140]),
    (KO * 105 + " " + KO * 34, [105, 106, 140]),
    (" " * 140, [140]),
    (" " * 141, [140, 141]),
    (" " * 280, [140, 280]),
]


# Cases of ticket 2, with the ends and reasons that 02 gives for them.
REASONS = [
    ("plain", [], "12,5.a", [(4, 2), (5, 4), (6, 2)]),
    ("plain", [], "\r", [(1, 5)]),
    ("plain", [], "\r\r\n", [(1, 4), (3, 2)]),
    ("plain", [], "", []),
    ("plain", ["ขค"], "กขค", [(3, 5)]),
    ("plain", ["ขค", "ขคง"], "กขคง", [(1, 3), (4, 1)]),
    # both stopping reasons hold at 1
    ("plain", ["abc"], "กabc", [(1, 3), (4, 1)]),
    ("plain", ["กา"], "็กา 12", [(1, 3), (3, 1), (4, 2), (6, 2)]),
    ("safe", [], "a" * 140, [(100, 2), (140, 2)]),
    # "to the end" is that of the part
    ("safe", [], KO * 105 + " " + KO * 34, [(6, 5), (105, 4), (106, 2), (140, 5)]),
    ("sheet", [], KO * 105 + " " + KO * 34, [(105, 4), (106, 2), (140, 5)]),
    ("plain", ["bc"], "abc", [(3, 2)]),
    ("plain", ["ab"], "abc", [(2, 1), (3, 2)]),
    # one or two consonants are a word, and no place to stop at
    ("plain", ["ข"], "ขค", [(1, 1), (2, 5)]),
    ("plain", ["ข"], "กขค", [(3, 5)]),
]


def edges():
    """Texts in which about 50 edges stand at once: from one place, from two, and from every place."""
    yield [KO * 2, KO * 3], KO * 30
    for most in range(47, 55):
        long = [KHO + KO * k for k in range(1, most + 1)]
        yield long, KHO + KO * 60
        yield long + [KO], KHO + KO * 60
        yield long + [KO * 2, KO * 3], KHO + KO * 60 + NGO
        yield long[: most // 2] + [KO * 2 + KHWO * k for k in range(1, most - most // 2 + 1)], KHO + KO * 2 + KHWO * 60
        whole = KHO + KO * 4 + NGO + KO * 60
        yield [whole[:k] for k in range(2, most + 2)] + [NGO + KO], whole
    # 52 words on 11 characters: the search finds three words where two would do, 0 to 9 and 9 to 11.
    row = "กขคงจฉชซฌฎฏ"
    spans = [(i, j) for i in range(9) for j in range(i + 1, 10) if (i, j) != (0, 2)]
    spans += [(2, 11), (9, 10), (9, 11)] + [(i, 10) for i in (1, 3, 4, 5, 6)]
    yield [row[i:j] for i, j in spans], row
    for n in 9, 10, 11, 49, 50, 51, 52, 100:
        yield [KO * k for k in range(1, n + 1)], KO * n
        yield [KO * k for k in range(1, n + 1)], KO * (n + 1) + NGO + KO


def non_thai():
    """Runs of the five alternatives and what ends them: alone, between Thai, and with words that start in them."""
    runs = ["12,5.a", "1,", "1,,2", "1.", "1..2", "1" + DIGIT, DIGIT + "1", ",1", ".", "1,2,", "-", "--", "a-", "-1-", "a1", "1a", "aZ-z"]
    runs += ["\r", "\n", "\r\n", "\r\r\n", "\n\r", "\r\n\r\n", "\t", "\t\t", " \t ", "  ", " \n", "\v", "\f", "\u00a0", "\u0e3f", "\U0001f600", "a\u00e9"]
    for run in runs:
        for text in run, KO + run, run + KO, KO + AA + run + KO + AA, run + run:
            yield [], text
            yield [KO, KO + AA], text
        yield [run], KHO + run + KHO
        yield [run[:1]], run + KO
        yield [run + KO], KO + run + KO


def skips():
    """Words at the place where a skip stops: one and two consonants don't stop it, others do, where they end at a cluster end."""
    for word in KO, KO + KHO, KO + KHO + KHWO, KO + AA, AA, AA + KO, KO + MAITAIKHU, "\u0e40" + KO, "\u0e2e", "\u0e2e\u0e01", "\u0e2f", KO + " ", "a", "1", KO + THANTHAKHAT:
        for before in "\u0e2d", "\u0e2d\u0e2d", "\u0e2d" + AA:
            for behind in "", KO, AA, THANTHAKHAT, "a", " " + KO:
                yield [word], before + word + behind
                yield [word, word + word], before + word + word + behind


def lengths():
    """Safe mode's lengths, without a space and with one at every place of a sample and beside it."""
    for n in 1, 99, 100, 101, 138, 139, 140, 141, 179, 180, 181, 239, 240, 241, 279, 280, 281, 65535:
        yield [], "a" * n
        yield [], " " * n
        yield [], KO * n
        yield [KO * 7], KO * n
    for place in range(98, 142):
        yield [], "a" * place + " " + "a" * (150 - place)
        yield [KO * 3, KO * 5], KO * place + " " + KO * (145 - place) + " " + KO * 40
    # The only space at 105: the first part is 6 long.
    yield [], "a" * 105 + " " + "a" * 34
    yield [KO + AA], " " * 40 + (KO + AA) * 120
    for longest in range(1, 39):
        yield [KO * longest, KHO * longest], NGO * 100 + KO * longest + KHO * longest + NGO * 60


def cases():
    """A mode, words and a text, in order; both modes where the text is long enough to be cut in parts."""
    for mode, held, text, _ in DOCUMENT:
        yield mode, held, text
    for made in edges, non_thai, skips, lengths:
        for held, text in made():
            yield "plain", held, text
            if len(text) >= 139:
                yield "safe", held, text


def spaced(n, places, space=" ", letter=KO):
    """A text of n letters with spaces at these places."""
    return "".join(space if k in places else letter for k in range(n))


def sheets():
    """The profile "sheet": words and a text, on both sides of each of its lines."""
    for text, _ in SHEETS:
        yield [], text
    for n in 1, 99, 100, 101, 138, 139, 140, 141, 179, 180, 181, 239, 240, 241, 279, 280, 281:
        for held in [], [KO * 7], [KO * 2, KO * 3]:
            yield held, KO * n
            yield held, " " * n
            yield held, spaced(n, {n - 1})
            yield held, spaced(n, {n - 1}, "\u00a0")
    # a space at every place of a sample and beside it, alone and with a second one
    for place in range(98, 143):
        for n in 140, 141, 150, 280:
            yield [], spaced(n, {place}, letter="a")
            yield [KO * 3, KO * 5], spaced(n, {place})
        yield [KO * 3, KO * 5], spaced(320, {place, 100, 139, place + 101})
        yield [KO * 3, KO * 5], spaced(200, {place}, "\u00a0")
    # a no-break space or a tab behind the last space, and a word over the cut
    for other in "\u00a0", "\t", "\u3000":
        yield [KO * 3], spaced(120, {110}) + other + KO * 100
    yield [KO + " " + KO, KO], spaced(300, {105, 120, 230})
    yield [KO + AA], " " * 40 + (KO + AA) * 120
    for longest in range(1, 39):
        yield [KO * longest, KHO * longest], NGO * 100 + KO * longest + KHO * longest + NGO * 60
