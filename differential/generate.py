"""Cases for a differential run: vector lines, the same for the same seed.

A group is a class with the operation of its lines, the weight that it has in a run, and a method `line` that makes its line number i.
An exhaustive group has a size: its lines are numbered from 0 and each is made once. The others draw their lines.
"""
import random

import boundaries
import lines
import real

# A character for each class that the cluster rules tell apart: consonants (any, then the five that rules name),
# vowels behind or about a consonant, vowels before one, the signs, a space, and any other character.
CONSONANTS = "\u0e01\u0e23\u0e22\u0e2d\u0e27\u0e2b"
VOWELS = "\u0e30\u0e31\u0e32\u0e33\u0e34\u0e35\u0e36\u0e37\u0e38\u0e39"
LEADING = "\u0e40\u0e41\u0e42\u0e44"
SIGNS = "\u0e47\u0e48\u0e4c"
CLASSES = CONSONANTS + VOWELS + LEADING + SIGNS + " a"

# One of each kind for the rule of text that is not Thai, between a consonant and a vowel.
NON_THAI = "\u0e01\u0e32a-1\u0e51,. \t\r\n"

THAI = "".join(map(chr, range(0x0E00, 0x0E80)))

# The two sides of each end of a range that some rule has, and of each length in UTF-8.
EDGES = "\x00\x08\t\n\v\f\r\x0e\x1f !+,-./09:@AZ[`az{\x7f\x80\x85\xa0\u07ff\u0800\u0e00\u0e2e\u0e2f\u0e3a\u0e3f\u0e45\u0e46\u0e4b\u0e4d\u0e4f\u0e50\u0e59\u0e5a\u0e5b\u1680\u2000\u200a\u200b\u2028\u3000\ud7ff\ue000\ufeff\uffff\U00010000\U0010ffff"

ALPHABETS = ["\u0e01", "\u0e01\u0e02", "\u0e01\u0e02\u0e04\u0e07", "\u0e01\u0e32", CONSONANTS + VOWELS, CLASSES, CLASSES, NON_THAI, "ab 1", THAI, CLASSES + EDGES]

# Lengths of a text on both sides of the sizes that safe mode knows.
LENGTHS = [99, 100, 101, 138, 139, 140, 141, 142, 178, 179, 180, 181, 238, 239, 240, 241, 242, 279, 280, 281, 420]

# The 29 alternatives as lists of parts: a part is the characters that may stand there, `?` before an optional one.
C = "".join(map(chr, range(0x0E01, 0x0E2F)))
T = "?\u0e48\u0e49\u0e4a\u0e4b"
K = ["?K"]
ALTERNATIVES = [
    ["\u0e40", C, "\u0e47", C] + K,
    ["\u0e40", C, C, T, "\u0e32", "\u0e30"] + K,
    ["\u0e40", C, C, "\u0e35", T, "\u0e22", "\u0e30"] + K,
    ["\u0e40", C, C, "\u0e47", C] + K,
    ["\u0e40", C, "\u0e34", C, "\u0e4c", C] + K,
    ["\u0e40", C, "\u0e34", T, C] + K,
    ["\u0e40", C, "\u0e35", T, "\u0e22", "?\u0e30"] + K,
    ["\u0e40", C, "\u0e37", T, "\u0e2d", "?\u0e30"] + K,
    ["\u0e40", C, T, "?\u0e32", "?\u0e30"] + K,
    [C, "\u0e31", T, "\u0e27", "\u0e30"] + K,
    [C, "\u0e31\u0e37", T, C, "?\u0e38\u0e34\u0e30"] + K,
    [C, "\u0e34\u0e38\u0e39", "\u0e4c"] + K,
    [C, VOWELS, T] + K,
    [C, "\u0e23", "\u0e23", C, "\u0e4c", " ", "\u0e47"],
    [C, "\u0e47"],
    [C, T, "?\u0e30\u0e32\u0e33"] + K,
    [C] + K,
    ["\u0e41", C, "\u0e47", C],
    ["\u0e41", C, C, "\u0e4c"],
    ["\u0e41", C, T, "\u0e30"],
    ["\u0e41", C, C, "\u0e47", C],
    ["\u0e41", C, C, C, "\u0e4c"],
    ["\u0e42", C, T, "\u0e30"],
    ["\u0e40\u0e41\u0e42\u0e43\u0e44", C, T],
    ["\u0e01", "\u0e47"],
    ["\u0e2d", "\u0e36"],
    ["\u0e2b", "\u0e36"],
    ["\u0e40", C, C, "\u0e35", T, "\u0e22", C + "\u0e40\u0e41\u0e42\u0e43\u0e44"] + K,
    ["\u0e40", C, "\u0e34\u0e35\u0e38\u0e39", T, "\u0e22", C + "\u0e40\u0e41\u0e42\u0e43\u0e44"] + K,
]
GROUP_K = [C, "?" + C, "?\u0e38\u0e39\u0e34", "\u0e4c"]


def numbered(alphabet, most, i):
    """The text number i of all texts over the alphabet of at most so many characters, shorter ones first."""
    for n in range(most + 1):
        if i < len(alphabet) ** n:
            break
        i -= len(alphabet) ** n
    text = ""
    for _ in range(n):
        i, c = divmod(i, len(alphabet))
        text += alphabet[c]
    return text


def texts_up_to(alphabet, most):
    return sum(len(alphabet) ** n for n in range(most + 1))


def all_texts(alphabet, most):
    return [numbered(alphabet, most, i) for i in range(texts_up_to(alphabet, most))]


def at_most_two(words):
    """Every dictionary of at most two of the words."""
    return [[]] + [[a] for a in words] + [[a, b] for a in words for b in words if a < b]


def drawn(rng, alphabet, n):
    return "".join(rng.choices(alphabet, k=n))


def matched(rng, parts):
    """A text that the parts match."""
    text = ""
    for part in parts:
        if part[0] == "?":
            if rng.random() < 0.5:
                continue
            part = part[1:]
        text += matched(rng, GROUP_K) if part == "K" else rng.choice(part)
    return text


def thai(rng, n):
    """About n characters of texts that the alternatives match."""
    text = ""
    while len(text) < n:
        text += matched(rng, rng.choice(ALTERNATIVES))
        if rng.random() < 0.1:
            text += rng.choice(CLASSES)
    return text[:n]


def damaged(rng, text):
    """The text with a few characters dropped, doubled, swapped, changed, put in, or its end cut off."""
    for _ in range(rng.randint(1, 4)):
        if not text:
            return text
        i = rng.randrange(len(text))
        kind = rng.randrange(6)
        c = rng.choice(rng.choice(ALPHABETS[4:]))
        text = [text[:i] + text[i + 1 :], text[:i] + text[i] + text[i:], text[:i] + text[i + 1 : i + 2] + text[i] + text[i + 2 :], text[:i] + c + text[i + 1 :], text[:i] + c + text[i:], text[:i]][kind]
    return text


def some_length(rng):
    kind = rng.random()
    if kind < 0.6:
        return rng.randint(0, 12)
    if kind < 0.9:
        return rng.randint(0, 60)
    return rng.choice(LENGTHS) + rng.randint(-1, 1)


def some_text(rng, n):
    """A text of n characters, of one of many kinds."""
    kind = rng.random()
    if kind < 0.3:
        return thai(rng, n)
    if kind < 0.4:
        unit = drawn(rng, rng.choice(ALPHABETS), rng.randint(1, 6))
        return (unit * n)[:n]
    return drawn(rng, rng.choice(ALPHABETS), n)


def parts_of(rng, text, count):
    """Words of a text: parts of it, mostly short."""
    found = []
    for _ in range(count if text else 0):
        i = rng.randrange(len(text))
        longest = rng.choice([2, 3, 4, 6, 10, 40, 255])
        found.append(text[i : i + rng.randint(1, longest)])
    return found


def some_words(rng, text):
    """Words for a text: none, parts of it, parts of a damaged copy, and words that share its first characters."""
    found = parts_of(rng, text, rng.choice([0, 1, 2, 3, 5, 8, 13, 30]))
    if rng.random() < 0.3:
        found += parts_of(rng, damaged(rng, text), rng.randint(1, 5))
    if rng.random() < 0.2:
        found += [drawn(rng, rng.choice(ALPHABETS), rng.randint(1, 3)) for _ in range(3)]
    return found


def with_spaces(rng, text):
    """The text with spaces put over it: none, one, a few anywhere, or a few in the places that safe mode samples."""
    row = list(text)
    kind = rng.randrange(4)
    if not row or kind == 0:
        return text.replace(" ", "\u0e01")
    if kind == 1:
        row = list(text.replace(" ", "\u0e01"))
    for _ in range(1 if kind == 1 else rng.randint(1, 8)):
        i = rng.randrange(len(row))
        if kind == 3 and 100 < len(row):
            i = rng.randrange(99, min(len(row), 142))
        row[i] = " "
    return "".join(row)


class ShortClusters:
    """Every text of at most four characters, one of each class."""
    op, weight, size = "clusters", 20, texts_up_to(CLASSES, 4)

    def line(self, rng, i):
        return lines.clusters(numbered(CLASSES, 4, i))


class LookaheadClusters:
    """Every text that starts as the look-ahead alternatives do, with five more characters of the classes they name."""
    alphabet = "\u0e01\u0e22\u0e35\u0e34\u0e48\u0e30\u0e40\u0e4c"
    op, weight, size = "clusters", 5, texts_up_to(alphabet, 5)

    def line(self, rng, i):
        return lines.clusters("\u0e40\u0e01" + numbered(self.alphabet, 5, i))


class AllThaiClusters:
    """Every character of the Thai block and of the edges, in every place of a matched text."""
    op, weight, size = "clusters", 10, None

    def line(self, rng, i):
        text = matched(rng, rng.choice(ALTERNATIVES))
        k = rng.randrange(len(text) + 1)
        return lines.clusters(text[:k] + rng.choice(THAI + EDGES) + text[k + rng.randint(0, 1) :] + rng.choice(["", "\u0e01", "\u0e4c"]))


class RandomClusters:
    op, weight, size = "clusters", 10, None

    def line(self, rng, i):
        text = some_text(rng, some_length(rng))
        return lines.clusters(damaged(rng, text) if rng.random() < 0.3 else text)


class ShortScripts:
    """Every script of four adds and removals of three words that share their first characters, looked at after each."""
    words = ["\u0e01", "\u0e01\u0e02", "\u0e01\u0e02\u0e04"]
    op, weight, size = "dict", 2, (2 * len(words)) ** 4

    def line(self, rng, i):
        steps = [("f", "")]
        for _ in range(4):
            i, k = divmod(i, 2 * len(self.words))
            steps += [("+-"[k % 2], self.words[k // 2]), ("n", ""), ("#", ""), ("p", self.words[2])]
        return lines.dict_script(steps + [("?", word) for word in self.words])


class RandomScripts:
    """Adds and removals in random order, with blanks at the words' edges and inside, and words of up to 255 characters."""
    op, weight, size = "dict", 10, None

    def word(self, rng, alphabet):
        kind = rng.random()
        n = rng.randint(1, 5) if kind < 0.9 else rng.choice([0, 1, 254, 255])
        return drawn(rng, alphabet, n) if kind < 0.97 else rng.choice(alphabet) * n

    def line(self, rng, i):
        alphabet = rng.choice(ALPHABETS)
        known = [self.word(rng, alphabet) for _ in range(rng.randint(1, 8))]
        known += [word[: rng.randint(0, len(word))] for word in known]
        steps = [("f", "")]
        for _ in range(rng.randint(1, 25)):
            word = rng.choice(known)
            step = rng.choice("+++--?#np")
            if step in "+-" and rng.random() < 0.3:
                word = drawn(rng, lines.BLANKS, rng.randint(0, 3)) + word + drawn(rng, lines.BLANKS, rng.randint(0, 3))
            if step in "?p" and rng.random() < 0.3:
                word += drawn(rng, alphabet + " ", 2)
            if step not in "+-" or lines.comparable(word):
                steps.append((step, word))
        if rng.random() < 0.02:
            steps.append(("f", ""))
        return lines.dict_script(steps + [("#", ""), ("n", "")])


class Prefixes:
    """Words that a text starts with, words that part from it, and others."""
    op, weight, size = "prefix", 8, None

    def line(self, rng, i):
        text = some_text(rng, some_length(rng) if rng.random() < 0.9 else rng.randint(250, 260))
        found = [text[: rng.randint(0, min(len(text), 255))] for _ in range(rng.randint(0, 12))]
        found += [damaged(rng, word) for word in found[:4]]
        if rng.random() < 0.1:
            found += [text[:n] for n in (1, 2, 253, 254, 255)]
        return lines.prefix(found + some_words(rng, text)[:5], text)


def some_children(rng):
    """Characters in blocks with gaps: from one script or many, close together or far apart, up to some hundreds."""
    found = set()
    for _ in range(rng.randint(1, 4)):
        start = rng.choice([0x61, 0x0E01, 0x0E01, 0x0E30, 0x4E00, 0x4E00, 0xAC00, 0x10000])
        start += rng.randint(0, 20)
        step = rng.choice([1, 1, 1, 2, 3, 10, 40])
        found.update(range(start, start + step * rng.choice([1, 2, 5, 9, 12, 20, 60, 300]), step))
    return [chr(x) for x in sorted(found) if not 0xD800 <= x < 0xE000]


def beside(rng, children):
    """A character at, beside, between, below or above these."""
    x = ord(rng.choice(children)) + rng.choice([-1, 0, 0, 0, 1, 2, 7, 8, 9, 10])
    return chr(x) if x < 0xD800 or 0xE000 <= x else "!"


class CrowdedScripts:
    """Nodes with many children: added in any order, looked at, some removed, and looked at again."""
    op, weight, size = "dict", 2, None

    def line(self, rng, i):
        children = some_children(rng)
        above = rng.choice(["", "", "\u0e01", "ab"])
        looked = [("?p"[rng.random() < 0.2], above + beside(rng, children)) for _ in range(30)]
        added = [("+", above + c) for c in rng.sample(children, len(children))]
        removed = [("-", above + c) for c in rng.sample(children, len(children) // 4)]
        return lines.dict_script([("f", "")] + added + looked + removed + [("#", ""), ("n", "")] + looked)


class CrowdedPrefixes:
    """Words of one and two characters whose first ones are many."""
    op, weight, size = "prefix", 2, None

    def line(self, rng, i):
        children = some_children(rng)
        held = children + [c + rng.choice(children) for c in rng.sample(children, min(len(children), 5))]
        return lines.prefix(held, beside(rng, children) + drawn(rng, children, 2))


class EachBlank:
    """Each two characters of White_Space, and of those that only look like it: at the edges of a word and inside one, in every call."""
    alphabet = lines.BLANKS + lines.NO_BLANKS
    op, weight, size = "dict", 2, len(alphabet) ** 2

    def line(self, rng, i):
        x, y = self.alphabet[i % len(self.alphabet)], self.alphabet[i // len(self.alphabet)]
        word, inside = x + "\u0e01" + y, "\u0e01" + x + y + "a"
        steps = [("f", ""), ("+", x + y), ("+", word), ("?", word), ("?", "\u0e01"), ("#", ""), ("n", ""), ("+", y + x + inside + y), ("p", inside)]
        return lines.dict_script(steps + [("-", y + word + x), ("#", ""), ("n", ""), ("-", inside + x), ("-", y), ("?", inside), ("n", "")])


def mixed(rng, a, b):
    """The edits of two files, mixed; each file keeps its order."""
    places, whole = set(rng.sample(range(len(a) + len(b)), len(a))), len(a) + len(b)
    a, b = iter(a), iter(b)
    return [next(a if k in places else b) for k in range(whole)]


class EditFiles:
    """Two files of edits whose words differ after trimming: one behind the other, turned round and mixed, each from a fresh pool, all words looked at after each."""
    op, weight, size = "dict", 3, None

    def line(self, rng, i):
        alphabet = rng.choice(ALPHABETS)
        known = sorted({drawn(rng, alphabet, rng.randint(0, 4)).strip(lines.BLANKS) for _ in range(rng.randint(2, 8))})
        rng.shuffle(known)
        half = rng.randint(0, len(known))
        a, b = self.file(rng, known[:half]), self.file(rng, known[half:])
        looked = [("?", word) for word in known] + [("#", ""), ("n", ""), ("p", max(known, key=len) + "\u0e01")]
        return lines.dict_script([step for order in (a + b, b + a, mixed(rng, a, b)) for step in [("f", "")] + order + looked])

    def file(self, rng, known):
        def blanks():
            return drawn(rng, lines.BLANKS, rng.choice([0, 0, 1, 2]))

        return [(rng.choice("++-"), blanks() + rng.choice(known) + blanks()) for _ in range(rng.randint(0, 8) if known else 0)]


def spaced(rng, alphabet, n):
    """A text of n characters, of a few letters and a few of these."""
    return drawn(rng, "\u0e01\u0e02\u0e32a" + "".join(rng.choices(alphabet, k=3)), n)


class SpacedScripts:
    """Words with every kind of blank, and what only looks like one, at their edges and inside; some of 254 and 255 characters without them."""
    op, weight, size = "dict", 4, None

    def line(self, rng, i):
        known = [spaced(rng, EachBlank.alphabet, rng.randint(0, 4)) for _ in range(rng.randint(1, 6))]
        if rng.random() < 0.1:
            known.append("\u0e01" * rng.choice([254, 255]))
        steps = [("f", "")]
        for _ in range(rng.randint(2, 20)):
            word = rng.choice(known)
            step = rng.choice("+++--?#np")
            if step in "+-":
                word = drawn(rng, lines.BLANKS, rng.randint(0, 3)) + word + drawn(rng, EachBlank.alphabet, rng.randint(0, 3))
            if step not in "+-" or lines.comparable(word):
                steps.append((step, word))
        return lines.dict_script(steps + [("#", ""), ("n", "")])


class SpacedPrefixes:
    """Words and texts with every kind of blank among their letters."""
    op, weight, size = "prefix", 2, None

    def line(self, rng, i):
        text = spaced(rng, EachBlank.alphabet, rng.randint(1, 12))
        found = [text[: rng.randint(1, len(text))] for _ in range(rng.randint(1, 6))]
        return lines.prefix(found + parts_of(rng, text, 3), text)


class SpacedCuts:
    """Texts with every kind of blank, plain and safe: a cut knows U+0020 alone, and tab beside it in a run."""
    op, weight, size = "cut", 4, None

    def line(self, rng, i):
        n = rng.randint(1, 15) if rng.random() < 0.7 else rng.choice(LENGTHS)
        text = spaced(rng, EachBlank.alphabet, n)
        return lines.cut(rng.choice(["plain", "safe"]), parts_of(rng, text, rng.randint(0, 6)), text)


class ShortCuts:
    """Every text of at most five characters over three, with every dictionary of at most two words of at most three."""
    alphabet = "\u0e01\u0e02\u0e32"
    held = at_most_two(all_texts(alphabet, 3)[1:])
    op, weight, size = "cut", 14, len(held) * texts_up_to(alphabet, 5)

    def line(self, rng, i):
        i, k = divmod(i, len(self.held))
        return lines.cut("plain", self.held[k], numbered(self.alphabet, 5, i))


class ShortNonThai:
    """Every text of at most four characters for the rules of text that is not Thai, with a few dictionaries."""
    held = [[], ["\u0e01"], ["\u0e01\u0e32"], ["a"], ["a1", "1,"], ["\u0e51", "-"], ["\u0e01 a", "a\r\n\u0e01", "1"]]
    op, weight, size = "cut", 8, len(held) * texts_up_to(NON_THAI, 4)

    def line(self, rng, i):
        i, k = divmod(i, len(self.held))
        return lines.cut("plain", self.held[k], numbered(NON_THAI, 4, i))


class ShortClassCuts:
    """Every text of at most three characters, one of each class, with dictionaries of words that end inside a cluster and at its end."""
    held = [[], ["\u0e01"], ["\u0e01\u0e01", "\u0e23"], ["\u0e40\u0e01", "\u0e01\u0e32", "\u0e22"], ["\u0e01\u0e31", "\u0e40\u0e01\u0e34", "\u0e4c"], [" ", "a", "\u0e01 "]]
    op, weight, size = "cut", 5, len(held) * texts_up_to(CLASSES, 3)

    def line(self, rng, i):
        i, k = divmod(i, len(self.held))
        return lines.cut("plain", self.held[k], numbered(CLASSES, 3, i))


class BoundaryCuts:
    """Texts on both sides of a line of the rules."""
    held = list(boundaries.cases())
    op, weight, size = "cut", 5, len(held)

    def line(self, rng, i):
        return lines.cut(*self.held[i])


class RandomCuts:
    op, weight, size = "cut", 12, None

    def line(self, rng, i):
        text = some_text(rng, some_length(rng))
        held = some_words(rng, text)
        if rng.random() < 0.3:
            text = damaged(rng, text)
        return lines.cut(rng.choice(["plain", "safe"]), held, text)


class SafeCuts:
    """Safe mode around its boundaries, with spaces in and beside the sampled places."""
    op, weight, size = "cut", 8, None

    def line(self, rng, i):
        text = with_spaces(rng, some_text(rng, rng.choice(LENGTHS)))
        return lines.cut("safe" if rng.random() < 0.9 else "plain", some_words(rng, text), text)


class SheetBoundaries:
    """The profile "sheet" on both sides of each of its lines."""
    held = list(boundaries.sheets())
    op, weight, size = "cut", 3, len(held)

    def line(self, rng, i):
        return lines.cut("sheet", *self.held[i])


class SheetCuts:
    """The profile "sheet" around its boundaries, with spaces and no-break spaces in and beside the sampled places."""
    op, weight, size = "cut", 8, None

    def line(self, rng, i):
        text = with_spaces(rng, some_text(rng, rng.choice(LENGTHS)))
        if rng.random() < 0.2:
            text = text.replace(" ", "\u00a0", rng.randint(1, 3))
        return lines.cut("sheet", some_words(rng, text), text)


class DenseCuts:
    """Many edges: runs of a character with words of many lengths, around the limit of 50, whole or broken."""
    op, weight, size = "cut", 6, None

    def line(self, rng, i):
        c = rng.choice("\u0e01\u0e01\u0e40a ")
        n = rng.choice([rng.randint(1, 40), rng.randint(45, 60), rng.randint(100, 300)])
        text = c * n
        if rng.random() < 0.5:
            for _ in range(rng.randint(1, 4)):
                k = rng.randrange(n)
                text = text[:k] + rng.choice("\u0e02\u0e32\u0e4c ") + text[k + 1 :]
        lengths = rng.sample(range(1, 61), rng.randint(1, 30)) if rng.random() < 0.6 else rng.choice([[2, 3], [1, 2], list(range(1, 53)), [1, 50], [25, 26]])
        return lines.cut(rng.choice(["plain", "safe"]), [c * k for k in lengths] + parts_of(rng, text, 2), text)


class LongWords:
    """Words of 253 to 255 characters, in texts where they stand whole, cut short or one after the other."""
    op, weight, size = "cut", 2, None

    def line(self, rng, i):
        alphabet = rng.choice(ALPHABETS[:6])
        word = drawn(rng, alphabet, rng.choice([253, 254, 255]))
        text = drawn(rng, alphabet, rng.randint(0, 5)) + (word if rng.random() < 0.7 else damaged(rng, word)) + rng.choice(["", word, word[:-1], "a"])
        held = [word, word[:-1], word[1:], word[: rng.randint(1, 255)]]
        return lines.cut(rng.choice(["plain", "safe"]), rng.sample(held, rng.randint(1, 4)), text)


class Reasons:
    """The cuts of the other groups, with the reason of each token."""
    op, weight, size = "reasons", 24, None
    cuts = [SpacedCuts, ShortCuts, ShortNonThai, ShortClassCuts, BoundaryCuts, RandomCuts, SafeCuts, SheetBoundaries, SheetCuts, DenseCuts, LongWords]

    def line(self, rng, i):
        group = rng.choice(self.cuts)
        return "reasons" + group().line(rng, rng.randrange(group.size) if group.size else i)[len("cut"):]


class RealClusters:
    op, weight, size = "clusters", 5, None

    def line(self, rng, i):
        text = rng.choice(real.texts())
        return lines.clusters(damaged(rng, text) if rng.random() < 0.3 else text)


class RealCuts:
    """Real text, whole, damaged or joined to longer ones, with all the real words that stand in it."""
    op, weight, size = "cut", 5, None

    def line(self, rng, i):
        text = rng.choice(real.texts())
        while rng.random() < 0.2:
            text += rng.choice(["", " "]) + rng.choice(real.texts())
        if rng.random() < 0.3:
            text = damaged(rng, text)
        return lines.cut(rng.choice(["plain", "safe", "sheet"]), real.words_in(text[:3000]), text[:3000])


MADE = [ShortClusters, LookaheadClusters, AllThaiClusters, RandomClusters, ShortScripts, RandomScripts, Prefixes, CrowdedScripts, CrowdedPrefixes, EachBlank, EditFiles, SpacedScripts, SpacedPrefixes, SpacedCuts, ShortCuts, ShortNonThai, ShortClassCuts, BoundaryCuts, RandomCuts, SafeCuts, SheetBoundaries, SheetCuts, DenseCuts, LongWords, Reasons]
REAL = [RealClusters, RealCuts]


def shares(groups, count):
    """How many lines each group makes: by weight, and no more than there are."""
    left, weights, share = count, sum(group.weight for group in groups), {}
    for group in sorted(groups, key=lambda g: (g.size is None, (g.size or 0) / g.weight)):
        n = left * group.weight // weights
        if group.size is not None:
            n = min(n, group.size)
        share[group] = n
        left, weights = left - n, weights - group.weight
    return share


def cases(groups, count, seed):
    """The groups' lines: pairs of a group's name and a line."""
    for group, n in shares(groups, count).items():
        rng = random.Random("%s %s" % (group.__name__, seed))
        made = group()
        numbers = range(n) if group.size in (None, n) else sorted(rng.sample(range(group.size), n))
        for i in numbers:
            yield group.__name__, made.line(rng, i)
