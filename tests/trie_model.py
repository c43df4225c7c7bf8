"""A dictionary as documents 01 and 02 and docs/POOL.md have it: words, each with its class, and their cells.

A pool is a Python dict of its words. Nodes are counted as the root and the distinct non-empty prefixes, and the cells
are written down level by level from the words alone, so nothing here goes the way of the code.
"""
import itertools

import vectors

TRIMMED = set(map(ord, vectors.WHITE_SPACE))
NEVER = list(map(ord, vectors.NEVER_TRIMMED))
MAX_NODES = 1048576
MAX_CLASS = 65535
JUNK = 0xFFFFFFFF
A, B, C = 0xE01, 0xE02, 0xE04


def trim(word):
    word = list(word)
    while word and word[0] in TRIMMED:
        word.pop(0)
    while word and word[-1] in TRIMMED:
        word.pop()
    return tuple(word)


def is_scalar(x):
    return x < 0xD800 or 0xE000 <= x <= 0x10FFFF


def prefixes(words):
    return {w[:k] for w in words for k in range(1, len(w) + 1)}


def cells_of(words, length):
    """The cells of a plain pool: the trie in the first halves of its nodes, and zeros in the second."""
    children = {}
    for p in prefixes(words):
        children.setdefault(p[:-1], []).append(p)
    order = [()]
    for node in order:
        order += sorted(children.get(node, []))
    cells, first = [], 1
    for i, node in enumerate(order):
        count = len(children.get(node, []))
        if i == 0:
            cells += [len(order), 1, count, 0, 0, 0, 0, 0]
        else:
            cells += [node[-1], first, count, 1 + words[node] if node in words else 0, 0, 0, 0, 0]
        first += count
    return cells + [0] * (8 * min(length // 8, MAX_NODES) - len(cells))


def text(cells):
    out = []
    for cell, run in itertools.groupby(cells):
        n = len(list(run))
        out += ["%X*%d" % (cell, n)] if n >= 4 else ["%X" % cell] * n
    return ".".join(out) or "-"


class Pool:
    def __init__(self, length):
        self.length, self.capacity, self.words = length, min(length // 8, MAX_NODES), None

    def refused(self, word):
        if len(word) > 65535:
            return "!2.%d" % len(word)
        for i, x in enumerate(word):
            if not is_scalar(x):
                return "!3.%d" % i
        return "!4.0" if self.words is None else None

    def step(self, op, word=(), given=0):
        """The answer to a step; `given` is the class that an add gives, 0 where it gives none."""
        if op == "f":
            if self.length < 8:
                return "!8.1"
            self.words = {}
            return "0"
        if op == "c":
            cells = [JUNK] * self.length
            if self.words is not None:
                cells[: 8 * self.capacity] = cells_of(self.words, self.length)
            return text(cells)
        if op in "#n":
            if self.words is None:
                return "!4.0"
            return str(len(self.words) if op == "#" else 1 + len(prefixes(self.words)))
        return self.refused(word) or self.word_step(op, tuple(word), given)

    def word_step(self, op, word, given):
        if op == "?":
            return "%d.%d" % (word in self.words, self.words.get(word, 0))
        if op == "p":
            return ".".join(str(k) for k in sorted(len(w) for w in self.words if word[:len(w)] == w)) or "-"
        word = trim(word)
        if len(word) > 255:
            return "!7.%d" % len(word)
        if op == "-":
            return str(int(self.words.pop(word, None) is not None))
        return self.add(word, given) if word else "0"

    def add(self, word, given):
        missing = 1 + len(prefixes(list(self.words) + [word])) - self.capacity
        if missing > 0:
            return "!8.%d" % missing
        changed = self.words.get(word) != given
        self.words[word] = given
        return str(int(changed))


def spelled(op, word=None, given=None):
    """A step as a line has it: `+` and the word, and the class behind it where one is given."""
    return op + ("" if word is None else text(word)) + ("" if given is None else ":%d" % given)


def script(length, steps):
    """The line of a script, and its answer."""
    pool = Pool(length)
    answers = [pool.step(*s) for s in steps]
    return "dict\t%d\t%s" % (length, ";".join(spelled(*s) for s in steps)), "ok " + ";".join(answers)
