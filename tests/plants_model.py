"""Two plants in one pool as document 02's ticket 11 and docs/POOL.md have them: two dictionaries that know nothing of each other.

A plant is a Python dict of its words, and its charge the number of their distinct non-empty prefixes. The cells of a
plants' pool are those of two plain pools, each in its half. Nothing here goes the way of the code.
"""
import vectors
from make_images import image_of, parsed
from pools import halves, in_half
from trie_model import JUNK, MAX_NODES, cells_of, is_scalar, prefixes, spelled, text, trim

A, B = "AB"


def plants_cells(words, limits, length):
    """The cells of a plants' pool, those of its whole nodes."""
    rows = [cells_of(words[plant], length) for plant in (A, B)]
    for row, plant in zip(rows, (A, B)):
        row[3] = 1 + limits[plant]
    return halves(*rows)


def broken(cells):
    """The rules of a plants' pool that do not hold: those of a half, each with its plant, and 15."""
    capacity = min(len(cells) // 8, MAX_NODES)
    nodes = [cells[8 * i : 8 * i + 8] for i in range(capacity)]
    if capacity == 0:
        return {"A1", "B1"}
    found = {"15"} if nodes[0][3] + nodes[0][7] > capacity + 1 else set()
    for plant, half in (A, [node[:4] for node in nodes]), (B, [node[4:] for node in nodes]):
        used, room = half[0][0], half[0][3]
        wrong = {1} if not 1 <= used <= min(room, capacity) else in_half(half, used)
        found |= {plant + str(rule) for rule in wrong}
    return found


class Pool:
    """A pool that a script's calls are made on: no dictionary, a plain one, or a plants' pool."""

    def __init__(self, length):
        self.length, self.words, self.limits = length, {}, None

    def capacity(self):
        return min(self.length // 8, MAX_NODES)

    def passes(self, whose):
        """Whether a call of that plant, or a plain one, takes the pool."""
        if whose == "P":
            return whose in self.words
        return whose in self.words and sum(self.limits.values()) <= self.capacity() - 1

    def begin(self, limits):
        """A freshening, or a start with two limits."""
        if self.length < 8:
            return "!8.1"
        if limits and sum(limits) > self.capacity() - 1:
            return "!12.0"
        self.words = {A: {}, B: {}} if limits else {"P": {}}
        self.limits = dict(zip((A, B), limits)) if limits else None
        return "0"

    def lend(self, length):
        """From now on so many cells are lent: fewer, or more of which the new ones are 0."""
        self.length = length
        return str(length)

    def cells(self):
        cells = [JUNK] * self.length
        if self.words:
            whole = cells_of(self.words["P"], self.length) if "P" in self.words else plants_cells(self.words, self.limits, self.length)
            cells[: len(whole)] = whole
        return text(cells)

    def over(self, whose, words):
        """How many nodes these words have too many: of a plant over its limit, of a plain pool over its capacity."""
        return len(prefixes(words)) - (self.capacity() - 1 if whose == "P" else self.limits[whose])

    def step(self, whose, op, given=(), word_class=0):
        """The answer to a call on the words: its causes in order, and then what it is accepted with."""
        takes_text = op in "+-?p=xy"
        if takes_text:
            row = given[1] if op in "xy" else given
            if len(row) > 65535:
                return "!2.%d" % len(row)
            for i, x in enumerate(row):
                if not is_scalar(x):
                    return "!3.%d" % i
        if not self.passes(whose):
            return "!4.0"
        if op in "+-":
            return self.change(whose, op, trim(given), word_class)
        words = self.words[whose]
        if op == "#":
            return str(len(words))
        if op == "i":
            return image_of(words).hex()
        if op == "r":
            return self.read(whose, given)
        if op == "?":
            return "%d.%d" % (tuple(given) in words, words.get(tuple(given), 0))
        if op == "p":
            return ".".join(str(k) for k in sorted(len(w) for w in words if tuple(given[: len(w)]) == w)) or "-"
        raise SystemExit("no answer to %s" % op)

    def change(self, whose, op, word, word_class):
        words = self.words[whose]
        if len(word) > 255:
            return "!7.%d" % len(word)
        if op == "-":
            return str(int(words.pop(word, None) is not None))
        if not word:
            return "0"
        over = self.over(whose, list(words) + [word])
        if over > 0:
            return "!8.%d" % over
        changed = words.get(word) != word_class
        words[word] = word_class
        return str(int(changed))

    def read(self, whose, image):
        found = parsed(image)
        if isinstance(found, int):
            return "!9.%d" % found
        over = self.over(whose, found)
        if over > 0:
            return "!8.%d" % over
        self.words[whose] = found
        return str(len(found))


# ---- steps: (whose, op, ..), and without a plant ("f",), ("s", limit, limit), ("l", cells) and ("c",)


def answer(pool, step):
    if step[0] == "f":
        return pool.begin(None)
    if step[0] == "s":
        return pool.begin(step[1:])
    if step[0] == "l":
        return pool.lend(step[1])
    if step[0] == "c":
        return pool.cells()
    return pool.step(*step)


def written(step):
    """A step as a line has it."""
    if step[0] in "fc":
        return step[0]
    if step[0] == "l":
        return "l%d" % step[1]
    if step[0] == "s":
        return "s%d.%d" % step[1:]
    whose, op, *given = step
    if op in "#i":
        return whose + op
    if op == "r":
        return whose + op + vectors.hex_bytes(given[0])
    if op in "xy":
        mode, row, scratch, room = given[0]
        return "%s%s%s/%s/%s/%s" % (whose, op, mode, text(row), scratch, room)
    return whose + spelled(op, *given)


def read_step(field):
    """The step that a line writes so."""
    if field[0] in "fc":
        return (field[0],)
    if field[0] == "s":
        return ("s", *map(int, field[1:].split(".")))
    whose, op, given = field[0], field[1], field[2:]
    if op in "#i":
        return whose, op
    if op == "r":
        return whose, op, vectors.parsed_bytes(given)
    word, _, word_class = given.partition(":")
    return (whose, op, tuple(vectors.parsed_cells(word))) + ((int(word_class),) if word_class else ())


def script(length, steps, told=None):
    """The line of a script, and its answer. `told` has the answers of cuts, which nothing here gives, by the step."""
    pool, answers = Pool(length), []
    for step in steps:
        cut = len(step) > 1 and step[1] in ("=", "x", "y") and step[0] in "ABP" and pool.passes(step[0]) and step in (told or {})
        answers.append(told[step] if cut else answer(pool, step))
    return ["plants", str(length), ";".join(map(written, steps))], "ok " + ";".join(answers)
