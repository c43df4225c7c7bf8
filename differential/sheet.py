"""The profile "sheet" over the Rust's plain cuts. The Rust hasn't this mode.

How a text is parted is 02's to say (ticket 10). Every sample without a space, and every part, is then cut plainly by the
Rust; the ends are shifted and joined, the edges summed. With 1 in the place of 101 the same is safe mode, which the Rust
has: `against_safe` says where the two differ.
"""
import lines

BEGIN, END = 100, 140

# The cut of a remaining text is this much behind the index of the last space in its sample.
BEHIND = {"safe": 1, "sheet": 101}


class Text:
    """A line's text on its way: what remains of it, its parts, and the edges of its samples."""

    def __init__(self, line):
        self.op, mode, self.words, scalars, _, _ = line.split("\t")
        self.behind, self.rest, self.parts, self.edges = BEHIND[mode], lines.text(scalars), [], 0

    def sample(self):
        return self.rest[BEGIN:END]

    def spaced(self):
        return " " in self.sample()

    def take(self, size):
        self.parts.append(self.rest[:size])
        self.rest = self.rest[size:]

    def take_at_space(self):
        self.take(self.behind + self.sample().rindex(" "))

    def take_at_longest(self, answer):
        """The answer is that of the sample's plain cut. Of equally long tokens the last is the longest."""
        told, edges = read(answer)
        ends = [int(end) for end in told]
        starts = [0] + ends[:-1]
        longest = max(end - start for start, end in zip(starts, ends))
        self.take(BEGIN + max(start for start, end in zip(starts, ends) if end - start == longest))
        self.edges += edges


def read(answer):
    """What an answer tells of each token, and its edges."""
    _, told, edges = answer.split(" ")
    return told.split(",") if told != "-" else [], int(edges)


def moved(token, start):
    """A token of a part that starts there: its end, with what is told behind it."""
    end, mark, reason = token.partition(":")
    return "%d%s%s" % (start + int(end), mark, reason)


def plain_line(op, words, text):
    return "%s\tplain\t%s\t%s\t*\t*" % (op, words, lines.cells(text))


def parted(given, plain):
    """The texts of these lines, each parted whole. `plain` answers lines of plain cuts."""
    texts = [Text(line) for line in given]
    long = texts
    while long:
        long = [text for text in long if len(text.rest) >= END]
        spaced, bare = [text for text in long if text.spaced()], [text for text in long if not text.spaced()]
        for text in spaced:
            text.take_at_space()
        for text, answer in zip(bare, plain([plain_line("cut", text.words, text.sample()) for text in bare])):
            text.take_at_longest(answer)
    for text in texts:
        if text.rest:
            text.take(len(text.rest))
    return texts


def answers(given, plain):
    """The answers to lines of cuts in parts, with reasons or without."""
    texts = parted(given, plain)
    cut = iter(plain([plain_line(text.op, text.words, part) for text in texts for part in text.parts]))
    told = []
    for text in texts:
        tokens, edges, start = [], text.edges, 0
        for part in text.parts:
            found, recorded = read(next(cut))
            tokens += [moved(token, start) for token in found]
            edges, start = edges + recorded, start + len(part)
        told.append("ok %s %d" % (",".join(tokens) or "-", edges))
    return told


def against_safe(answered, plain):
    """The first line in safe mode whose answer isn't that of its parts, or None."""
    safe = [(line, answer) for line, answer in answered if line.startswith(("cut\tsafe\t", "reasons\tsafe\t"))]
    for (line, answer), joined in zip(safe, answers([line for line, _ in safe], plain)):
        if answer != joined:
            return line
    return None
