"""Vector lines: spelling and reading their fields."""
import itertools
import re

REPEATED = re.compile(r"(.)\1{3}", re.DOTALL)

# Unicode's White_Space, which both sides trim, and characters that only look like it, which neither does.
BLANKS = "\t\n\v\f\r \x85\xa0\u1680" + "".join(map(chr, range(0x2000, 0x200B))) + "\u2028\u2029\u202f\u205f\u3000"
NO_BLANKS = "\x1c\x1d\x1e\x1f\u180e\u200b\ufeff"


class Spelling(dict):
    def __missing__(self, c):
        self[c] = "%X" % ord(c)
        return self[c]


SPELLING = Spelling()


def cells(text):
    """The text's scalars in hexadecimal, joined by `.`, four or more equal ones as `cell*count`; `-` for none."""
    if not text:
        return "-"
    if not REPEATED.search(text):
        return ".".join([SPELLING[c] for c in text])
    parts = []
    for c, run in itertools.groupby(text):
        n = len(list(run))
        parts += ["%s*%d" % (SPELLING[c], n)] if 4 <= n else [SPELLING[c]] * n
    return ".".join(parts)


def text(field):
    """The text that `cells` spells so."""
    if field == "-":
        return ""
    made = []
    for part in field.split("."):
        cell, _, times = part.partition("*")
        made.append(chr(int(cell, 16)) * int(times or 1))
    return "".join(made)


def comparable(word):
    """Whether both sides take this word: at most 255 characters when trimmed."""
    return len(word.strip(BLANKS)) <= 255


def words(found):
    """The words as they stand in a dictionary: trimmed, each once, in order."""
    kept = sorted({word.strip(BLANKS) for word in found if comparable(word)} - {""})
    return ",".join([cells(word) + ":0" for word in kept]) or "-"


def clusters(of):
    return "clusters\t%s\t*" % cells(of)


def prefix(held, of):
    return "prefix\t%s\t%s\t*" % (words(held), cells(of))


def dict_script(steps):
    """Steps are pairs of a letter and a text; `f`, `#` and `n` have none. The pool has a node for each character added."""
    nodes = 1 + sum([len(word) for step, word in steps if step == "+"])
    return "dict\t%d\t%s" % (8 * nodes, ";".join([step if step in "f#n" else step + cells(word) for step, word in steps]))


def cut(mode, held, of, op="cut"):
    return "%s\t%s\t%s\t%s\t*\t*" % (op, mode, words(held), cells(of))
