"""Real Thai words and texts, from the Debian packages that differential/setup unpacks. None of it is kept in the repository."""
import functools
import glob
import os
import struct

DEBIAN = os.path.join(os.path.dirname(os.path.dirname(os.path.abspath(__file__))), "target", "differential", "debian")
LONGEST = 40


def hunspell_words():
    """The words of hunspell-th: a line for each behind the first, with flags behind a slash."""
    path = os.path.join(DEBIAN, "usr/share/hunspell/th_TH.dic")
    return [line.split("/")[0].strip() for line in open(path, encoding="utf-8")][1:]


def libthai_words():
    """The words of libthai-data: a double-array trie with tails, in the format of libdatrie, numbers in big-endian."""
    data = open(os.path.join(DEBIAN, "usr/share/libthai/thbrk.tri"), "rb").read()
    _, ranges = struct.unpack_from(">Ii", data, 0)
    alphabet, at = [""], 8
    for _ in range(ranges):
        first, last = struct.unpack_from(">ii", data, at)
        alphabet += map(chr, range(first, last + 1))
        at += 8
    _, size = struct.unpack_from(">Ii", data, at)
    row = struct.unpack_from(">%di" % (2 * size), data, at)
    at += 8 * size
    _, _, count = struct.unpack_from(">Iii", data, at)
    at += 12
    tails = []
    for _ in range(count):
        length = struct.unpack_from(">h", data, at + 8)[0]
        tails.append(data[at + 10 : at + 10 + length])
        at += 10 + length
    found, waiting = [], [(2, "")]
    while waiting:
        state, word = waiting.pop()
        base = row[2 * state]
        if base < 0:
            found.append(word + "".join(alphabet[c] for c in tails[-base - 1]))
            continue
        for c in range(len(alphabet)):
            if 0 < base + c < size and row[2 * (base + c) + 1] == state:
                waiting.append((base + c, word + alphabet[c]))
    return found


def messages(path):
    """The translations in a message file, in its order."""
    data = open(path, "rb").read()
    count, _, table = struct.unpack_from("<III", data, 8)
    for i in range(count):
        length, at = struct.unpack_from("<II", data, table + 8 * i)
        yield data[at : at + length].decode("utf-8")


@functools.cache
def words():
    return frozenset(word for word in hunspell_words() + libthai_words() if 0 < len(word) <= LONGEST)


@functools.cache
def texts():
    """The lines of Thai messages, each once, in order."""
    found = {}
    for path in sorted(glob.glob(os.path.join(DEBIAN, "**/th/LC_MESSAGES/*.mo"), recursive=True)):
        for message in messages(path):
            for line in message.replace("\0", "\n").split("\n"):
                if any("\u0e01" <= c <= "\u0e5b" for c in line):
                    found[line] = True
    return list(found)


def words_in(text):
    """The real words that stand in the text. A cut depends on no others."""
    known = words()
    return {text[i : i + n] for i in range(len(text)) for n in range(1, LONGEST + 1) if text[i : i + n] in known}
