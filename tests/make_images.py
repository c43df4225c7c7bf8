"""Writes crates/test_word_list/stdin and stdout.

    python3 tests/make_images.py

The independent model's lines for images are taken (vectors/images.txt). `parsed` and `image_of` have 02's sentences over
Python's `struct` and UTF-8 codec, and all lines are held to them: the script stops where the two differ. The other lines are
made here: every prefix of a good image, each rule broken at the first, a middle and the last record, words at their limits,
pools that are full, too small and no dictionary.
"""
import struct

import vectors
from pools import GOOD, changed
from trie_model import A, B, C, JUNK, MAX_CLASS, NEVER, TRIMMED, cells_of, prefixes, text, trim

# 02's example: {ก} with class 0.
EXAMPLE = bytes.fromhex("07000000 01000000 E0B881 06000000 0000 01000000")

# A good list: prefixes, classes of one and two bytes, a blank inside a word, UTF-8 of one to four bytes.
WORDS = {(0x61,): 0, (0x61, 0x20, 0x62): 1, (0x61, 0xE9): 255, (A,): 256, (A, B): MAX_CLASS, (A, B, 0x1F600): 7, (C, 0x10FFFF): 0}


# A small pool that holds a word.
SMALL = cells_of({(0x7A,): 5}, 8 * 20)


def record(kind, body):
    return struct.pack("<IH", 2 + len(body), kind) + body


def spelled(word):
    return "".join(map(chr, word)).encode()


def word_record(word, given=0):
    return record(1, struct.pack("<H", given) + spelled(word))


def last(count):
    return record(0, struct.pack("<I", count))


def image_of(words):
    return b"".join(word_record(word, words[word]) for word in sorted(words)) + last(len(words))


def word_in(body):
    """The word of a record's body, None where it isn't one."""
    try:
        word = tuple(map(ord, body[2:].decode()))
    except UnicodeDecodeError:
        return None
    return word if 1 <= len(word) <= 255 and trim(word) == word else None


def parsed(image):
    """The words and classes of an image, or the offset that 9 tells."""
    words, before, at = {}, (), 0
    while True:
        size = int.from_bytes(image[at:at + 4], "little")
        kind, body, end = image[at + 4:at + 6], image[at + 6:at + 4 + size], at + 4 + size
        if end > len(image) or size < 2 or len(image) - at < 6:
            return at
        if kind == b"\0\0":
            if body != struct.pack("<I", len(words)):
                return at
            return words if end == len(image) else end
        word = word_in(body) if kind == b"\1\0" and len(body) >= 3 else None
        if word is None or word <= before:
            return at
        words[word], before, at = int.from_bytes(body[:2], "little"), word, end


def refusal(is_dictionary, capacity, image):
    """A reading's refusal, None where it has none."""
    found = parsed(image)
    if not is_dictionary:
        return "! 4 0"
    if isinstance(found, int):
        return "! 9 %d" % found
    missing = 1 + len(prefixes(found)) - capacity
    return "! 8 %d" % missing if missing > 0 else None


def read(cells, image, is_dictionary=True):
    """Reading over a pool given by its cells, and writing what is held then: both tell all of it."""
    refused = refusal(is_dictionary, len(cells) // 8, image)
    if refused is not None:
        return [(["imgread", text(cells), vectors.hex_bytes(image)], "%s %s" % (refused, text(cells)))]
    words = parsed(image)
    after = cells_of(words, len(cells)) + cells[len(cells) // 8 * 8:]
    answer = "ok %d %s" % (len(words), text(after))
    return [(["imgread", text(cells), vectors.hex_bytes(image)], answer), (["imgwrite", text(after), "*"], "ok " + image.hex())]


def written(words, room="*"):
    image = image_of(words)
    fits = room == "*" or room >= len(image)
    cells = cells_of(words, 8 * (1 + len(prefixes(words))))
    return ["imgwrite", text(cells), str(room)], "ok " + image.hex() if fits else "! 6 %d" % len(image)


def words_of(given):
    parts = [part.split(":") for part in given.split(",")] if given != "-" else []
    return {tuple(vectors.parsed_cells(cells)): int(number) for cells, number in parts}


def held(lines):
    """The model's lines, with the cells of their words; the script stops where 02's sentences give another answer."""
    for fields, expected in lines:
        if fields[0] == "imgread":
            cells, image = int(fields[1]), vectors.parsed_bytes(fields[3])
            ours = read(cells_of(words_of(fields[2]), cells) + [JUNK] * (cells % 8), image)
            told = ours[1][1] if len(ours) == 2 else " ".join(ours[0][1].split()[:3])
        else:
            ours = [written(words_of(fields[1]), fields[2] if fields[2] == "*" else int(fields[2]))]
            told = ours[0][1]
        if told != expected:
            raise SystemExit("02 and %s differ: %s" % ("\t".join(fields), told))
        yield from ours


# Records that break a rule wherever they stand.
BROKEN = [
    record(2, b"\0\0a"), record(256, b"\0\0a"), record(257, b"\0\0a"), record(JUNK & 0xFFFF, b"\0\0a"),
    record(1, b""), record(1, b"\0"), record(1, b"\0\0"),
    struct.pack("<I", 0), struct.pack("<IB", 1, 1), struct.pack("<IH", 1, 1), struct.pack("<IH", JUNK, 1) + b"\0\0a",
    struct.pack("<IH", JUNK - 3, 1) + b"\0\0a", struct.pack("<IH", 0x80000000, 1) + b"\0\0a",
    record(0, b""), record(0, b"\0\0\0"), record(0, b"\0\0\0\0\0"), last(1000),
    word_record((0x6162,) * 256), word_record((0x6162,) * 300), record(1, b"\0\0" + b"\xff" * 20),
] + [record(1, b"\0\0" + bad) for bad in (
    b"\x80", b"a\x80", b"a\xc2", b"\xc0\x80", b"\xc1\xbf", b"\xe0\x80\x80", b"\xe0\x9f\xbf", b"\xf0\x80\x80\x80", b"\xf0\x8f\xbf\xbf",
    b"\xed\xa0\x80", b"\xed\xbf\xbf", b"\xf4\x90\x80\x80", b"\xf5\x80\x80\x80", b"\xe0\xb8", b"\xf0\x9f\x98", b"\xff", b"a\xe0\xb8\x81\xfe")]


def records(words):
    return [word_record(word, words[word]) for word in sorted(words)]


def broken_at(place):
    """Images with a wrong record before, between or behind the good ones: the records before it are right."""
    good = records(WORDS)
    for wrong in BROKEN:
        yield b"".join(good[:place]) + wrong + b"".join(good[place:]) + last(1 + len(good))
        yield b"".join(good[:place]) + wrong
    # an equal word, with its class and another; a smaller one; the prefix behind; a word that is there already
    if place > 0:
        word = sorted(WORDS)[place - 1]
        for again in word_record(word, WORDS[word]), word_record(word, 9), word_record((0x21,)), word_record(word[:-1] or (0x20,)):
            yield b"".join(good[:place]) + again + b"".join(good[place:]) + last(1 + len(good))


def bad_images():
    good = image_of(WORDS)
    yield from (good[:k] for k in range(len(good)))
    yield from (EXAMPLE[:k] for k in range(len(EXAMPLE)))
    for place in 0, 3, len(WORDS):
        yield from broken_at(place)
    # the last record: missing, wrong, twice, and what stands behind it
    body = b"".join(records(WORDS))
    for count in 0, 6, 8, 7 + 256, 7 << 24, JUNK:
        yield body + last(count)
        yield body + last(count) + b"\0"
    yield body
    yield from (good + tail for tail in (b"\0", b"\xff", last(7), good, word_record((C, C)), b"\0" * 40))
    yield from (last(0) + tail for tail in (b"\0", last(0), EXAMPLE))
    yield last(1)
    for x in sorted(TRIMMED):
        yield from (EXAMPLE[:11] + word_record(word) + last(2) for word in ((x,), (0xE30, x), (x, 0xFFFD), (x, 0xFFFD, x)))
    yield from (b"", b"\0" * 3, b"\0" * 9, b"\xff" * 50)


def good_lists():
    yield from ({}, {(A,): 0}, WORDS)
    yield {(A,) * n: n for n in (1, 2, 127, 128, 254, 255)}
    yield {(0x10FFFF,) * 255: MAX_CLASS, (0x10FFFE,) * 255: 0, (0x61,) * 255: 1}
    yield {(x,): 0 for x in (0, 0x7F, 0x80, 0x7FF, 0x800, 0xD7FF, 0xE000, 0xFFFF, 0x10000, 0x10FFFF)} | {(0x21, 0): 3}
    yield {(0x61, x, 0x61): x for x in TRIMMED}
    yield {(x, x): 256 * (x % 256) for x in NEVER}
    yield {(x,): x for x in range(0xE01, 0xE5C)}
    yield {(x, y): x + y for x in (A, B, C) for y in (A, B, C)}
    # by scalars and not by 16-bit units, nor by the bytes' number
    yield {(0xFFFF,): 0, (0x10000,): 1, (0x7A,): 2, (0x7A, 0x7A, 0x7A): 3, (0x7B,): 4}


def read_lines():
    for image in bad_images():
        yield from read(SMALL, image)
    for image in list(bad_images())[::7]:
        yield from read(GOOD + [5, 6, 7], image)
    for words in good_lists():
        image, nodes = image_of(words), 1 + len(prefixes(words))
        for cells in 8 * nodes, 8 * nodes + 7, 8 * nodes + 80, 8 * nodes - 1, 8 * nodes - 8, 8, 15:
            if cells >= 8:
                yield from read(cells_of({}, cells) + [JUNK, 1, 2, 3, 4, 5, 6][:cells % 8], image)
        # over more words, over itself, and over other words of a pool that is full
        yield from read(cells_of({(A,) * 255: 9, (B, C): 8, (0x61, 0x62): 7}, 8 * (nodes + 300)), image)
        yield from read(cells_of(words, 8 * nodes), image)
        if 1 < nodes <= 256:
            yield from read(cells_of({(C,) * (nodes - 1): 9}, 8 * nodes), image)
    for image in image_of(WORDS), EXAMPLE, EXAMPLE[:7], b"", last(0):
        for cells in no_dictionaries():
            yield from read(cells, image, False)


def no_dictionaries():
    yield from ([], [1, 1, 0, 0, 0, 0, 0], [0] * 8, [0] * 800, [JUNK] * 80, GOOD[:55])
    yield from (changed(change) for change in ((0, 0, 0), (2, 1, 6), (4, 0, 0xD800), (6, 3, 65537), (8, 3, 1), (0, 3, 1), (8, 7, 1)))


def write_lines():
    for words in good_lists():
        size = len(image_of(words))
        yield from (written(words, room) for room in ("*", size, size + 1, size + 40, size - 1, size // 2, 1, 0))
    image = image_of({(A,): 0, (A, B): 7, (A, C): MAX_CLASS, (B, 32, A): 1})
    for cells in GOOD, GOOD + [5, 6, 7], GOOD[:56], GOOD + [0] * 16:
        yield ["imgwrite", text(cells), str(len(image))], "ok " + image.hex()
        yield ["imgwrite", text(cells), str(len(image) - 1)], "! 6 %d" % len(image)
    for cells in no_dictionaries():
        yield from ((["imgwrite", text(cells), room], "! 4 0") for room in ("*", "0"))


def main():
    model = vectors.read("images.txt", ["imgread", "imgwrite"])
    if image_of({(A,): 0}) != EXAMPLE or parsed(EXAMPLE) != {(A,): 0}:
        raise SystemExit("02's example is another")
    vectors.write("test_word_list", list(held(model)) + list(read_lines()) + list(write_lines()))


if __name__ == "__main__":
    main()
