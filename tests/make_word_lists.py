"""Writes the stdin and stdout of crates/word_image and crates/image_words.

    python3 tests/make_word_lists.py

The words are those of the vectors for images, and words at their limits. word_image gets them in another order, some twice,
with blanks at their edges and empty lines between; what it must write is the image that make_images gives by 02's sentences.
image_words gets that image, and must write the words in order, with their classes.
"""
import vectors
from make_images import WORDS, image_of, words_of
from trie_model import TRIMMED


def terms():
    """Words that a line can hold: without a tab or a line feed."""
    found = dict(WORDS)
    for fields, _ in vectors.read("images.txt", ["imgwrite"]):
        found.update(words_of(fields[1]))
    found.update({(0x10FFFF,) * 255: 65535, (0x61,) * 255: 1, (0x61, 0xD, 0x62): 2})
    return {word: given for word, given in found.items() if not {9, 10} & set(word)}


def line(word, given):
    return "".join(map(chr, word)) + ("\t%d" % given if given else "") + "\n"


def shuffled(words):
    """The lines of a list in an order of no meaning, with what an add leaves out or replaces."""
    blanks, lines = sorted(TRIMMED - {9, 10}), []
    for k, word in enumerate(sorted(words, key=lambda word: (hash_of(word), word))):
        given, blank = words[word], chr(blanks[k % len(blanks)])
        if k % 5 == 0:
            lines.append(line(word, (given + 1) % 65536))
        lines.append(blank * (k % 3 == 0) + "".join(map(chr, word)) + blank * (k % 4 == 0) + ("\t%d\n" % given if given or k % 2 else "\n"))
        if k % 7 == 0:
            lines.append(blank * (k % 2) + "\n")
    return "".join(lines)


def hash_of(word):
    x = 1
    for cell in word:
        x = (1103515245 * (x ^ cell) + 12345) % 2**31
    return x


def write(crate, given, told):
    for name, content in ("stdin", given), ("stdout", told):
        with open(vectors.made(crate, name), "wb") as file:
            file.write(content)
    print("%s: %d bytes, %d told" % (crate, len(given), len(told)))


def main():
    words = terms()
    image = image_of(words)
    write("word_image", shuffled(words).encode(), image)
    write("image_words", image, "".join(line(word, words[word]) for word in sorted(words)).encode())


if __name__ == "__main__":
    main()
