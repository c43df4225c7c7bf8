"""inputs.py OUT RUST: writes the texts and words of the measurements, all from Debian's packages (differential/real.py).
RUST is the Rust's driver, which cuts the texts once.

Each is the same in every run: nothing is drawn. It prints a line for each dictionary: name, words, nodes, and the
dictionary that it adds words to, if there is one: the words it adds stand in a file of their own.
"""
import collections
import os
import subprocess
import sys

HERE = os.path.dirname(os.path.abspath(__file__))
sys.path.insert(0, os.path.join(os.path.dirname(HERE), "differential"))
import real

LONG = 65535
LINES = 500
SMALL = 700
SOME = 5000
SIZES = (250, 1000, 4000, 16000, LONG)
GO = "\u0e01"

# First characters beside those of the real words: 5,000 of them.
MORE = [chr(0x61 + k) for k in range(26)] + [chr(0x4E00 + k) for k in range(4974)]
# How many first characters are spaced evenly from U+10000 on.
SPACED = (200, 20000)


def tokens(rust, texts, words):
    """The tokens of a text in a file, cut with the words in a file."""
    answers = subprocess.run([rust, "answers", "plain", texts, words], capture_output=True, check=True, encoding="utf-8").stdout
    for text, ends in zip(open(texts, encoding="utf-8", newline="\n"), answers.split("\n")):
        start = 0
        for end in map(int, ends.split()):
            yield text[start:end]
            start = end


def small(out, rust):
    """The words that are tokens most often where the texts are cut with all words: the first 700."""
    known = real.words()
    found = collections.Counter(tokens(rust, os.path.join(out, "texts.lines"), os.path.join(out, "all.words.lines")))
    often = sorted((-count, token) for token, count in found.items() if token in known)
    return sorted(token for _, token in often[:SMALL])


def nodes(words):
    return len({word[:n] for word in words for n in range(len(word) + 1)})


def dictionaries(out, rust):
    yield "all", sorted(real.words())
    yield "small", small(out, rust)
    yield "some", evenly(sorted(real.words()), SOME)
    yield "worst-1", [GO * 2, GO * 3]
    yield "worst-2", [GO * n for n in range(1, 256)]
    yield "worst-3", [GO * 255]


def evenly(words, count):
    return [words[k * len(words) // count] for k in range(count)]


def spaced(count):
    """So many characters, evenly spaced."""
    return [chr(0x10000 + k * 0x100000 // count) for k in range(count)]


def spaced_text(words):
    """Characters of these and right behind these, in an order that a linear congruence gives."""
    text, x = "", 4
    for _ in range(LONG):
        x = (1103515245 * x + 12345) % 2**31
        text += chr(ord(words[(x >> 8) % len(words)]) + (x >> 7 & 1))
    return text


def worst_text(case, n):
    pattern = GO * 254 + "\u0e02" if case == 3 else GO
    return (pattern * (n // len(pattern) + 1))[:n]


def write(out, name, text):
    with open(os.path.join(out, name), "w", encoding="utf-8", newline="\n") as file:
        file.write(text)


def main(out, rust):
    texts = real.texts()
    write(out, "texts.lines", "".join(text + "\n" for text in texts))
    lines = texts[:: len(texts) // LINES][:LINES]
    write(out, "lines.lines", "".join(text + "\n" for text in lines))
    write(out, "joined.txt", "".join(lines))
    long = "\n".join(texts)[:LONG]
    write(out, "long.txt", long)
    for n in SIZES:
        write(out, "ordinary-%d.txt" % n, long[:n])
        for case in (1, 2, 3):
            write(out, "worst-%d-%d.txt" % (case, n), worst_text(case, n))
    for name, words in dictionaries(out, rust):
        write(out, name + ".words.lines", "".join(word + "\n" for word in words))
        print(name, len(words), nodes(words))
    for count in SPACED:
        name, words = "spaced-%d" % count, spaced(count)
        write(out, name + ".words.lines", "".join(word + "\n" for word in words))
        write(out, name + ".txt", spaced_text(words))
        print(name, len(words), nodes(words))
    words = sorted(real.words() | set(MORE))
    write(out, "many.words.lines", "".join(word + "\n" for word in words))
    write(out, "many.more.lines", "".join(word + "\n" for word in MORE if word not in real.words()))
    print("many", len(words), nodes(words), "all")


if __name__ == "__main__":
    main(sys.argv[1], sys.argv[2])
