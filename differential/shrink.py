"""Makes a line on which the two sides differ smaller, for as long as they still differ."""
import lines
import sides

# What a character is replaced by where that keeps the difference.
PLAIN = "\u0e01a"


def parts(row):
    """The parts of a row: all of it, then halves, down to single items."""
    size = len(row)
    while 0 < size:
        for i in range(0, len(row), size):
            yield i, min(i + size, len(row))
        size //= 2


def smaller(row):
    """A row without one of its parts."""
    for start, end in parts(row):
        yield row[:start] + row[end:]


def plainer(text):
    """A text with one of its parts made plain."""
    for start, end in parts(text):
        for plain in PLAIN:
            if text[start:end] == plain * (end - start):
                break
            yield text[:start] + plain * (end - start) + text[end:]


def texts(text):
    yield from smaller(text)
    yield from plainer(text)


def rows(row, change):
    """A row with fewer items, or with one item changed."""
    yield from smaller(row)
    for i, item in enumerate(row):
        for other in change(item):
            yield row[:i] + [other] + row[i + 1 :]


def held_words(field):
    return [] if field == "-" else [lines.text(word.split(":")[0]) for word in field.split(",")]


def step_of(spelled):
    return spelled[0], lines.text(spelled[1:]) if spelled[1:] else ""


def steps(step):
    letter, word = step
    for other in texts(word) if letter in "+-?p" else []:
        if letter in "?p" or lines.comparable(other):
            yield letter, other


def candidates(line):
    """Lines that are smaller than this one."""
    fields = line.split("\t")
    if fields[0] == "clusters":
        for text in texts(lines.text(fields[1])):
            yield lines.clusters(text)
    elif fields[0] == "dict":
        for row in rows([step_of(step) for step in fields[2].split(";")], steps):
            if row and row[0][0] == "f":
                yield lines.dict_script(row)
    else:
        # Behind the operation and the mode stand the words and the text.
        at = 1 if fields[0] == "prefix" else 2
        words, text = held_words(fields[at]), lines.text(fields[at + 1])
        make = lines.prefix if at == 1 else lambda held, of: lines.cut(fields[1], held, of, fields[0])
        for held in smaller(words):
            yield make(held, text)
        for other in texts(text):
            yield make(words, other)
        for held in rows(words, texts):
            yield make(held, text)


def first_different(lines_):
    for line, here, there in zip(lines_, sides.ours(lines_), sides.rust(lines_)):
        if here != there:
            return line
    return None


def shrunk(line):
    """A line on which the sides differ, and differ on none of its candidates."""
    while True:
        found, batch, size = None, [], 0
        for other in candidates(line):
            if other == line:
                continue
            batch.append(other)
            size += len(other)
            if 30000 < size:
                found, batch, size = first_different(batch), [], 0
                if found:
                    break
        if not found and batch:
            found = first_different(batch)
        if not found:
            return line
        line = found
