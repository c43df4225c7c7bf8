"""Writes the tables of the second matcher beside the Rust's patterns, in docs/ASSESSMENT.md: python3 docs/tables.py [--check]

The tables are those of crates/tcc_tables/src/tables.rt, the Rust's patterns those of tests/vectors/patterns.txt. Each row
of the tables is spelled as the Rust spells its pattern, and in 01's shorthand as docs/RULES.md has it; the script stops
where a spelling differs. With --check nothing is written: it fails where the page is not what would be written.
"""
import os
import re
import sys

ROOT = os.path.dirname(os.path.dirname(os.path.abspath(__file__)))
PAGE = os.path.join(ROOT, "docs", "ASSESSMENT.md")
MARKS = "<!-- written by docs/tables.py -->", "<!-- end of what docs/tables.py writes -->"
CONSONANT, TONE = (0xE01, 0xE2E), (0xE48, 0xE4B)
GROUP = [([CONSONANT], False), ([CONSONANT], True), ([(0xE34, 0xE34), (0xE38, 0xE39)], True), ([(0xE4C, 0xE4C)], False)]


def read(*path):
    with open(os.path.join(ROOT, *path), encoding="utf-8") as file:
        return file.read()


def numbers(source, name):
    """The numbers of a constant array."""
    body = re.search(r"pub (?:const|static) %s: \w+ = \[(.*?)\];" % name, source, re.S)[1]
    return [int(x.replace("_", ""), 0) for x in re.sub(r"//.*", "", body).replace(",", " ").split()]


def tables():
    """The classes as lists of ranges, and for each alternative its items: class, optional, whether it is in the group."""
    source = read("crates", "tcc_tables", "src", "tables.rt")
    cells, items, starts = (numbers(source, name) for name in ("CLASSES", "ITEMS", "STARTS"))
    ranges = [(x >> 16, x & 0xFFFF) for x in cells]
    classes = [[r for r in ranges[k:k + 3] if r[0] <= r[1]] for k in range(0, len(ranges), 3)]
    parted = [(x >> 8, x >> 4 & 15 == 1, x & 15 == 1) for x in items]
    return classes, [parted[a:e] for a, e in zip(starts, starts[1:])]


def split(classes, alternative):
    """The items before the group, with their ranges, and the number of items in it."""
    parts = [(classes[c], optional) for c, optional, grouped in alternative if not grouped]
    group = [(classes[c], optional) for c, optional, grouped in alternative if grouped]
    if group not in ([], GROUP) or [grouped for _, _, grouped in alternative] != [False] * len(parts) + [True] * len(group):
        raise SystemExit("docs/tables.py: a group is not k, or not last")
    return parts, group


def singles(row):
    """Ranges of two characters as two of one."""
    return [single for lo, hi in row for single in ([(lo, lo), (hi, hi)] if hi == lo + 1 else [(lo, hi)])]


def pattern(classes, alternative):
    """An alternative as the Rust spells it, without its parentheses."""
    def item(row, optional):
        if row == [CONSONANT]:
            return "c" + "?" * optional
        if row == [TONE] and optional:
            return "t"
        inside = "".join(chr(lo) if lo == hi else "%c-%c" % (lo, hi) for lo, hi in singles(row))
        return (inside if len(inside) == 1 else "[%s]" % inside) + "?" * optional

    parts, group = split(classes, alternative)
    return "^" + "".join(item(*part) for part in parts) + "k" * bool(group)


def shorthand(classes, alternative):
    """An alternative in 01's shorthand, item by item; the characters of a class rise, and c is last."""
    def one(lo, hi):
        return "c" if (lo, hi) == CONSONANT else "U+%04X" % lo + ("..%04X" % hi) * (lo != hi)

    def item(row, optional):
        if row == [TONE] and optional:
            return "t"
        ordered = sorted(singles(row), key=lambda r: (r == CONSONANT, r))
        return "optional " * optional + " or ".join(one(*r) for r in ordered)

    parts, group = split(classes, alternative)
    return ", ".join([item(*part) for part in parts] + ["k"] * bool(group))


def cells(alternative):
    """An alternative as its cells: the classes, `?` behind an optional one, the group in parentheses."""
    def item(c, optional, _):
        return "%02X" % c + "?" * optional

    parts = [item(*x) for x in alternative if not x[2]]
    group = [item(*x) for x in alternative if x[2]]
    return " ".join(parts + (["(%s)?" % " ".join(group)] if group else []))


def written():
    classes, alternatives = tables()
    rust = read("tests", "vectors", "patterns.txt").splitlines()[:29]
    section = re.search(r"(?ms)^## Clusters$.*?^## ", read("docs", "RULES.md"))[0]
    rules = dict(re.findall(r"(?m)^\| (\d+) \| \S[^|]* \| ([^|]*) \|$", section))
    rows = []
    for number, (theirs, alternative) in enumerate(zip(rust, alternatives, strict=True), 1):
        spelled, words = pattern(classes, alternative), shorthand(classes, alternative)
        if spelled != re.sub("[()]", "", theirs):
            raise SystemExit("docs/tables.py: alternative %d is %s in the tables, %s in the Rust" % (number, spelled, theirs))
        if words != rules[str(number)]:
            raise SystemExit("docs/tables.py: alternative %d is %s in the tables, %s in RULES.md" % (number, words, rules[str(number)]))
        rows.append("| %d | `%s` | %s | %s |" % (number, theirs, words, cells(alternative)))
    names = {0: " (c)", 1: " (t)", 2: " (d or U+0E34)"}

    def shown(lo, hi):
        return "U+%04X" % lo + ("..%04X" % hi) * (lo != hi)

    listed = ["%02X %s%s" % (k, ", ".join(shown(*r) for r in row), names.get(k, "")) for k, row in enumerate(classes)]
    return [
        "The classes: %s." % "; ".join(listed),
        "",
        "| No. | The Rust's pattern | 01's shorthand, from the tables | The tables' items |",
        "|--:|---|---|---|",
        *rows,
    ]


def main():
    page = read("docs", "ASSESSMENT.md")
    start, end = page.index(MARKS[0]) + len(MARKS[0]), page.index(MARKS[1])
    made = page[:start] + "\n\n" + "\n".join(written()) + "\n\n" + page[end:]
    if "--check" in sys.argv:
        if made != page:
            sys.exit("docs/ASSESSMENT.md is not what docs/tables.py writes")
        print("29 alternatives as the Rust and docs/RULES.md have them")
        return
    with open(PAGE, "w", encoding="utf-8") as file:
        file.write(made)


if __name__ == "__main__":
    main()
