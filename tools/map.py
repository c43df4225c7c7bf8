#!/usr/bin/env python3
"""map.py [--check]: writes the generated part of docs/MAP.md: the groups, the flow of data, and a line for each crate.

Groups are the headings of crates.txt, what a crate stands on is its line there, and what it is says the first sentence of
its src/lib.rt or src/main.rt. With --check nothing is written: it fails where the page is not what would be written. It
fails too where a group stands on a group below it.
"""
import os
import re
import sys

ROOT = os.path.dirname(os.path.dirname(os.path.abspath(__file__)))
PAGE = os.path.join(ROOT, "docs", "MAP.md")
MARKS = "<!-- written by tools/map.py -->", "<!-- end of what tools/map.py writes -->"

# From what a host lends to what it is told. Names between square brackets are crates.
FLOW = """
    bytes ──[utf8]──▶ scalars ──┬─[char_string_trim]─▶ trimmed words ─[trie_char]─▶ pool
                                │                                                  │
                                │                                                  ▼
                                ├─[tcc]──▶ cluster ends ──▶[newmm_word_step]◀──[trie_search]
                                │                                  │
                                │                                  ▼ words at a place
                                │                          [newmm_edges]──▶ edges ──[newmm_bfs]──▶ path
                                │                                  │                                │
                                └──[newmm_skip]──▶ other spans ──▶[newmm_one_cut]◀──────────────────┘
                                                                   │ ends of a part
                                                                   ▼
    host ◀──[fetlockice]──┬──◀ ends, edges or refusal ◀──[newmm]◀──[newmm_segment]
    lines ◀─[sheet_lines]─┘
"""


def read(path):
    with open(os.path.join(ROOT, path), encoding="utf-8") as file:
        return file.read()


def groups():
    """The groups in order: name, and its crates with what each stands on; crates of the kit are left out."""
    found = []
    for line in read("crates.txt").splitlines():
        if re.fullmatch(r"# \w+", line):
            found.append((line[2:], {}))
        elif line and not line.startswith("#"):
            name, below = line.split(":")
            found[-1][1][name.split()[0]] = below.split()
    own = {name for _, crates in found for name in crates}
    return [(group, {name: [x for x in below if x in own] for name, below in crates.items()}) for group, crates in found]


def what(crate):
    """The first sentence of the crate's first comment."""
    for name in "lib.rt", "main.rt":
        path = os.path.join("crates", crate, "src", name)
        if os.path.exists(os.path.join(ROOT, path)):
            lines = []
            for line in read(path).splitlines():
                if not line.startswith("// "):
                    break
                lines.append(line[3:].strip())
            return re.split(r"(?<=\.) |:$", " ".join(lines))[0] if lines else ""
    raise SystemExit("crates.txt: %s has no src/lib.rt and no src/main.rt" % crate)


def levels(below):
    """How far each stands above the ground."""
    found = {}

    def level(name):
        if name not in found:
            found[name] = 1 + max([level(x) for x in below[name]], default=-1)
        return found[name]

    for name in below:
        level(name)
    return found


def reduced(below):
    """What each stands on directly: without what that stands on itself."""
    reach = {}

    def all_below(name):
        if name not in reach:
            reach[name] = set(below[name]).union(*(all_below(x) for x in below[name]))
        return reach[name]

    return {name: [x for x in row if not any(x in all_below(y) for y in row if y != x)] for name, row in below.items()}


def wrapped(names, width):
    lines = [""]
    for name in names:
        if lines[-1] and len(lines[-1]) + len(name) + 1 > width:
            lines.append("")
        lines[-1] += (" " if lines[-1] else "") + name
    return lines


def box(title, lines, width):
    yield "┌─ %s %s┐" % (title, "─" * (width - len(title) - 1))
    for line in lines:
        yield "│ %s │" % line.ljust(width)
    yield "└%s┘" % ("─" * (width + 2))


def picture(found):
    """The groups as boxes, the ground at the bottom; groups that don't know each other side by side."""
    crates = dict(found)
    home = {name: group for group, row in found for name in row}
    order = [group for group, _ in found]
    below = {group: sorted({home[x] for row in crates[group].values() for x in row} - {group}, key=order.index) for group in order}
    for group in order:
        for other in below[group]:
            if order.index(other) > order.index(group):
                raise SystemExit("crates.txt: the group %s stands on %s, which stands behind it" % (group, other))
    on, level = reduced(below), levels(below)
    for height in range(max(level.values()), -1, -1):
        row = [group for group in order if level[group] == height]
        width = 96 if len(row) == 1 else 46
        parts = []
        for group in row:
            title = group + (" (on %s)" % ", ".join(on[group]) if on[group] else "")
            parts.append((title, wrapped(crates[group], width)))
        tall = max(len(lines) for _, lines in parts)
        boxes = [list(box(title, lines + [""] * (tall - len(lines)), width)) for title, lines in parts]
        for line in zip(*boxes):
            yield "    " + "  ".join(line)


def flow(found):
    known = {name for _, crates in found for name in crates}
    for name in re.findall(r"\[(\w+)\]", FLOW):
        if name not in known:
            raise SystemExit("tools/map.py: the flow names %s, which isn't in crates.txt" % name)
    return FLOW.strip("\n")


def tables(found):
    below = {name: row for _, crates in found for name, row in crates.items()}
    on, level = reduced(below), levels(below)
    for group, crates in found:
        yield "### %s\n" % group
        yield "| Crate | Level | Stands on | What it is |"
        yield "|---|--:|---|---|"
        for name in crates:
            yield "| %s | %d | %s | %s |" % (name, level[name], ", ".join(on[name]) or "–", what(name).replace("|", "\\|"))
        yield ""


def part():
    found = groups()
    count = sum(len(crates) for _, crates in found)
    lines = ["%d crates in %d groups. A group knows those below it alone.\n" % (count, len(found)), *picture(found), ""]
    lines += ["## The flow of data\n", flow(found), "", "## The crates\n"]
    lines += ["A level is one more than the highest level that a crate stands on. What it stands on through another is left out.\n"]
    return "\n".join(lines + list(tables(found)))


def main():
    page = read("docs/MAP.md")
    if page.count(MARKS[0]) != 1 or page.count(MARKS[1]) != 1:
        raise SystemExit("docs/MAP.md needs the two lines\n%s\n%s" % MARKS)
    front, rest = page.split(MARKS[0])
    _, back = rest.split(MARKS[1])
    made = front + MARKS[0] + "\n\n" + part() + "\n" + MARKS[1] + back
    if "--check" not in sys.argv:
        with open(PAGE, "w", encoding="utf-8") as file:
            file.write(made)
    elif made != page:
        raise SystemExit("docs/MAP.md is not what tools/map.py would write")
    print("docs/MAP.md: %d crates" % sum(len(crates) for _, crates in groups()))


main()
