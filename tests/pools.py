"""Pools given by their cells: each rule of docs/POOL.md broken, alone where it can be, and pools that pass.

The answers come from `broken`, which reads the rules off that page. A change says which rules it is to break, and the
script stops where it breaks others.
"""
from trie_model import A, B, C, JUNK, MAX_CLASS, MAX_NODES, NEVER, TRIMMED, cells_of, is_scalar, text

# The root, A, B, AB, AC, B blank, B blank A, and two nodes that are not in use.
GOOD = cells_of({(A,): 0, (A, B): 7, (A, C): MAX_CLASS, (B, 32, A): 1}, 72)


def broken(cells):
    """The rules of a plain pool that do not hold; where rule 1 doesn't, none of 2 to 11 is looked at."""
    capacity = min(len(cells) // 8, MAX_NODES)
    nodes = [cells[8 * i : 8 * i + 8] for i in range(capacity)]
    found = {13} if any(any(node[4:]) for node in nodes) or nodes and nodes[0][3] else set()
    used = nodes[0][0] if nodes else 0
    if not 1 <= used <= capacity:
        return found | {1}
    return found | in_half(nodes, used)


def in_half(nodes, used):
    """Those of rules 2 to 11, which all speak of the first halves, that do not hold."""
    held, found = nodes[:used], set()
    ends = [1] + [node[1] + node[2] for node in held]
    if [node[1] for node in held] != ends[:-1] or ends[-1] != used:
        found.add(2)
    if any(node[1] <= i for i, node in enumerate(held)):
        found.add(3)
    for node in held:
        children = [child[0] for child in held[node[1] : node[1] + node[2]]]
        if any(y <= x for x, y in zip(children, children[1:])):
            found.add(4)
    for scalar, _, count, mark in (node[:4] for node in held[1:]):
        found |= {5} if not is_scalar(scalar) else set()
        found |= {6} if mark > 1 + MAX_CLASS else set()
        found |= {7} if count == 0 and mark == 0 else set()
        found |= {9} if mark != 0 and scalar in TRIMMED else set()
    if any(node[0] in TRIMMED for node in held[1 : 1 + held[0][2]]):
        found.add(8)
    if 2 not in found and levels(held) > 255:
        found.add(10)
    if any(any(node[:4]) for node in nodes[used:]):
        found.add(11)
    return found


def levels(held):
    """The levels below the root, of nodes in level order: how often one goes from a level's last node to the next level's."""
    depth, end = 0, 1
    while held[end - 1][1] + held[end - 1][2] > end:
        depth, end = depth + 1, held[end - 1][1] + held[end - 1][2]
    return depth


def line(cells):
    words = sum(cells[8 * i + 3] != 0 for i in range(1, cells[0])) if not broken(cells) else None
    return "pool\t" + text(cells), "! 4 0" if words is None else "ok %d" % words


def passes(cells):
    if broken(cells):
        raise SystemExit("a pool that should pass breaks %s" % broken(cells))
    return line(cells)


def breaks(rules, cells):
    if broken(cells) != rules:
        raise SystemExit("%s: meant to break %s and breaks %s" % (text(cells), rules, broken(cells)))
    return line(cells)


def changed(*changes):
    """The good pool with other values in some cells: (node, cell, value)."""
    cells = list(GOOD)
    for node, cell, value in changes:
        assert cells[8 * node + cell] != value
        cells[8 * node + cell] = value
    return cells


# Rules, and changes of the good pool each of which breaks these.
CHANGES = [
    ({1}, [[(0, 0, 0)], [(0, 0, 10)], [(0, 0, JUNK)]]),
    ({2, 11}, [[(0, 0, 6)]]),
    ({2, 3, 7}, [[(0, 0, 8)]]),
    ({2}, [[(2, 1, 6)], [(6, 2, 1)], [(4, 1, 5)]]),
    ({2, 4}, [[(0, 1, 2)], [(1, 1, 4)]]),
    ({2, 3}, [[(0, 1, 0)]]),
    ({2, 7}, [[(5, 2, 0)]]),
    ({4}, [[(1, 0, C)], [(2, 0, A)], [(4, 0, B)], [(3, 0, C)]]),
    ({5}, [[(4, 0, 0xD800)], [(4, 0, 0xDFFF)], [(4, 0, 0x110000)], [(4, 0, JUNK)], [(3, 0, 0xDFFF), (4, 0, 0xE000)]]),
    ({6}, [[(1, 3, 65537)], [(3, 3, 65537)], [(4, 3, 65537)], [(6, 3, 0x10000 + 65536)], [(1, 3, JUNK)]]),
    ({7}, [[(3, 3, 0)], [(4, 3, 0)], [(6, 3, 0)]]),
    ({8}, [[(2, 0, x), (1, 0, 8)] for x in (9, 13, 32, 0xA0)]),
    ({8, 9}, [[(1, 0, x)] for x in (9, 13, 32, 0xA0)]),
    ({9}, [[(3, 0, 32)], [(5, 3, 1)], [(5, 3, 65536)], [(6, 0, 9)], [(6, 0, 0x3000)]]),
    ({11}, [[(7, k, 1)] for k in range(4)] + [[(8, 0, JUNK)], [(8, 3, 1)]]),
    ({13}, [[(0, 3, x)] for x in (1, 2, 10, JUNK)] + [[(i, k, 1)] for i in range(9) for k in range(4, 8)] + [[(4, 4, JUNK)]]),
]


def halves(first, second):
    """Two rows of four cells a node, as the halves of nodes."""
    return [cell for i in range(0, len(first), 8) for cell in first[i : i + 4] + second[i : i + 4]]


def pools():
    """The good pool and changes of it, deep ones, and pools of other kinds."""
    yield passes(GOOD)
    yield passes(GOOD + [5, 6, 7])
    yield passes(GOOD + [0, 0, 0, 0, 1, 1, 1])
    yield passes(GOOD + [0] * 8)
    yield passes(GOOD[:56])
    yield passes([1, 1, 0, 0, 0, 0, 0, 0])
    # what is never trimmed may stand at an edge, and what is trimmed inside
    for x in NEVER:
        yield passes(cells_of({(x,): 0, (x, x): 5}, 24))
    for x in sorted(TRIMMED):
        yield passes(cells_of({(A, x, B): 0}, 32))
        yield breaks({8, 9}, cells_of({(x,): 0}, 16))
        yield breaks({9}, cells_of({(A, x): 5}, 24))
        yield breaks({8}, cells_of({(x, A): 0}, 24))
    for mark in 1, 2, 255, 256, 65535, 65536:
        yield passes(changed((3, 3, mark)))
    # a node inside a word: with a word there and without
    yield passes(changed((1, 3, 0)))
    yield passes(changed((2, 3, 65536)))
    for rules, all_changes in CHANGES:
        for changes in all_changes:
            yield breaks(rules, changed(*changes))
    yield breaks({1}, GOOD[:55])
    yield breaks({1}, [0] * 64)
    yield breaks({1}, [])
    yield breaks({1}, [1, 1, 0, 0, 0, 0, 0])
    # a node that is its own child
    yield breaks({3}, [3, 1, 1, 0, 0, 0, 0, 0, A, 2, 0, 1, 0, 0, 0, 0, B, 2, 1, 1, 0, 0, 0, 0])
    # a dictionary in the second halves, in both, and as two plants have it
    empty, other = [0] * 72, cells_of({(B,): 2}, 72)
    yield breaks({1, 13}, halves(empty, GOOD))
    yield breaks({13}, halves(GOOD, GOOD))
    yield breaks({13}, halves(GOOD, other))
    yield breaks({13}, halves(GOOD[:3] + [8] + GOOD[4:], other[:3] + [2] + other[4:]))
    yield breaks({13}, [1, 1, 0, 1, 1, 1, 0, 1])
    # more nodes behind it, whose second halves are not 0
    yield breaks({13}, GOOD + [0] * 12 + [1, 0, 0, 0])
    deep = cells_of({(A,) * 255: 3}, 2056)
    yield passes(deep)
    deep[0] = 257
    deep[8 * 255 + 1 : 8 * 255 + 4] = [256, 1, 1]
    deep[8 * 256 : 8 * 256 + 4] = [A, 257, 0, 1]
    yield breaks({10}, deep)
