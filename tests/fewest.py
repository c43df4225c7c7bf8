"""Cuts told stretch by stretch, and that the words of a stretch are the fewest.

windows.txt has texts whose plain cut an independent model tells as first:second:path:edges:places for each two committed
ends, one after the other; the path is `-` where the non-dictionary rule gave the token. Each makes a line for the cut,
the ends joined and the edges summed. On the way each path is held to a search of its own over all chains of words: with
at most 50 edges none has fewer words, and the edges are at most 50 more than the starting places.
"""
import vectors
from make_tcc import clusters, parsed, read, tables

MOST_EDGES = 50


def stretches(expected):
    """The stretches of an answer: first, second, the ends of its words or none, edges, places."""
    for part in [] if expected == "ok -" else expected[3:].split(";"):
        first, second, path, edges, places = part.split(":")
        ends = None if path == "-" else [int(end) for end in path.split(".")][1:]
        yield int(first), int(second), ends, int(edges), int(places)


def fewest(text, words, ends, first, second):
    """The least number of words from first to second, each word ending at a cluster end."""
    reached, steps = {first}, 0
    while second not in reached:
        steps += 1
        reached = {b + len(word) for b in reached for word in words if text[b:b + len(word)] == word and b + len(word) in ends}
    return steps


def lines():
    """The lines for the cut, and how many stretches would do with fewer words."""
    rules = tables(read())
    made, fewer = [], 0
    for fields, expected in vectors.read("windows.txt", ["windows"]):
        _, words, scalars = fields
        text = "".join(map(chr, parsed(scalars)))
        held = {"".join(map(chr, parsed(word.split(":")[0]))) for word in words.split(",")} if words != "-" else set()
        ends, _ = clusters(text, rules)
        told, total, at = [], 0, 0
        for first, second, path, edges, places in stretches(expected):
            assert first == at and edges <= MOST_EDGES + places, fields
            if path:
                least = fewest(text, held, set(ends), first, second)
                assert least == len(path) or edges > MOST_EDGES, fields
                fewer += least < len(path)
            told += path or [second]
            total, at = total + edges, second
        made.append((["cut", "plain", words, scalars, "*", "*"], "ok %s %d" % (",".join(map(str, told)) or "-", total)))
    assert fewer, "no text shows that more than 50 edges can miss the fewest words"
    return made
