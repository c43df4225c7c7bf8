"""Holds the Rust against the model's lines in tests/vectors/model.txt, or against another file: differential/against_vectors.py [VECTORS]

Takes the lines of clusters, prefix, dict, cut and reasons. The Rust refuses nothing, so a refused call is left out, and a
refused step of a dictionary script, which changes nothing, is taken out of it. It has no classes: a script that gives
another than 0 is left out, and a cut or lookup by words with classes is compared.
"""
import collections
import os
import sys

import sides

OPS = ("clusters", "prefix", "dict", "cut", "reasons")
MODEL = os.path.join(sides.ROOT, "tests", "vectors", "model.txt")


def compared(fields, expected):
    """The line as the Rust can answer it, with its answer; or None and why not."""
    if expected.startswith("! "):
        return None, "refused"
    if fields[0] != "dict":
        return fields, expected
    kept = [(step, answer) for step, answer in zip(fields[2].split(";"), expected[3:].split(";")) if not answer.startswith("!")]
    if not kept:
        return None, "refused"
    if any(step[0] == "+" and step.partition(":")[2] not in ("", "0") for step, _ in kept):
        return None, "classes"
    return [fields[0], fields[1], ";".join(step for step, _ in kept)], "ok " + ";".join(answer for _, answer in kept)


def main():
    taken, counts = [], collections.Counter()
    for line in open(sys.argv[1] if len(sys.argv) > 1 else MODEL, encoding="ascii"):
        fields = line.rstrip("\n").split("\t")
        if fields[0] not in OPS:
            continue
        given, expected = compared(fields[:-2], fields[-1])
        counts[fields[0] + (" compared" if given else " left out: " + expected)] += 1
        if given:
            taken.append(("\t".join(given), expected))
    answers = sides.rust([line for line, _ in taken])
    different = 0
    for (line, expected), answer in zip(taken, answers):
        if answer != expected:
            different += 1
            print("%s\n  expected %s\n  the Rust %s" % (line, expected, answer))
    for what in sorted(counts):
        print("%6d %s" % (counts[what], what))
    print("%d lines, %d differences" % (len(taken), different))
    sys.exit(different > 0)


main()
