"""compare.py BEFORE [NOW]: the instructions of the pool's operations with the archives of two folders, and their ratio.

BEFORE and NOW each have libfetlockice.a and libbench_prefix_search.a; NOW is this tree's target/host unless given. Each
side makes its pools itself, by adding the words one by one, so the cells of the two may differ. The texts and words are
those that bench/run has written. It prints a table; what the check of the pool takes is taken off where the row says so.
"""
import os
import re
import subprocess
import sys

import measure

WORK = os.path.join(measure.WORK, "compare")
DRIVERS = os.path.join(measure.ROOT, "bench", "drivers")
HEADER = os.path.join(measure.ROOT, "host", "include")

def build(side, folder):
    """The driver over the archives of a folder."""
    program = os.path.join(WORK, side)
    archives = [os.path.join(folder, "lib%s.a" % name) for name in ("fetlockice", "bench_prefix_search")]
    words = ["gcc", "-std=gnu11", "-O2", "-I" + DRIVERS, "-I" + HEADER, os.path.join(DRIVERS, "ours.c")]
    subprocess.run(words + archives + ["-o", program], check=True)
    return program


def nodes():
    rows = [line.split() for line in open(measure.inputs("dictionaries"), encoding="utf-8")]
    return {name: count for name, _, count, *_ in rows}


def load(program, words):
    """A pool of the words, made by the driver itself."""
    pool = "%s-%s.pool" % (program, words)
    measure.output([program, "load", measure.inputs(words + ".words.lines"), nodes()[words], pool])
    return pool


def instructions(program, op, texts, pool, counted="bench_pass"):
    """Those of one pass, within the function that is counted."""
    tool = ["valgrind", "--tool=callgrind", "--toggle-collect=" + counted, "--callgrind-out-file=/dev/null"]
    done = subprocess.run(tool + [program, "once", op, texts, pool], stderr=subprocess.PIPE, check=True, encoding="utf-8",
                          env={**os.environ, **measure.LOOPS})
    return int(re.search(r"Collected : (\d+)", done.stderr).group(1))


def rows(program, words):
    """What is measured, in order, with the instructions of one call."""
    pool, long, some = load(program, words), measure.inputs(measure.LONG), measure.inputs(measure.edits(words))
    check = instructions(program, "check", long, pool)
    yield "check of the pool", check
    places = [instructions(program, "places", texts, pool) for texts in (long, os.devnull)]
    yield "lookup at every place of the long text, without the check", places[0] - places[1]
    for mode in "plain", "safe":
        yield "%s cut of the long text" % mode, instructions(program, mode, long, pool)
    for name in "add", "remove":
        each = instructions(program, "edit", some, pool, "fetlockice_" + name) // measure.EDITED[words]
        yield name, each
        yield name + " without the check", each - check


def main():
    folders = {"before": sys.argv[1], "now": sys.argv[2] if len(sys.argv) > 2 else os.path.join(measure.ROOT, "target", "host")}
    os.makedirs(WORK, exist_ok=True)
    programs = {side: build(side, folder) for side, folder in folders.items()}
    print("| Words | Row | before | now | now / before |\n|---|---|--:|--:|--:|")
    for words in measure.EDITED:
        before, now = (list(rows(programs[side], words)) for side in ("before", "now"))
        for (name, old), (_, new) in zip(before, now):
            print("| %s | %s | %d | %d | %.3f |" % (words, name, old, new, new / old), flush=True)


main()
