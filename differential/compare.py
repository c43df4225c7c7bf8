"""Runs both sides on made cases and compares every answer: differential/compare.py COUNT SEED

Stops at the first difference, with the smallest input that has it.
"""
import collections
import sys
import time

import generate
import shrink
import sides

# What one call of a program is given; it reads at most a quarter of a mebibyte.
BATCH = 200000


def batches(count, seed):
    """Cases of one kind, as many as a program takes at once. Safe cuts are left out where no program answers them."""
    waiting, sizes = collections.defaultdict(list), collections.Counter()
    groups = [group for group in generate.MADE + generate.REAL if any(kind.startswith(group.op) for kind in sides.standing())]
    for name, line in generate.cases(groups, count, seed):
        kind = sides.kind(line)
        if kind not in sides.standing():
            continue
        if waiting[kind] and BATCH < sizes[kind] + len(line) + 1:
            yield waiting.pop(kind)
            sizes[kind] = 0
        waiting[kind].append((name, line))
        sizes[kind] += len(line) + 1
    yield from waiting.values()


def stop(name, line, cases):
    least = shrink.shrunk(line)
    print("difference in %s, after %d cases" % (name, cases))
    print("  input    %s" % line)
    print("  smallest %s" % least)
    print("  here     %s" % sides.ours([least])[0])
    print("  the Rust %s" % sides.rust([least])[0])
    sys.exit(1)


def main():
    count, seed = int(sys.argv[1]), sys.argv[2]
    for kind in sorted(set(sides.PROGRAMS) - set(sides.standing())):
        print("not compared: %s, for which no program stands" % kind)
    counts, start = collections.Counter(), time.monotonic()
    for batch in batches(count, seed):
        given = [line for _, line in batch]
        here, there = sides.ours(given), sides.rust(given)
        if here != there:
            k = next(k for k in range(len(given)) if here[k] != there[k])
            stop(*batch[k], sum(counts.values()) + k + 1)
        counts.update(name for name, _ in batch)
    for name in counts:
        print("%9d %s" % (counts[name], name))
    print("seed %s, %.0f s" % (seed, time.monotonic() - start))
    print("%d cases, 0 differences" % sum(counts.values()))


main()
