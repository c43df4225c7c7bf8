"""Holds our answers against the Rust's, then measures all sides, and writes target/bench/results.json for report.py and plot.py.

A time is the best of three repetitions of at least 0.1 s. There are nine rounds, in which the sides take turns, and the times
of all of them are kept. Every driver runs on the same processor, before other programs where that is allowed.
"""
import contextlib
import filecmp
import json
import os
import re
import resource
import subprocess
import sys

ROOT = os.path.dirname(os.path.dirname(os.path.abspath(__file__)))
WORK = os.path.join(ROOT, "target", "bench")
LIBTHAI_WORDS = os.path.join(ROOT, "target/differential/debian/usr/share/libthai/thbrk.tri")
DRIVERS = {
    "ours": os.path.join(WORK, "ours"),
    "before": os.path.join(WORK, "before"),
    "rust": os.path.join(WORK, "cargo/release/nlpo3-bench"),
    "libthai": os.path.join(WORK, "libthai"),
    "icu": os.path.join(WORK, "icu"),
}
ROUNDS = 9
# rounds of the Rust over the growth cases, in some of which a pass takes seconds
SLOW = 3
# the processor that all drivers run on
PROCESSOR = max(os.sched_getaffinity(0))
# how much further in front a driver is than other programs, where that is allowed
RAISED = -15
SIZES = (250, 1000, 4000, 16000, 65535)
RUST_LIMIT = 20
LOOPS = {"GLIBC_TUNABLES": "glibc.cpu.x86_rep_stosb_threshold=1000000000:glibc.cpu.x86_rep_movsb_threshold=1000000000"}
RUST_BYTES = 6 << 30

LINES, LONG = "lines.lines", "long.txt"
# all lines, and the characters of LINES as one text
ALL, JOINED = "texts.lines", "joined.txt"
# texts and words of the lookups with other first characters
FIRSTS = [(LONG, "many")] + [("spaced-%d.txt" % n, "spaced-%d" % n) for n in (200, 20000)]
# operation, texts, words: what ours and the Rust are both measured on
ROWS = (
    [("decode", texts, "small") for texts in (LINES, LONG)]
    + [("clusters", texts, "small") for texts in (LINES, LONG)]
    + [("places", LONG, words) for words in ("small", "all")]
    + [("places", texts, words) for texts, words in FIRSTS]
    + [("prefix", LINES, words) for words in ("small", "all")]
    + [(op, texts, words) for op in ("plain", "safe") for words in ("small", "all") for texts in (LINES, LONG)]
    + [("batch", texts, words) for words in ("small", "all") for texts in (LINES, ALL)]
)
# words that are loaded by an image
IMAGES = ("small", "some", "all")
# how many times the nodes it uses a roomy pool is lent with; a double one has room for the words of two plants
ROOM = 8
# words, and how many of them are taken out and put in again
EDITED = {"small": 100, "all": 10}
# what the other sides do text by text
ONE_BY_ONE = {"batch": "plain"}
OTHERS = [("libthai", "plain"), ("icu", "plain"), ("icu", "decode")]
# texts and words of the growth of plain cutting
CASES = [("ordinary", "all"), ("ordinary", "small")] + [(case, case) for case in ("worst-1", "worst-2", "worst-3")]


def inputs(name):
    return os.path.join(WORK, "inputs", name)


def words_for(side, words):
    """The argument that tells a driver its words."""
    if side in ("ours", "before"):
        return [os.path.join(WORK, words + ".pool")]
    if side == "rust":
        return [inputs(words + ".words.lines")]
    return [LIBTHAI_WORDS] if side == "libthai" else []


def command(side, how, op, texts, words):
    op = op if side in ("ours", "before") else ONE_BY_ONE.get(op, op)
    return [DRIVERS[side], how, op, inputs(texts)] + words_for(side, words)


def output(words, **more):
    return subprocess.run(words, stdout=subprocess.PIPE, check=True, encoding="utf-8", **more).stdout


def settle():
    """Keeps a driver on its processor, and lets it run before other programs where that is allowed."""
    os.sched_setaffinity(0, {PROCESSOR})
    with contextlib.suppress(PermissionError):
        os.setpriority(os.PRIO_PROCESS, 0, RAISED)


def may_rise():
    """Whether a driver is let run before other programs."""
    told = "import os; os.setpriority(os.PRIO_PROCESS, 0, %d)" % RAISED
    return subprocess.run([sys.executable, "-c", told], stderr=subprocess.DEVNULL, check=False).returncode == 0


def time_of(*what):
    return float(output(command(what[0], "time", *what[1:]), preexec_fn=settle))


def instructions_of(side, *what):
    """The instructions of one pass, counted by callgrind, with loops where the C library would repeat one instruction."""
    tool = ["valgrind", "--tool=callgrind", "--toggle-collect=bench_pass", "--callgrind-out-file=/dev/null"]
    words = tool + command(side, "once", *what)
    done = subprocess.run(words, stderr=subprocess.PIPE, check=True, encoding="utf-8", env={**os.environ, **LOOPS})
    return int(re.search(r"Collected : (\d+)", done.stderr).group(1))


def load_pools():
    """Adds the words of each dictionary one by one; the time, the pool's bytes, and what the Rust takes."""
    found = {}
    for line in open(inputs("dictionaries"), encoding="utf-8"):
        name, words, nodes, *base = line.split()
        added = inputs(name + (".more.lines" if base else ".words.lines"))
        pools = [os.path.join(WORK, pool + ".pool") for pool in [name] + base]
        ns, size = output([DRIVERS["ours"], "load", added, nodes] + pools).split()
        rust_ns, rust_size = output([DRIVERS["rust"], "memory", inputs(name + ".words.lines")]).split()
        found[name] = {
            "words": int(words),
            "nodes": int(nodes),
            "ours": [float(ns), int(size)],
            "rust": [float(rust_ns), int(rust_size)],
        }
    for side in ("libthai", "icu"):
        ns, size = output(command(side, "memory", "plain", LONG, "")).split()
        found[side] = {side: [float(ns), int(size)]}
    return found


def make_roomy():
    """The same pools lent with more nodes, which are 0."""
    for words in ("small", "all"):
        pool = open(os.path.join(WORK, words + ".pool"), "rb").read()
        for name, more in ("roomy", (ROOM - 1) * len(pool)), ("double", len(pool) - 32):
            with open(os.path.join(WORK, "%s-%s.pool" % (words, name)), "wb") as file:
                file.write(pool + bytes(more))


def edits(words):
    """The name of a file with some of the words, taken evenly."""
    name = "edits-%s.lines" % words
    held = open(inputs(words + ".words.lines"), encoding="utf-8").read().splitlines()
    step = len(held) // EDITED[words]
    with open(inputs(name), "w", encoding="utf-8") as file:
        file.writelines(word + "\n" for word in held[step // 2 :: step][: EDITED[words]])
    return name


def limit_memory():
    resource.setrlimit(resource.RLIMIT_AS, (RUST_BYTES, RUST_BYTES))


def answers(side, *what, **more):
    path = os.path.join(WORK, side + ".answers")
    with open(path, "w", encoding="utf-8") as file:
        subprocess.run(command(side, "answers", *what), stdout=file, check=True, **more)
    return path


def hold(what, **more):
    """Stops where our answers and the Rust's differ. False where the Rust passes its limits."""
    ours = answers("ours", *what)
    try:
        rust = answers("rust", *what, **more)
    except (subprocess.TimeoutExpired, subprocess.CalledProcessError):
        return False
    if not filecmp.cmp(ours, rust, shallow=False):
        raise SystemExit("the answers differ: %s %s %s" % what)
    return True


def rounds(wanted, many=ROUNDS):
    """The times of each (side, what) in every round."""
    found = {key: [] for key in wanted}
    for _ in range(many):
        for key in wanted:
            found[key].append(time_of(key[0], *key[1]))
    return found


def measure_rows():
    wanted = [(side, what) for what in ROWS for side in ("ours", "rust")]
    wanted += [(side, (op, texts, "")) for side, op in OTHERS for texts in (LINES, LONG)]
    wanted += [(side, ("batch", ALL, "")) for side in ("libthai", "icu")]
    wanted += [("ours", ("plain", JOINED, words)) for words in ("small", "all")]
    lent = ("small", "all", "small-roomy", "all-roomy")
    wanted += [("ours", (op, LONG, words)) for words in lent for op in ("check", "read", "read-wide")]
    wanted += [("ours", ("check", texts, words)) for texts, words in FIRSTS]
    wanted += [("ours", ("winners", texts, "small")) for texts in (LINES, LONG)]
    wanted += [("ours", ("sheet", texts, words)) for words in ("small", "all") for texts in (LINES, LONG)]
    wanted += [("ours", (op, LONG, words)) for words in ("small", "all") for op in ("cut", "reasons", "feed", "claim", "map", "next", "next-bare")]
    wanted += [("ours", (op, ALL, words)) for words in ("small", "all") for op in ("many", "reasons-many")]
    wanted += [("ours", (op, LONG, words)) for words in IMAGES for op in ("read-image", "write-image")]
    wanted += [("ours", ("plant-check", LONG, words)) for words in lent]
    for words in ("small", "all"):
        double, some = words + "-double", edits(words)
        wanted += [("ours", (op, LONG, double)) for op in ("check", "cut", "plant-check", "plant-cut")]
        wanted += [("ours", (op, ALL, double)) for op in ("many", "reasons-many", "plant-many", "plant-reasons-many")]
        wanted += [("ours", (op, some, double)) for op in ("check", "edit", "plant-check", "plant-edit")]
    if os.path.exists(DRIVERS["before"]):
        wanted += [("before", (op, LONG, "all")) for op in ("places", "check")]
    times = rounds(wanted)
    rows = []
    for side, what in wanted:
        print("counting", side, *what, flush=True)
        count = instructions_of(side, *what)
        rows.append({"side": side, "what": what, "times": times[side, what], "instructions": count})
    return rows


def growth():
    """The cost of plain cutting by length, and of checking its ends: ordinary text, and the three worst cases."""
    found = []
    for case, words in CASES:
        rust = True
        for n in SIZES:
            what = ("plain", "%s-%d.txt" % (case, n), words)
            print("growth", *what, flush=True)
            rust = rust and hold(what, timeout=RUST_LIMIT, preexec_fn=limit_memory)
            row = {"case": case, "words": words, "n": n, "instructions": instructions_of("ours", *what)}
            row["ours"] = rounds([("ours", what)])["ours", what]
            row["rust"] = min(rounds([("rust", what)], SLOW)["rust", what]) if rust else None
            row["claim"] = instructions_of("ours", "claim", *what[1:])
            found.append(row)
    return found


def breaks():
    """The number of ends of the long text's plain cut, by the words."""
    return {words: len(output(command("ours", "answers", "cut", LONG, words)).split()) for words in ("small", "all")}


def images():
    """The bytes of the words' images."""
    return {words: int(output(command("ours", "size", "read-image", LONG, words))) for words in IMAGES}


def sizes():
    """The characters and bytes of the texts."""
    found = {}
    for name in [LINES, ALL, JOINED, LONG] + [texts for texts, _ in FIRSTS[1:]]:
        data = open(inputs(name), "rb").read()
        text = data.decode("utf-8")
        feeds = text.count("\n") if name in (LINES, ALL) else 0
        found[name] = {"characters": len(text) - feeds, "bytes": len(data) - feeds, "texts": feeds or 1}
    return found


def main():
    print("adding the words one by one", flush=True)
    loads = load_pools()
    make_roomy()
    for what in ROWS:
        print("comparing", *what, flush=True)
        if not hold(what):
            raise SystemExit("the Rust gives no answers: %s %s %s" % what)
    for texts in (LINES, LONG):
        if not filecmp.cmp(answers("ours", "winners", texts, "small"), answers("rust", "clusters", texts, "small"), shallow=False):
            raise SystemExit("the two matchers differ: %s" % texts)
    ran = {"rounds": ROUNDS, "raised": may_rise(), "load": os.getloadavg()[0], "processors": os.cpu_count()}
    results = {"ran": ran, "sizes": sizes(), "breaks": breaks(), "images": images(), "loads": loads, "rows": measure_rows(), "growth": growth()}
    with open(os.path.join(WORK, "results.json"), "w", encoding="utf-8") as file:
        json.dump(results, file, indent=1)


if __name__ == "__main__":
    main()
