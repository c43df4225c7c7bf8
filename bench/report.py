"""Writes bench/RESULTS.md from target/bench/results.json, and prints it."""
import glob
import json
import operator
import os
import re
import statistics
import subprocess

ROOT = os.path.dirname(os.path.dirname(os.path.abspath(__file__)))
WORK = os.path.join(ROOT, "target", "bench")
LINES, LONG = "lines.lines", "long.txt"
ALL, JOINED = "texts.lines", "joined.txt"
# how many times the nodes it uses a roomy pool is lent with
ROOM = 8
NAMES = {
    "decode": "decoding",
    "clusters": "clusters",
    "places": "prefix lookup at each place, the search alone",
    "prefix": "prefix lookup at each text's start, the public call",
    "plain": "plain, from bytes to ends",
    "safe": "safe, from bytes to ends",
    "batch": "plain, all lines in one call, from bytes to ends",
}
WORST = {
    "worst-1": "n times ก, {กก, กกก}",
    "worst-2": "n times ก, {ก to 255 times ก}",
    "worst-3": "(254 times ก, ข) repeated, {255 times ก}",
}


def first_line(*words):
    return subprocess.run(words, stdout=subprocess.PIPE, check=True, encoding="utf-8").stdout.split("\n")[0]


def machine():
    """The processor, the compilers and the versions, without a host's name or a path."""
    info = open("/proc/cpuinfo", encoding="utf-8").read()
    processor = re.search(r"model name\s*: (.*)", info)
    yield "Processor: %s, %d of them" % (processor.group(1) if processor else first_line("uname", "-m"), os.cpu_count())
    yield "The proved library: %s, its compiler's -O3" % re.sub(r"\S*/\S*", "", first_line("rt", "version")).strip()
    yield "The Rust: %s, release, without debug assertions" % first_line("rustc", "--version")
    yield "The C drivers: %s, -O2" % first_line("gcc", "--version")
    found = sorted(os.path.basename(path).split("_")[:2] for path in glob.glob(os.path.join(WORK, "packages", "*.deb")))
    yield "Beside them: %s" % ", ".join(" ".join(pair) for pair in found if re.fullmatch(r"libthai0|libicu\d+", pair[0]))


def table(head, rows):
    yield "| %s |" % " | ".join(head)
    yield "|%s|" % "|".join("---" if i == 0 else "--:" for i in range(len(head)))
    for row in rows:
        yield "| %s |" % " | ".join(row)


def ns(x):
    return "{:,.1f}".format(x) if x < 1000 else "{:,.0f}".format(x)


def seconds(x):
    return "%.2f s" % (x / 1e9) if x >= 1e8 else "%.2f ms" % (x / 1e6)


class Results:
    """What was measured. Of the times in all rounds `pick` takes one: the best, or that of a round."""

    def __init__(self, found, pick=min):
        self.all, self.pick = found, pick
        self.rows = {(row["side"], *row["what"]): row for row in found["rows"]}
        self.sizes, self.loads, self.ran = found["sizes"], found["loads"], found["ran"]
        self.breaks, self.images = found["breaks"], found["images"]
        self.growth = [{**row, "ours": pick(row["ours"])} for row in found["growth"]]

    def rounds(self):
        """The same by the times of each round alone, in which the sides took turns."""
        return [Results(self.all, operator.itemgetter(k)) for k in range(self.ran["rounds"])]

    def time(self, *key):
        return self.pick(self.rows[key]["times"]) - (self.time(*self.check(*key)) if self.check(*key) else 0)

    def count(self, *key):
        return self.rows[key]["instructions"] - (self.count(*self.check(*key)) if self.check(*key) else 0)

    def check(self, side, op, texts, words):
        """The row that is taken off: ours checks the pool once before it searches at each place."""
        return (side, "check", texts, words) if side in ("ours", "before") and op == "places" else None

    def faster(self, op, texts, words, side="rust"):
        """How many times faster ours is than another side, by time and by instructions."""
        key = (side, op, texts, words if side == "rust" else "")
        return [of(*key) / of("ours", op, texts, words) for of in (self.time, self.count)]

    def words(self, name):
        return "{:,}".format(self.loads[name]["words"]) if name in self.loads else "its own"

    def cells(self, side, op, texts, words):
        """Nanoseconds a character, megabytes a second, instructions a character."""
        size, time = self.sizes[texts], self.time(side, op, texts, words)
        per = self.count(side, op, texts, words) / size["characters"]
        return [ns(time / size["characters"]), ns(1000 * size["bytes"] / time), ns(per)]

    def spread(self):
        """The median of how much slower the worst round is than the best one."""
        found = sorted(max(row["times"]) / min(row["times"]) - 1 for row in self.all["rows"])
        return found[len(found) // 2]


def spread(ratios):
    """The lowest and the highest ratio of the rounds."""
    return "%.2f to %.2f" % (min(ratios), max(ratios))


def where(r, texts):
    if texts.startswith("spaced"):
        return "a text of evenly spaced characters"
    if texts == JOINED:
        return "the lines joined to one text"
    return "one long text" if texts == LONG else "%s lines" % "{:,}".format(r.sizes[texts]["texts"])


def both(r):
    head = ["operation, text, words", "ours ns", "MB/s", "instr.", "Rust ns", "MB/s", "instr.", "faster", "in the rounds", "by instr."]
    rows, rounds = [], r.rounds()
    for side, op, texts, words in r.rows:
        if side == "ours" and ("rust", op, texts, words) in r.rows:
            by_time, by_count = r.faster(op, texts, words)
            ratios = ["%.2f" % by_time, spread([one.faster(op, texts, words)[0] for one in rounds]), "%.2f" % by_count]
            rows.append([label(r, op, texts, words)] + r.cells("ours", op, texts, words) + r.cells("rust", op, texts, words) + ratios)
    return table(head, rows)


def modes(r):
    head = ["text, words", "plain ns", "instr.", "safe ns", "instr.", "sheet ns", "instr.", "sheet / safe", "by instr."]
    rows = []
    for words in ("small", "all"):
        for texts in (LINES, LONG):
            row = ["%s; %s words" % (where(r, texts), r.words(words))]
            for op in ("plain", "safe", "sheet"):
                cells = r.cells("ours", op, texts, words)
                row += [cells[0], cells[2]]
            rows.append(row + ["%.2f" % (of("ours", "sheet", texts, words) / of("ours", "safe", texts, words)) for of in (r.time, r.count)])
    return table(head, rows)


def matchers(r):
    """The second matcher, which also tells the winners, beside the first."""
    head = ["text", "clusters, ns", "instr.", "with winners, ns", "instr.", "times slower", "by instr."]
    rows = []
    for texts in (LINES, LONG):
        row = [where(r, texts)]
        for op in ("clusters", "winners"):
            cells = r.cells("ours", op, texts, "small")
            row += [cells[0], cells[2]]
        rows.append(row + ["%.1f" % (of("ours", "winners", texts, "small") / of("ours", "clusters", texts, "small")) for of in (r.time, r.count)])
    return table(head, rows)


def others(r):
    sides, ops = {"libthai": "libthai", "icu": "ICU"}, {"plain": "word breaks", "batch": "word breaks", "decode": "decoding to UTF-16"}

    def times_ours(side, op, texts, words):
        if ("ours", op, texts, words) not in r.rows:
            return ""
        return "%.2f" % (r.time(side, op, texts, "") / r.time("ours", op, texts, words))

    rows = []
    for side, op, texts, words in r.rows:
        if side in sides:
            ratios = [times_ours(side, op, texts, "all"), times_ours(side, op, texts, "small")]
            rows.append(["%s, %s; %s" % (sides[side], ops[op], where(r, texts))] + r.cells(side, op, texts, words) + ratios)
    faster = ["ours with %s words is faster" % r.words("all"), "with %s" % r.words("small")]
    return table(["library, operation, text", "ns", "MB/s", "instr."] + faster, rows)


def pools(r):
    head = ["words", "nodes", "check", "read, cell by cell", "check / read", "read, wide", "check / wide", "check, instr. a node"]
    rows = []
    for words, room in (("small", 1), ("all", 1), ("small-roomy", ROOM), ("all-roomy", ROOM)):
        held = words.split("-")[0]
        nodes = room * r.loads[held]["nodes"]
        check, read, wide = (r.time("ours", op, LONG, words) for op in ("check", "read", "read-wide"))
        per = r.count("ours", "check", LONG, words) / nodes
        took = ["%s µs" % ns(x / 1000) for x in (check, read, wide)]
        ratios = ["%.2f" % (check / read), "%.2f" % (check / wide)]
        name = r.words(held) + (", lent with %d times the nodes" % room if room > 1 else "")
        rows.append([name, "{:,}".format(nodes), took[0], took[1], ratios[0], took[2], ratios[1], "%.1f" % per])
    return table(head, rows)


def memory(r):
    head = ["side, words", "loading", "memory"]
    rows = []
    for words in ("small", "all"):
        for side, name, kind in (("ours", "ours", "the pool"), ("rust", "the Rust", "resident")):
            took, size = r.loads[words][side]
            rows.append(["%s, %s" % (name, r.words(words)), seconds(took), "{:,} KB, {}".format(size // 1024, kind)])
        took = r.time("ours", "read-image", LONG, words)
        rows.append(["ours, %s, by an image" % r.words(words), seconds(took), "{:,} KB, the image".format(r.images[words] // 1024)])
    for side, name in (("libthai", "libthai"), ("icu", "ICU")):
        took, size = r.loads[side][side]
        rows.append(["%s, its own" % name, seconds(took), "{:,} KB, resident".format(size // 1024)])
    return table(head, rows)


def images(r):
    """Reading and writing images, a byte of the image."""
    head = ["words", "image", "reading, ns a byte", "instr.", "writing, ns a byte", "instr."]
    rows = []
    for words in ("small", "some", "all"):
        costs = [ns(of("ours", op, LONG, words) / r.images[words]) for op in ("read-image", "write-image") for of in (r.time, r.count)]
        rows.append([r.words(words), "{:,} bytes".format(r.images[words])] + costs)
    return table(head, rows)


def of_case(r, case, words):
    """The rows of a case by length."""
    return {row["n"]: row for row in r.growth if (row["case"], row["words"]) == (case, words)}


def unchecked(r, op, words):
    """A call on the long text without the check of the pool, by time and by instructions."""
    return [of("ours", op, LONG, words) - of("ours", "check", LONG, words) for of in (r.time, r.count)]


def against(r, op, base="cut"):
    """A call on the long text against another, both on scalars and without the check of the pool."""
    head = ["words", base + ", ns", "instr.", op + ", ns", "instr.", "%s / %s" % (op, base), "by instr."]
    per, rows = r.sizes[LONG]["characters"], []
    for words in ("small", "all"):
        costs = [unchecked(r, x, words) for x in (base, op)]
        shown = [ns(x / per) for cost in costs for x in cost]
        rows.append([r.words(words)] + shown + ["%.2f" % (costs[1][k] / costs[0][k]) for k in (0, 1)])
    return table(head, rows)


def claims_grown(r):
    """The instructions a character of a claim of our own ends, by length."""
    rows = []
    for row in r.growth:
        label = WORST.get(row["case"], "ordinary text, %s words" % r.words(row["words"]))
        rows.append([label, "{:,}".format(row["n"]), ns(row["instructions"] / row["n"]), ns(row["claim"] / row["n"])])
    return table(["text, words", "n", "plain, from bytes to ends", "claim, on scalars"], rows)


def map_of_ends(r, words):
    """The map of the long text's ends over the plain cut on scalars, the check left out: by time and by instructions."""
    of_cut = [of("ours", "cut", LONG, words) - of("ours", "check", LONG, words) for of in (r.time, r.count)]
    return [of("ours", "map", LONG, words) / whole for of, whole in zip((r.time, r.count), of_cut)]


def a_break(r, op, words):
    """The next break from each break of the long text: nanoseconds and instructions a break."""
    return [of("ours", op, LONG, words) / r.breaks[words] for of in (r.time, r.count)]


def maps(r):
    """Maps of breaks: of the long text's ends, and asked for every break."""
    head = ["words", "breaks", "map / cut", "by instr.", "next break, ns", "instr.", "without tests, ns", "instr."]
    rows = []
    for words in ("small", "all"):
        costs = ["%.3f" % x for x in map_of_ends(r, words)]
        costs += [ns(x) for op in ("next", "next-bare") for x in a_break(r, op, words)]
        rows.append([r.words(words), "{:,}".format(r.breaks[words])] + costs)
    return table(head, rows)


def growth(r):
    ordinary = of_case(r, "ordinary", "all")[65535]["ours"] / 65535
    head = ["text, words", "n", "ours ns", "instr.", "times ordinary text", "Rust ns", "Rust / ours"]
    rows = []
    for row in r.growth:
        label = WORST.get(row["case"], "ordinary text, %s words" % r.words(row["words"]))
        ours, rust = row["ours"] / row["n"], row["rust"] and row["rust"] / row["n"]
        last = [ns(rust), "%.2f" % (rust / ours)] if rust else ["over 20 s", ""]
        costs = [ns(ours), ns(row["instructions"] / row["n"]), "%.2f" % (ours / ordinary)]
        rows.append([label, "{:,}".format(row["n"])] + costs + last)
    return table(head, rows)


# How many times faster than each side ours has to be, at least.
ASKED = (
    ("decode", LONG, "small", {"rust": 1.3, "icu": 0.7}),
    ("decode", LINES, "small", {"rust": 2, "icu": 1}),
    ("clusters", LONG, "small", {"rust": 6}),
    ("clusters", LINES, "small", {"rust": 8}),
    ("places", LONG, "all", {"rust": 2}),
    ("places", LONG, "small", {"rust": 2}),
    ("plain", LONG, "all", {"rust": 3.3, "icu": 1.2, "libthai": 2.5}),
    ("plain", LONG, "small", {"rust": 5.5, "icu": 2.3, "libthai": 5}),
    ("safe", LONG, "all", {"rust": 3.5}),
    ("safe", LONG, "small", {"rust": 5}),
    ("plain", LINES, "small", {"rust": 1}),
    ("safe", LINES, "small", {"rust": 1}),
    ("batch", ALL, "all", {"rust": 3.3, "icu": 1.3, "libthai": 3}),
    ("batch", ALL, "small", {"rust": 4.5, "icu": 2.2, "libthai": 5}),
    ("batch", LINES, "all", {"rust": 2}),
    ("batch", LINES, "small", {"rust": 4.5}),
)
SIDES = {"rust": "the Rust", "icu": "ICU", "libthai": "libthai"}
# what a target holds for, beside the time, or in its place
BOTH, COUNTED = "both", "instructions"


def label(r, op, texts, words):
    return "%s; %s" % (NAMES[op], where(r, texts)) + ("" if op in ("decode", "clusters") else "; %s words" % r.words(words))


def targets(r):
    """Each target: its name, the ratio asked for, and those measured, by time and by instructions."""
    for op, texts, words, asked in ASKED:
        for side, least in asked.items():
            yield ("%s, %s" % (label(r, op, texts, words), SIDES[side]), least, *r.faster(op, texts, words, side))
    took = r.loads["all"]["rust"][0] / r.time("ours", "read-image", LONG, "all")
    yield "loading %s words by an image, the Rust" % r.words("all"), 4, took, None


def kept(r):
    """Each target that is a share of an earlier library's speed: its time and instructions over ours."""
    what = ("places", LONG, "all")
    if ("before", *what) in r.rows:
        yield ("prefix lookup, %s words" % r.words("all"), 0.95, *(of("before", *what) / of("ours", *what) for of in (r.time, r.count)))


def judged(r, make, meets):
    """The rows of a table of targets. A target is met, or missed, where the best times and the median of the rounds say so alike;
    one by instructions where their number says so."""
    for best, *rounds in zip(make(r), *(make(one) for one in r.rounds())):
        name, asked, by_time, by_count, *how = best
        ratios = [row[2] for row in rounds]
        counted = "" if by_count is None else "%.2f" % by_count
        yield [name, "%g" % asked, "%.2f" % by_time, spread(ratios), counted, verdict(asked, by_time, by_count, ratios, how, meets)]


def verdict(asked, by_time, by_count, ratios, how, meets):
    """What is said of a target that holds for the time, for the instructions (`COUNTED`), or for both (`BOTH`)."""
    if how == [COUNTED]:
        return "met" if meets(by_count, asked) else "missed"
    said = {bool(meets(x, asked)) for x in (by_time, statistics.median(ratios))}
    if len(said) == 2:
        return "within the noise"
    if how == [BOTH] and meets(by_count, asked) not in said:
        return "missed by instructions" if said == {True} else "missed by time"
    return "met" if said == {True} else "missed"


def grown(r, case, words, kind):
    """What a character costs at 65,535 characters over 4,000, the check of the pool left out of ordinary text."""
    rows = of_case(r, case, words)
    off = {"ours": r.time, "instructions": r.count}[kind]("ours", "check", LONG, words) if case == "ordinary" else 0
    return (rows[65535][kind] - off) / 65535 / ((rows[4000][kind] - off) / 4000)


# A call, the one that it is held against, and how much it may take of that.
AGAINST = (
    ("claim", "cut", "a claim of our own ends against the plain cut", 1),
    ("reasons", "cut", "the cut with reasons against the plain cut", 1.5),
    ("feed", "reasons", "a text fed to release figures against the cut with reasons", 1.03),
)


# How a pool of two plants is lent, by the name of its plain pool: what is said of it.
PLANTS = {"": "all of them one plant's", "-double": "in both plants", "-roomy": "in both plants, with %d times the nodes" % ROOM}


def plant_edits(r, words):
    """A word of a plant taken out and put in again over a plain one, without the two checks: by time and by instructions."""
    found = []
    for of in (r.time, r.count):
        plain, plant = (of("ours", edit, "edits-%s.lines" % words, words + "-double") - 2 * of("ours", check, "edits-%s.lines" % words, words + "-double")
                        for edit, check in (("edit", "check"), ("plant-edit", "plant-check")))
        found.append(plant / plain)
    return found


def plant_cuts(r, words):
    """The plain cut of a plant over the plain one, each without its check."""
    double = words + "-double"
    return [(of("ours", "plant-cut", LONG, double) - of("ours", "plant-check", LONG, double)) / (of("ours", "cut", LONG, double) - of("ours", "check", LONG, double))
            for of in (r.time, r.count)]


def many_texts(r, op, base, words, check="check"):
    """A call with all lines over another, both on scalars and each without its one check of the pool."""
    return [(of("ours", op, ALL, words) - of("ours", check, LONG, words)) / (of("ours", base, ALL, words) - of("ours", "check", LONG, words))
            for of in (r.time, r.count)]


# A plant's call with all lines, the plain one that it is held against, and what is said of it.
PLANT_MANY = (
    ("plant-many", "many", "all lines in one call"),
    ("plant-reasons-many", "reasons-many", "all lines in one call, with reasons"),
)


def many(r):
    """All lines in one call with reasons over those without, and of a plant over the plain ones."""
    rows = []
    for words in ("small", "all"):
        double = words + "-double"
        rows.append(["with reasons, over the cut; %s words" % r.words(words)] + ["%.2f" % x for x in many_texts(r, "reasons-many", "many", words)])
        for op, base, said in PLANT_MANY:
            ratios = many_texts(r, op, base, double, "plant-check")
            rows.append(["%s, of a plant, over the plain call; %s words" % (said, r.words(words))] + ["%.2f" % x for x in ratios])
    return table(["on scalars, without the checks", "by time", "by instr."], rows)


def plant_checks(r, words):
    """The check of a pool of two plants over that of a plain one with as many cells."""
    return [of("ours", "plant-check", LONG, words) / of("ours", "check", LONG, words) for of in (r.time, r.count)]


def plants(r):
    """Calls of a plant over plain ones on a pool with as many cells."""
    rows = []
    for words in ("small", "all"):
        for kind, said in PLANTS.items():
            rows.append(["check, %s words, %s" % (r.words(words), said)] + ["%.2f" % x for x in plant_checks(r, words + kind)])
        rows.append(["plain cut without the check, %s words" % r.words(words)] + ["%.2f" % x for x in plant_cuts(r, words)])
        rows.append(["a word taken out and put in again, without the checks, %s words" % r.words(words)] + ["%.2f" % x for x in plant_edits(r, words)])
    return table(["of a plant, over the plain call", "by time", "by instr."], rows)


def limits(r):
    """Each target that is an upper end, as `targets` has them, and what it holds for, where that isn't the time alone."""

    def row(name, asked, ratios, *how):
        return (name, asked, *ratios, *how)

    per = r.sizes[LONG]["characters"]
    for words in ("all", "small"):
        key = ("ours", "plain", LONG, words)
        for case, name in WORST.items():
            rows = [row for n, row in of_case(r, case, case).items() if n >= 4000]
            by_time = max(row["ours"] / row["n"] for row in rows) / (r.time(*key) / per)
            by_count = max(row["instructions"] / row["n"] for row in rows) / (r.count(*key) / per)
            yield row("%s, against ordinary text with %s words" % (name, r.words(words)), 10, (by_time, by_count))
    ordinary = {("ordinary", words): "ordinary text, %s words, the check left out" % r.words(words) for words in ("all", "small")}
    for (case, words), name in {**ordinary, **{(case, case): name for case, name in WORST.items()}}.items():
        ratios = [grown(r, case, words, kind) for kind in ("ours", "instructions")]
        yield row("growth, a character at 65,535 against 4,000: " + name, 1.2, ratios, BOTH)
    for words in ("all", "small"):
        ratios = [of("ours", "check", LONG, words) / of("ours", "read", LONG, words) for of in (r.time, r.count)]
        yield row("the check of the pool against a plain read of its cells, %s words" % r.words(words), 1, ratios)
    for words in ("all", "small"):
        ratios = [of("ours", "sheet", LONG, words) / of("ours", "safe", LONG, words) for of in (r.time, r.count)]
        yield row("the profile sheet against safe mode, by instructions, one long text, %s words" % r.words(words), 1.05, ratios, COUNTED)
        for op, base, name, limit in AGAINST:
            ratios = [x / y for x, y in zip(unchecked(r, op, words), unchecked(r, base, words))]
            yield row("%s, the check left out, %s words" % (name, r.words(words)), limit, ratios)
        name = "the map of a text's ends against its plain cut, the check left out, %s words" % r.words(words)
        yield row(name, 0.05, map_of_ends(r, words))
        yield row("nanoseconds of a next break, %s words" % r.words(words), 3, (a_break(r, "next", words)[0], None))
    firsts = {
        "prefix lookup, 26 Latin and 4,974 CJK first characters more, against %s words" % r.words("all"): ((LONG, "many"), (LONG, "all")),
        "prefix lookup, 20,000 evenly spaced first characters against 200": [("spaced-%d.txt" % n, "spaced-%d" % n) for n in (20000, 200)],
    }
    for name, (more, fewer) in firsts.items():
        yield row(name, 2, [of("ours", "places", *more) / of("ours", "places", *fewer) for of in (r.time, r.count)])
    for words in ("all", "small"):
        ratios = [of("ours", "batch", LINES, words) / of("ours", "plain", JOINED, words) for of in (r.time, r.count)]
        yield row("lines in one call against one text of the same characters, by instructions, %s words" % r.words(words), 1.3, ratios, COUNTED)
    for words in ("all", "small"):
        name = "all lines in one call with reasons against the cut of them, the check left out, by instructions, %s words"
        yield row(name % r.words(words), 1.5, many_texts(r, "reasons-many", "many", words), COUNTED)
        for op, base, said in PLANT_MANY:
            name = "a plant's lines against the plain call, %s, the checks left out, by instructions, %s words" % (said, r.words(words))
            yield row(name, 1.05, many_texts(r, op, base, words + "-double", "plant-check"), COUNTED)
    for words in ("all", "small"):
        for kind, said in PLANTS.items():
            name = "the check of a plants' pool against that of a plain one with as many cells, %s words, %s" % (r.words(words), said)
            yield row(name, 2.2, plant_checks(r, words + kind))
        yield row("a plant's cut against the plain cut, the check left out, %s words" % r.words(words), 1.05, plant_cuts(r, words))
        yield row("a plant's word taken out and put in again against a plain one, the checks left out, %s words" % r.words(words), 1.1, plant_edits(r, words))
    ratios = [of("ours", "read-image", LONG, "all") / r.images["all"] / (of("ours", "read-image", LONG, "some") / r.images["some"]) for of in (r.time, r.count)]
    yield row("reading an image, a byte of %s words against %s" % (r.words("all"), r.words("some")), 1.3, ratios)


def opening(r):
    sizes = " and ".join("%s of %s characters" % (where(r, t), "{:,}".format(r.sizes[t]["characters"])) for t in (LINES, LONG))
    yield "Written by `bench/run`. README.md says what is measured, how, and why targets are missed. Before anything is timed, our"
    yield "answers and the Rust's are compared, and are equal. libthai and ICU cut by other rules: only their speed is shown."
    yield ""
    yield from ("- " + part for part in machine())
    yield "- Texts: %s" % sizes
    yield "- Load: every driver on one of the processors%s; %.1f programs were running or waiting before the first round" % (
        ", before other programs" if r.ran["raised"] else "", r.ran["load"])
    yield "- Noise: the slowest of %d rounds is %.0f%% slower than the fastest (median of the rows)" % (r.ran["rounds"], 100 * r.spread())
    yield ""
    yield '"ns" and "instr." are nanoseconds and instructions a character. "faster" is the Rust\'s time over ours. A ratio by time is'
    yield 'that of the best times of all rounds, and "in the rounds" has the lowest and the highest of a round. A target is met or missed'
    yield 'where the best times and the median of the rounds say so alike; else it is within the noise. A target by instructions is held'
    yield 'against their number alone.'


def sections(r):
    heads = ["asked", "by time", "in the rounds", "by instructions", ""]
    least = table(["target, at least: times faster than"] + heads, judged(r, targets, operator.ge))
    most = table(["target, at most"] + heads, judged(r, limits, operator.le))
    yield "# Measurements", opening(r)
    before = [*judged(r, kept, operator.ge)]
    head = ["target, at least: the speed of the library before"] + heads
    yield "## Targets", [*least, "", *most] + (["", *table(head, before)] if before else [])
    yield "## Ours and the Rust", both(r)
    yield "## The two matchers of clusters", matchers(r)
    yield "## The three modes", modes(r)
    yield "## libthai and ICU", others(r)
    yield "## The check of the pool", ["Refusal 4 costs one check in every call that is lent a pool.", "", *pools(r)]
    yield "## The cut with reasons", against(r, "reasons")
    yield "## Many texts with reasons, and of a plant", many(r)
    yield "## Release figures", against(r, "feed", "reasons")
    yield "## Checking a claim", [*against(r, "claim"), "", "Instructions a character, the check of the pool included:", "", *claims_grown(r)]
    yield "## Maps of breaks", ["Of the long text. A next break is a call from each break to the one behind it.", "", *maps(r)]
    how = "Ours adds the words one by one, or reads them as an image. The pool is as long as its nodes need."
    yield "## Loading and memory", [how, "", *memory(r), "", *images(r)]
    yield "## Two plants in one pool", plants(r)
    yield "## Growth", ["![cost a character against the text's length](cost.svg)", "", *growth(r)]


def main():
    parts = []
    found = json.load(open(os.path.join(WORK, "results.json"), encoding="utf-8"))
    for head, lines in sections(Results(found)):
        parts += [head, "", *lines, ""]
    made = "\n".join(parts[:-1]) + "\n"
    with open(os.path.join(ROOT, "bench", "RESULTS.md"), "w", encoding="utf-8") as file:
        file.write(made)
    print(made, end="")


if __name__ == "__main__":
    main()
