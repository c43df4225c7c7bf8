"""Keeps a sample of the made cases with the Rust's answers in tests/vectors/rust.txt, and one in the profile "sheet", put
together from the Rust's plain cuts, in tests/vectors/sheet.txt; and one with reasons, told by the branches of the Rust, in
tests/vectors/rust_reasons.txt: differential/sample.py

The scripts in tests/ put their lines behind their own. They are the same each time. The Rust is what differential/setup has
built. No real text and no real words are in it.
"""
import os

import boundaries
import generate
import lines
import sheet
import sides

SEED = 1

# How many lines of a group are kept, and how long one may be.
KEPT = {
    generate.ShortClusters: (400, 100),
    generate.LookaheadClusters: (200, 100),
    generate.AllThaiClusters: (250, 100),
    generate.RandomClusters: (150, 200),
    generate.ShortScripts: (80, 300),
    generate.RandomScripts: (200, 400),
    generate.Prefixes: (250, 250),
    generate.CrowdedScripts: (16, 1200),
    generate.CrowdedPrefixes: (12, 1200),
    generate.EachBlank: (64, 400),
    generate.EditFiles: (20, 300),
    generate.SpacedScripts: (60, 400),
    generate.SpacedPrefixes: (40, 300),
    generate.SpacedCuts: (24, 250),
    generate.ShortCuts: (200, 200),
    generate.ShortNonThai: (200, 200),
    generate.ShortClassCuts: (100, 200),
    generate.BoundaryCuts: (generate.BoundaryCuts.size, 2000),
    generate.RandomCuts: (80, 250),
    generate.SafeCuts: (30, 700),
    generate.DenseCuts: (60, 250),
    generate.LongWords: (6, 1500),
}
SHEETS = {
    generate.SheetBoundaries: (generate.SheetBoundaries.size, 2000),
    generate.SheetCuts: (60, 700),
}
REASONS = {generate.Reasons: (600, 300)}


def sampled(kept):
    """Lines of every group, in order."""
    for group, (count, longest) in kept.items():
        # More than is kept, since lines that are too long fall out.
        fitting = [line for _, line in generate.cases([group], 20 * count, SEED) if len(line) <= longest]
        yield from fitting[:: max(1, len(fitting) // count)][:count]


def hold_to_document(answered):
    """Stops where the Rust gives other ends than document 01."""
    for mode, held, text, ends in boundaries.DOCUMENT:
        if answered[lines.cut(mode, held, text)].split(" ")[1] != ",".join(map(str, ends)):
            raise SystemExit("document 01 and the Rust differ on %r, %s" % (text, mode))


def hold_parts(answered, in_sheet):
    """Stops where parts that are joined here give other ends than the Rust's safe mode, or than ticket 10 was planned with."""
    line = sheet.against_safe(answered, sides.rust)
    if line:
        raise SystemExit("the parts joined and the Rust's safe mode differ on %s" % line)
    for text, ends in boundaries.SHEETS:
        if in_sheet[lines.cut("sheet", [], text)].split(" ")[1] != ",".join(map(str, ends)):
            raise SystemExit("ticket 10 was planned with other ends of %r" % text)


def hold_reasons(answered):
    """Stops where reasons of parts that are joined differ from the Rust's safe mode, or from those of the cases of ticket 2."""
    line = sheet.against_safe(list(answered.items()), sides.rust)
    if line:
        raise SystemExit("the parts joined and the Rust's safe mode differ on %s" % line)
    for mode, held, text, pairs in boundaries.REASONS:
        if answered[lines.cut(mode, held, text, "reasons")].split(" ")[1] != (",".join("%d:%d" % pair for pair in pairs) or "-"):
            raise SystemExit("02 gives other reasons for %r" % text)


def keep(name, answered):
    with open(os.path.join(sides.ROOT, "tests", "vectors", name), "w", encoding="ascii") as out:
        out.writelines("%s\t=>\t%s\n" % pair for pair in answered)
    print("tests/vectors/%s: %d lines" % (name, len(answered)))


def main():
    given, in_sheet = list(sampled(KEPT)), list(dict.fromkeys(sampled(SHEETS)))
    answered, joined = list(zip(given, sides.rust(given))), list(zip(in_sheet, sides.rust(in_sheet)))
    with_reasons = [lines.cut(mode, held, text, "reasons") for mode, held, text, _ in boundaries.REASONS]
    with_reasons = list(dict.fromkeys(with_reasons + list(sampled(REASONS))))
    told = list(zip(with_reasons, sides.rust(with_reasons)))
    hold_to_document(dict(answered))
    hold_reasons(dict(told))
    hold_parts(answered, dict(joined))
    keep("rust.txt", answered)
    keep("sheet.txt", joined)
    keep("rust_reasons.txt", told)


main()
