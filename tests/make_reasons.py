"""Writes crates/test_reasons/stdin and stdout.

    python3 tests/make_reasons.py

The independent model's lines for reasons are taken (vectors/reasons.txt), and the Rust's: its own branches tell why a token
ends (vectors/rust_reasons.txt). The cuts of the other vectors, the model's and the Rust's, are joined here with the reason of
each token. `reason` has 02's sentences over Python's `re` and sets, with the clusters of make_tcc. All lines are held to it,
and the script stops where the two differ. Behind them stand lines with too little room or scratch, and the refusals of 01.
"""
import fewest
import vectors
from make_claim import CONSONANTS, NON_THAI, words_from
from make_cut import bad_calls, pool_calls, refusal
from make_tcc import clusters, read, tables

# Lines with fewer bytes of words and text are taken from other vectors, and lent other rows too.
SHORT = 150

# Where a remaining text of 140 characters or more is cut: so far behind the index of the last space in its sample.
BEGIN, END, BEHIND = 100, 140, {"safe": 1, "sheet": 101}


def reason(text, words, ends, b, e):
    """Why the token from b to e ends there, by 01's rule at b."""
    if words_from(text, words, ends, b):
        return 1
    if NON_THAI.match(text, b):
        return 2
    if e == len(text):
        return 5
    stopping = any(not CONSONANTS.fullmatch(text[e:end]) for end in words_from(text, words, ends, e))
    return 3 if stopping else 4


def parts(mode, text):
    """The parts of a text, or None where a sample without a space would have to be cut."""
    found = []
    while mode != "plain" and len(text) >= END:
        at = text[BEGIN:END].rfind(" ")
        if at < 0:
            return None
        found.append(text[:at + BEHIND[mode]])
        text = text[at + BEHIND[mode]:]
    return found + [text] if text else found


def told(mode, text, words, token_ends, rules):
    """The pairs of tokens with these ends, or None where the parts aren't known."""
    split, pairs, start, rest = parts(mode, text), [], 0, list(token_ends)
    if split is None:
        return None
    for part in split:
        ends, b = set(clusters(part, rules)[0]), 0
        while b < len(part):
            e = rest.pop(0) - start
            pairs.append((start + e, reason(part, words, ends, b, e)))
            b = e
        start += len(part)
    return pairs


def held(words):
    return {"".join(map(chr, vectors.parsed_cells(word.split(":")[0]))) for word in words.split(",")} if words != "-" else set()


def spelled(pairs):
    return ",".join("%d:%d" % pair for pair in pairs) or "-"


def hold(lines, rules):
    """Stops where a line has another reason than 02's sentences give."""
    known = 0
    for fields, expected in lines:
        if not expected.startswith("ok"):
            continue
        _, mode, words, text, _, _ = fields
        _, given, _ = expected.split()
        ends = [int(pair.split(":")[0]) for pair in given.split(",")] if given != "-" else []
        pairs = told(mode, "".join(map(chr, vectors.parsed_cells(text))), held(words), ends, rules)
        known += pairs is not None
        if pairs is not None and spelled(pairs) != given:
            raise SystemExit("02 and %s differ: %s" % ("\t".join(fields), spelled(pairs)))
    return known


def joined(lines, rules):
    """Lines of cuts, with the reason of each token."""
    for fields, expected in lines:
        _, mode, words, text, _, _ = fields
        if expected.startswith("ok") and len(words + text) < SHORT:
            _, given, edges = expected.split()
            ends = [int(end) for end in given.split(",")] if given != "-" else []
            pairs = told(mode, "".join(map(chr, vectors.parsed_cells(text))), held(words), ends, rules)
            if pairs is not None:
                yield ["reasons", mode, words, text, "*", "*"], "ok %s %s" % (spelled(pairs), edges)


def lent_rows(lines, every):
    """Accepted lines with scratch a cell short, just right and a cell longer, and with room for a record less, as many and one more."""
    accepted = [line for line in lines if line[1].startswith("ok") and len(line[0][2] + line[0][3]) < SHORT]
    for fields, expected in accepted[::every]:
        row, given = vectors.parsed_cells(fields[3]), expected.split()[1]
        records = given.split(",") if given != "-" else []
        need = 9 * len(row) + 128
        for scratch in need - 1, need, need + 1:
            for room in range(max(0, len(records) - 1), len(records) + 2):
                answer = refusal(row, True, scratch, room, records)
                yield fields[:4] + [str(scratch), str(room)], expected if answer == "ok" else answer


def refused():
    """The refusals of a cut, in the same order, with texts and pools that are bad."""
    for fields, expected in list(bad_calls()) + list(pool_calls()):
        yield ["reasons_pool"] + fields[1:], expected


def main():
    rules = tables(read())
    model, rust = vectors.read("reasons.txt", ["reasons"]), vectors.read("rust_reasons.txt", ["reasons"])
    known = hold(model + rust, rules)
    cuts = list(joined(vectors.model("cut") + vectors.read("cuts.txt", ["cut"]) + fewest.lines(), rules))
    ours = list(joined(vectors.rust("cut")[::3] + vectors.read("sheet.txt", ["cut"])[::3], rules))
    print("%d of %d lines with reasons held to 02" % (known, len(model + rust)))
    lines = model + list(lent_rows(model, 4)) + cuts + list(lent_rows(cuts, 30)) + ours + rust + list(refused())
    vectors.write("test_reasons", lines)


if __name__ == "__main__":
    main()
