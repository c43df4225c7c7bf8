#!/usr/bin/env python3
"""Holds wrong programs to what their edits say: python3 tools/refused.py [--kept] [CRATE..]

The second line of an edit, `refused: f g`, names what the check must refuse with it: a function as the log names it behind
its crate (`f`, `module::f`, `Type::f`), or a law with its file below proofs/ (`Orders.decode_order`). `rt must-fail` asks for
one refusal of each edit. This asks for each of these names: the log says `not proved` of the function (or `no proof`, where it
needs no proof file and the search fails), or has an error at the law, and not only since something else is missing.

It checks each wrong program in a copy of the crates, over what earlier checks kept, and leaves the logs in
target/must-fail/CRATE/LABEL.log. With --kept it only reads the logs that are there.
"""
import glob
import os
import re
import shutil
import subprocess
import sys
import tempfile

ROOT = os.path.dirname(os.path.dirname(os.path.abspath(__file__)))

# An error that shows only that a proof does not fit the code, or that something before it failed.
UNFIT = re.compile(r"that can be named from here|is not in scope|was not admitted|was rejected, was not checked|has no field|: module `[^`]*` has no `")


def text(path):
    with open(path, encoding="utf-8", errors="replace") as file:
        return file.read()


def errors_at(log, place):
    """The errors at places that a pattern says, each with the indented lines behind it."""
    return re.findall(r"(?m)^[^ \n]*%s: error: .*(?:\n +.*)*" % place, log)


def function_problem(log, crate, name):
    """A function that calls a refused one reads `not proved`, too: it has to have an error of its own."""
    said = re.search(r"(?m)^fn %s::%s: (.*)$" % (re.escape(crate), re.escape(name)), log)
    if not said or not said[1].startswith(("not proved", "no proof")):
        return "%s does not read `not proved`" % name
    if "`search` did not prove" in said[1]:
        return ""
    *module, last = name.split("::")
    folder = "".join(re.escape(part) + "/" for part in module) + r"\+?" + re.escape(last)  # a recursive function's has a plus
    errors = errors_at(log, r"/proofs/%s/(?:Answers|Invariants|Proof)\.antt:\d+:\d+" % folder)
    if all(UNFIT.search(error) for error in errors):
        return "%s is not refused at a fact of its own" % name
    return ""


def law_problem(log, name):
    file, law = name.split(".", 1)
    errors = errors_at(log, r"/proofs/%s\.antt:\d+:\d+" % re.escape(file))
    errors = [error for error in errors if ": error: `%s`: " % law in error.split("\n")[0]]
    if not errors:
        return "%s has no error" % name
    if all(UNFIT.search(error) for error in errors):
        return "%s is not refused at a fact" % name
    return ""


def crate_of(edit):
    return edit.split(os.sep)[-3]


def log_of(edit):
    return os.path.join(ROOT, "target", "must-fail", crate_of(edit), os.path.basename(edit)[:-len(".edit")] + ".log")


def edited(edit):
    """The texts that the edit makes, by their path in the crate. An old text that doesn't stand there once is an error."""
    path, old, texts = "", "", {}
    for line in text(edit).split("\n"):
        if line.startswith("file: "):
            path = line[len("file: "):].strip()
        elif line.startswith("old: "):
            old = line[len("old: "):]
        elif line.startswith("new:"):
            if path not in texts:
                texts[path] = text(os.path.join(ROOT, "crates", crate_of(edit), path))
            if texts[path].count(old) != 1:
                raise ValueError("this stands %d times in %s: %s" % (texts[path].count(old), path, old))
            texts[path] = texts[path].replace(old, line[len("new:"):].removeprefix(" "))
    return texts


def copied(to):
    """Copies the crates, without what checks keep and what no check reads."""
    shutil.copytree(os.path.join(ROOT, "crates"), os.path.join(to, "crates"), ignore=shutil.ignore_patterns("out", "must-fail"))
    for name in ("crates.txt", "HANDLES"):
        if os.path.exists(os.path.join(ROOT, name)):
            shutil.copy(os.path.join(ROOT, name), to)


def tried(edit, copy):
    """Writes the log of a check of the crate with the edit."""
    crate = os.path.join(copy, "crates", crate_of(edit))
    texts = edited(edit)
    for path, new in texts.items():
        with open(os.path.join(crate, path), "w", encoding="utf-8") as file:
            file.write(new)
    os.makedirs(os.path.dirname(log_of(edit)), exist_ok=True)
    with open(log_of(edit), "w", encoding="utf-8") as log:
        subprocess.run(["rt", "check"], cwd=crate, stdout=log, stderr=subprocess.STDOUT, check=False)
    for path in texts:
        shutil.copy(os.path.join(ROOT, "crates", crate_of(edit), path), os.path.join(crate, path))


def problems(edit):
    """The names of an edit, and what is wrong with its log."""
    lines = text(edit).split("\n")
    if len(lines) < 2 or not lines[1].startswith("refused: "):
        return [], ["its second line is not `refused: ..`"]
    names = lines[1][len("refused: "):].split()
    said = text(log_of(edit))
    found = [law_problem(said, name) if "." in name else function_problem(said, crate_of(edit), name) for name in names]
    return names, [problem for problem in found if problem]


def main():
    kept = "--kept" in sys.argv
    crates = [word for word in sys.argv[1:] if word != "--kept"] or ["*"]
    edits = sorted(edit for crate in crates for edit in glob.glob(os.path.join(ROOT, "crates", crate, "must-fail", "*.edit")))
    if kept:
        edits = [edit for edit in edits if os.path.exists(log_of(edit))]
    named = failed = 0
    with tempfile.TemporaryDirectory(prefix="refused-") as copy:
        if not kept:
            copied(copy)
        for edit in edits:
            try:
                if not kept:
                    tried(edit, copy)
                names, wrong = problems(edit)
            except ValueError as error:
                names, wrong = [], [str(error)]
            named += len(names)
            failed += bool(wrong)
            for problem in wrong:
                print("%s: %s" % (os.path.relpath(edit, os.path.join(ROOT, "crates")), problem), flush=True)
    print("%d wrong programs, %d names in them, %d wrong programs with problems" % (len(edits), named, failed))
    sys.exit(failed > 0 or not edits)


main()
