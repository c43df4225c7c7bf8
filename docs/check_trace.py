"""Checks that every name in docs/TRACE.md exists, and every path into a crate in README.md and docs/: python3 docs/check_trace.py

It leaves out docs/PORT.md and docs/DESIGN-PASS.md, which have older paths, too.

A definition or a theorem stands in the file before it, a contract's function in its crate's src/, a must-fail edit in
its crate, and an op of a test in the first fields of the test's stdin.

It also holds the table of public operations in docs/ASSESSMENT.md to the code: each operation is there and has no
`requires`, its theorem and its wrong programs are there, and no other function that these crates export goes without a
`requires`. A function that C can call has none, and is named on that page; those of fetlockice_c each have the signature
and the contract of the function of the same name in fetlockice, which stands in the table.
"""
import glob
import os
import re
import sys

ROOT = os.path.dirname(os.path.dirname(os.path.abspath(__file__)))
CRATES = os.path.join(ROOT, "crates")
COLUMNS = ["Sentence", "Definition", "Contract", "Theorem", "Test", "Must-fail"]

# What a cell may say in words, with no name to look up.
WORDS = re.compile(r"–|no [^`]* has a `requires`.*|the equations of each operation|those (of each operation|above)")

# A path into a crate, in prose.
INTO = re.compile(r"(?<![\w/·.*-])(?:crates/)?((?!target)[a-z]\w*)/((?:specs|proofs|must-fail|src)(?:/[\w+-]+)*(?:\.\w+)?)")


def text(*path):
    with open(os.path.join(*path), encoding="utf-8") as file:
        return file.read()


def antt(cell):
    """Problems of `crate/specs/File `name` `name`; ..`: files of definitions or theorems with the names that stand in them."""
    for item in cell.split("; "):
        path, *rest = item.split(" `")
        file = path if path.endswith(".md") else os.path.join("crates", path + ".antt")
        if not os.path.exists(os.path.join(ROOT, file)):
            yield "no file " + file
            continue
        for name in rest:
            name = name.rstrip("` ")
            if not re.search(r"(?m)^\s*(pub )?(data |record |abbrev |opaque )*%s(\s|$)" % re.escape(name), text(ROOT, file)):
                yield "%s has no %s" % (file, name)


def functions(cell):
    """Problems of `crate::function` names; `crate` alone is a crate."""
    for name in re.findall(r"`([^`]+)`", cell):
        crate, *rest = name.split("::")
        folder = os.path.join(CRATES, crate, "src")
        if not os.path.isdir(folder):
            yield "no crate " + crate
            continue
        source = "".join(text(folder, file) for file in sorted(os.listdir(folder)))
        if rest and not re.search(r"\bfn %s[(<]" % re.escape(rest[-1]), source):
            yield "%s has no function %s" % (crate, rest[-1])


def tests(cell):
    """Problems of `program `op`, `op`; ..`."""
    for item in cell.split("; "):
        words = item.replace("its sample in ", "").split(", ")
        program = ""
        for word in words:
            found = re.fullmatch(r"(?:([\w/.-]+) ?)?(?:`(\w+)`)?", word)
            if not found:
                yield "cannot read the test " + word
                continue
            program = found[1] or program
            if "/" in program:
                if not os.path.exists(os.path.join(ROOT, program)):
                    yield "no file " + program
                continue
            stdin = os.path.join(CRATES, program, "stdin")
            if not os.path.exists(stdin):
                yield "no test program " + program
            elif found[2] and not re.search(r"(?m)^%s\t" % found[2], text(stdin)):
                yield "%s has no line %s" % (program, found[2])


def edits(cell):
    """Problems of `crate/must-fail/edit, edit; ..`."""
    for item in cell.split("; "):
        folder, _, names = item.rpartition("/")
        for name in names.split(", "):
            if not os.path.exists(os.path.join(CRATES, folder, name + ".edit")):
                yield "no edit %s/%s" % (folder, name)


def paths(page):
    """Problems of the paths in a page's prose."""
    for number, line in enumerate(text(page).splitlines(), 1):
        for crate, path in INTO.findall(line):
            whole = os.path.join(CRATES, crate, path)
            if not any(os.path.exists(whole + end) for end in ("", ".antt", ".edit", ".rt")):
                yield "%s, line %d: no %s/%s" % (os.path.relpath(page, ROOT), number, crate, path)


CHECKS = {"Definition": antt, "Contract": functions, "Theorem": antt, "Test": tests, "Must-fail": edits}


def header(crate, name):
    """The signature and contract of a public function, or "" where the crate has none of that name."""
    folder = os.path.join(CRATES, crate, "src")
    for file in sorted(os.listdir(folder)):
        found = re.search(r'(?ms)^( *)pub (extern "C" )?fn %s\(.*?^\1\{' % re.escape(name), text(folder, file))
        if found:
            return found[0]
    return ""


def exported(crate):
    """The functions that a crate's lib.rt hands out."""
    lib = text(CRATES, crate, "src", "lib.rt")
    for names, name in re.findall(r"(?ms)^pub use [^;]*?(\w+|\{[^}]*\});|^ *pub fn (\w+)\(", lib):
        for name in re.findall(r"\w+", names or name):
            if header(crate, name):
                yield name


def bare(header):
    """A header without its layout, and without the words that export it to C."""
    return re.sub(r"\s+", "", header).replace('extern"C"', "").replace(",)", ")")


def operations():
    """Problems of the table of public operations, and how many operations it has."""
    public = []
    for line in text(ROOT, "docs", "ASSESSMENT.md").splitlines():
        if not re.match(r"\| `\w+::\w+` \|", line):
            continue
        operation, _, _, _, theorem, wrong = [cell.strip() for cell in line.strip("|").split(" | ")]
        crate, name = operation.strip("`").split("::")
        public.append((crate, name))
        contract = header(crate, name)
        if not contract:
            yield "%s has no public function %s" % (crate, name)
        if "requires" in contract:
            yield "%s::%s has a requires" % (crate, name)
        if theorem != "none":
            yield from antt("theorems_one_answer/proofs/" + theorem)
        for folder in wrong.split("; "):
            if not os.path.isdir(os.path.join(CRATES, folder)):
                yield "no folder " + folder
    for crate in sorted({crate for crate, _ in public}):
        for name in exported(crate):
            if (crate, name) not in public and "requires" not in header(crate, name):
                yield "%s::%s is exported without a requires and is not in the table" % (crate, name)
    page = text(ROOT, "docs", "ASSESSMENT.md")
    for file in sorted(glob.glob(os.path.join(CRATES, "*", "src", "*.rt"))):
        crate = file.split(os.sep)[-3]
        for name in re.findall(r'(?m)^pub extern "C" fn (\w+)\(', text(file)):
            if "requires" in header(crate, name):
                yield "%s::%s can be called from C and has a requires" % (crate, name)
            if crate == "fetlockice_c":
                if ("fetlockice", name) not in public:
                    yield "%s::%s can be called from C and is not in the table" % (crate, name)
                if bare(header(crate, name)) != bare(header("fetlockice", name)):
                    yield "%s::%s has not the signature and contract of fetlockice::%s" % (crate, name, name)
            elif "`%s`" % name not in page:
                yield "%s::%s can be called from C and is not named" % (crate, name)
    if not public:
        yield "no table of public operations"


def main():
    problems = names = 0
    for problem in operations():
        print("docs/ASSESSMENT.md: " + problem)
        problems += 1
    for number, line in enumerate(text(ROOT, "docs", "TRACE.md").splitlines(), 1):
        if not line.startswith("| ") or line.startswith("| Sentence"):
            continue
        cells = [cell.strip() for cell in line.strip().strip("|").split(" | ")]
        if len(cells) != len(COLUMNS):
            print("line %d: %d cells" % (number, len(cells)))
            problems += 1
            continue
        for column, cell in zip(COLUMNS[1:], cells[1:]):
            if WORDS.fullmatch(cell):
                continue
            names += 1
            for problem in CHECKS[column](cell):
                print("line %d, %s: %s" % (number, column, problem))
                problems += 1
    pages = [os.path.join(ROOT, name) for name in ("README.md", "CONTRIBUTING.md") if os.path.exists(os.path.join(ROOT, name))]
    pages += sorted(set(glob.glob(os.path.join(ROOT, "docs", "*.md"))) - {os.path.join(ROOT, "docs", n) for n in ("PORT.md", "DESIGN-PASS.md")})
    for page in pages:
        for problem in paths(page):
            print(problem)
            problems += 1
    print("%d cells with names, %d problems" % (names, problems))
    sys.exit(problems > 0)


main()
