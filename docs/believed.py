"""Lists the definitions that have to be believed, in docs/ASSESSMENT.md: python3 docs/believed.py [--check]

They are those that the contracts of the public operations and the statements of theorems_*/specs rest on: the words of a
contract, the words of their definitions, and so on. Public are the functions of ASSESSMENT's table of public operations,
and those that crates/fetlockice_c exports, each of which has the contract of one of these. A file of specs/inner/ must not be among them. With --check nothing is written:
it fails where the list is not what would be written. Words of the kit and types that the code declares are left out.
"""
import glob
import os
import re
import sys

ROOT = os.path.dirname(os.path.dirname(os.path.abspath(__file__)))
PAGE = os.path.join(ROOT, "docs", "ASSESSMENT.md")
MARKS = "<!-- written by docs/believed.py -->", "<!-- end of what docs/believed.py writes -->"

USE = re.compile(r"(?m)^(?:ghost )?use Rattle\.(\w+)\.specs\.([\w.]+)\.\{([^}]*)\}")
START = re.compile(r"(?:(?:abbrev|unfoldable|opaque|pub|data|record) )+(\S+)|(\S+) : ")
WORD = re.compile(r"[^\s(){},;.\[\]⌜⌝]+")


def read(*path):
    with open(os.path.join(ROOT, *path), encoding="utf-8") as file:
        return file.read()


def names_used(text):
    """What each word that a file takes from a spec file of the repository stands for: (crate, file, name)."""
    found = {}
    for crate, module, names in USE.findall(text):
        if module.split(".")[0] != "declared" and os.path.isdir(os.path.join(ROOT, "crates", crate)):
            for name in names.split(","):
                name, _, alias = name.strip().partition(" as ")
                found[alias or name] = (crate, module, name)
    return found


class File:
    """A spec file: its definitions, each with its lines, and the words that it takes from others."""

    def __init__(self, crate, module):
        text = read("crates", crate, "specs", module.replace(".", "/") + ".antt")
        self.used, self.lines, self.home = names_used(text), {}, {}
        name = None
        for line in text.splitlines():
            start = START.match(line)
            if start:
                name = start[1] or start[2]
                self.lines[name] = []
            if not line.strip() or line.startswith(("use ", "--")):
                continue
            if name:
                self.lines[name].append(line)
                # constructors and fields belong to their type
                inside = re.match(r"\s+(?:pub )?(\S+) : ", line)
                if inside:
                    self.home.setdefault(inside[1], name)
        self.home.update({name: name for name in self.lines})


class Specs:
    def __init__(self):
        self.files = {}

    def file(self, crate, module):
        if (crate, module) not in self.files:
            self.files[crate, module] = File(crate, module)
        return self.files[crate, module]

    def rest_on(self, start):
        """All definitions that these rest on, by file: (crate, file) to names."""
        found, waiting = {}, list(start)
        while waiting:
            crate, module, name = waiting.pop()
            file = self.file(crate, module)
            name = file.home.get(name)
            if name is None or name in found.setdefault((crate, module), set()):
                continue
            found[crate, module].add(name)
            for word in set(WORD.findall("\n".join(file.lines[name]))):
                if word in file.home:
                    waiting.append((crate, module, word))
                elif word in file.used:
                    waiting.append(file.used[word])
        return {key: names for key, names in found.items() if names}


def section(page, title):
    """The lines of a section of the page."""
    return re.search(r"(?ms)^## %s\n(.*?)(?=^## |\Z)" % re.escape(title), page)[1]


def public(page):
    """The public functions of the table."""
    for line in section(page, "The public operations").splitlines():
        if line.startswith("| `"):
            yield from re.findall(r"`(\w+)::(\w+)`", line.split(" | ")[0])


def exported():
    """The functions that C calls."""
    for path in sorted(glob.glob(os.path.join(ROOT, "crates", "fetlockice_c", "src", "*.rt"))):
        for name in re.findall(r'(?m)^pub extern "C" fn (\w+)\(', read(path)):
            yield "fetlockice_c", name


def contract(crate, function):
    """The definitions that a function's contract names. A `requires` of a public function is an error."""
    for path in sorted(glob.glob(os.path.join(ROOT, "crates", crate, "src", "*.rt"))):
        text = read(path)
        found = re.search(r'(?ms)^( *)pub (?:extern "C" )?fn %s\(.*?^\1\{' % function, text)
        if found:
            if re.search(r"(?m)^\s*requires ", found[0]):
                raise SystemExit("%s::%s is public and has a requires" % (crate, function))
            used = names_used(text)
            return {used[word] for word in WORD.findall(found[0]) if word in used}
    raise SystemExit("docs/ASSESSMENT.md names %s::%s, which isn't there" % (crate, function))


def statements():
    """The definitions of theorems_*/specs."""
    for path in sorted(glob.glob(os.path.join(ROOT, "crates", "theorems_*", "specs", "*.antt"))):
        crate, module = path.split(os.sep)[-3], os.path.basename(path)[:-5]
        if module != "Lib":
            yield from ((crate, module, name) for name in File(crate, module).lines)


def counts(specs, found):
    return len(found), sum(len(specs.file(*key).lines[name]) for key, names in found.items() for name in names)


def part(page):
    """The list, and what is wrong."""
    specs, functions = Specs(), list(dict.fromkeys(public(page)))
    named = set().union(*(contract(*function) for function in [*functions, *exported()]))
    contracts, everything = specs.rest_on(named), specs.rest_on(named.union(statements()))
    wrong = ["%s/specs/%s" % (crate, module) for crate, module in sorted(everything) if module.startswith("inner.")]
    lines = [
        "The contracts of the %d public functions rest on definitions in %d files, %d lines; with the statements of theorems_*/specs "
        "it is %d files, %d lines, comments and blank lines left out:" % (len(functions), *counts(specs, contracts), *counts(specs, everything)),
        "",
        "| File, below crates/ | Lines | Definitions |",
        "|---|--:|---|",
    ]
    for crate, module in sorted(everything):
        file, names = specs.file(crate, module), everything[crate, module]
        told = ", ".join("`%s`" % name for name in file.lines if name in names)
        size = sum(len(file.lines[name]) for name in names)
        lines.append("| %s/specs/%s | %d | %s |" % (crate, module.replace(".", "/"), size, told))
    return "\n".join(lines), wrong


def main():
    page = read("docs", "ASSESSMENT.md")
    if page.count(MARKS[0]) != 1 or page.count(MARKS[1]) != 1:
        raise SystemExit("docs/ASSESSMENT.md needs the two lines\n%s\n%s" % MARKS)
    front, rest = page.split(MARKS[0])
    _, back = rest.split(MARKS[1])
    listed, wrong = part(page)
    made = front + MARKS[0] + "\n\n" + listed + "\n\n" + MARKS[1] + back
    print("docs/ASSESSMENT.md: %d files of definitions have to be believed" % (listed.count("\n| ") - 1))
    for file in wrong:
        print("a public contract or a statement rests on %s: it is no inner file" % file)
    if "--check" not in sys.argv:
        with open(PAGE, "w", encoding="utf-8") as file:
            file.write(made)
    elif made != page:
        raise SystemExit("docs/ASSESSMENT.md is not what docs/believed.py would write")
    sys.exit(bool(wrong))


main()
