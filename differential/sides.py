"""The two sides of a differential run: programs that read the input side of vector lines and write the answers."""
import functools
import os
import subprocess

import sheet

ROOT = os.path.dirname(os.path.dirname(os.path.abspath(__file__)))
RUST = os.path.join(ROOT, "target", "differential", "cargo", "release", "nlpo3-answers")

# The proved programs that can answer a kind of line, the best first.
PROGRAMS = {
    "clusters": ["test_tcc"],
    "alts": ["test_winners"],
    "prefix": ["test_trie_char"],
    "dict": ["test_trie_char"],
    "cut plain": ["test_cut"],
    "cut safe": ["test_cut"],
    "cut sheet": ["test_cut"],
    "reasons plain": ["test_reasons"],
    "reasons safe": ["test_reasons"],
    "reasons sheet": ["test_reasons"],
}


def kind(line):
    """The operation of a line, and the mode of a cut."""
    fields = line.split("\t", 2)
    return " ".join(fields[:2]) if fields[0] in ("cut", "reasons") else fields[0]


@functools.cache
def standing():
    """The program that answers each kind, of those that stand in crates.txt."""
    crates = {line.split(":")[0] for line in open(os.path.join(ROOT, "crates.txt"), encoding="utf-8")}
    found = {kind: [program for program in programs if program in crates] for kind, programs in PROGRAMS.items()}
    return {kind: programs[0] for kind, programs in found.items() if programs}


def run(path, lines):
    """The program's answer for each line."""
    given = "".join(line + "\n" for line in lines)
    done = subprocess.run([path], input=given, capture_output=True, encoding="utf-8", check=True)
    answers = done.stdout.split("\n")[:-1]
    if len(answers) != len(lines):
        raise SystemExit("%s gave %d answers to %d lines" % (path, len(answers), len(lines)))
    return answers


def rust(lines):
    """The Rust's answers. The profile "sheet" is put together from its plain cuts."""
    in_parts = [line for line in lines if kind(line).endswith(" sheet")]
    joined = iter(sheet.answers(in_parts, lambda given: run(RUST, given)))
    own = iter(run(RUST, [line for line in lines if not kind(line).endswith(" sheet")]))
    return [next(joined if kind(line).endswith(" sheet") else own) for line in lines]


def program(kind):
    """Where `rt run` leaves the program for a kind."""
    name = standing()[kind]
    return os.path.join(ROOT, "crates", name, "out", name)


def both_matchers(lines):
    """The cluster ends that both of our matchers give; where they differ, those of the second, with its winners."""
    first = run(program("clusters"), lines)
    second = run(program("alts"), ["alts\t%s\t*\t*" % line.split("\t")[1] for line in lines])
    return [a if b.startswith(a + " ") else "the second matcher: " + b for a, b in zip(first, second)]


def ours(lines):
    """The answers of the program for the lines' kind, which is the same for all."""
    if kind(lines[0]) == "clusters" and "alts" in standing():
        return both_matchers(lines)
    return run(program(kind(lines[0])), lines)
