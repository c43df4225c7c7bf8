#!/usr/bin/env python3
"""places.py [ROOT] [-v]: the places in crates/*/src that docs/DESIGN-PASS.md counts, point by point, and how many say why they
stay (`// Kept: (POINT) ..`). With -v each place in a line of its own."""
import collections
import glob
import os
import re
import sys

POINTS = {
    '1a': 'enums of two or three cases of which one carries a value (shape of Option or Result)',
    '1b': 'constants that number a kind',
    '1c': 'parameters and fields `bool`',
    '2a': 'functions alike but for names, types and numbers (those beyond the first of their kind)',
    '2b': 'functions named by a mode or a plant',
    '3': '`while` and `loop`',
    '4a': 'casts by a function (`wide`, `narrow`)',
    '4b': 'enums and structs without Debug, PartialEq, Eq',
    '4c': 'functions that print or turn a kind into a number or back by hand',
    '5a': 'facts in the `requires` of three or more functions (clauses)',
    '5b': 'three lent rows that three or more functions of a crate behind the doors take side by side (functions)',
    '6': 'a slice with how much of it counts beside it',
    '7': 'a `match` on a mode or kind that chooses a call',
    '0': 'beside the points: tests `-> bool` by `return true` and `return false`',
    '8': 'answers and invariants in proofs/ (`pub X : goal.X`)',
}
KINDS = ('DICTIONARY_WORD NON_THAI_RUN TO_WORD TO_NON_THAI TO_END TEXTS CHARACTERS TOKENS EDGES MOST_EDGES FULL LAST_REFUSAL '
         'NO_CLASS UNSHIFTED BEHIND_SPACE NONE').split()


def code(path):
    """The file's text with comments blanked, lines kept."""
    return re.sub(r'//[^\n]*', '', open(path).read())


def functions(text):
    """(name, line, head, body) of each function."""
    for m in re.finditer(r'\bfn (\w+)', text):
        depth, i = 0, m.end()
        start = None
        ghost = 0
        while i < len(text):
            c = text[i]
            if c == '{':
                before = text[max(0, i - 60):i]
                if depth == 0 and not re.search(r'(requires|ensures)( \w+)? $', before):
                    start = i
                depth += 1
            elif c == '}':
                depth -= 1
                if depth == 0 and start is not None:
                    break
            elif c == ';' and depth == 0 and start is None:
                break
            i += 1
        if start is not None:
            yield m.group(1), text.count('\n', 0, m.start()) + 1, text[m.start():start], text[start:i + 1]


def shape(head, body):
    """The function with names and numbers replaced by their order of appearance."""
    seen = {}
    words = 'fn let mut if else while loop for in return match true false break continue as'.split()
    def put(m):
        w = m.group(0)
        if w in words:
            return w
        return seen.setdefault(w, 'x%d' % len(seen))
    head = re.sub(r'\b(requires|ensures)( \w+)?\s*\{.*', '', head, flags=re.S)
    return re.sub(r'\s+', '', re.sub(r'\w+', put, head + body)), len(re.findall(r'\w+', body))


def main():
    words = [a for a in sys.argv[1:] if not a.startswith('-')]
    root = words[0] if words else os.path.join(os.path.dirname(os.path.abspath(__file__)), '..')
    found = collections.defaultdict(list)
    kept = collections.Counter()
    shapes = collections.defaultdict(list)
    facts = collections.defaultdict(set)
    rows = collections.defaultdict(set)
    for path in sorted(glob.glob(os.path.join(root, 'crates/*/src/**/*.rt'), recursive=True)):
        crate = os.path.relpath(path, root).split(os.sep)[1]
        raw = open(path).read()
        text = code(path)
        for m in re.finditer(r'// Kept: ((?:\(\d+\)[, and]*)+)', raw):
            kept.update(re.findall(r'\d+', m.group(1)))
        def add(point, at, what):
            found[point].append('%s:%d %s' % (os.path.relpath(path, root), text.count('\n', 0, at) + 1, what))
        for m in re.finditer(r'\benum (\w+)[^{;]*\{(.*?)\n\s*\}', text, re.S):
            cases = [c for c in re.split(r',\s*\n', m.group(2)) if c.strip()]
            if 2 <= len(cases) <= 3 and any(re.search(r'[({]', c) for c in cases):
                add('1a', m.start(), m.group(1))
        for m in re.finditer(r'\bconst (%s)\b' % '|'.join(KINDS), text):
            add('1b', m.start(), m.group(1))
        for m in re.finditer(r'\b(\w+): bool\b', text):
            add('1c', m.start(), m.group(1))
        for m in re.finditer(r'\b(while|loop)\b', text):
            add('3', m.start(), m.group(1))
        for m in re.finditer(r'\b(wide|narrow)\(', text):
            add('4a', m.start(), m.group(1))
        for m in re.finditer(r'((?:#\[derive\([^)]*\)\]\s*)*)(?:pub )?(struct|enum) (\w+)', text):
            if not ('PartialEq' in m.group(1)):
                add('4b', m.start(), m.group(3))
        for name, line, head, body in functions(text):
            place = '%s:%d %s' % (os.path.relpath(path, root), line, name)
            if re.search(r'-> bool\b', head) and len(re.findall(r'\breturn (true|false)\b', body)) >= 1 and not re.search(r'\b(while|loop|for)\b', body):
                found['0'].append(place)
            if re.search(r'_(plain|safe|sheet|in|a|b)$', name):
                found['2b'].append(place)
            if re.fullmatch(r'number|detail|whose|wide|narrow|cell|short_cell|scalar|print_\w+|show\w*|put_decimal|put_hex|put_mark|keep_number|write_refusal', name):
                found['4c'].append(place)
            if re.search(r'\[(u8|u32|u64|usize)\], (n|k|m|kept|used|count|len|size|cells): usize', head):
                found['6'].append(place)
            if re.search(r'\bmatch (mode|wanted|plant|whose|form|asked|op)\b', body):
                found['7'].append(place)
            s, size = shape(head, body)
            if size >= 12:
                shapes[s].append(place)
            for clause in re.findall(r'requires(?: \w+)?\s*\{((?:[^{}]|\{[^{}]*\})*)\}', head):
                fact = re.sub(r'\.(now|old|new)\b', '', clause.strip().split('\n')[0])
                facts[(crate, fact.split()[0] if fact and fact.split()[0][0].isupper() else fact)].add(place)
            names = re.findall(r'(\w+): &(?:mut )?\[?\w+', re.sub(r'(requires|ensures).*', '', head, flags=re.S))
            for i in range(len(names) - 2):
                if not re.match(r'fetlockice|host_', crate):
                    rows[(crate,) + tuple(names[i:i + 3])].add(place)
    for s, places in shapes.items():
        found['2a'] += places[1:]
    for (crate, fact), places in sorted(facts.items()):
        if len(places) >= 3:
            found['5a'] += ['%s in %s' % (fact, p) for p in sorted(places)]
    for path in sorted(glob.glob(os.path.join(root, 'crates/*/proofs/**/*.antt'), recursive=True)):
        for i, line in enumerate(open(path), 1):
            if re.match(r'(abbrev )?pub ([\w-]+) : goal\.', line):
                found['8'].append('%s:%d' % (os.path.relpath(path, root), i))
    five = set()
    for names, places in rows.items():
        if len(places) >= 3:
            five |= places
    found['5b'] = sorted(five)
    for point, what in POINTS.items():
        print('%-3s %5d  %s' % (point, len(found[point]), what))
        if '-v' in sys.argv[1:]:
            for place in found[point]:
                print('           ' + place)
    print('kept with a reason, by point: ' + (', '.join('%s: %d' % (k, kept[k]) for k in sorted(kept)) or 'none'))


main()
