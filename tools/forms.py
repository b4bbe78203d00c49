#!/usr/bin/env python3
"""Lists the places of src/ at which docs/DESIGN-PASS.md looks, point by point, and counts them.

usage: python3 tools/forms.py [POINT..]        at the top of the repository; without a point, the counts alone

1 enums, flags and numbers that may say 'none' or 'refused'     5 parameters that travel together, clauses that repeat
2 pairs of functions that read alike                             6 arrays with a length or a partner beside them
3 loops that count                                               7 parameters and tests that choose a step
4 conversions and comparisons by hand                            8 answers in proofs/
"""
import difflib
import glob
import re
import sys
from collections import Counter, defaultdict

FN = re.compile(r'\bfn (\w+)(?:<[^(]*>)?\(([^)]*)\)\s*(?:-> ([^\n{]+?))?\s*((?:\n\s+(?:requires|ensures)[^\n]*(?:\n\s{8,}[^\n]*)*)*)\s*\{', re.M)
GROUPS = [
    ('p', 'grid', 'u', 'firsts', 'level'), ('p', 'grid', 'level'), ('ranks', 'masks', 'queue'), ('masks', 'marks', 'queue'),
    ('out', 'at'), ('marks', 'queue', 'found'), ('reaching', 'lines', 'leading', 'cells'), ('heads', 'links'), ('marks', 'n'),
    ('ranks', 'n'), ('actions', 'count'), ('index', 'position'), ('sheet', 'l'), ('flags', 'masks'), ('highest', 'delay'),
]


def functions():
    """Each function: its file and line, name, parameters' names, result, clauses and body."""
    for path in sorted(glob.glob('crates/*/src/*.rt')):
        text = open(path).read()
        for m in FN.finditer(text):
            depth, end = 1, m.end()
            while depth and end < len(text):
                depth += {'{': 1, '}': -1}.get(text[end], 0)
                end += 1
            names = [p.split(':')[0].strip() for p in m.group(2).split(',') if p.strip()]
            line = text.count('\n', 0, m.start()) + 1
            yield f'{path}:{line}', m.group(1), names, (m.group(3) or '').strip(), m.group(4) or '', text[m.end():end - 1]


def lines(pattern):
    for path in sorted(glob.glob('crates/*/src/*.rt')):
        for number, line in enumerate(open(path), 1):
            if re.search(pattern, line) and not re.match(r'\s*//', line):
                yield f'{path}:{number}: {line.strip()}'


def answers():
    """Point 1: enums of our own, bool fields, numbers that a test gives up with."""
    yield from lines(r'^\s*(pub(\(crate\))? )?enum ')
    yield from lines(r'^\s+(pub )?[a-z_]+: bool,$')
    for at, name, _, result, _, body in functions():
        if re.fullmatch(r'u8|u16|usize', result) and re.search(r'return (0|ABSENT|\w+\.len\(\));|\n    \w+\.(len\(\)|nodes)\n$', body):
            yield f'{at}: {name} -> {result}'


def alike():
    """Point 2: functions of some length whose bodies agree in four tokens of five."""
    bodies = [(at, name, re.findall(r'\w+|[^\w\s]', body)) for at, name, _, _, _, body in functions()]
    bodies = [b for b in bodies if len(b[2]) >= 30]
    for i, (at, name, tokens) in enumerate(bodies):
        for other, second, more in bodies[i + 1:]:
            match = difflib.SequenceMatcher(None, tokens, more, autojunk=False)
            if match.quick_ratio() >= 0.8 and match.ratio() >= 0.8:
                yield f'{at}: {name} / {other}: {second}'


def loops():
    """Point 3: loops with a counter."""
    yield from lines(r'^\s*(let \w+ = )?(\'\w+: )?(while\b|loop \{)')
    yield from lines(r'^\s*(\'\w+: )?for \w+ in [^{]*\.\.')


def conversions():
    """Point 4: numbers and values turned or compared by hand."""
    yield from lines(r'\bwide(16)?\(|\blow_byte\(|\btwo_bytes\(|\bglyph|\bput_number\(|\bencode\(|\bdecode\(|\.number\(\)|turn_from|slot_from')
    yield from lines(r'\bas (u8|u16|usize)\b')


def groups():
    """Point 5: groups of parameters, and clauses in three functions or more."""
    clauses = defaultdict(set)
    for at, name, names, _, contract, _ in functions():
        for group in GROUPS:
            if all(g in names for g in group):
                yield f'{at}: {name}: {", ".join(group)}'
        if len(names) >= 7:
            yield f'{at}: {name}: {len(names)} parameters'
        for clause in re.findall(r'requires[^{]*\{(.*?)\}\n', contract, re.S):
            for part in re.split(r'\) × \(', clause):
                clauses[' '.join(part.strip(' ()\n').split())].add(name)
    for clause, names in sorted(clauses.items(), key=lambda x: -len(x[1])):
        if len(names) >= 3:
            yield f'{clause}: required by {len(names)} functions'


def buffers():
    """Point 6: local arrays, and places that go with a buffer."""
    yield from lines(r'let mut \w+ = \[[^\]]*; \w+\];')
    for at, name, names, _, _, _ in functions():
        for pair in (('out', 'at'), ('queue', 'tail'), ('queue', 'found'), ('heads', 'links')):
            if all(x in names for x in pair):
                yield f'{at}: {name}: {", ".join(pair)}'


def switches():
    """Point 7: tests of a kind of step."""
    yield from lines(r'\bif !?(level|arena\.level|self\.level|self|spot)\.(odd|single|holding)\b|\bif (odd|holding)\b|\bdyn\b|\bfn\(')


def proofs():
    """Point 8: files of answers by crate, their answers, and those of a goal with requires in its name."""
    for path in sorted(glob.glob('crates/*/proofs/**/Answers.antt', recursive=True)):
        text = open(path).read()
        goals = re.findall(r'^pub ([^ ]+) : goal\.', text, re.M)
        yield f'{path}: {len(goals)} answers, {sum("requires" in g for g in goals)} of a requires, {len(text.splitlines())} lines'


POINTS = dict(zip('12345678', (answers, alike, loops, conversions, groups, buffers, switches, proofs)))

if __name__ == '__main__':
    for point in sys.argv[1:]:
        for place in POINTS[point]():
            print(place)
    if not sys.argv[1:]:
        for point, places in POINTS.items():
            found = list(places())
            print(f'{point}: {len(found)}  {places.__doc__.split(": ", 1)[1]}')
        texts = [open(p).read() for p in glob.glob('crates/*/proofs/**/Answers.antt', recursive=True)]
        print(f'8: {sum(len(re.findall("^pub .* : goal", t, re.M)) for t in texts)} answers in {sum(len(t.splitlines()) for t in texts)} lines')
