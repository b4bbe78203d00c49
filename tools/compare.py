#!/usr/bin/env python3
"""Compares the tree with another one, and looks whether edits and pages still fit it.

usage: python3 tools/compare.py public OLD        public functions with their clauses, old and new side by side, as rows of a page
       python3 tools/compare.py statements OLD    signatures of specs/ and proofs/ that are gone or read otherwise
       python3 tools/compare.py edits             must-fail edits whose 'old:' text doesn't stand exactly once
       python3 tools/compare.py pages PAGE..      names in backquotes that don't stand in the file named behind them

OLD is a folder with another tree of this repository, as `git archive COMMIT | tar x -C OLD` makes it. By text alone: a reader judges.
"""
import glob
import os
import re
import sys


def public(root):
    """Each public function, and each of a trait's impl: crate, type, name -> signature and clauses."""
    found = {}
    for path in sorted(glob.glob(root + '/crates/*/src/*.rt')):
        crate, place, lines = path.split('/')[-3], '', open(path).read().split('\n')
        for i, line in enumerate(lines):
            block = re.match(r'impl(?:<[^>]*>)? (.+?) \{', line)
            place = block.group(1) if block else '' if line == '}' else place
            head = re.match(r'\s*(pub )?(?:extern "C" )?(?:const )?fn (\w+)', line)
            if not head or not (head.group(1) or ' for ' in place):
                continue
            text = ''
            for part in lines[i:]:
                text += ' ' + part.strip()
                if part.rstrip().endswith('{') and not re.match(r'\s*(requires|ensures)', part):
                    break
            key = place if ' for ' in place else place.split('<')[0]
            found[crate, key, head.group(2)] = re.sub(r'\s+', ' ', text).strip(' {').replace('|', '\\|')
    return found


def statements(root):
    """Each signature below specs/ and proofs/ but for answers and invariants: crate, name -> types."""
    found = {}
    for path in sorted(glob.glob(root + '/crates/*/proofs/**/*.antt', recursive=True) + glob.glob(root + '/crates/*/specs/**/*.antt', recursive=True)):
        if path.endswith(('Answers.antt', 'Invariants.antt')):
            continue
        lines = open(path).read().split('\n')
        for i, line in enumerate(lines):
            m = re.match(r'( {0,2})(?:(?:abbrev|unfoldable) )?(?:pub )?([^\s:()]+) : (.*)$', line)
            if not m:
                continue
            text = m.group(3)
            for more in lines[i + 1:]:
                if not more.strip() or len(more) - len(more.lstrip()) <= len(m.group(1)) or re.match(r'\s*(unfolding|--)', more):
                    break
                text += ' ' + more.strip()
            found.setdefault((path[len(root):].split('/')[2], m.group(2)), set()).add(text)
    return found


def edits():
    for path in sorted(glob.glob('crates/*/must-fail/*.edit')):
        texts, file, old = {}, '', ''
        for line in open(path).read().split('\n'):
            if line.startswith('file: '):
                file = f'crates/{path.split("/")[1]}/{line[6:]}'
            elif line.startswith('old: '):
                old = line[5:]
            elif line.startswith('new: '):
                text = texts.get(file) or open(file).read()
                if text.count(old) != 1:
                    yield f'{path}: {text.count(old)} times: {old}'
                texts[file] = text.replace(old, line[5:])


def pages(names):
    places = r'((?:`[^`]+`(?:, | and |,? or )?)+)\s*\(((?:[a-z]+/(?:src|specs|proofs)(?:/[A-Za-z0-9/_]+(?:\.[a-z]+)?)?))'
    for page in names:
        for number, line in enumerate(open(page), 1):
            for m in re.finditer(places, line):
                paths = [p for end in ('', '.antt', '.rt') for p in [f'crates/{m.group(2)}{end}'] if os.path.isfile(p)]
                paths += glob.glob(f'crates/{m.group(2)}/**/*.*', recursive=True)
                text = ' '.join(open(p).read() for p in paths)
                for name in re.findall(r"`(?:[^`]*::)?([A-Za-z_][A-Za-z0-9_']*)[^`]*`", m.group(1)):
                    if not re.search(rf"(?<![A-Za-z0-9_']){re.escape(name)}(?![A-Za-z0-9_'])", text):
                        yield f'{page}:{number}: {name} is not in {m.group(2)}'


def main(kind, rest):
    if kind == 'edits':
        lines = edits()
    elif kind == 'pages':
        lines = pages(rest)
    else:
        read = {'public': public, 'statements': statements}[kind]
        old, new = read(rest[0]), read('.')
        rows = sorted(k for k in {*old, *new} if old.get(k) != new.get(k))
        if kind == 'public':
            lines = (f'| {k[0]}: {k[1]} | `{old.get(k, "none")}` | `{new.get(k, "gone")}` |' for k in rows)
        else:
            lines = (f'{k[0]}: {k[1]}: {"changed" if k in new else "gone"}' for k in rows if k in old)
    for line in lines:
        print(line)


if __name__ == '__main__':
    main(sys.argv[1], sys.argv[2:]) if len(sys.argv) > 1 else print(__doc__)
