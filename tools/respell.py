#!/usr/bin/env python3
"""Brings this repository's own definitions and lemmas to Rattle's spelling: snake case for what is no type and no module.

usage: python3 tools/respell.py [--dry]        at the top, once, right after /opt/rattle/port/port.py

Names in camel case or with dashes that specs/ and proofs/ define become snake case in .antt and .rt files and, in backticks, in the
pages. Functions of src/, exported C names, strings, inputs and outputs keep theirs. Where a definition and a lemma fall together, the
lemma gets `_lem`. A name that would meet another one of its file stops the script before anything is written.
"""
import collections
import glob
import re
import sys

TOKEN = re.compile(r"[^\s(){}\[\];,.`\"λ⌜⌝]+")
DEFINED = re.compile(r"^(\s*)((?:pub |abbrev |unfoldable )*)([^\s(){}\[\];,.λ:]+) : ")
HEAD = re.compile(r"^(\s*)((?:pub |abbrev |unfoldable )*)(record|data|ruleset)\s+([^\s(){}\[\];,.λ:]+)")

# Two that fell together with constructors.
BY_HAND = {"byAction": "by_action_in", "byMove": "by_move_in"}
# Names that are std's words today, each where it comes from that file of specs/.
STDS = [
    ("controller", "Accuracy", "IsTrue", "IsTrueCall"),
    ("theory", "cases.Games", "Result", "GameResult"),
    ("claims", "cases.Orders", "Result", "PostResult"),
    ("theory", "Table", "Fits", "TableFits"),
    ("theory", "Rounds", "falls", "node_falls"),
]
# Lemmas that port.py spelt like a definition that is still in camel case.
LEMMAS = ["made_by", "none_before", "some_good", "mask_at"]


def antt_files():
    return sorted(p for p in glob.glob("crates/*/*/**/*.antt", recursive=True) if "/out/" not in p)


def defined(paths):
    names = collections.defaultdict(set)
    for p in paths:
        if p.endswith("/Proof.antt"):
            continue
        for line in open(p, encoding="utf-8"):
            if line.lstrip().startswith("--"):
                continue
            m = HEAD.match(line)
            if m:
                names[m.group(4)].add(p)
                continue
            m = DEFINED.match(line)
            if m and m.group(3) not in ("use", "module", "in", "let", "elim"):
                names[m.group(3)].add(p)
    return names


def snake(n):
    if n[0].islower():
        n = re.sub(r"(?<=[a-z0-9])([A-Z])", lambda m: "_" + m.group(1).lower(), n)
    return n.replace("-", "_").replace("·", "_").replace("′", "'")


def renames(names):
    new = {}
    for n in names:
        if n[0].islower() and snake(n) != n or "-" in n:
            new[n] = BY_HAND.get(n, snake(n))
    taken = collections.defaultdict(list)
    for n in names:
        taken[new.get(n, n)].append(n)
    for to, olds in taken.items():
        if len(olds) == 1:
            continue
        lemmas = [n for n in olds if "-" in n or n in LEMMAS]
        if len(olds) - len(lemmas) != 1:
            sys.exit(f"respell: {olds} fall together")
        for i, n in enumerate(lemmas):
            new[n] = to + "_lem" + ("" if i == 0 else str(i + 1))
    return {a: b for a, b in new.items() if a != b}


def by_file(path, text, new):
    """The renames for one file: those of all, and std's words where the file has ours."""
    mine = dict(new)
    for crate, module, old, to in STDS:
        home = f"crates/{crate}/specs/{module.replace('.', '/')}.antt"
        brought = re.search(r"Rattle\.%s\.specs\.%s\.\{[^}]*(?<![\w-])%s(?![\w-])[^}]*\}" % (crate, re.escape(module), old), text)
        if path == home or brought:
            mine[old] = to
    return mine


def turn_code(text, new, comment):
    out = []
    for line in text.split("\n"):
        code, rest = line, ""
        k = line.find(comment)
        if k >= 0 and (k == 0 or line[k - 1].isspace()):
            code, rest = line[:k], line[k:]
        code = TOKEN.sub(lambda m: new.get(m.group(0), m.group(0)), code)
        rest = turn_page(rest, new)
        rest = TOKEN.sub(lambda m: new[m.group(0)] if m.group(0) in new and "-" not in m.group(0) and not m.group(0).islower() else m.group(0), rest)
        out.append(code + rest)
    return "\n".join(out)


def turn_page(text, new):
    return re.sub(r"`[^`\n]*`", lambda m: TOKEN.sub(lambda t: new.get(t.group(0), t.group(0)), m.group(0)), text)


def main():
    dry = "--dry" in sys.argv
    paths = antt_files()
    names = defined(paths)
    new = renames(names)
    texts, bad, functions = {}, 0, set()
    for p in glob.glob("crates/*/src/**/*.rt", recursive=True):
        functions |= set(re.findall(r"fn (\w+)", open(p, encoding="utf-8").read()))
    for p in paths + sorted(glob.glob("crates/*/src/**/*.rt", recursive=True)):
        old = open(p, encoding="utf-8").read()
        code = re.sub(r"(?m)(?:^|(?<=\s))(--|//).*$", "", old)
        if p.endswith(".rt"):
            # a function and a definition may share a name
            code = re.sub(r"fn \w+", "", code)
        here, mine = set(TOKEN.findall(code)), by_file(p, old, new)
        for n in here & set(mine):
            if mine[n] in here and mine[n] not in mine and not (p.endswith("/Proof.antt") or mine[n] in functions):
                print(f"respell: {p}: {n} would meet {mine[n]}")
                bad += 1
        texts[p] = (old, turn_code(old, mine, "--" if p.endswith(".antt") else "//"))
    for p in ["README.md"] + sorted(glob.glob("docs/**/*.md", recursive=True)):
        old = open(p, encoding="utf-8").read()
        texts[p] = (old, turn_page(old, new))
    print(f"respell: {len(new)} names, {sum(a != b for a, b in texts.values())} files")
    if bad and not dry:
        sys.exit("respell: nothing was written")
    if dry:
        return
    for p, (old, text) in texts.items():
        if old != text:
            open(p, "w", encoding="utf-8").write(text)


main()
