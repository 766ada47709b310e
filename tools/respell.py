#!/usr/bin/env python3
"""Spells the repository's own definitions and lemmas in snake case, as the library's are.

usage: tools/respell.py ROOT [--dry-run]

The names are those that specs/*.antt and proofs/*.antt (walks apart) declare at the start of a line, under `where`, or as a
record's field or constructor, with a small first letter and a capital or a dash inside. Each token of that spelling changes in
all .rt, .antt and .edit files of crates/. Functions of src/, strings, types and modules keep their names. A name that would meet
another in a file is listed and keeps its spelling, unless RENAMED has one for it.
"""
import os
import re
import sys

NAME = r"[^\s(){}.;,@\"«»`\[\]]+"
TOKEN = re.compile(rf"(?<![^\s(){{}}.;,@\"«»`\[\]]){NAME}")
DECLARED = re.compile(
    r"^[ \t]*(?:(?:abbrev|unfoldable|pub|opaque|irreducible|reducible|instance|ruleset|unfolding)[ \t]+)*(?P<name>[^\s(){}.;,@\"«»:=]+)(?:[ \t]+\{[^{}\n]*\})*[ \t]+:(?=\s)"
)
# Names whose plain new spelling would meet another.
RENAMED = {
    "atRest": "at_rest_of",
    "atX": "x_at",
    "atY": "y_at",
    "cutField": "field_of_cut",
    "isDown": "is_downward",
    "tiltDown": "tilt_down_of",
    "upperHalf": "upper_half_of",
    "upperMag": "upper_mag_of",
    "upperRail": "upper_rail_of",
    "withItem": "with_one_item",
    "galleyFile": "file_of_galley",
    "proof-sheet": "proof_sheet_lem",
    "tilt-down": "tilt_down_lem",
}


def snake(name):
    words = re.sub(r"(?<=[a-z0-9'])[A-Z]", lambda m: "_" + m[0].lower(), name)
    return words.replace("-", "_")


def crate_files(root):
    for folder, dirs, files in os.walk(os.path.join(root, "crates")):
        dirs[:] = sorted(d for d in dirs if d != "out")
        for f in sorted(files):
            if f.endswith((".rt", ".antt", ".edit")):
                yield os.path.join(folder, f)


def is_walk(path):
    return bool(re.search(r"/proofs/.*/?(Proof)(\.antt|/)", path))


def declares(path):
    return path.endswith(".antt") and ("/specs/" in path or "/proofs/" in path) and not is_walk(path)


# The words that a new spelling can meet: in source, all but the names of functions and paths, which no clause can name.
def words(path, text):
    if not path.endswith(".rt"):
        return set(TOKEN.findall(text))
    code = re.sub(r"(?m)//.*$", "", text)
    code = re.sub(r"(?m)^\s*(?:pub )?use [^;]*;", "", code)
    code = re.sub(r"\b\w+(?=\s*(?:<[^<>()]*>)?\()|\bfn \w+|\bmod \w+|\b\w+(?=::)|(?<=::)\w+", "", code)
    return set(TOKEN.findall(code))


def main():
    root = sys.argv[1]
    dry = "--dry-run" in sys.argv
    texts = {p: open(p, encoding="utf-8").read() for p in crate_files(root)}
    names = set()
    for p, t in texts.items():
        if not declares(p):
            continue
        for line in t.splitlines():
            m = DECLARED.match(line)
            if not m:
                continue
            n = m["name"]
            if re.match(r"[a-z]", n) and (re.search(r"[a-z0-9'][A-Z]", n) or re.search(r"\w-\w", n)) and "◌" not in n:
                names.add(n)
    new = {n: RENAMED.get(n, snake(n)) for n in names}
    # two old names with one new spelling
    back = {}
    for n, m in new.items():
        back.setdefault(m, []).append(n)
    # a lemma that would have its definition's name gets _lem
    for m, ns in back.items():
        if len(ns) == 2 and "-" in ns[0] + ns[1]:
            new[next(n for n in ns if "-" in n)] = m + "_lem"
    back = {}
    for n, m in new.items():
        back.setdefault(m, []).append(n)
    stays = {n for m, ns in back.items() if len(ns) > 1 for n in ns}
    met = {}
    for p, t in texts.items():
        if is_walk(p):
            continue
        tokens = words(p, t)
        for n in names & tokens:
            if new[n] in tokens:
                met.setdefault(n, []).append(p)
    for n in sorted(stays):
        print("left: two names fall together:", n, new[n])
    for n in sorted(met):
        print("left: meets another:", n, new[n], *[os.path.relpath(p, root) for p in met[n][:4]])
    stays |= set(met)
    change = {n: m for n, m in new.items() if n not in stays}
    functions = {n for p, t in texts.items() if p.endswith(".rt") for n in re.findall(r"\bfn (\w+)", t)}
    for p, t in texts.items():
        walk = is_walk(p)

        def turn(m):
            # a step of a walk has its function's name
            if walk and m.start() and t[m.start() - 1] == "." and m[0].replace("-", "_") in functions:
                return m[0].replace("-", "_")
            return change.get(m[0], m[0])

        out = TOKEN.sub(turn, t)
        if out != t and not dry:
            with open(p, "w", encoding="utf-8") as f:
                f.write(out)
    print(f"respell: {len(change)} names, {len(stays)} left")


if __name__ == "__main__":
    main()
