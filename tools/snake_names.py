#!/usr/bin/env python3
"""Turns the names that this repository gives its definitions and lemmas to snake case.

usage: python3 tools/snake_names.py        at the top of the repository, once

A name that a file of specs/ or a lemma file of proofs/ declares, and that has a hump (rowLawful) or a dash
(row-lawful), becomes row_lawful; a type's name that begins with a capital loses its dash (When-ok: WhenOk). It is
turned wherever it stands as a word of its own: in specs/, proofs/, the clauses of src/, README.md and docs/.
Strings and bytes of src/ stay. Names that would fall together with another one are told, and nothing is written.
"""

import os
import re

DECLARED = re.compile(
    r"\s*(?:(?:abbrev|opaque|unfoldable|pub|record|data|instance)\s+)*([^\s:(){},.=|]+)\s*(?:\([^=]*\)\s*|\{[^=]*\}\s*)*:(?:\s|$)"
)
WORD = re.compile(r"[^\s(){}\[\];,.:=|\"«»`<>&!?+*/#∷≡≤×⊎λ]+")
STRING = re.compile(r"b?\"(?:\\.|[^\"\\])*\"|b?'(?:\\.|[^'\\])'")

# names of parameters that have a hump
LOCAL = ("legIn", "legOut")


def texts():
    for folder, dirs, files in os.walk("crates"):
        dirs[:] = sorted(d for d in dirs if d != "out")
        for f in sorted(files):
            if f.endswith((".rt", ".antt")):
                yield os.path.join(folder, f)


def read(path):
    with open(path, encoding="utf-8") as f:
        return f.read()


def declared(paths):
    names = set()
    for p in paths:
        if "/specs/" in p or re.search(r"/proofs/\w+\.antt$", p):
            for line in read(p).split("\n"):
                m = DECLARED.match(line)
                if m and not line.lstrip().startswith("--"):
                    names.add(m[1])
    return names


def turned(name):
    if name[0].isupper():
        return "".join(w[0].upper() + w[1:] for w in name.split("-"))
    humps = re.sub(r"(?<=[a-z0-9])([A-Z])", lambda m: "_" + m[1].lower(), name)
    return re.sub(r"-+", "_", humps)


def turn(text, names, code):
    def words(t):
        return WORD.sub(lambda m: names.get(m[0], m[0]), t)

    if not code:
        return words(text)
    out, at = [], 0
    for m in STRING.finditer(text):
        out += [words(text[at : m.start()]), m[0]]
        at = m.end()
    return "".join(out + [words(text[at:])])


def main():
    paths = list(texts())
    own = declared(paths)
    names = {n: turned(n) for n in own if turned(n) != n}
    names |= {n: turned(n) for n in LOCAL}
    faults, seen = [], {}
    for old, new in sorted(names.items()):
        if new in own:
            faults.append(f"{old}: {new} is there already")
        if new in seen:
            faults.append(f"{old}: {new} also comes from {seen[new]}")
        seen[new] = old
    for p in paths:
        words = set(WORD.findall(read(p)))
        for old in words & names.keys():
            # a function's proof names the function in its own paths, and that is no clash
            if names[old] in words and p.endswith(".antt") and names[old] not in p.split(os.sep):
                faults.append(f"{p}: {old} and {names[old]}")
    for f in faults:
        print(f)
    if faults:
        return 1
    pages = ["README.md"] + sorted(os.path.join("docs", f) for f in os.listdir("docs") if f.endswith(".md"))
    for p in paths + pages:
        old = read(p)
        new = turn(old, names, p.endswith(".rt"))
        if new != old:
            with open(p, "w", encoding="utf-8") as f:
                f.write(new)
    print(f"{len(names)} names turned")
    return 0


if __name__ == "__main__":
    raise SystemExit(main())
