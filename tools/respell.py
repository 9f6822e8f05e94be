#!/usr/bin/env python3
"""respell.py: brings the repository's own names of definitions, lemmas, fields and constructors to today's spelling, once, after port.py.

usage: python3 tools/respell.py [--list]      at the top of the repository; --list prints old and new name and writes nothing

A name that this repository's .antt files define, in mixed case, gets snake case, part by part between its dashes: `periodsOfCode` is
`periods_of_code`, `getD-build` is `get_or-build`. Types, facts and modules begin with a capital and stay. Names that the library's
modules give stay; functions, fields and exports of src/ are in snake case already and stay. Texts between double quotes in .rt files
stay. It stops where two names would fall together.
"""

import glob
import os
import re
import sys

# One name of the repository's, or a word of one: letters, digits, subscripts and what antt lets stand inside.
WORD = re.compile(r"[A-Za-z_\u00b7\u0370-\u03ff\u2080-\u209c\u2100-\u214f0-9'\-]+")
DEFINED = re.compile(r"^\s*(?:(?:pub|unfoldable|abbrev)\s+)*((?:[^\s:(){}=\u2261]+\s+)+):\s")
MIXED = re.compile(r"^[a-z][a-z0-9]*[A-Z]")

# Lemmas that would get the name of the definition that they speak of.
LEMMAS = {"sum_over": "sum_over_lem", "place_at": "place_at_lem", "as_line": "as_line_lem"}


def part(p):
    if p.startswith("getD") and (len(p) == 4 or not p[4].islower()):
        p = "getOr" + p[4:]
    if not MIXED.match(p):
        return p
    return re.sub(r"(?<=[a-z0-9])([A-Z])", r"_\1", p).lower()


def respelled(name):
    return "-".join(part(p) for p in name.split("-"))


def read(path):
    with open(path, encoding="utf-8") as f:
        return f.read()


def files(root):
    found = []
    for kind in ("specs", "proofs"):
        found += glob.glob(os.path.join(root, "crates", "*", kind, "**", "*.antt"), recursive=True)
    found += glob.glob(os.path.join(root, "crates", "*", "src", "**", "*.rt"), recursive=True)
    found += glob.glob(os.path.join(root, "crates", "*", "must-fail", "*.edit"))
    found += glob.glob(os.path.join(root, "wrong-versions", "*", "*.edit"))
    return sorted(found)


def names(root):
    """The map from old to new, and the names that the library gives."""
    defined, library = set(), set()
    own = {"Rattle." + c for c in os.listdir(os.path.join(root, "crates"))}
    for path in files(root):
        text = read(path)
        if path.endswith(".antt"):
            for line in text.splitlines():
                m = DEFINED.match(line)
                if m:
                    defined |= {w.strip("{}()") for w in m.group(1).split()}
        for m in re.finditer(r"\buse ([\w.·'+-]+)\.\{([^}]*)\}", text):
            if ".".join(m.group(1).split(".")[:2]) not in own:
                library |= {w.strip().split(" ")[0] for w in m.group(2).split(",")}
    found = {}
    for n in sorted(defined - library):
        new = respelled(n)
        if new != n:
            found[n] = new
    found |= {n: new for n, new in LEMMAS.items() if n in defined}
    return found, library


def turned(text, found, path):
    def one(m):
        return found.get(m.group(0), m.group(0))

    if path.endswith(".rt"):
        pieces = re.split(r'("(?:[^"\\\n]|\\.)*")', text)
        return "".join(p if k % 2 else WORD.sub(one, p) for k, p in enumerate(pieces))
    return WORD.sub(one, text)


def main(argv):
    root = "."
    found, library = names(root)
    taken = {}
    clashes = []
    present = set()
    code = set()  # functions of src/: a definition may have the name of the function that gives it
    for path in glob.glob(os.path.join(root, "crates", "*", "src", "**", "*.rt"), recursive=True):
        code |= set(re.findall(r"\bfn ([a-z_0-9]+)", read(path)))
    for path in files(root):
        words = set(WORD.findall(read(path)))
        present |= words
        for old in words & set(found):
            if found[old] in words and found[old] not in found and found[old] not in code:
                clashes.append(f"{path}: {old} and {found[old]}")
    for old, new in found.items():
        if new in taken:
            clashes.append(f"{taken[new]} and {old} would both be {new}")
        if new in library:
            clashes.append(f"{old} would be the library's {new}")
        taken[new] = old
    if argv[1:] == ["--list"]:
        for old, new in found.items():
            print(f"{old} {new}{' (also a name now)' if new in present else ''}")
        print("\n".join("clash: " + c for c in clashes))
        return 0
    if clashes:
        print("\n".join("clash: " + c for c in clashes))
        return 1
    changed = 0
    for path in files(root):
        text = read(path)
        new = turned(text, found, path)
        if new != text:
            with open(path, "w", encoding="utf-8") as f:
                f.write(new)
            changed += 1
    print(f"respell: {len(found)} names, {changed} files")
    return 0


if __name__ == "__main__":
    raise SystemExit(main(sys.argv))
