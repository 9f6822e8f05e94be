#!/usr/bin/env python3
"""Counts the places of the design pass (docs/DESIGN-PASS.md) in crates/*/src.

usage: python3 tools/places.py [-l]        -l lists each place beside its count

Each point that text can tell is counted by a pattern over the code without its comments; the others are counted by reading, and the page lists them.
"""
import glob
import re
import subprocess
import sys

LIST = "-l" in sys.argv[1:]
FILES = sorted(glob.glob("crates/*/src/*.rt"))


def code(path):
    """The file with each comment's text taken out, so that line numbers stay."""
    return "\n".join(re.sub(r"//.*", "", line) for line in open(path, encoding="utf-8").read().split("\n"))


TEXT = {path: code(path) for path in FILES}
FUNCTION = re.compile(r"\bfn (\w+)(<[^(]*>)?\((.*?)\)\s*(?:->\s*([^\n{]+?))?\s*(?=\n|\{|requires|ensures)", re.S)


def line(path, at):
    return f"{path}:{TEXT[path].count(chr(10), 0, at) + 1}"


def show(name, found):
    print(f"{name}: {len(found)}")
    if LIST:
        for place in found:
            print("    " + place)


def matches(pattern, files=FILES):
    return [f"{line(p, m.start())} {m.group(0).strip().splitlines()[0]}" for p in files for m in re.finditer(pattern, TEXT[p], re.M)]


def functions():
    for path in FILES:
        for m in FUNCTION.finditer(TEXT[path]):
            yield path, m


def structs():
    for path in FILES:
        for m in re.finditer(r"struct (\w+)(?:<[^>]*>)? \{(.*?)\n\}", TEXT[path], re.S):
            yield path, m


def parameters(m):
    return re.findall(r"(\w+):", m.group(3))


# 1
show("1a structs with a field `answer: u8` beside values", [f"{line(p, m.start())} {m.group(1)}" for p, m in structs() if re.search(r"\banswer: u8", m.group(2))])
NUMBERED = re.compile(r"refus|judge|nullify|day_totals|day_marks|kind|case_of|code_for")
show("1b functions that return a refusal or a kind as a u8", [f"{line(p, m.start())} {m.group(1)}" for p, m in functions() if (m.group(4) or "").strip() == "u8" and NUMBERED.search(m.group(1))])
show("1c constants that number refusals or kinds", matches(r"^pub const \w+: u8 = \d+;", [f for f in FILES if re.search(r"limits/src/(numbers|kinds)\.rt$", f)]))
# 3
show("3 loops that count an index (`while`, and `for` over a range)", matches(r"^\s*(?:'\w+: )?(?:while .*|for \w+ in [\w.()]+\.\..*)$"))
# 5
show("5 functions that take `held`, `side1` and `side2` apart", [f"{line(p, m.start())} {m.group(1)}" for p, m in functions() if {"held", "side1", "side2"} <= set(parameters(m))])
show("5 of these, with none of the three lent as `&mut`", [f"{line(p, m.start())} {m.group(1)}" for p, m in functions() if {"held", "side1", "side2"} <= set(parameters(m)) and "&mut" not in m.group(3)])
# 6
show("6 structs with a length beside an array", [f"{line(p, m.start())} {m.group(1)}" for p, m in structs() if re.search(r": \[", m.group(2)) and re.search(r"\b(count|days|authorisations|kept)\b: u", m.group(2))])
show("6 functions with a place `at` beside a buffer", [f"{line(p, m.start())} {m.group(1)}" for p, m in functions() if "at" in parameters(m) and re.search(r"&mut \[u8\]", m.group(3))])
# 7
show("7 function pointers, `dyn`, tables of functions", matches(r"\bfn\(|\bdyn \b"))
# 8
answers = sorted(glob.glob("crates/*/proofs/**/Answers.antt", recursive=True))
invariants = sorted(glob.glob("crates/*/proofs/**/Invariants.antt", recursive=True))
lines = sum(open(p, encoding="utf-8").read().count("\n") for p in answers + invariants)
print(f"8 files of answers: {len(answers)}, of invariants: {len(invariants)}, their lines: {lines}")
