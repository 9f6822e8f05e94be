#!/usr/bin/env python3
"""plain_clauses.py: writes each starred clause that only names terms and states one fact, `ensures* { do let x = e ⌜ P ⌝ }`, as `ensures { let x = e in P }`, once.

usage: python3 tools/plain_clauses.py      at the top of the repository
"""

import glob
import re

STARRED = re.compile(r"ensures\* \{ do\n((?: +let [^\n]+\n)+)( +)⌜ (.*?) ⌝ \}", re.S)


def plain(m):
    lets = [line.strip() for line in m.group(1).strip().split("\n")]
    indent = m.group(2)
    return "ensures {\n" + "".join(f"{indent}{line} in\n" for line in lets) + f"{indent}{m.group(3)} }}"


for path in sorted(glob.glob("crates/*/src/**/*.rt", recursive=True)):
    with open(path, encoding="utf-8") as f:
        text = f.read()
    new, n = STARRED.subn(plain, text)
    if n:
        with open(path, "w", encoding="utf-8") as f:
            f.write(new)
        print(path, n, "left:", new.count("ensures*"))
