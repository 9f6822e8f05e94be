#!/usr/bin/env python3
"""std_if.py: takes the choice `if◌then◌else◌` from the library's Prelude in place of this repository's own, which said the same, once.

usage: python3 tools/std_if.py      at the top of the repository
"""

import glob
import re

NAME = "if◌then◌else◌"
OURS = re.compile(r"^((?:ghost )?use Rattle\.words\.specs\.Tests\.\{)([^}]*)(\};?)\n", re.M)
PRELUDE = re.compile(r"^((?:ghost )?use Rattle\.std\.specs\.Prelude\.\{)([^}]*)(\};?)$", re.M)


def without(m):
    rest = [n.strip() for n in m.group(2).split(",") if n.strip() != NAME]
    return f"{m.group(1)}{', '.join(rest)}{m.group(3)}\n" if rest else ""


for path in sorted(glob.glob("crates/*/specs/**/*.antt", recursive=True) + glob.glob("crates/*/proofs/**/*.antt", recursive=True) + glob.glob("crates/*/src/**/*.rt", recursive=True)):
    with open(path, encoding="utf-8") as f:
        text = f.read()
    if path == "crates/words/specs/Tests.antt":
        new = text.replace("infix 5 if◌then◌else◌\nabbrev pub if◌then◌else◌ {ℓ} : {A : Type ℓ} → Bool → A → A → A\nif t then a else b = cond t a b\n\n", "").replace("false, cond, ", "false, ")
    else:
        if not any(NAME in m.group(2) for m in OURS.finditer(text)):
            continue
        first = OURS.search(text)
        new = OURS.sub(without, text)
        if PRELUDE.search(new):
            new = PRELUDE.sub(lambda m: f"{m.group(1)}{m.group(2)}, {NAME}{m.group(3)}", new, count=1)
        else:
            line = ("ghost use " if path.endswith(".rt") else "use ") + "Rattle.std.specs.Prelude.{" + NAME + "}" + (";" if path.endswith(".rt") else "") + "\n"
            new = new[: first.start()] + line + new[first.start() :]
    if new != text:
        with open(path, "w", encoding="utf-8") as f:
            f.write(new)
        print(path)
