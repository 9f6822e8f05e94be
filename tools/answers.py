#!/usr/bin/env python3
"""answers.py: turns the proofs that walked a function's places (Proof.antt over its Tie) into Invariants.antt and Answers.antt, once.

usage: python3 tools/answers.py NAMES CRATE [FUNCTION..]      in the repository; NAMES is a folder that
           rt check --generated NAMES --old-names              wrote in the crate's folder
       a FUNCTION is its path below proofs/, as slots/slot_of; none: every function of the crate that has a Proof.antt

What it can't turn it says ('look:'), and the check says the rest. Answers that were only `search rules` go: the check finds those.
"""

import glob
import json
import os
import re
import sys

NAME = r"[^\s(){}.;,@\"«»\[\]\\:=]+"
TOKEN = re.compile(r"[^\s(){};,@\"\[\]]+")


def canon(s):
    return re.sub(r"[-_]", "", s)


def need_key(s):
    s = re.sub(r"^(overflow|bounds|offset)[-_]", "", s)
    for old, new in (("holds", "init"), ("again", "preserved"), ("less", "smaller")):
        s = re.sub(r"(loop\d*(?:-\d+)?)-%s" % old, r"\1-" + new, s)
    return canon(s)


class Function:
    def __init__(self, entry):
        self.needs = {}
        for (old, new), at in zip(entry["needs"], entry["asked_at"]):
            self.needs.setdefault(need_key(old), (new, at[0]))
            self.needs.setdefault(canon(new), (new, at[0]))
        self.settled = {canon(s) for s in entry.get("settled", [])}
        self.places = {}
        self.named = set()
        for place, new in zip(entry["places"], entry["places_by_name"]):
            self.places[place[0]] = {"parent": place[1], "step": place[2], "new": new}
        self.by_canon = {canon(p): p for p in self.places}
        for p, d in self.places.items():
            self.by_canon.setdefault(canon(d["new"]), p)
        for (place, d), arm in zip(self.places.items(), entry["arms"]):
            d["arm"] = arm
        self.args = []
        for old, new in entry["args"]:
            o, n = old.split(".")[-1].strip(), new.split(".")[-1].strip()
            if (o, n) not in self.args:
                self.args.append((o, n))
        self.returns = {}  # an abbreviation that gives a place
        self.loops = entry["loops"]
        self.changed = entry["changed"]

    def chain(self, place):
        out = []
        while place is not None:
            out.append(place)
            place = self.places[place]["parent"]
        return out

    def find(self, place, n, field, after=()):
        """The new path of step `field` and what was read of it, n steps above place."""
        up = self.chain(place)
        hits = [k for k, p in enumerate(up) if canon(self.places[p]["step"][0]) == canon(field) or canon(self.places[p]["step"][1]) == canon(field)]
        if not hits:
            return None
        best = min(hits, key=lambda k: (abs(k - n), k))
        d = self.places[up[best]]
        if d["arm"]:
            for new, step, subs in d["arm"][2]:
                if canon(step) == canon(field) and list(after[: len(subs)]) == subs:
                    return d["step"][1] + "." + new + rest(list(after[len(subs) :]))
        step = d["step"][1]
        return step + rest(list(after), step.startswith("if-") or step.endswith("-test"))


FIRST = {"args": "args", "pre": "requires", "requires": "requires", "good": "well_formed", "well-formed": "well_formed", "well_formed": "well_formed", "ranges": "ranges", "lifetimes": "lifetimes", "type-inv": "type_inv", "type_inv": "type_inv", "utf8": "utf8", "fits": "ranges"}
LATER = {"taken": "true", "left": "false", "inv": "invariant", "type-inv": "type_inv", "well-formed": "well_formed"}


def rest(fields, test=False):
    out = []
    for k, f in enumerate(fields):
        if f not in ("taken", "left") or (test and k == 0):
            f = LATER.get(f, f)
        if k and fields[k - 1] in ("ensures", "requires"):
            f = f.replace("-", "_")
        out.append(f)
    return "".join("." + f for f in out)


PATH = re.compile(r"(?<![\w.\-'₀-₉])([A-Za-z][\w\-'₀-₉]*)((?:\.before(?![\w\-']))*)((?:\.[\w\-'₀-₉κσμ]+)*)")


def resolve(text, fn, env, goal, lemmas, looks, where):
    """env: variable -> (old place, variable at hand). goal: the new name of the goal, or None within a lemma on places."""
    # aliases that a let binds to a place
    env = dict(env)

    def whole(v, place, n):
        up = fn.chain(place)
        at = up[min(n, len(up) - 1)]
        return at

    changed = True
    while changed:
        changed = False
        m = re.search(r"let (%s) = (%s)((?:\.before)+) in[ \n]*" % (NAME, NAME), text)
        if m and m.group(2) in env:
            place, hand = env[m.group(2)]
            env[m.group(1)] = (whole(m.group(2), place, m.group(3).count(".before")), hand)
            text = text[: m.start()] + text[m.end() :]
            changed = True
            continue
        m = re.search(r"let (%s) : tie\.([^\s=]+)(?: invariant-\S+| decreases-\S+)* = search in[ \n]*" % NAME, text)
        if m:
            p = fn.by_canon.get(canon(m.group(2)))
            if p is None:
                looks.append(f"{where}: no place {m.group(2)}")
                p = "Start"
            env[m.group(1)] = (p, "c" if "c" in env else next(iter(env.values()))[1])
            text = text[: m.start()] + text[m.end() :]
            changed = True

    own = set()
    for m in re.finditer(r"let (%s) = (%s) [^\n=]*? in\b" % (NAME, NAME), text):
        if fn.returns.get(m.group(2)):
            env[m.group(1)] = (fn.returns[m.group(2)], m.group(1))
            own.add(m.group(1))

    def one(m):
        v, befores, fields = m.group(1), m.group(2), [f for f in m.group(3).split(".") if f]
        if v not in env:
            if fields and ("." in m.group(0)):
                return v + befores + rest(fields)
            return m.group(0)
        place, hand = env[v]
        n = befores.count(".before")
        if fields:
            f = fields[0]
            step = fn.find(place, n, f, fields[1:])
            if step is not None:
                return hand + "." + step
            if f in FIRST:
                return hand + "." + FIRST[f] + rest(fields[1:])
            looks.append(f"{where}: {m.group(0)}: no step {f}")
            return hand + "." + f + rest(fields[1:])
        if n == 0 and (v in bound or v in own):
            return m.group(0)
        at = whole(v, place, n)
        before = text[: m.start()].rstrip()
        lm = re.search(r"([^\s(){};,]+)$", before)
        if lm and lm.group(1) in lemmas:
            at = lemmas[lm.group(1)]
        if goal is not None and hand not in own:
            fn.named.add(fn.places[at]["new"])
            return f"(goal.at.{goal} {hand}).{fn.places[at]['new']}"
        up = fn.chain(env_at[hand])
        if at == env_at[hand]:
            return hand
        if at in up:
            fn.named.add(fn.places[at]["new"])
            return f"(goal.at.{fn.places[env_at[hand]]['new']} {hand}).{fn.places[at]['new']}"
        looks.append(f"{where}: {m.group(0)}: {at} is not above")
        return m.group(0)

    bound = set()
    for b in re.findall(r"λ ([^.]*)\.", text):
        bound |= set(re.findall(NAME, b))
    env_at = {}
    for v, (place, hand) in env.items():
        if v == hand:
            env_at[v] = place
    text = PATH.sub(one, text)

    def inner(m):
        place = fn.returns.get(m.group(1))
        if place is None:
            return m.group(0)
        fields = [f for f in m.group(4).split(".") if f]
        step = fn.find(place, m.group(3).count(".before"), fields[0], fields[1:])
        if step is None and fields[0] in FIRST:
            step = FIRST[fields[0]] + rest(fields[1:])
        if step is None:
            looks.append(f"{where}: {m.group(0)}: no step {fields[0]}")
            return m.group(0)
        return f"({m.group(1)}{m.group(2)}).{step}"

    text = re.sub(r"\((%s)((?: (?:[^()]|\([^()]*\))*)?)\)((?:\.before(?![\w\-']))*)((?:\.[\w\-'₀-₉κσμ]+)+)" % NAME, inner, text)
    text = re.sub(r"not-(?:true|false) [^\s()]+ ((?:\w+)\.if-[^\s()]+\.(?:true|false))", r"\1", text)
    return text


def blocks_of(text):
    out, cur, blank = [], [], True
    for line in text.split("\n"):
        if line.strip() and not line[0].isspace() and blank and cur:
            out.append("\n".join(cur).rstrip())
            cur = []
        cur.append(line)
        blank = not line.strip()
    if cur:
        out.append("\n".join(cur).rstrip())
    return [b for b in out if b.strip()]


def used(name, words, text):
    name = name.strip().split(" as ")[-1].strip()
    if "◌" in name:
        return all(p in text for p in name.split("◌") if p)
    return name in words


def imports(uses, body, extra):
    words = set()
    words |= set(re.findall(r"\[\]|[^\s\w(){}]+", body))
    for t in TOKEN.findall(body):
        words.add(t)
        words |= set(re.split(r"[.]", t))
    out = []
    for u in uses:
        m = re.match(r"use (\S+)\.\{(.*)\}$", u)
        if m:
            keep = [n.strip() for n in m.group(2).split(",") if used(n, words, body)]
            if keep:
                out.append(f"use {m.group(1)}.{{{', '.join(keep)}}}")
        else:
            m = re.match(r"use (\S+)(?: as (\S+))?$", u)
            short = m.group(2) or m.group(1).split(".")[-1]
            if re.search(r"\b%s\." % re.escape(short), body):
                out.append(u)
    return out + extra


def turn(path, entry, crate, function, looks):
    with open(path, encoding="utf-8") as f:
        text = f.read()
    fn = Function(entry)
    while True:
        m = re.search(r"^abbrev (\S+) : Type 0\n\1 = (tie\.[^\n]*)$", text, re.M)
        if m is None:
            break
        text = text[: m.start()] + re.sub(r"(?<![\w\-.])%s(?![\w\-])" % re.escape(m.group(1)), m.group(2), text[m.end() :])
    for o, n in fn.args:
        text = re.sub(r"(?<=\.)%s(?![\w\-'])" % re.escape(o), n, text)
    module = function.replace("/", ".")
    base = f"Rattle.{crate}.proofs.{module}"
    blocks = blocks_of(text)
    uses, comments, decls = [], [], []
    for b in blocks:
        lines = b.split("\n")
        if any(l.startswith("use ") for l in lines) and not any(re.match(r"^(pub |abbrev |unfoldable |module |[^\s]+ :)", l) for l in lines):
            for l in lines:
                if l.startswith("use "):
                    uses.append(l.strip())
                elif l.startswith("--"):
                    comments.append(l)
            continue
        decls.append(b)
    uses = [u for u in uses if ".Statement." not in u and ".Tie as" not in u and not re.search(r"\.Author\.Needs\.", u)]
    for m in re.finditer(r"^ *abbrev (?:pub )?(%s) : (?:tie\.[^\s→]+(?: invariant-\S+| decreases-\S+)* → )?tie\.([^\s→]+)(?: invariant-\S+| decreases-\S+)*$" % NAME, text, re.M):
        if not m.group(2).startswith(("Need-", "invariant-", "decreases-")):
            fn.returns[m.group(1)] = fn.by_canon.get(canon(m.group(2)))
    # lemmas on places
    lemmas = {}
    for b in decls:
        m = re.search(r"^module _ .*?\((%s) : tie\.([^\s)]+)" % NAME, b, re.M)
        if m:
            place = fn.by_canon.get(canon(m.group(2)))
            for l in re.finditer(r"^ +(?:pub )?(?:abbrev )?(?:pub )?(%s) :" % NAME, b, re.M):
                lemmas[l.group(1)] = place
            continue
        m = re.search(r"^(?:pub )?(?:abbrev )?(%s) : (?:\(%s : )?tie\.([^\s)]+)" % (NAME, NAME), b, re.M)
        if m and not m.group(2).startswith(("Need-", "invariant-", "decreases-")):
            lemmas[m.group(1)] = fn.by_canon.get(canon(m.group(2)))
    inv, ans, places, plain = [], [], set(), []
    for b in decls:
        if re.search(r"^pub \S+ : \{M : Type 1\} → statement M", b, re.M):
            continue
        note = [l for l in b.split("\n") if l.startswith("--")]
        code = "\n".join(l for l in b.split("\n") if not l.startswith("--"))
        m = re.match(r"abbrev (?:pub )?(invariant|decreases)-(\S+) : tie\.\S+\n\1-\2 ([^=\n]*)=(.*)", code, re.S)
        if m:
            kind, loop, args, body = m.group(1), m.group(2), m.group(3).split(), m.group(4)
            done = False
            for ((names, vs), ch) in zip(((l[0], l[1]) for l in fn.loops), fn.changed):
                if canon(names[0]) == canon(loop) or canon(names[1]) == canon(loop):
                    if len(args) != len(vs) + sum(ch):
                        looks.append(f"{path}: {kind}-{loop}: {len(args)} arguments for {vs} {ch}")
                        break
                    to = {}
                    for k, v in enumerate(vs):
                        to[args[k]] = "l.initial." + v if ch[k] else "l." + v
                    k = len(vs)
                    for j, v in enumerate(vs):
                        if ch[j]:
                            to[args[k]] = "l." + v
                            k += 1
                    body = PATH.sub(lambda x: (to[x.group(1)] + x.group(2) + rest([f for f in x.group(3).split(".") if f])) if x.group(1) in to and x.group(1) != "_" else x.group(0), body)
                    inv.append("\n".join(note + [f"abbrev pub {kind}-{names[1]} : goal.{kind}-{names[1]}", f"{kind}-{names[1]} l ={body}"]))
                    done = True
                    break
            if not done:
                looks.append(f"{path}: {kind}-{loop} is left")
                inv.append("\n".join(note) + "\n-- LEFT\n" + code)
            continue
        m = re.match(r"(\S+) : tie\.Need-(\S+)[^\n]*\n((?:unfolding[^\n]*\n)?)\1([^=\n]*)=(.*)", code, re.S)
        if m:
            name, old, unfolding, args, body = m.groups()
            if body.strip() in ("search rules", "search needs") and not unfolding:
                continue
            hit = fn.needs.get(need_key(old)) or fn.needs.get(canon(old)) or fn.needs.get(need_key(name))
            if hit is None:
                if canon(old) in fn.settled or need_key(old) in {need_key(s) for s in fn.settled}:
                    continue
                looks.append(f"{path}: no goal for {old}: {body.strip()[:80]!r}")
                continue
            new, place = hit
            args = args.split()
            extra = [a for a in args[1:] if a != "κs"]
            if "κs" in args and re.search(r"\bκs\b", body):
                looks.append(f"{path}: {new} uses κs")
            var = args[0] if args else "c"
            if extra:
                looks.append(f"{path}: {new} has more arguments {extra}")
            body = resolve(body, fn, {var: (place, var)} if var != "_" else {}, new, lemmas, looks, f"{path}: {new}")
            ans.append("\n".join(note + [f"pub {new} : goal.{new}"]) + "\n" + unfolding + f"{new} {' '.join([var] + extra)} ={body}")
            continue
        # a lemma or an abbreviation
        if "tie." in code:
            m = re.search(r"\((%s) : tie\.([^\s)]+)[^)]*\)" % NAME, code) or re.match(r"(?:pub )?(?:abbrev )?(?:pub )?\S+ : (()tie\.([^\s→)]+))", code)
            if m is None:
                looks.append(f"{path}: left as it is: {code[:80]!r}")
                ans.append("\n".join(note + [code]))
                continue
            pm = re.search(r"tie\.([^\s)→]+)", code)
            place = fn.by_canon.get(canon(pm.group(1)))
            if place is None:
                looks.append(f"{path}: no place {pm.group(1)}")
                ans.append("\n".join(note + [code]))
                continue
            var = None
            vm = re.search(r"\((%s) : tie\." % NAME, code)
            if vm:
                var = vm.group(1)
            else:
                # NAME : tie.P → ..; the first argument of its clause
                nm = re.match(r"(?:pub )?(?:abbrev )?(?:pub )?(\S+) :", code).group(1)
                cm = re.search(r"^%s (%s)" % (re.escape(nm), NAME), code, re.M)
                var = cm.group(1) if cm else "s"
            envs = {var: (place, var)}
            if code.startswith("module"):
                for n, at in fn.returns.items():
                    if re.search(r"^ +abbrev (?:pub )?%s :" % re.escape(n), code, re.M):
                        envs[n] = (at, n)
            nm = re.match(r"(?:pub )?(?:abbrev )?(?:pub )?(\S+) :", code)
            if nm:
                cm = re.search(r"^%s (%s)" % (re.escape(nm.group(1)), NAME), code, re.M)
                if cm and cm.group(1) != var and cm.group(1) != "_":
                    envs[cm.group(1)] = (place, cm.group(1))
            def place_of(x):
                p = fn.by_canon.get(canon(x.group(1)))
                if p is None:
                    looks.append(f"{path}: no place {x.group(1)}")
                    return x.group(0)
                places.add(fn.places[p]["new"])
                return fn.places[p]["new"]
            code = re.sub(r"let (%s) : tie\.([^\s=]+)(?: invariant-\S+| decreases-\S+)* = search in[ \n]*" % NAME, lambda x: x.group(0), code)
            code = resolve(code, fn, envs, None, lemmas, looks, f"{path}: {code.split()[0]}")
            code = re.sub(r"tie\.([^\s)→=]+)(?: invariant-[^\s)]+| decreases-[^\s)]+)*", place_of, code)
            ans.append("\n".join(note + [code]))
            continue
        plain.append(("\n".join(note + [code]), code, len(ans)))
        ans.append(None)
    invtext = "\n".join(inv)
    moved = []
    for whole, code, k in reversed(plain):
        nm = re.match(r"abbrev (?:pub )?(\S+) :", code)
        if nm and re.search(r"(?<![\w\-])%s(?![\w\-])" % re.escape(nm.group(1)), invtext + "\n".join(c for _, c in moved)):
            moved.insert(0, (nm.group(1), re.sub(r"^abbrev (?!pub)", "abbrev pub ", whole, flags=re.M)))
        else:
            ans[k] = whole
    ans = [a for a in ans if a is not None]
    ansbody = "\n\n".join(ans)
    folder = os.path.dirname(path)
    head = "\n".join(comments[:1])
    if inv:
        invbody = "\n\n".join([w for _, w in moved] + inv)
        with open(os.path.join(folder, "Invariants.antt"), "w", encoding="utf-8") as f:
            f.write("\n".join(([head] if head else []) + imports(uses, invbody, [f"use {base}.Given as goal"])) + "\n\n" + invbody + "\n")
    elif moved:
        looks.append(f"{path}: moved without invariants")
    if any("goal." in a for a in ans):
        extra = []
        names = [n for n, _ in moved if re.search(r"(?<![\w\-])%s(?![\w\-])" % re.escape(n), ansbody)]
        if names:
            extra.append(f"use {base}.Invariants.{{{', '.join(names)}}}")
        extra.append(f"use {base}.Goals as goal")
        places |= fn.named
        if places:
            extra.append(f"use {base}.Goals.{{{', '.join(sorted(places))}}}")
        with open(os.path.join(folder, "Answers.antt"), "w", encoding="utf-8") as f:
            f.write("\n".join(([head] if head else []) + imports(uses, ansbody, extra)) + "\n\n" + ansbody + "\n")
    os.remove(path)


def main(argv):
    names, crate = argv[1], argv[2]
    with open(os.path.join(names, "names.json"), encoding="utf-8") as f:
        entries = json.load(f)
    looks = []
    root = os.path.join("crates", crate, "proofs")
    wanted = argv[3:]
    for path in sorted(glob.glob(os.path.join(root, "**", "Proof.antt"), recursive=True)):
        function = os.path.relpath(os.path.dirname(path), root)
        if wanted and function not in wanted:
            continue
        key = f"Rattle-{crate}-proofs.{function.replace('/', '.')}.Lts"
        if key not in entries:
            looks.append(f"{path}: not in names.json")
            continue
        turn(path, entries[key], crate, function, looks)
    print("\n".join("look: " + l for l in looks))
    return 0


if __name__ == "__main__":
    raise SystemExit(main(sys.argv))
