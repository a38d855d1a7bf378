#!/usr/bin/env python3
"""Turns the proofs of a crate that walk the code by hand (proofs/F/Proof.antt, over its Tie) into
Invariants.antt and Answers.antt.

usage: answers.py CRATE NAMES [F..]

CRATE is the folder above proofs/, NAMES the names.json that
`rt check --generated NAMES-FOLDER --old-names` writes in it. F are the functions (folders below
proofs/) to turn, all by default. What it could not turn is printed, one line each.
"""
import json
import os
import re
import sys

NAME = r"[^\s(){}\[\];,.@\"«»]+"
PATH = re.compile(rf"(?<![^\s(){{}}\[\];,@])({NAME})((?:\.{NAME})*)")
TOKEN = re.compile(rf"--[^\n]*|{NAME}")
USE = re.compile(r"^use .*?(?:\{[^}]*\}|[^\n{]*)(?: as [^\n]+)?$", re.M | re.S)


def norm(s):
    return s.replace("_", "-").lower()


def lent(callee):
    """The parameters of a function of this repository that are lent to be changed, in their order."""
    crate, *path = callee.split("::")
    for name in ("lib.rt", "main.rt"):
        source = os.path.join(TOP, "crates", crate, "src", name)
        if os.path.exists(source):
            text = re.sub(r"//[^\n]*", "", open(source, encoding="utf-8").read())
            m = re.search(rf"\bfn {path[-1]}(?:<[^>]*>)?\(([^)]*)\)", text)
            if m:
                ps = [p.strip() for p in m[1].split(",") if p.strip()]
                return ["self" if p.startswith("&mut self") else p.split(":")[0].strip()
                        for p in ps if "&mut " in p]
    return []


def labels(callee, kind):
    """The names of a function's clauses of a kind, in their order, where it has several."""
    crate, *path = callee.split("::")
    for name in ("lib.rt", "main.rt"):
        source = os.path.join(TOP, "crates", crate, "src", name)
        if os.path.exists(source):
            text = re.sub(r"//[^\n]*", "", open(source, encoding="utf-8").read())
            m = re.search(rf"\bfn {path[-1]}(?:<[^>]*>)?\(.*?\n *\{{\n", text, re.S)
            if m:
                return re.findall(rf"\b{kind} (\w+) \{{", m[0])
    return []


def parts(text):
    """The parts of a tuple, (a, b, c), or None."""
    s = text.strip()
    if not (s.startswith("(") and s.endswith(")")):
        return None
    out, depth, start = [], 0, 1
    for i, ch in enumerate(s):
        if ch in "([{":
            depth += 1
        elif ch in ")]}":
            depth -= 1
            if depth == 0 and i < len(s) - 1:
                return None
        elif ch == "," and depth == 1:
            out.append(s[start:i].strip())
            start = i + 1
    last = s[start:-1].strip()
    if last:
        out.append(last)
    return out if len(out) > 1 else None


def by_name(body, names):
    """The body with the tuple at its end as a record of these names, where it is one."""
    depth, start = 0, None
    for i, ch in enumerate(body):
        if ch in "([{":
            if depth == 0 and ch == "(":
                start = i
            depth += 1
        elif ch in ")]}":
            depth -= 1
    if start is None:
        return None
    before = body[:start]
    if before.strip() and not re.search(r"(\bin|\.|\u2192)\s*$", before):
        return None
    items = parts(body[start:])
    while items and len(items) < len(names):
        more = parts(items[-1])
        if not more:
            return None
        items[-1:] = more
    if not items or len(items) > len(names):
        items = parts(body[start:]) or []
        if len(names) == 2 and len(items) > 2:
            items = [items[0], "(" + ", ".join(items[1:]) + ")"]
    if len(items) != len(names):
        return None
    inner = "; ".join(f"{n} = {e}" for n, e in zip(names, items))
    return before.rstrip() + " record { " + inner + " }"


TOP = "."


def strip(s):
    return re.sub(r"^(overflow|nonzero|bounds|offset-bounds|slice-bounds)-", "", norm(s))


class Function:
    def __init__(self, data):
        self.places = {}
        rows = zip(data["places"], data["places_by_name"], data["arms"], data["typed"])
        for (name, parent, step, callee, _), new, arm, typed in rows:
            self.places[name] = dict(parent=parent, step=step, callee=callee, arm=arm, new=new,
                                     view=bool(arm or typed))
        for name, told in zip(list(self.places), data.get("clauses", [])):
            self.places[name]["clauses"] = told and told.get("fields")
        # the names of the clauses of its own requires, where it has several
        self.asks = (data.get("pre") or {}).get("fields") or []
        self.by_norm = {norm(n): n for n in self.places}
        for n, p in self.places.items():
            self.by_norm.setdefault(norm(p["new"]), n)
        self.needs = data["needs"]
        self.asked_at = data["asked_at"]
        self.loops = data["loops"]
        self.changed = data["changed"]
        self.params = data["params"]
        # the arguments whose names were Rattle's own
        self.args = {}
        for old, new in data.get("args", []):
            a, b = old.split(), new.split()
            if len(a) == 2 and len(b) == 2:
                self.args[(a[0][1:], a[1][1:])] = b[1][1:]
        self.exported = {old for old, _ in self.asked_at}
        self.old = {}
        for i, (old, new) in enumerate(self.needs):
            self.old.setdefault(norm(old), i)
        for i, (old, new) in enumerate(self.needs):
            self.old.setdefault(strip(old), i)
        for i, (old, new) in enumerate(self.needs):
            self.old.setdefault(norm(new), i)

    def need(self, name):
        for k in (norm(name), strip(name)):
            if k in self.old:
                return self.old[k]
        return None

    def loop(self, name):
        for i, ((old, new), _) in enumerate(self.loops):
            if norm(old) == norm(name):
                return i
        for i, ((old, new), _) in enumerate(self.loops):
            if norm(new) == norm(name):
                return i
        return None

    def up(self, place, k):
        for _ in range(k):
            if place is None:
                return None
            place = self.places[place]["parent"]
        return place

    def step(self, place, field):
        """The place at or above place whose step has the old or the new name, and the new name."""
        f = re.sub("[-_]lem$", "", field)
        for at in self.line(place):
            p = self.places[at]
            if p["step"] and p["step"][0] and norm(f) == norm(p["step"][0]):
                return at, p["step"][1]
        for at in self.line(place):
            p = self.places[at]
            if p["step"] and p["step"][1] and norm(f) == norm(p["step"][1]):
                return at, p["step"][1]
        return None, None

    def line(self, place):
        while place is not None:
            yield place
            place = self.places[place]["parent"]

    def in_arm(self, root, at, sub):
        """The fields below root of what stood at the place `at` under sub, where an arm has it."""
        for p in self.line(root):
            arm = self.places[p]["arm"]
            if arm:
                covered = [q for q, _ in zip(self.line(p), range(arm[1]))]
                if at in covered:
                    for field, old, path in sorted(arm[2], key=lambda e: -len(e[2])):
                        if norm(old) == norm(self.places[at]["step"][0]) and sub[:len(path)] == path:
                            return [arm[0], field] + sub[len(path):]
            if p == at:
                return None
        return None

    def chain(self, root, to):
        """How many times .before leads from root to the place `to`."""
        n = 1 if self.places[root]["view"] and to != root else 0
        at = root
        while at is not None and at != to:
            arm = self.places[at]["arm"]
            at = self.up(at, arm[1] if arm else 1)
            n += 1
        return n if at == to else None


BASE = {"args", "requires", "well-formed", "well_formed", "ranges", "utf8", "lifetimes", "pre", "good",
        "is", "has"}


SUB = {"taken": "true", "left": "false", "inv": "invariant", "good": "well_formed", "pre": "requires",
       "type-inv": "type_inv"}


class Turner:
    def __init__(self, fn, path, said):
        self.fn, self.path, self.said = fn, path, said

    def say(self, text):
        self.said.append(f"{self.path}: {text}")

    def clause(self, names, fields):
        """The path with the name of the clause for its position in right-nested pairs: 0, 1.0, 1.1.0, .. 1.1."""
        k = 0
        while k < len(names) - 1 and fields[k:k + 1] == ["1"]:
            k += 1
        if k == len(names) - 1:
            return [names[k]] + fields[k:]
        if fields[k:k + 1] == ["0"]:
            return [names[k]] + fields[k + 1:]
        if fields[k:k + 1] and fields[k].isdigit() and k + int(fields[k]) < len(names):
            return [names[k + int(fields[k])]] + fields[k + 1:]
        return fields

    def fields(self, root, place, fields):
        """The path below root, which stands at place, in today's names."""
        fn = self.fn
        k = 0
        while k < len(fields) and fields[k] == "before":
            k += 1
        at = fn.up(place, k)
        rest = fields[k:]
        if at is None and rest and (rest[0] in BASE or fn.step(place, rest[0])[1]):
            at = place
        if at is None:
            self.say(f"no place {k} before {place} for {root}.{'.'.join(fields)}")
            return ".".join([root] + fields)
        if not rest:
            n = fn.chain(place, at)
            if n is None:
                self.say(f"{at} stands inside an arm: {root}.{'.'.join(fields)}")
                n = k
            return ".".join([root] + ["before"] * n)
        f = rest[0]
        if f in BASE and not (f in ("is", "has") and fn.step(at, f)[1]):
            g = {"pre": "requires", "good": "well_formed", "well-formed": "well_formed"}.get(f, f)
            if len(rest) > 1 and (g, rest[1]) in fn.args:
                rest[1] = fn.args[(g, rest[1])]
            if g == "requires" and len(rest) > 1 and len(fn.asks) > 1:
                rest[1:] = self.clause(fn.asks, rest[1:])
            if g == "requires" and len(rest) == 1 and len(fn.asks) > 1:
                self.whole[f"{root}.requires"] = fn.asks
            return ".".join([root, g] + rest[1:])
        where, new = fn.step(at, f)
        if new is None:
            # a chain that was longer by the steps that are no more
            where, new = fn.step(place, f)
        if new is None:
            self.say(f"no step {f} at {at} ({root}.{'.'.join(fields)}); steps: " + " ".join(
                p["step"][0] + "=" + p["step"][1] for p in fn.places.values() if p["step"]))
            return ".".join([root] + rest)
        sub = [SUB.get(s, s) for s in rest[1:]]
        told = fn.places[where].get("clauses")
        if told and len(told) > 1 and sub == ["ensures"]:
            self.whole[f"{root}.{new}.ensures"] = told
        if told and len(told) > 1 and len(sub) > 1 and sub[0] == "ensures":
            sub[1:] = self.clause(told, sub[1:])
        callee = fn.places[where].get("callee")
        if callee and len(sub) > 1 and sub[0] == "new" and sub[1].isdigit():
            names = lent(callee)
            if int(sub[1]) < len(names):
                sub[1] = names[int(sub[1])]
        arm = fn.in_arm(place, where, sub)
        if arm:
            return ".".join([root] + arm)
        if sub[:2] == ["given", "1"]:
            sub = ["is"] + sub[2:]
        return ".".join([root, new] + sub)

    def text(self, text, env):
        """Turns the paths of a declaration's text. env: the names of places, each with its place."""
        env = dict(env)
        # names of places that a let binds
        alias = {}
        let = re.compile(rf"\blet ({NAME}) = ({NAME}(?:\.{NAME})*) in(\s+)")
        # names of arguments
        pos = 0
        while True:
            m = let.search(text, pos)
            if not m:
                break
            name, path = m[1], m[2]
            root, *fields = path.split(".")
            if root in alias:
                root, more = alias[root]
                fields = more + fields
            if root in env and (all(f == "before" for f in fields) or fields[-1] == "given"):
                alias[name] = (root, fields)
                text = text[: m.start()] + text[m.end():]
                pos = m.start()
            else:
                pos = m.end()

        def turn(m):
            root, fields = m[1], [f for f in m[2].split(".") if f]
            if root in alias:
                base, more = alias[root]
                return self.fields(base, env[base], more + fields)
            if root in env and (fields):
                return self.fields(root, env[root], fields)
            return m[0]

        self.whole = {}
        lines = []
        for line in text.split("\n"):
            if line.lstrip().startswith("--"):
                lines.append(line)
            else:
                lines.append(PATH.sub(turn, line))
        # the test of `if !x` says what x is
        test = rf"not-(?:true|false) _ ({NAME}\.if-not-{NAME}\.(?:true|false))(?![^\s(){{}},;])"
        out = "\n".join(lines)
        # a let that binds all clauses
        for m in re.finditer(rf"\blet ({NAME}) =\s+({NAME}(?:\.{NAME})+)\s+in\b", out):
            if m[2] in self.whole:
                names = self.whole[m[2]]
                at = re.compile(rf"(?<![^\s(){{}}\[\];,]){re.escape(m[1])}((?:\.\d+)+)(?![^\s(){{}}\[\];,.])")
                out = at.sub(lambda d: ".".join([m[1]] + self.clause(names, d[1][1:].split("."))), out)
        out = re.sub(rf"\({test}\)", r"\1", out)
        return re.sub(test, r"\1", out)


def blocks(text):
    """The head comment, the use lines, and the declarations."""
    lines = text.split("\n")
    head, uses, decls = [], [], []
    i = 0
    while i < len(lines) and lines[i].startswith("--"):
        head.append(lines[i])
        i += 1
    cur = []

    def flush():
        while cur and not cur[-1].strip():
            cur.pop()
        if cur:
            decls.append("\n".join(cur))
        cur.clear()

    while i < len(lines):
        l = lines[i]
        if l.startswith("use "):
            u = l
            while u.count("{") > u.count("}"):
                i += 1
                u += " " + lines[i].strip()
            uses.append(u)
        elif not l.strip():
            # a blank line ends a declaration where the next one starts at the margin
            j = i + 1
            while j < len(lines) and not lines[j].strip():
                j += 1
            if j >= len(lines) or not lines[j].startswith(" "):
                flush()
            elif cur:
                cur.append("")
        else:
            cur.append(l)
        i += 1
    flush()
    return head, uses, decls


SIG = re.compile(rf"^((?:--[^\n]*\n)*)((?:(?:abbrev|pub|unfoldable|private) )*)({NAME}) :\s(.*)$", re.S)


def parse(decl):
    """comments, modifiers, name, type, lines after the type."""
    m = SIG.match(decl)
    if not m:
        return None
    comments, mods, name, rest = m[1], m[2], m[3], m[4]
    lines = rest.split("\n")
    ty = [lines[0]]
    k = 1
    while k < len(lines) and lines[k].startswith(" "):
        ty.append(lines[k])
        k += 1
    return comments, mods, name, "\n".join(ty), lines[k:]


def used(name, tokens, text):
    if name == "[]":
        return "[]" in text
    if "◌" in name:
        return all(p in text for p in name.split("◌") if p)
    return name in tokens


def uses_for(uses, text):
    tokens = set()
    for m in TOKEN.finditer(text):
        if not m[0].startswith("--"):
            tokens.add(m[0])
    body = re.sub(r"--[^\n]*", "", text)
    out = []
    for u in uses:
        m = re.match(r"use ([^{\s]+?)\.?\{(.*)\}(?: as (\S+))?$", u, re.S)
        if m:
            names = [n.strip() for n in m[2].split(",") if n.strip()]
            keep = [n for n in names if used(n.split(" as ")[-1], tokens, body)]
            if keep:
                out.append(f"use {m[1]}.{{{', '.join(keep)}}}")
            continue
        m = re.match(r"use (\S+)(?: as (\S+))?$", u)
        short = m[2] or m[1].split(".")[-1]
        if re.search(rf"(?<![^\s(){{}};,]){re.escape(short)}\.", body):
            out.append(u)
    return out


def convert(crate, lib, folder, data, said):
    path = os.path.join(crate, "proofs", folder, "Proof.antt")
    text = open(path, encoding="utf-8").read()
    fn = Function(data)
    t = Turner(fn, folder, said)
    head, uses, decls = blocks(text)
    uses = [u for u in uses if not re.search(r"\.(Statement\.|Tie\b)", u)]
    dotted = folder.replace("/", ".")
    answers, invariants, helpers = [], [], []
    renamed = {}
    tie_place = re.compile(rf"\btie\.({NAME})((?: (?:Inv|μ|invariant|decreases)-{NAME})*)")
    parsed = []
    for d in decls:
        p = parse(d)
        if not p:
            t.say("cannot read: " + d.split("\n")[0])
            helpers.append((None, d))
            continue
        parsed.append(p)
        m = re.match(rf"tie\.Need-({NAME})", p[3].strip())
        if m:
            i = fn.need(m[1])
            if i is not None:
                renamed[p[2]] = fn.needs[i][1]
    done, named, lts = set(), set(), set()
    # the places that a helper is given from further down
    deep, deeper = set(), {}
    for _, _, hname, hty, _ in parsed:
        hflat = " ".join(hty.split())
        if hflat.startswith("tie.Need-") or "statement M" in hflat:
            continue
        mm = re.search(rf"\({NAME}(?:\s+{NAME})* : tie\.({NAME})|^tie\.({NAME}) →", hflat)
        if not mm:
            continue
        place = fn.by_norm.get(norm(mm[1] or mm[2]))
        for _, _, n2, _, rest2 in parsed:
            whole = "\n".join(rest2)
            for call in re.finditer(rf"(?<![^\s(){{}};,]){re.escape(hname)} ({NAME})((?:\.before)*)(?![^\s(){{}};,])", whole):
                alias = re.search(rf"\blet {re.escape(call[1])} = ", whole)
                if call[2] or alias:
                    deep.add(place)
                    deeper[hname] = place
    for comments, mods, name, ty, rest in parsed:
        body = "\n".join(rest)
        flat = " ".join(ty.split())
        if "statement M" in flat:
            continue
        m = re.match(rf"tie\.(invariant|decreases|InvT|MeasureT|Inv|Measure)-({NAME})$", flat)
        if m:
            i = fn.loop(m[2])
            if i is None:
                t.say(f"no loop {m[2]}")
                continue
            kind = "invariant" if m[1].startswith(("inv", "Inv")) else "decreases"
            (old, new), live = fn.loops[i]
            changed = fn.changed[i] if i < len(fn.changed) else [True] * len(live)
            n = f"{kind}-{new}"
            mm = re.match(rf"{re.escape(name)}((?:\s+{NAME})*?)\s+=(\s.*)$", body, re.S)
            if not mm:
                t.say(f"cannot read {name}")
                continue
            ps = mm[1].split()
            want = [f"l.initial.{v}" if ch else f"l.{v}" for v, ch in zip(live, changed)]
            want += [f"l.{v}" for v, ch in zip(live, changed) if ch]
            if len(ps) != len(want):
                t.say(f"{name}: {len(ps)} parameters {ps} for {want}")
            table = dict(zip(ps, want))
            table.pop("_", None)

            def put(m):
                return table[m[1]] + m[2] if m[1] in table else m[0]

            b = PATH.sub(put, mm[2])
            for v in table:
                if re.search(rf"[λ(]\s*\(?{re.escape(v)}\s*[:.]", mm[2]):
                    t.say(f"{name}: {v} may be bound inside")
            invariants.append((None, f"{comments}abbrev pub {n} : goal.{n}\n{n} l ={b}"))
            continue
        m = re.match(rf"tie\.Need-({NAME})", flat)
        if m:
            i = fn.need(m[1])
            if i is None:
                t.say(f"goal {m[1]} is gone: {name}")
                continue
            new = fn.needs[i][1]
            if new in done:
                t.say(f"goal {new} twice: {name}")
            done.add(new)
            place = fn.asked_at[i][0]
            lines = [l for l in rest]
            start = next((k for k, l in enumerate(lines) if l.startswith(name + " ")), None)
            if start is None:
                t.say(f"cannot read {name}")
                continue
            pre = "\n".join(lines[:start])
            b = "\n".join(lines[start:])
            mm = re.match(rf"{re.escape(name)}((?:\s+{NAME})*?)\s+=(\s.*)$", b, re.S)
            if not mm:
                t.say(f"cannot read the clause of {name}")
                continue
            ps = [q for q in mm[1].split() if q != "κs"]
            if not ps:
                t.say(f"{name} has no c")
            env = {ps[0]: place} if ps else {}
            out = t.text(mm[2], env)
            if ps and fn.places[place]["view"]:
                for hname, hplace in deeper.items():
                    if hplace == place:
                        out = re.sub(rf"(?<![^\s(){{}};,])({re.escape(hname)} {re.escape(ps[0])})(?![^\s(){{}};,])",
                                     r"\1.before", out)
            out = "\n".join(
                re.sub(rf"(?<![^\s(){{}};,])({NAME})(?=[\s(){{}};,]|$)",
                       lambda q: renamed.get(q[1], q[1]) if q[1] in renamed and q[1] not in ps else q[1], l)
                for l in out.split("\n"))
            out = re.sub(r"(\.loop-?[\w-]*)\.inv(?![\w-])", r"\1.invariant", out)
            out = re.sub(r"\.taken(?![\w-])", ".true", out)
            out = re.sub(r"(\.(?:if|loop)[\w-]*)\.left(?![\w-])", r"\1.false", out)
            asked = []
            if new.endswith("-requires") or re.search(r"-requires-\d+$|-requires-", new):
                step = norm(re.sub(r"-requires.*$", "", fn.needs[i][0]))
                for p in fn.params:
                    if norm(p.split("::")[-1]) == re.sub(r"-?\d+$", "", step) or norm(p.split("::")[-1]) == step:
                        asked = labels(p, "requires")
            elif new.startswith("returns"):
                asked = labels(f"{lib}::{folder.split('/')[-1]}", "ensures")
            if len(asked) > 1:
                record = by_name(out, asked)
                if record:
                    out = record
            text_ = f"{comments}pub {new} : goal.{new}\n"
            if pre:
                text_ += pre + "\n"
            text_ += f"{new} {' '.join(ps)} ={out}"
            answers.append((new, text_))
            continue
        # a helper
        env = {}
        for mm in re.finditer(rf"\(({NAME}(?:\s+{NAME})*) : tie\.({NAME})", flat):
            place = fn.by_norm.get(norm(mm[2]))
            if place is None:
                t.say(f"{name}: no place {mm[2]}")
                continue
            for v in mm[1].split():
                env[v] = place
        mm = re.match(rf"tie\.({NAME}) →", flat)
        first = re.match(rf"{re.escape(name)}\s+({NAME})", body)
        if mm and first and fn.by_norm.get(norm(mm[1])):
            env[first[1]] = fn.by_norm[norm(mm[1])]

        def at(m):
            place = fn.by_norm.get(norm(m[1]))
            if place is None:
                return m[0]
            if place in deep:
                loops = "".join(f" goal.the-invariant-{l[0][1]} goal.the-decreases-{l[0][1]}" for l in fn.loops)
                lts.add(1)
                handed = " Tie.handed_clauses" if len(fn.asks) > 1 else ""
                claims = " Tie.the-claims" if any(p["callee"] for p in fn.places.values()) else ""
                return f"Lts.{place}{claims} Reads.Pre Reads.Post{loops}{handed}"
            named.add(fn.places[place]["new"])
            return fn.places[place]["new"]

        ty2 = tie_place.sub(at, ty)
        whole = f"{comments}{mods}{name} : {t.text(ty2, env)}"
        if body:
            whole += "\n" + t.text(body, env)
        helpers.append((name, whole))
        answers.append((None, whole))
    invtext = "\n\n".join(b for _, b in invariants)
    # helpers that the invariants name stand with them
    tokens = set(TOKEN.findall(invtext))
    moved = []
    again = True
    while again:
        again = False
        for name, whole in helpers:
            if name and name in tokens and name not in [m[0] for m in moved]:
                moved.append((name, whole))
                tokens |= set(TOKEN.findall(whole))
                again = True
    answers = [a for a in answers if not any(a[1] == m[1] for m in moved)]
    where = os.path.join(crate, "proofs", folder)
    headtext = "\n".join(head) + "\n" if head else ""
    if invariants:
        public = [w if re.search(r"^(abbrev )?pub ", re.sub(r"^(--[^\n]*\n)*", "", w)) else
                  re.sub(rf"^((?:--[^\n]*\n)*)(abbrev )?", lambda m: m[1] + (m[2] or "") + "pub ", w, count=1)
                  for _, w in moved]
        body = "\n\n".join(public + [b for _, b in invariants])
        us = uses_for(uses, body) + [f"use Rattle.{lib}.proofs.{dotted}.Given as goal"]
        with open(os.path.join(where, "Invariants.antt"), "w", encoding="utf-8") as f:
            f.write(headtext + "\n".join(us) + "\n\n" + body + "\n")
    if any(n for n, _ in answers):
        body = "\n\n".join(b for _, b in answers)
        extra = []
        toks = set(TOKEN.findall(body))
        shared = [n for n, _ in moved if n in toks]
        if shared:
            extra = [f"use Rattle.{lib}.proofs.{dotted}.Invariants.{{{', '.join(shared)}}}"]
        if lts:
            extra += [f"use Rattle.{lib}.proofs.{dotted}.{m}" for m in ("Lts", "Reads", "Tie")]
        if named:
            extra.append(f"use Rattle.{lib}.proofs.{dotted}.Goals.{{{', '.join(sorted(named))}}}")
        us = uses_for(uses, body) + extra + [f"use Rattle.{lib}.proofs.{dotted}.Goals as goal"]
        h = "" if invariants and "invariant" in headtext else headtext
        with open(os.path.join(where, "Answers.antt"), "w", encoding="utf-8") as f:
            f.write(h + "\n".join(us) + "\n\n" + body + "\n")
    os.remove(path)


def main():
    global TOP
    TOP = os.path.abspath(os.path.join(sys.argv[1], "..", ".."))
    crate, names, only = sys.argv[1].rstrip("/"), sys.argv[2], sys.argv[3:]
    lib = os.path.basename(os.path.abspath(crate))
    data = json.load(open(names, encoding="utf-8"))
    said = []
    for top, _, files in sorted(os.walk(os.path.join(crate, "proofs"))):
        if "Proof.antt" not in files:
            continue
        folder = os.path.relpath(top, os.path.join(crate, "proofs"))
        if only and folder not in only:
            continue
        key = f"Rattle-{lib}-proofs.{folder.replace('/', '.')}.Lts"
        if key not in data:
            said.append(f"{folder}: no names for it")
            continue
        try:
            convert(crate, lib, folder, data[key], said)
        except Exception as e:
            said.append(f"{folder}: {type(e).__name__} {e}")
    print("\n".join(said))


main()
