#!/usr/bin/env python3
"""Spells the repository's own definitions and lemmas as today's Rattle spells names.

usage: tools/respell.py [--check]        at the top of the repository, after port.py

Names of functions, lemmas, fields and constructors that files of specs/ and proofs/ declare get
snake case: pairAt and pair-at become pair_at. Types and modules keep their capitals. A name that a
file imports from a library stays in that file. Where the new name would meet another one of some
file, a lemma keeps its dash, and a definition gets `_of`. `rules` of grammar's Content, which has
the name of the logic's own set of rules, is `rules_of`. Comments follow for names with capitals.
"""
import collections
import os
import re
import sys

NAME = r"[^\s(){}\[\];,.@\"«»]+"
TOKEN = re.compile(rf"--[^\n]*|//[^\n]*|\"(?:[^\"\\]|\\.)*\"|«[^»]*»|{NAME}")
RTTOKEN = re.compile(rf"//[^\n]*|b?\"(?:[^\"\\]|\\.)*\"|b?'(?:[^'\\]|\\.)'|{NAME}")
DECLARED = re.compile(
    rf"(?m)^ *(?:(?:abbrev|pub|unfoldable|private) )*({NAME}(?: {NAME})*?)"
    r"(?: \{[^{}\n]*\})*(?: \([^()\n]*\))* :(?=\s)")
USE = re.compile(r"(?m)^ *(?:pub |ghost )?use ([^\s{;]+?)\.\{([^}]*)\}")
WORDS = {"abbrev", "pub", "unfoldable", "private", "data", "record", "where", "use", "let", "in", "as",
         "module", "mod", "elim", "rw", "simp", "unfolding", "ghost"}
OWN = {}


def read(p):
    with open(p, encoding="utf-8") as f:
        return f.read()


def files(ends):
    for top, ds, fs in os.walk("crates"):
        ds[:] = sorted(d for d in ds if d != "out")
        for f in sorted(fs):
            if f.endswith(ends):
                yield os.path.join(top, f)


def is_function_proof(p):
    return p.endswith(("/Proof.antt", "/Answers.antt", "/Invariants.antt"))


def snake(name):
    name = re.sub(r"(?<=[a-z0-9?'₀-₉])([A-Z])", lambda m: "_" + m[1].lower(), name)
    return name.replace("-", "_")


def is_type(name):
    return bool(re.match(r"[A-Z]", name))


def main():
    check = "--check" in sys.argv
    crates = set(os.listdir("crates"))
    texts = {p: read(p) for p in files((".antt", ".rt"))}

    def is_own(module):
        steps = module.split(".")
        return steps[0] == "Rattle" and len(steps) > 1 and steps[1] in crates

    declared = set()
    for p, t in texts.items():
        if not p.endswith(".antt"):
            continue
        plain = re.sub(r"--[^\n]*", "", t)
        for m in DECLARED.finditer(plain):
            line = plain[m.start():plain.find("\n", m.start())]
            if is_function_proof(p) and re.search(r": (tie\.|\{M : Type 1\})", line):
                continue
            for n in m[1].split():
                if n not in WORDS:
                    declared.add(n)
    imported, tokens = {}, {}
    for p, t in texts.items():
        lib = set()
        for m in USE.finditer(t):
            if not is_own(m[1]):
                lib |= {n.strip().split(" as ")[-1] for n in m[2].split(",")}
        imported[p] = lib
        pattern = RTTOKEN if p.endswith(".rt") else TOKEN
        tokens[p] = {m[0] for m in pattern.finditer(t) if not m[0].startswith(("--", "//", '"'))}
    where = collections.defaultdict(list)
    for p, ts in tokens.items():
        for n in ts:
            where[n].append(p)

    table, kept, suffixed = {}, [], []
    for n in sorted(declared):
        if is_type(n) or not re.match(r"[a-zα-ωμσ⊎+]", n) or n.startswith("+"):
            continue
        new = snake(n)
        if new == n:
            continue

        def meets(new):
            if new in table.values():
                return True
            for p in where[n]:
                if n in imported[p]:
                    continue
                if new in tokens[p]:
                    if p.endswith(".rt") and re.search(rf"\bfn {re.escape(new)}\b", texts[p]) and not re.search(
                            rf"\b{re.escape(new)}: ", texts[p]):
                        continue
                    return True
            return False

        if not meets(new):
            table[n] = new
        elif re.search("[A-Z]", n) and not meets(new + "_of"):
            table[n] = new + "_of"
            suffixed.append(n)
        else:
            kept.append(n)

    def turn_name(p, n):
        return table[n] if n in table and n not in imported[p] else n

    changed = 0
    for p, t in texts.items():
        rules = re.search(r"use Rattle\.grammar\.specs\.Content\.\{[^}]*\brules\b", t) is not None or \
            p == "crates/grammar/specs/Content.antt"
        pattern = RTTOKEN if p.endswith(".rt") else TOKEN
        camel = {n for n in table if re.search("[A-Z]", n)}

        def turn(m):
            s = m[0]
            if s.startswith(("--", "//")):
                return re.sub(rf"{NAME}", lambda w: table.get(w[0].strip("`':"), w[0]) if w[0] in camel else w[0], s)
            if s.startswith(('"', "b\"", "'", "b'")):
                return s
            return turn_name(p, s)

        new = pattern.sub(turn, t)
        if rules:
            new = turn_rules(p, new)
        if new != t:
            changed += 1
            if not check:
                with open(p, "w", encoding="utf-8") as f:
                    f.write(new)
    print(f"{len(table)} names, {changed} files")
    print("with _of:", " ".join(suffixed))
    print("kept:", " ".join(kept))
    fell = collections.Counter(table.values())
    print("fall together:", [n for n, k in fell.items() if k > 1])


def turn_rules(p, t):
    """`rules` of grammar's Content is `rules_of`: where it is imported, and where it is applied."""
    if p == "crates/grammar/specs/Content.antt":
        return re.sub(r"(?<![\w.-])rules(?![\w-])(?=( :| g = | \())", "rules_of", t)
    t = re.sub(r"(use Rattle\.grammar\.specs\.Content\.\{[^}]*?)\brules\b", r"\1rules_of", t)
    # applied to an argument, and not the tactics' set of rules
    applied = re.compile(r"(?:--|//)[^\n]*|(?<![\w.-])(?<!search )(?<!simp )rules(?= (?:\(|[a-z]))(?! =)")
    return applied.sub(lambda m: "rules_of" if m[0] == "rules" else m[0], t)


main()
