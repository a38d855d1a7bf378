#!/usr/bin/env python3
"""Writes the impossible clauses that a check asks for into the lemma files of a crate.

usage: tools/clauses.py LOG      in the crate's folder, with what `rt check` said
"""
import re
import sys

text = open(sys.argv[1], encoding="utf-8").read()
found = []
lines = text.split("\n")
for i, l in enumerate(lines):
    m = re.match(r"(\./\S+?):(\d+):\d+: error: `([^`]+)`: write the clause `(.*)`$", l)
    if m:
        found.append((m[1], int(m[2]), m[3], [m[4]]))
        continue
    m = re.match(r"(\./\S+?):(\d+):\d+: error: `([^`]+)`: write the clauses$", l)
    if m:
        name, out, j = m[3], [], i + 1
        while j < len(lines) and lines[j].startswith("  "):
            s = lines[j].strip()
            if s.startswith(name + " ") or s.split(" ")[0] == name:
                out.append(s)
            j += 1
        found.append((m[1], int(m[2]), name, out))
files = {}
for path, at, name, clauses in sorted(found, key=lambda f: (f[0], -f[1])):
    ls = files.setdefault(path, open(path, encoding="utf-8").read().split("\n"))
    k = at - 1
    start = None
    # the first clause at or below the place
    for j in list(range(max(0, k - 1), len(ls))):
        m = re.match(rf"( *){re.escape(name)} (?!:)", ls[j])
        if m and not re.match(rf" *{re.escape(name)}(?: \{{[^{{}}]*\}})* :", ls[j]):
            start = j
            break
    if start is None:
        for j in range(k, -1, -1):
            m = re.match(rf"( *){re.escape(name)} (?!:)", ls[j])
            if m:
                start = j
                break
    if start is None:
        print(f"{path}:{at}: {name} not found")
        continue
    # back to the first clause of the same name
    pad = re.match(" *", ls[start])[0]
    while start > 0:
        j = start - 1
        while j > 0 and (ls[j].startswith(pad + " ") or not ls[j].strip()):
            j -= 1
        if re.match(rf"{pad}{re.escape(name)} (?!:)", ls[j]) and not re.match(
                rf"{pad}{re.escape(name)}(?: \{{[^{{}}]*\}})* :", ls[j]):
            start = j
        else:
            break
    ls[start:start] = [pad + c for c in clauses]
    print(f"{path}: {name}: {len(clauses)}")
for path, ls in files.items():
    open(path, "w", encoding="utf-8").write("\n".join(ls))
