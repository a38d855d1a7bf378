#!/usr/bin/env python3
"""Says which must-fail edits do not apply: usage: tools/edits.py [CRATE..]"""
import glob, os, sys
only = set(sys.argv[1:])
bad = 0
for p in sorted(glob.glob("crates/*/must-fail/*.edit")):
    crate = p.split("/")[1]
    if only and crate not in only:
        continue
    file, text, old = None, None, None
    for l in open(p, encoding="utf-8").read().split("\n"):
        if l.startswith("file: "):
            file = f"crates/{crate}/{l[6:].strip()}"
            text = open(file, encoding="utf-8").read() if os.path.exists(file) else None
            if text is None:
                print(f"{p}: no file {file}"); bad += 1
        elif l.startswith("old: ") and text is not None:
            old = l[5:]
            if text.count(old) != 1:
                print(f"{p}: stands {text.count(old)} times in {file}: {old}"); bad += 1
        elif l.startswith("new: ") and text is not None and old is not None and text.count(old) == 1:
            text = text.replace(old, l[5:])
print(bad, "do not apply")
