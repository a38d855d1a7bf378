#!/usr/bin/env python3
"""Takes unused imports out of the crates' sources, takes answers that say what is tried anyway out
of the proofs, and breaks lines that are too long; what stands there is not changed otherwise. Run
`rt fmt` in the crates' folders afterwards: it sets the indents.

    scripts/house/tidy.py [FILE ...]    all .antt and .rt files where none is named
"""

import re
import sys
from pathlib import Path

sys.path.insert(0, str(Path(__file__).resolve().parent.parent))

from house.needs import without  # noqa: E402  (the path comes first)
from house.text import WIDTH, sources, unused_imports  # noqa: E402

LISTED = re.compile(r"^(\s*(?:ghost )?(?:pub )?use \S+\.\{)([^}]*)(\};?)$")
COMMENT = re.compile(r"^(\s*)(--|//) (.*)$")
OPEN, CLOSE = "([{⌜⟦", ")]}⌝⟧"
# a line neither ends behind these nor goes on with those
BEHIND = set("→ × ⊎ ∙ ≡ ∷ + * - / % ^ ≤ < : λ && || ++ let as ↔ ←".split())
BEFORE = set("= in : where . ⌝ ⟧ }".split())
LEADING = set("→ × ⊎ ∙ ≡ ↔ ∷ ++ + ≤ <".split())


def split_import(line):
    """An import of many names as several."""
    head, names, tail = LISTED.match(line).groups()
    rows = [[]]
    for name in (name.strip() for name in names.split(",") if name.strip()):
        if rows[-1] and len(head + ", ".join([*rows[-1], name]) + tail) > WIDTH:
            rows.append([])
        rows[-1].append(name)
    return [head + ", ".join(row) + tail for row in rows]


def split_comment(line):
    indent, mark, text = COMMENT.match(line).groups()
    rows = [""]
    for word in text.split(" "):
        if rows[-1] and len(f"{indent}{mark} {rows[-1]} {word}") > WIDTH:
            rows.append("")
        rows[-1] = f"{rows[-1]} {word}".strip()
    return [f"{indent}{mark} {row}" for row in rows]


def depths(line):
    """How many brackets are open at each place; inside a text, more than any."""
    depth, inside = 0, False
    for letter in line:
        inside ^= letter == '"'
        depth -= not inside and letter in CLOSE
        yield 999 if inside else depth
        depth += not inside and letter in OPEN


def breaks(line, tried):
    """(place, depth, word before, word behind) where a line may end."""
    indent = len(line) - len(line.lstrip())
    for place, (letter, depth) in enumerate(zip(line, depths(line))):
        before, behind = line[:place].split(" ")[-1], line[place + 1:].split(" ")[0]
        bound = before in BEHIND or before.lstrip(OPEN) == "λ" or behind in BEFORE
        again = tried and (before in ("in", "=") or behind == "(")
        if letter == " " and indent + 8 < place <= WIDTH and depth < 999 and not bound | again:
            yield place, depth, before, behind


def best(line, tried):
    """Where to break: behind = if the rest fits, else as far out as can be, before an operator."""
    found = list(breaks(line, tried))
    if not found:
        return None
    indent = len(line) - len(line.lstrip())
    least = min(depth for _, depth, _, _ in found)
    for place, depth, before, _ in reversed(found):
        if depth == least and before in ("=", "in") and indent + 4 + len(line) - place <= WIDTH:
            return place
    late = [at for at in found if at[0] > indent + 30] or found
    least = min(depth for _, depth, _, _ in late)
    level = [at for at in late if at[1] == least]
    behind_in = [at for at in level if at[2] == "in"]
    arrows = [at for at in level if at[3] == "→"]
    leading = [at for at in level if at[3] in LEADING and at[0] > 55]
    return (behind_in or arrows or leading or level)[-1][0]


def broken(line, tried):
    """The line in lines that fit, as far as it can be broken."""
    if LISTED.match(line):
        return split_import(line)
    if COMMENT.match(line):
        return split_comment(line)
    if re.match(r"\s*(ghost )?(pub )?use ", line):
        return [line]
    indent, rows = " " * (len(line) - len(line.lstrip()) + 4), []
    while len(line) > WIDTH and (place := best(line, tried)):
        rows.append(line[:place])
        line = indent + line[place + 1:]
    return [*rows, line]


def without_unused(text, mark):
    """The text without the imports that nothing uses."""
    lines, unused = text.split("\n"), {}
    for number, name in unused_imports(text, mark):
        unused.setdefault(number - 1, set()).add(name)
    for number, names in sorted(unused.items(), reverse=True):
        listed = LISTED.match(lines[number])
        kept = [
            name.strip() for name in (listed[2].split(",") if listed else [])
            if name.split(" as ")[-1].strip() not in names
        ]
        lines[number:number + 1] = [f"{listed[1]}{', '.join(kept)}{listed[3]}"] if kept else []
    return "\n".join(lines)


def tidy(path):
    text = without(path.read_text()) if path.name == "Answers.antt" else path.read_text()
    text = without_unused(text, "--" if path.suffix == ".antt" else "//")
    for tried in (False, True):
        rows = [broken(line, tried) if len(line) > WIDTH else [line] for line in text.split("\n")]
        text = "\n".join(line for row in rows for line in row)
    path.write_text(text)


if __name__ == "__main__":
    for path in [Path(name) for name in sys.argv[1:]] or sources(".antt", ".rt"):
        tidy(path)
