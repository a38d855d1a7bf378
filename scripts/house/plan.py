#!/usr/bin/env python3
"""The plan of the crates: crates.txt by layers, and its picture.

    scripts/house/plan.py         says what is wrong with crates.txt
    scripts/house/plan.py --draw  writes docs/pictures/crates.svg
"""

import re
import sys
from pathlib import Path

TOP = Path(__file__).resolve().parent.parent.parent
PICTURE = TOP / "docs" / "pictures" / "crates.svg"
LETTER, LINE, LEFT, WIDE = 7.3, 22, 330, 1080
# crates whose types go through a crate that does not name them
UNNAMED = {
    "c_interface": {"column_search", "row_counts"},
    "checks": {"sweep_answers", "grammar"},
    "rights_text": {"sheets"},
    "clause_text": {"sheets", "grammar"},
}


def layers():
    """[(heading, {crate: the crates that it names})], lowest first."""
    found = []
    for line in (TOP / "crates.txt").read_text().splitlines()[1:]:
        if line.startswith("# "):
            found.append((line[2:], {}))
        elif line:
            name, rest = line.split(":")
            # a static library is `NAME staticlib`
            found[-1][1][name.split()[0]] = rest.split()
    return found


def named(crate):
    """The crates that the sources of a crate name."""
    found = set()
    # `rt` keeps its own in out/
    for path in (TOP / "crates" / crate).glob("[!o]*/**/*"):
        if path.suffix in (".rt", ".antt"):
            text = path.read_text()
            found.update(re.findall(r"\bRattle\.(\w+)", text))
            if path.suffix == ".rt":
                found.update(re.findall(r"\b(\w+)::", text))
    return found - {crate} | UNNAMED.get(crate, set())


def faults():
    """What is wrong with crates.txt: its order, edges that nothing uses, edges that are missing."""
    below, plan = set(), layers()
    every = {crate for _, crates in plan for crate in crates}
    for _, crates in plan:
        for crate, edges in crates.items():
            names, own = named(crate) & every, set(edges) & every
            yield from (f"{crate} stands above {edge}" for edge in sorted(own - below))
            yield from (f"{crate} does not use {edge}" for edge in sorted(own - names))
            yield from (f"{crate} uses {name}, which is not said" for name in sorted(names - own))
            below.add(crate)


def rows_of(crates):
    """The crates' names in rows that fit."""
    rows, row = [], []
    for crate in crates:
        if row and LETTER * len("   ".join([*row, crate])) > WIDE - LEFT - 60:
            rows.append(row)
            row = []
        row.append(crate)
    return [*rows, row]


def layer_picture(number, heading, crates, top):
    """A layer as SVG, and its height."""
    rows = rows_of(crates)
    high = LINE * len(rows) + 14
    yield f'<rect x="10" y="{top}" width="{WIDE - 20}" height="{high}" rx="4"/>'
    words = re.split(r": ", heading, maxsplit=1)
    yield f'<text class="layer" x="24" y="{top + 22}">{number}. {words[0]}</text>'
    for place, row in enumerate(rows):
        yield f'<text x="{LEFT}" y="{top + 22 + LINE * place}">{"   ".join(row)}</text>'
    return high


def picture():
    """The layers, the highest first; each is built on those beneath."""
    parts, top = [], 10
    numbered = list(enumerate(layers(), 1))
    for number, (heading, crates) in reversed(numbered):
        drawn = layer_picture(number, heading, crates, top)
        while True:
            try:
                parts.append(next(drawn))
            except StopIteration as ended:
                top += ended.value + 8
                break
    style = (
        "rect{fill:#f4f6f8;stroke:#8a97a5}"
        "text{font:13px ui-monospace,monospace;fill:#1d2733;white-space:pre}"
        ".layer{font-weight:bold}"
    )
    return "\n".join([
        f'<svg xmlns="http://www.w3.org/2000/svg" viewBox="0 0 {WIDE} {top + 2}" role="img">',
        "<title>The crates by layers, each built on those beneath it</title>",
        f"<style>{style}</style>",
        *parts,
        "</svg>\n",
    ])


if __name__ == "__main__":
    if sys.argv[1:] == ["--draw"]:
        PICTURE.write_text(picture())
    wrong = list(faults())
    print("\n".join(wrong))
    sys.exit(bool(wrong))
