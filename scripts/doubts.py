#!/usr/bin/env python3
"""Says between which rules the test at every length cannot tell: doubts.py INPUT < ANSWER.

INPUT is the file that the program `calls` was asked with, ANSWER what it wrote. Prints each entry
in words, with the rules in full; those of a clause sheet are the rules that it expands to, which
the same program says.
"""

import subprocess
import sys
from pathlib import Path

TOP = Path(__file__).resolve().parent.parent
CALLS = TOP / "target" / "bin" / "calls"

FRONT = "unknown: the test cannot tell that no sentence has two trees; some sentence may, where"
WHYS = {
    "rules": "rules {first} and {second} of nonterminal {left} may read the same words",
    "cuts": "rule {first} of nonterminal {left} may part a word at two places",
    "empty": "rules {first} and {second} of nonterminal {left} both have the empty word",
}

# more entries than so many are counted
MOST_SHOWN = 20


def rules_of(data):
    """The lines of the rules, from the first on, and what they are called."""
    call, sheet = data.split(b"\n\n", 1)
    name = "rule"
    if call.endswith(b"clauses-always"):
        asked = b"call\nexpand\n\n" + sheet
        ended = subprocess.run([CALLS], input=asked, capture_output=True, check=True)
        sheet, name = ended.stdout.split(b"\n", 2)[2], "expanded rule"
    return [line.decode("ascii", "replace") for line in sheet.split(b"\n")[1:-1]], name


def told(entry, rules, name):
    """An entry in words, and its rules in full."""
    left, first, second, why = entry.split(" ")
    yield f"  {WHYS[why].format(left=left, first=first, second=second)}:"
    for place in dict.fromkeys((int(first), int(second))):
        yield f"    {name} {place}: {rules[place - 1]}"


def main():
    rules, name = rules_of(Path(sys.argv[1]).read_bytes())
    entries = sys.stdin.read().splitlines()[3:]
    print(FRONT)
    for entry in entries[:MOST_SHOWN]:
        print("\n".join(told(entry, rules, name)))
    if len(entries) > MOST_SHOWN:
        print(f"  and {len(entries) - MOST_SHOWN} entries more")


if __name__ == "__main__":
    main()
