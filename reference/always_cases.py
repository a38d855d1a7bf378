"""Cases for the test at every length: (call, sheet) pairs, the call `always` or `clauses-always`.

`cases()` yields them in a fixed order.  First come those of `meant()`, made by
hand, each with how its output is meant to go on after `answer line`.  What
follows is drawn by chance, seeded and the same on every run.

    python3 reference/always_cases.py     asks the reference whether it is so
"""

import random
import sys
from pathlib import Path

import always
import teplonga as base
from check_cases import BLOCK, BRACKETS, DANGLING, LIST, LIST_LEFT, P4, P5, P6, P8, P9, PLAIN, rule_sheet
from clause_cases import sheet as clause_sheet

TOP = Path(__file__).resolve().parent.parent
CLEAR = "clear 0\n"


def unknown(*entries):
    return "unknown 0\nleft first second why\n" + "".join(f"{entry}\n" for entry in entries)


def refused(number, line):
    return f"refused-{number} {line}\n"


def rules(text):
    return ("always", rule_sheet(text))


def written(*lines):
    return ("clauses-always", clause_sheet(*lines))


def file_of(path):
    call = "clauses-always" if path.endswith(".clauses") else "always"
    return (call, (TOP / path).read_bytes())


# -------------------------------------------------------- the paper's grammars

def paper():
    yield unknown("0 1 2 rules", "2 3 3 cuts"), file_of("bench/sheets/block.rules")
    yield CLEAR, file_of("bench/sheets/block-repaired.rules")
    yield CLEAR, file_of("bench/sheets/haskell.rules")
    yield CLEAR, file_of("examples/block-repaired.clauses")
    yield "unknown 0\n", file_of("examples/block.clauses")


# ------------------------------------------------------------- one mark or none

def words():
    """Clear or not by the words alone."""
    yield CLEAR, rules("0 A 0 - none")
    yield CLEAR, rules("0 E - - none")
    yield CLEAR, rules(LIST)
    yield CLEAR, rules(LIST_LEFT)
    yield CLEAR, rules(BRACKETS)
    yield unknown("0 1 1 cuts"), rules(PLAIN)
    yield unknown("0 1 1 cuts"), rules(P4)
    yield unknown("0 1 2 empty"), rules(P5)
    yield unknown("0 1 2 rules"), rules("0 U 1 - none / 0 U 2 - none / 1 A 0 3 none / 2 A 3 5 none")
    yield CLEAR, rules("0 U 1 - none / 0 U 2 - none / 1 A 0 2 none / 2 A 3 5 none")
    # three rules for the empty word; two that nothing reaches, or that stand beside what has no word
    yield unknown("0 1 2 empty", "0 1 3 empty", "0 2 3 empty"), rules("0 E - - none / 0 U 1 - none / 0 B 1 1 none / 1 E - - none")
    yield CLEAR, rules("0 A 0 - none / 1 E - - none / 1 U 2 - none / 2 E - - none")
    yield CLEAR, rules("0 A 0 - none / 0 B 1 3 none / 1 E - - none / 1 U 2 - none / 2 E - - none")
    # two rules and the empty word at once; a loop
    yield unknown("0 1 2 rules", "0 1 2 empty"), rules("0 U 1 - none / 0 U 2 - none / 1 E - - none / 1 A 0 - none / 2 E - - none / 2 A 0 - none")
    yield unknown("0 1 2 rules"), rules("0 U 0 - none / 0 A 0 - none")
    yield CLEAR, rules("0 A 0 - none / 1 U 1 - none / 1 A 1 - none")
    # the next terminal tells, and a node and its child meet
    yield unknown("0 1 2 rules", "2 5 5 cuts"), rules("0 B 1 0 none / 0 U 2 - none / 1 A 0 - none / 2 A 0 - none / 2 B 2 2 none")


def layout():
    """Clear by the marks, or not in spite of them."""
    for lay in ("none", "align", "indent"):
        yield unknown("0 1 1 cuts"), rules(f"0 B 0 0 {lay} / 0 A 0 - none")
    yield CLEAR, rules(P6)
    yield CLEAR, rules(P8)
    yield CLEAR, rules(P9)
    yield CLEAR, rules(BLOCK)
    yield unknown("0 1 2 rules"), rules(DANGLING.format("none"))
    yield "unknown 0\n", rules(DANGLING.format("align"))
    # one word is aligned and the other indented: never both; offside and single may hold of one word
    pair = "0 U 1 - none / 0 U 2 - none / 1 B 3 3 {} / 2 B 3 3 {} / 3 A 0 - none"
    yield CLEAR, rules(pair.format("align", "indent"))
    yield unknown("0 1 2 rules"), rules(pair.format("align", "none"))
    yield unknown("0 1 2 rules"), rules(pair.format("indent", "none"))
    two = "0 U 1 - {} / 0 U 2 - {} / 1 B 3 4 {} / 2 B 3 4 {} / 3 A 0 - none / 4 A 1 - none"
    yield CLEAR, rules(two.format("single", "none", "none", "indent"))
    yield CLEAR, rules(two.format("single", "none", "none", "align"))
    yield CLEAR, rules(two.format("offside", "none", "none", "align"))
    yield unknown("0 1 2 rules"), rules(two.format("offalign", "none", "none", "align"))
    yield unknown("0 1 2 rules"), rules(two.format("offside", "none", "none", "indent"))
    # a level holds for the first child, not for the second but for single
    level = "0 U 1 - {} / 1 B 2 3 none / 2 A 0 - none / 3 B 4 4 {} / 3 B 4 5 none / 4 A 1 - none / 5 A 1 - none"
    yield CLEAR, rules(level.format("single", "align"))
    yield unknown("3 4 5 rules"), rules(level.format("offside", "align"))


def read():
    """Refusals, as the readers give them."""
    yield refused(1, 1), ("always", b"")
    yield refused(1, 1), ("always", b"left clause\n0 t0\n")
    yield refused(7, 0), rules("1 A 0 - none")
    yield refused(2, 2), rules("0 A 0 none")
    yield refused(44, 2), rules("0 A 1 0 none")
    yield refused(5, 3), rules("0 A 0 3 none / 0 A 3 - none")
    yield refused(1, 1), ("clauses-always", b"left kind first second lay\n0 A 0 - none\n")
    yield refused(41, 2), written(b"0 t64")
    yield refused(42, 2), written(b"0 " + b"(" * 17 + b"t0" + b")" * 17)
    yield refused(43, 0), written(b"63 t0", b"0 t0")
    yield refused(7, 0), written(b"1 t0")


def by_clauses():
    yield CLEAR, written(b"0 t0+ t1")
    yield CLEAR, written(b"0 (t0 | t1)* t2?")
    yield unknown("0 1 2 rules"), written(b"0 t0 | t0")
    yield "unknown 0\n", written(b"0 (t0?)*")
    yield "unknown 0\n", written(b"0 t0* t0*")
    yield CLEAR, written(b"0 (t0 n0?):offside | t1 :align: t1")


def meant():
    for each in (paper, words, layout, read, by_clauses):
        yield from each()


# ------------------------------------------------------------- drawn by chance

LAYS = {"U": ("none", "offside", "offalign", "single"), "B": ("none", "none", "align", "indent")}


def drawn_rules(chance):
    size = chance.randint(1, 4)
    listed = []
    for _ in range(chance.randint(2, 8)):
        left, first, second = (chance.randrange(size) for _ in range(3))
        kind = chance.choice("EAAAUUBBBB")
        last = chance.choice(("-", first + chance.randrange(2)))
        names = {"E": "- -", "A": f"{first} {last}", "U": f"{first} -", "B": f"{first} {second}"}[kind]
        listed.append(f"{left} {kind} {names} {chance.choice(LAYS.get(kind, ('none',)))}")
    return rule_sheet(" / ".join(listed))


def drawn(chance):
    """A sheet that is read."""
    sheet = b""
    while base.read_rules(sheet)[0] == "refused":
        sheet = drawn_rules(chance)
    return ("always", sheet)


def cases():
    for _, each in meant():
        yield each
    chance = random.Random(33)
    for _ in range(300):
        yield drawn(chance)


def output(case):
    """What the program `calls` writes."""
    call, sheet = case
    return (always.always_output if call == "always" else always.clauses_always_output)(sheet)


def main():
    count = 0
    for answer, case in meant():
        made = output(case)
        if not made.startswith(b"answer line\n" + answer.encode()):
            print(f"case {case!r}\n  got   {made!r}\n  meant {answer!r}")
            return 1
        count += 1
    print(f"{count} cases as meant")
    return 0


if __name__ == "__main__":
    sys.exit(main())
