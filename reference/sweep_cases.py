"""Cases for the program `sweep`: whole inputs, as bytes.

`cases()` yields them in a fixed order.  First come those of `meant()`, made by
hand, each with how its output is meant to go on after the names; the maker of
the vectors asks the reference whether it is so.  What follows is drawn by
chance, seeded and the same on every run.

Rules and tokens are written as in `check_cases.py`.  The reference tries the
candidates one by one: no case is clear at a bound above 4, unless there are no
terminals, and none has to try all those of length 5 in vain.
"""

import random

from check_cases import (
    BLOCK,
    BRACKETS,
    LAYS,
    LIST,
    P4,
    P5,
    P6,
    P8,
    P9,
    PLAIN,
    digit_changed,
    pick,
    random_rules,
    row,
    rule_sheet,
    sheet_of,
    token_sheet,
)
from reading_cases import damaged, many_rules, padded, rules

ALIGN = PLAIN.replace("none", "align", 1)
INDENT = PLAIN.replace("none", "indent", 1)


def sweep(bound, text):
    """The input with this bound and these rules."""
    return bounded(str(bound).encode(), rule_sheet(text))


def bounded(written, sheet):
    return b"bound\n" + written + b"\n\n" + sheet


def two(*listed):
    return b"two 0\n" + token_sheet(listed)


def refused(number, line=0):
    return b"refused-%d %d\n" % (number, line)


CLEAR = b"clear 0\n"


# ----------------------------------------------------------- the worked examples

def patches():
    # P1
    for bound in (1, 2):
        yield CLEAR, sweep(bound, PLAIN)
    for bound in (3, 4, 5, 6, 7):
        yield two((1, 1), (1, 2), (1, 3)), sweep(bound, PLAIN)
    # P2, P3
    yield CLEAR, sweep(2, ALIGN)
    yield two((1, 1), (2, 1), (3, 1)), sweep(3, ALIGN)
    yield CLEAR, sweep(2, INDENT)
    yield two((1, 1), (2, 2), (3, 3)), sweep(3, INDENT)
    yield two((1, 1), (2, 2), (3, 3)), sweep(7, INDENT)
    # P4
    yield two((1, 1)), sweep(1, P4)
    # P5: "any sweep, clear"
    for bound in range(1, 8):
        yield CLEAR, sweep(bound, P5)
    # P6 to P9 have two trees nowhere.
    for text in (P6, P6.replace("offside", "offalign"), P8, P9):
        yield CLEAR, sweep(3, text)
    # Rules that loop
    yield CLEAR, sweep(3, "0 U 0 - none")
    yield two((1, 1)), sweep(3, "0 U 0 - none / 0 A 0 - none")
    yield CLEAR, sweep(3, "0 A 0 - none / 1 U 1 - none / 1 A 0 - none")


# --------------------------------------------------------------------- findings

# 9 is a token; 20, 21 and 22 are two tokens under none, align and indent; 30 is
# three tokens.
PARTS = (
    "9 A 0 - none / 20 B 9 9 none / 21 B 9 9 align / 22 B 9 9 indent / 30 B 9 20 none"
)


def either(one, other, parts=PARTS):
    """A sentence has two trees where both ways to read it hold."""
    return f"0 {one} / 0 {other} / {parts}"


# A bound, two ways to read a sentence, and the first for which both hold.
FOUND = (
    # Two tokens.
    (2, "U 20 - none", "U 21 - none", [(1, 1), (2, 1)]),
    (2, "U 20 - none", "U 22 - none", [(1, 1), (2, 2)]),
    (2, "U 20 - offside", "B 9 9 none", [(1, 1), (1, 2)]),
    (2, "U 21 - offalign", "B 9 9 none", [(1, 1), (2, 1)]),
    (4, "U 22 - offside", "B 9 9 none", [(1, 1), (2, 2)]),
    # Three tokens: a mark between two tokens, between a token and two, two and one.
    (3, "B 9 21 none", "B 20 9 none", [(1, 1), (1, 2), (2, 2)]),
    (3, "B 9 22 none", "B 20 9 none", [(1, 1), (1, 2), (2, 3)]),
    (3, "B 21 9 none", "B 9 20 none", [(1, 1), (2, 1), (2, 2)]),
    (3, "B 22 9 none", "B 9 20 none", [(1, 1), (2, 2), (2, 3)]),
    (3, "B 9 20 align", "B 20 9 none", [(1, 1), (2, 1), (2, 2)]),
    (3, "B 20 9 align", "B 9 20 none", [(1, 1), (1, 2), (2, 1)]),
    (3, "B 20 9 indent", "B 9 20 none", [(1, 1), (1, 2), (2, 2)]),
    # Two marks in one tree, and one in each.
    (3, "B 9 22 align", "B 20 9 none", [(1, 1), (2, 1), (3, 2)]),
    (3, "B 9 21 indent", "B 20 9 none", [(1, 1), (2, 2), (3, 2)]),
    (3, "B 9 22 none", "B 20 9 indent", [(1, 1), (1, 2), (2, 3)]),
    (3, "B 9 21 align", "B 22 9 none", None),
    # The first token not in column 1.
    (3, "B 20 9 align", "B 9 22 none", [(1, 2), (2, 1), (3, 2)]),
    (4, "B 20 9 align", "B 9 22 none", [(1, 2), (2, 1), (3, 2)]),
    # Four tokens.
    (4, "B 20 20 align", "B 9 30 none", [(1, 1), (1, 2), (2, 1), (2, 2)]),
    (4, "B 22 22 align", "B 9 30 none", [(1, 1), (2, 2), (3, 1), (4, 2)]),
    (4, "B 20 22 indent", "B 9 30 none", [(1, 1), (1, 2), (2, 2), (3, 3)]),
    (4, "B 30 9 align", "B 20 22 none", [(1, 2), (1, 3), (2, 1), (3, 2)]),
    (4, "B 30 9 indent", "B 20 22 none", [(1, 1), (1, 2), (1, 3), (2, 4)]),
)


def findings():
    for bound, one, other, found in FOUND:
        yield two(*found) if found else CLEAR, sweep(bound, either(one, other))
    # Columns 3, 1, 2, 3: the third is deeper than the second, the last deeper
    # than the third and below the first.
    columns = "9 A 0 - none / 1 B 9 2 none / 2 B 9 9 indent / 3 B 9 2 none"
    stairs = either("B 1 9 align", "B 9 3 none", columns)
    yield two((1, 3), (2, 1), (3, 2), (4, 3)), sweep(4, stairs)
    yield CLEAR, sweep(3, stairs)
    # Blocks: an item may reach over the next one.
    loose = BLOCK.replace("offside", "offalign").replace(" / 3 A 1 - none", "")
    yield two((1, 1), (2, 1)), sweep(4, loose)


def terminals():
    """More terminals than one, and which of them comes first."""
    yield two((1, 1)), sweep(1, "0 A 0 - none / 0 U 1 - none / 1 A 0 - none")
    yield two((9, 1, 1)), sweep(3, "0 A 3 - none / 0 A 9 - none / 1 A 9 - none / 0 U 1 - none")
    yield two((63, 1, 1)), sweep(1, "0 U 1 - none / 1 A 63 - none / 0 A 63 - none / 1 A 5 - none")
    # The lesser one first, whatever their place in the sheet.
    ends = "1 A 9 - none / 1 A 5 - none / 2 A 9 - none / 2 A 5 - none"
    yield two((5, 1, 1)), sweep(2, f"0 U 1 - none / 0 U 2 - none / {ends}")
    yield two((5, 1, 1), (5, 2, 1)), sweep(2, f"0 B 1 2 align / 0 B 2 1 align / {ends}")
    # A shorter sentence comes before one of lesser terminals.
    mixed = "0 U 3 - none / 0 A 7 - none / 3 A 7 - none / 0 B 4 4 none / 0 B 5 4 none"
    yield two((7, 1, 1)), sweep(2, f"{mixed} / 4 A 0 - none / 5 A 0 - none")
    # Not rising; rising.
    ends = "1 A 4 - none / 2 A 2 - none / 3 B 1 2 indent / 4 B 1 2 none"
    yield two((4, 1, 1), (2, 2, 2)), sweep(3, f"0 U 3 - none / 0 U 4 - none / {ends}")
    ends = "1 A 0 - none / 1 A 1 - none / 2 A 1 - none / 3 A 1 - none"
    yield two((0, 1, 1), (1, 2, 1)), sweep(2, f"0 B 1 2 align / 0 B 1 3 none / {ends}")
    yield two((0, 1, 1), (1, 1, 2)), sweep(2, f"0 B 1 2 none / 0 B 1 3 none / {ends}")
    # Some that no tree uses.
    used = "0 B 0 0 none / 0 A 6 - none / 1 A 0 - none / 2 A 3 - none"
    yield two((6, 1, 1), (6, 1, 2), (6, 1, 3)), sweep(3, used)


def order():
    """Token by token, within a token terminal, step, column."""
    # A lesser terminal one line further, before a greater one on the same line.
    ends = "1 A 0 - none / 2 A 0 - none / 3 A 0 - none / 4 A 1 - none / 5 A 1 - none"
    both = "0 B 1 2 align / 0 B 1 3 none / 0 B 1 4 none / 0 B 1 5 none"
    yield two((0, 1, 1), (0, 2, 1)), sweep(2, f"{both} / {ends}")
    # The first token's column before the third one's terminal.
    deep = either("B 20 9 align", "B 9 22 none")
    free = "0 B 20 8 none / 0 B 9 23 none / 23 B 9 8 none / 8 A 1 - none"
    yield two((0, 1, 1), (0, 1, 2), (1, 1, 3)), sweep(3, f"{deep} / {free}")
    # The first token's column before the second one's step.
    deep = either("B 30 9 align", "B 20 22 none")
    yield two((1, 1), (2, 1), (2, 2), (3, 1)), sweep(4, f"0 B 9 30 align / {deep}")


def clear_ones():
    for bound in (1, 2, 3, 4):
        yield CLEAR, sweep(bound, LIST)
    yield CLEAR, sweep(3, BRACKETS)
    yield CLEAR, sweep(4, BLOCK.replace(" / 3 A 1 - none", ""))
    yield CLEAR, sweep(3, BLOCK)
    # Two trees of the empty word only, or out of reach only.
    yield CLEAR, sweep(4, "0 E - - none / 0 U 1 - none / 1 E - - none / 0 A 0 - none")
    yield CLEAR, sweep(3, "0 A 0 - none / 1 U 2 - none / 1 A 0 - none / 2 A 0 - none")
    # Two trees of a sentence longer than the bound, then within it.
    longer = "0 B 1 2 none / 0 B 2 1 none / 2 B 1 3 none / 3 A 0 - none / 1 B 3 3 "
    plain, aligned = longer + "none", longer + "align"
    yield CLEAR, sweep(4, plain)
    for bound in (5, 6, 7):
        yield two(*row(5)), sweep(bound, plain)
    yield CLEAR, sweep(4, aligned)
    yield two((1, 1), (2, 1), (2, 2), (3, 2), (4, 2)), sweep(5, aligned)
    # No terminals.
    for bound in (1, 5, 7):
        yield CLEAR, sweep(bound, "0 B 0 0 none")
    yield CLEAR, sweep(7, "0 E - - none / 0 U 1 - none / 1 E - - none / 1 U 2 - none")


# ---------------------------------------------------------------------- 23, 24

def many_terminals(count):
    """Two trees of terminal 0 at once; the others are out of reach."""
    listed = ["0 A 0 - none", "0 U 1 - none", "1 A 0 - none"]
    listed += [f"2 A {each} - none" for each in range(1, count)]
    return " / ".join(listed)


def limits():
    # The most terminals taken at each bound, and one more.
    for bound, most in ((4, 28), (5, 7), (6, 2), (7, 1)):
        yield two((1, 1)), sweep(bound, many_terminals(most))
        yield refused(24), sweep(bound, many_terminals(most + 1))
    for bound in (1, 2, 3):
        yield two((1, 1)), sweep(bound, many_terminals(64))
    # 2^32 divides the number; it is past 2^64.
    yield refused(24), sweep(4, many_terminals(64))
    yield refused(24), sweep(7, many_terminals(32))
    yield refused(24), sweep(7, many_terminals(64))
    # A terminal counts once.
    again = " / ".join(f"{left} A 0 - none" for left in range(2, 10))
    yield two((1, 1)), sweep(7, f"{many_terminals(1)} / {again}")
    # 23 before 24.
    for bound in (0, 8, 9, 10, 64, 99):
        yield refused(23), sweep(bound, PLAIN)
    yield refused(23), sweep(8, many_terminals(8))
    yield refused(23), sweep(0, many_terminals(2))
    yield refused(23), sweep(8, P5)


def ranges():
    """T counts every terminal covered."""
    # Two trees of terminal 0 at once; the others are out of reach.
    early = "0 A 0 - none / 0 U 1 - none / 1 A 0 - none / 2 A {} {} none"
    for bound, most in ((4, 28), (5, 7), (6, 2), (7, 1)):
        yield two((1, 1)), sweep(bound, early.format(0, most - 1))
        yield refused(24), sweep(bound, early.format(0, most))
    # Overlapping ranges of two lefts count once.
    yield two((1, 1)), sweep(5, early.format(0, 4) + " / 3 A 2 6 none")
    yield refused(24), sweep(5, early.format(0, 4) + " / 3 A 2 7 none")
    # The first terminal that both have.
    both = "0 U 1 - none / 0 U 2 - none / 1 A 3 40 none / 2 A 40 63 none"
    yield two((40, 1, 1)), sweep(2, both)
    yield CLEAR, sweep(1, both.replace("40 63", "41 63"))
    # Sixty words in one rule.
    yield two((0, 1, 1), (0, 1, 2), (0, 1, 3)), sweep(3, "0 B 0 0 none / 0 A 0 59 none")
    yield refused(44, 3), sweep(3, "0 B 0 0 none / 0 A 5 4 none")


def padded_numbers():
    """The bound has one to five digits too; what is printed is plain."""
    for digits in (2, 3, 4, 5):
        yield two((1, 1), (1, 2), (1, 3)), bounded(padded(b"3", digits), padded(rule_sheet(PLAIN), digits))
        yield CLEAR, bounded(padded(b"2", digits), rule_sheet(PLAIN))
    for written in (b"00", b"00000", b"008", b"00008", b"100", b"00100", b"256", b"65537", b"99999"):
        yield refused(23), bounded(written, rule_sheet(PLAIN))


def refused_rules():
    """The rule sheet comes before 23 and 24."""
    names = b"left kind first second lay \n0 A 0 - none\n"
    for written in (b"0", b"3", b"8", b"99"):
        yield refused(1, 1), bounded(written, b"")
        yield refused(2, 3), bounded(written, rule_sheet(PLAIN)[:-1])
    for number, line, sheet in (
        (1, 1, names),
        (1, 1, b"\n" + rule_sheet(PLAIN)),
        (1, 1, rules()[:-1]),
        (2, 2, rule_sheet("0 A 000000 - none")),
        (3, 2, rule_sheet("0 A 00064 - none")),
        (2, 4, rule_sheet(PLAIN) + b"\n"),
        (3, 3, rule_sheet("0 B 0 0 none / 0 A 64 - none / 2 A 64 - none")),
        (4, 2, rule_sheet("0 A 0 - offside / 0 B 64 0 none")),
        (5, 4, rule_sheet(f"{PLAIN} / 0 B 0 0 align")),
        (7, 0, rule_sheet("1 U 1 - none")),
        (7, 0, rules()),
    ):
        yield refused(number, line), bounded(b"5", sheet)
        yield refused(number, line), bounded(b"8", sheet)
    yield refused(6, 130), bounded(b"7", many_rules(129))
    yield refused(6, 130), bounded(b"0", many_rules(128) + b"\n")
    yield refused(24), bounded(b"7", many_rules(128))


# ---------------------------------------------------------------------- 31, 32

def refused_bounds():
    sheet = rule_sheet(PLAIN)
    for written in (
        *(b"000003", b"000000", b"100000", b"", b" 3", b"3 ", b"3\r", b"3\0", b"0x3"),
        *(b"-1", b"+3", b"-", b"x", b"a3", b"3x", b"3 4", b"\xb3", b"bound", b"3\n4", b"3\n "),
    ):
        yield refused(32), bounded(written, sheet)
    for head in (
        *(b"3\n\n", b"Bound\n3\n\n", b"bound \n3\n\n", b" bound\n3\n\n", b"bounds\n3\n\n"),
        *(b"bound\r\n3\r\n\r\n", b"bound\r3\n\n", b"bound 3\n\n", b"3\nbound\n\n", b"bound\n\n"),
        *(b"bound\nbound\n3\n\n", b"bound\n\n3\n\n", b"\nbound\n3\n\n", b" \nbound\n3\n\n"),
        # No empty line before the rules, or nothing at all.
        *(b"bound\n3\n", b"bound\n3\n \n", b"bound\n3", b"\n", b"\n\n", b""),
    ):
        yield refused(32), head + sheet
    for text in (b"", b"\n", b"bound", b"bound\n", b"bound\n3", b"bound\n3\n", b"\r\n", b"x"):
        yield refused(32), text
    yield refused(32), bounded(b"3", sheet).replace(b"\n", b"\r\n")
    # 32 before any fault of the sheet.
    yield refused(32), bounded(b"000008", b"left\n")
    yield refused(32), bounded(b"000007", rule_sheet("0 U 0 - none"))


def refused_lengths():
    """16,384 bytes and one more; 31 before 32."""
    start = bounded(b"3", rule_sheet(PLAIN))
    yield refused(2, 4), start + b"0" * (16_384 - len(start))
    yield refused(31), start + b"0" * (16_385 - len(start))
    yield refused(31), b"bound\n00" * 4_096


# -------------------------------------------------------------------- by chance

# Ways to read two, three and four tokens: 1 is a token, 10 and 11 are two, 20
# and 21 are three.
READINGS = {
    2: ("B 1 1", "U 10 -", "U 11 -"),
    3: ("B 1 10", "B 1 11", "B 10 1", "B 11 1", "U 20 -", "U 21 -"),
    4: ("B 10 10", "B 10 11", "B 11 10", "B 1 20", "B 1 21", "B 20 1", "B 21 1"),
}


def random_readings(draw, length, terms):
    """Two or three ways to read sentences of one length, with marks by chance."""
    ways = list(READINGS[length])
    heads = []
    for _ in range(pick(draw, (2, 2, 3))):
        way = pick(draw, ways)
        ways.remove(way)
        heads.append(f"0 {way}")
    heads += ["10 B 1 1", "11 B 1 1"]
    if length > 2:
        heads += ["20 B 1 10", "21 B 10 1"]
    marked = [f"{head} {pick(draw, LAYS[head.split()[1]])}" for head in heads]
    return rule_sheet(" / ".join(marked + [f"1 A {term} - none" for term in terms]))


def random_inputs(count):
    """Few candidates: with two terminals the bound is at most 3."""
    for seed in range(count):
        draw = random.Random(20_000 + seed)
        terms, bounds = pick(draw, (((0,), (2, 3, 4, 4)), ((0,), (1, 4)), ((3, 62), (1, 2, 3, 3))))
        bound = pick(draw, bounds)
        if seed % 3 == 0 or bound == 1:
            sheet = sheet_of(random_rules(draw, terms))
        else:
            sheet = random_readings(draw, bound, terms)
        yield bounded(b"%d" % bound, sheet)


def damaged_inputs(count):
    """Inputs that were good, with damage in all or in the rules."""
    good = (sweep(3, PLAIN), sweep(2, P9), sweep(3, INDENT), sweep(3, either(*FOUND[5][1:3])))
    for seed in range(count):
        draw = random.Random(36_000 + seed)
        text = good[seed % len(good)]
        after_names = text.index(rules()) + len(rules())
        place = pick(draw, (0, after_names, after_names))
        deed = pick(draw, (damaged, digit_changed))
        yield text[:place] + deed(draw, text[place:])


def meant():
    yield from patches()
    yield from findings()
    yield from terminals()
    yield from order()
    yield from clear_ones()
    yield from limits()
    yield from padded_numbers()
    yield from ranges()
    yield from refused_rules()
    yield from refused_bounds()
    yield from refused_lengths()


def cases():
    for _, text in meant():
        yield text
    yield from damaged_inputs(30)
    yield from random_inputs(120)
