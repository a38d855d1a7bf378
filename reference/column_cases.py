"""Cases for the call on columns read off a photograph: (rule sheet, range sheet) pairs.

`cases()` yields them in a fixed order.  First come those of `meant()`, made by
hand, each with how its output is meant to go on after `answer line`.  What
follows is drawn by chance, seeded and the same on every run.
"""

import random

import teplonga as base
from check_cases import PLAIN, rule_sheet

NAMES = b"term line low high\n"
LEAF = "0 A 0 - none"
PAIR = "0 B 1 1 {} / 1 A 0 - none"
ALIGN, INDENT = PAIR.format("align"), PAIR.format("indent")
# One tree of two tokens where the second is aligned, two where it is indented besides.
EITHER = "0 U 2 - none / 0 U 3 - none / 2 B 1 1 none / 3 B 1 1 indent / 1 A 0 - none"
# None, one or two: no pair aligned, and indented once, or twice by two rules.
ALL = "0 U 2 - none / 0 U 3 - none / 2 B 1 1 align / 3 U 4 - none / 3 B 1 1 indent / 4 B 5 5 indent / 5 A 0 - none / 1 A 0 - none"


def ranges(*listed):
    """A token is (line, low, high) of terminal 0, or (terminal, line, low, high)."""
    full = [each if len(each) == 4 else (0, *each) for each in listed]
    return NAMES + b"".join(b"%d %d %d %d\n" % each for each in full)


def case(text, *listed):
    return (rule_sheet(text), ranges(*listed))


def given(*flags):
    return "given 0\nnone one two\n" + " ".join(flags) + "\n"


def refused(number, line):
    return f"refused-{number} {line}\n"


def few():
    yield given("no", "yes", "no"), case("0 E - - none")
    yield given("yes", "no", "no"), case(LEAF)
    yield given("no", "yes", "no"), case(LEAF, (1, 1, 1))
    yield given("no", "yes", "no"), case(LEAF, (1, 1, 5_000))
    yield given("yes", "no", "no"), case(LEAF, (1, 1, 1, 1))
    yield given("no", "no", "yes"), case(PLAIN, (1, 1, 1), (1, 2, 2), (1, 3, 3))
    yield given("no", "no", "yes"), case(PLAIN, (1, 1, 2), (1, 2, 3), (1, 3, 4))


def marked():
    yield given("yes", "yes", "no"), case(ALIGN, (1, 1, 2), (2, 1, 2))
    yield given("no", "yes", "no"), case(ALIGN, (1, 3, 3), (2, 3, 3))
    yield given("yes", "no", "no"), case(ALIGN, (1, 1, 2), (2, 3, 4))
    yield given("yes", "yes", "no"), case(INDENT, (1, 1, 2), (2, 1, 2))
    yield given("no", "yes", "no"), case(INDENT, (1, 1, 2), (3, 3, 4))
    # The upper end counts, and so does the lower one.
    yield given("yes", "yes", "no"), case(ALIGN, (1, 1, 1), (2, 1, 2))
    yield given("yes", "yes", "no"), case(ALIGN, (1, 2, 2), (2, 1, 2))
    yield given("no", "yes", "yes"), case(EITHER, (1, 1, 2), (2, 1, 2))
    yield given("yes", "yes", "yes"), case(ALL, (1, 2, 2), (2, 1, 3))
    yield given("yes", "no", "no"), case(ALL, (1, 2, 2), (2, 1, 1))
    yield given("no", "yes", "no"), case(ALL, (1, 2, 2), (2, 2, 2))
    yield given("no", "no", "yes"), case(ALL, (1, 2, 2), (2, 3, 3))


def rising():
    # No choice rises: lines that fall, no room on a line.
    no = given("no", "no", "no")
    yield no, case(PLAIN, (2, 1, 9), (1, 1, 9))
    yield no, case(PLAIN, (1, 5, 5), (1, 5, 5))
    yield no, case(PLAIN, (1, 1, 2), (1, 1, 2), (1, 1, 2))
    yield no, case(PLAIN, (1, 9, 9), (1, 1, 8))
    # Some choices rise, others do not.
    yield given("no", "yes", "no"), case(PLAIN, (1, 1, 2), (1, 1, 2))
    yield given("no", "no", "yes"), case(PLAIN, (1, 1, 3), (1, 1, 3), (1, 1, 3))
    # Only a choice that does not rise would be aligned.
    yield given("yes", "no", "no"), case(ALIGN, (1, 3, 4), (1, 3, 4))


def counted():
    # 65,536 choices are taken, rising or not; no product is 65,537, a prime above any column.
    yield given("yes", "no", "no"), case(LEAF, (1, 1, 256), (2, 1, 256))
    yield refused(49, 0), case(PLAIN, (1, 1, 256), (2, 1, 257))
    yield refused(49, 0), case(PLAIN, (1, 1, 32_769), (2, 1, 2))
    yield refused(49, 0), case(PLAIN, (2, 1, 65_535), (1, 1, 2))
    yield given("no", "no", "no"), case(LEAF, *[(20 - line, 7, 8) for line in range(1, 17)])
    yield refused(49, 0), case(PLAIN, *[(line, 7, 8) for line in range(1, 18)])
    yield given("no", "no", "yes"), case(PLAIN, *[(line, 7, 7) for line in range(1, 65)])
    yield refused(49, 0), case(PLAIN, *[(line, 1, 65_535) for line in range(1, 65)])


def refusals():
    rules = rule_sheet(PLAIN)
    yield refused(1, 1), (b"", b"")
    yield refused(7, 0), (rule_sheet("1 A 0 - none"), b"")
    yield refused(11, 1), (rules, b"")
    yield refused(11, 1), (rules, b"term line col\n0 1 1\n")
    yield refused(11, 1), (rules, b"term line col width\n0 1 1 1\n")
    yield refused(11, 1), (rules, b"term line low high")
    for number, line in (
        (12, b"0 1 1\n"), (12, b"0 1 1 1 1\n"), (12, b"0 1 1 1"), (12, b"\n"), (12, b"0 1  1 1\n"),
        (12, b"0 1 1 000001\n"), (12, b"0 1 1 -\n"), (12, b"64 1 2 x\n"),
        (13, b"64 1 1 1\n"), (13, b"0 0 1 1\n"), (13, b"0 65536 1 1\n"), (13, b"0 1 0 1\n"),
        (13, b"0 1 65536 65536\n"), (13, b"0 1 1 0\n"), (13, b"0 1 1 65536\n"), (13, b"64 1 2 1\n"),
        (48, b"0 1 2 1\n"), (48, b"0 1 65535 65534\n"), (48, b"00 001 00002 1\n"),
    ):
        yield refused(number, 2), (rules, NAMES + line)
        yield refused(number, 3), (rules, NAMES + b"0 1 1 1\n" + line)
    # Lines come from the top, and 49 after all of them; 14 goes by the line alone.
    yield refused(48, 3), (rules, NAMES + b"0 1 1 65535\n0 1 2 1\n0 1 1 65535\n")
    full = ranges(*[(line, 1, 1) for line in range(1, 65)])
    yield refused(14, 66), (rules, full + b"x\n")
    yield refused(14, 66), (rules, full + b"0 65 1 1\n")
    yield refused(48, 65), (rules, ranges(*[(line, 1, 1) for line in range(1, 64)]) + b"0 1 2 1\n0 1 1 1\n")


def meant():
    for each in (few, marked, rising, counted, refusals):
        yield from each()


LAYS = {"U": ("none", "offside", "offalign", "single"), "B": ("none", "align", "align", "indent", "indent")}


def drawn_rules(chance):
    """A few rules over few nonterminals; tokens of both terminals are words of most of these."""
    size = chance.randint(1, 3)
    listed = [f"{left} A 0 1 none" for left in range(size) if left == 0 or chance.random() < 0.7]
    for _ in range(chance.randint(1, 5)):
        left, first, second = (chance.randrange(size) for _ in range(3))
        kind = chance.choice("EUBBBBBB")
        names = {"E": "- -", "U": f"{first} -", "B": f"{first} {second}"}[kind]
        lay = "none" if kind == "E" else chance.choice(LAYS[kind])
        listed.append(f"{left} {kind} {names} {lay}")
    return rule_sheet(" / ".join(listed))


def drawn(chance):
    """Accepted rules over few tokens, whose ends are near each other."""
    read = None
    while read is None or base.read_rules(read)[0] == "refused":
        read = drawn_rules(chance)
    listed, line, low = [], 1, 1
    for _ in range(chance.randint(2, 6)):
        listed.append((chance.randrange(2), line, low, low + chance.randrange(3)))
        step = chance.choice((0, 1, 1, 1, 2))
        line += step
        low = chance.randint(1, 3) if step else low + chance.randint(0, 2)
    return (read, ranges(*listed))


def cases():
    for _, each in meant():
        yield each
    chance = random.Random(10)
    for _ in range(400):
        yield drawn(chance)
