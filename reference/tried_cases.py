"""Cases for how many candidates a sweep tries: a bound in five digits and a rule sheet.

`cases()` yields them in a fixed order; what is drawn by chance is seeded and the
same on every run.  `meant()` has those made by hand with the number meant.
"""

import random

import far
import teplonga

NAMES = "left kind first second lay"


def sheet(*lines):
    return "".join(line + "\n" for line in (NAMES, *lines)).encode()


def by_hand():
    """(number, bound, rule sheet): counts that were worked out by hand or by listing candidates."""
    plain = sheet("0 B 0 0 none", "0 A 0 - none")
    yield 1, 1, plain
    # 1 candidate of one token; of two tokens 5 with the first in column 1, 4 with it in column 2
    yield 10, 2, plain
    yield 11, 3, plain
    yield 26, 3, sheet("0 B 0 0 align", "0 A 0 - none")
    yield 35, 3, sheet("0 B 0 0 indent", "0 A 0 - none")
    # even lengths only, with one terminal and with two
    for bound in (2, 3, 7):
        yield 9, bound, sheet("0 B 1 1 none", "1 A 0 - none")
    yield 0, 1, sheet("0 B 1 1 none", "1 A 0 - none")
    yield 36, 4, sheet("0 B 1 1 none", "1 A 0 1 none")
    # lengths of another nonterminal; marks that never hold
    yield 9, 3, sheet("0 B 1 1 align", "1 A 0 - none", "2 A 0 - none")
    yield 1, 3, sheet("0 U 1 - single", "1 A 0 - none", "2 B 1 1 none")
    # length 0 alone; no length at all; no terminals
    yield 0, 7, sheet("0 E - - none", "1 A 0 - none")
    yield 0, 7, sheet("0 B 0 1 none", "1 A 0 - none")
    yield 0, 7, sheet("0 E - - none")
    # the empty word on either side
    yield 1, 1, sheet("0 B 1 2 none", "1 E - - none", "2 A 0 - none")
    yield 1, 3, sheet("0 B 2 1 none", "1 E - - none", "2 A 0 - none")
    # found among the terminals of a range: three candidates before it
    yield 4, 1, sheet("0 A 0 5 none", "0 U 1 - none", "1 A 3 - none")
    # refused
    yield 0, 0, plain
    yield 0, 8, plain
    yield 0, 7, sheet("0 A 0 3 none")
    yield 0, 3, sheet("0 U 0 - none")
    yield 0, 3, sheet("0 X 0 - none")
    yield 0, 3, b""


def drawn(count):
    """Small accepted sheets drawn by chance, so many whose number is above 5, and as many others."""
    chance = random.Random(7)
    left = {True: count, False: count}
    while any(left.values()):
        bound, rules = sheet_by(chance)
        large = tried(bound, rules) > 5
        if teplonga.read_rules(rules)[0] != "refused" and left[large]:
            left[large] -= 1
            yield bound, rules


def sheet_by(chance):
    """A bound and a rule sheet."""
    lines = {}
    for _ in range(chance.randint(2, 8)):
        left, first, second = (chance.randint(0, 3) for _ in range(3))
        kind = chance.choice("EAABBBU")
        if kind == "E":
            line = (left, "E", "-", "-", "none")
        elif kind == "A":
            line = (left, "A", second, chance.choice(("-", second + 1)), "none")
        elif kind == "U":
            line = (left, "U", first, "-", chance.choice(("none", "offside", "offalign", "single")))
        else:
            line = (left, "B", first, second, chance.choice(("none", "align", "indent")))
        lines.setdefault(line[:4], line)
    return chance.randint(1, 5), sheet(*(" ".join(map(str, line)) for line in lines.values()))


def tried(bound, rules):
    with far.put(teplonga, first_ambiguous=far.first_ambiguous):
        return teplonga.sweep_call(rules, bound, [0] * 58)[3]


def text_of(bound, rules):
    return b"%05d" % bound + rules


def meant():
    for number, bound, rules in by_hand():
        yield b"%d\n" % number, text_of(bound, rules)


def cases():
    for _, text in meant():
        yield text
    for bound, rules in drawn(150):
        yield text_of(bound, rules)


def output(text):
    """The number and byte 10."""
    return b"%d\n" % tried(int(text[:5]), text[5:])
