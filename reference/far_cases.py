"""Cases that reach far: sentences of up to 64 tokens, sheets of up to 128 rules
over all 64 nonterminals, sweeps of five to seven tokens.

Each has the answer that it is meant to get; rules and tokens are written as in
`check_cases.py`.  `mutants.py` shows what they are good for.
"""

from check_cases import BLOCK, BRACKETS, check, row
from sweep_cases import CLEAR, PARTS, either, refused, sweep, two

# Lengths about those at which a table, a shift or a loop may end.
LENGTHS = (24, 25, 32, 33, 48, 64)


# ------------------------------------------------------------ marks of U rules

# A list of terminal 0 under a mark.
LISTED = "0 U 1 - {} / 1 B 2 1 none / 1 U 2 - none / 2 A 0 - none"

# The same behind a list of terminal 1: the marked word begins within the sentence.
BEHIND = (
    "0 B 3 4 none / 3 B 5 3 none / 3 U 5 - none / 5 A 1 - none"
    " / 4 U 1 - {} / 1 B 2 1 none / 1 U 2 - none / 2 A 0 - none"
)


def stairs(count, line=1, term=0):
    """So many tokens, two on a line: the first at column 5, later ones deeper."""
    placed = [(term, line, 5), (term, line, 7)][:count]
    while len(placed) < count:
        nth = len(placed)
        placed.append((term, line + nth // 2, 6 + nth % 2 * 3))
    return placed


def moved(placed, nth, col):
    """The same with another column, on a line of its own, for one token; later lines stay later."""
    later = [(term, line + 2, old) for term, line, old in placed[nth + 1 :]]
    term, line, _ = placed[nth]
    return placed[:nth] + [(term, line + 1, col)] + later


def one_or_none(holds):
    return "one 0" if holds else "none 0"


def unary_marks():
    for count in LENGTHS:
        whole = stairs(count)
        yield "one 0", check(LISTED.format("offside"), *whole)
        yield "none 0", check(LISTED.format("single"), *whole)
        yield "one 0", check(LISTED.format("single"), *row(count))
        yield "none 0", check(LISTED.format("single"), *row(count - 1), (2, 1))
    for count in (25, 40, 64):
        for nth in (2, count // 2, count - 1):
            for mark, least in (("offside", 6), ("offalign", 5)):
                for col in (least - 1, least):
                    yield one_or_none(col == least), check(LISTED.format(mark), *moved(stairs(count), nth, col))


def unary_marks_behind():
    for before, count in ((1, 63), (20, 30), (39, 25)):
        front = [(1, 1, col) for col in range(1, before + 1)]
        for mark in ("offside", "offalign", "single"):
            deep = [(term, line + 1, col) for term, line, col in stairs(count)]
            yield one_or_none(mark != "single"), check(BEHIND.format(mark), *front, *deep)
            last = moved(deep, count - 1, 5)
            yield one_or_none(mark == "offalign"), check(BEHIND.format(mark), *front, *last)
        flat = [(0, 2, col) for col in range(1, count + 1)]
        yield "one 0", check(BEHIND.format("single"), *front, *flat)


# ------------------------------------------------------------ marks of B rules

# A list of terminal 0 and a list of terminal 1 under a mark.
JOINED = (
    "0 B 1 2 {} / 1 B 3 1 none / 1 U 3 - none / 2 B 4 2 none / 2 U 4 - none"
    " / 3 A 0 - none / 4 A 1 - none"
)

# Left and right length.
CUTS = ((1, 30), (16, 16), (17, 15), (25, 8), (32, 31), (33, 1), (63, 1))


def joined(left, right, line, col):
    """The left word begins at column 5 and ends on line 2, the right one begins here."""
    words = [(0, 1, 5)] + [(0, 2, 70 + nth) for nth in range(left - 1)]
    return words + [(1, line, col + nth) for nth in range(right)]


def binary_marks():
    for left, right in CUTS:
        for line, col, holding in (
            (3, 5, ("align",)),
            (3, 6, ("indent",)),
            (9, 60, ("indent",)),
            (3, 4, ()),
        ):
            placed = joined(left, right, line, col)
            for mark in ("align", "indent"):
                yield one_or_none(mark in holding), check(JOINED.format(mark), *placed)
        if left > 1:
            # Deeper, and on the line of the left word's last token.
            placed = joined(left, right, 2, 200)
            yield "none 0", check(JOINED.format("indent"), *placed)


# ---------------------------------------------------------------- far choices

def far_choices():
    """Two choices of one B rule with long left words."""
    lists = "0 B 1 1 align / 1 B 2 1 none / 1 U 2 - none / 2 A 0 - none"
    for count, first, second in ((40, 20, 30), (64, 33, 48), (64, 1, 63), (50, 31, 32)):
        # A token at column 5 where a right word may begin, all others deeper.
        placed = [(nth + 1, 5 if nth in (0, first, second) else 6) for nth in range(count)]
        yield "two 0", check(lists, *placed)
        one_less = [(line, 6 if line == second + 1 else col) for line, col in placed]
        yield "one 0", check(lists, *one_less)
    # Items of many tokens: each begins a line at column 1, the rest is deeper.
    for items, each in ((2, 32), (9, 7), (32, 2)):
        placed = [(3 * nth + 1 + (k > 0) + (k > 2), 1 + k) for nth in range(items) for k in range(each)]
        yield "one 0", check(BLOCK, *placed)
        yield "two 0", check(BLOCK.replace("offside", "offalign"), *placed)


# ---------------------------------------------------------------- long sheets

def chain(count):
    """0 leads to 1, 1 to 2 and so on; the last is a token."""
    return [f"{left} U {left + 1} - none" for left in range(count - 1)] + [f"{count - 1} A 0 - none"]


def filler(count):
    """So many rules, none of them alike, for all nonterminals from 1 on; no token needs them."""
    made = [f"{1 + nth % 63} B {63 - nth // 63} {62 - nth // 63} align" for nth in range(count)]
    return made


def long_sheets():
    whole = chain(64) + [f"{left} A 1 - none" for left in range(63)]
    yield "one 0", check(" / ".join(whole), (0, 1, 1))
    yield "two 0", check(" / ".join(whole + ["63 A 1 - none"]), (1, 1, 1))
    # A rule that is alike, so many rules further on; and the same line changed so that it is not.
    for first, again, other in (
        ("0 E - - none", "0 E - - none", "1 E - - none"),
        ("0 A 7 - none", "0 A 7 - none", "0 A 6 - none"),
        ("0 U 63 - none", "0 U 63 - single", "0 U 62 - single"),
        ("0 B 62 63 none", "0 B 62 63 indent", "0 B 63 62 indent"),
    ):
        for between in (30, 62, 63, 64, 98, 99, 100, 101, 126):
            listed = [first] + filler(between)
            yield f"refused-5 {between + 3}", check(" / ".join(listed + [again]), (1, 1))
        yield None, check(" / ".join(listed + [other]), (1, 1))
    # The same two lines, the earlier one anywhere.
    for place in (1, 27, 28, 63, 64, 100, 126):
        listed = filler(126)
        listed.insert(place, "0 A 7 - none")
        yield "refused-5 129", check(" / ".join(listed + ["0 A 7 - none"]), (1, 1))
    # The start, the cycle, the choice and the empty word at the far end.
    yield "refused-7 0", check(" / ".join(filler(128)), (1, 1))
    yield "one 0", check(" / ".join(filler(127) + ["0 A 0 - none"]), (1, 1))
    yield "two 0", check(" / ".join(chain(64) + ["63 U 0 - none"]), (1, 1))
    yield "none 0", check(" / ".join(chain(64)[:-1] + filler(60) + ["63 U 33 - none"]), (1, 1))
    yield "two 0", check(" / ".join(chain(64) + ["0 A 0 - none"]), (1, 1))
    # A loop that no tree uses, far up: first trees go by least height all the same.
    for loop in ("40 U 41 - none / 41 U 40 - none", "62 B 63 62 none / 63 E - - none", "63 U 63 - none"):
        yield "two 0", check(f"0 U 1 - none / 0 A 0 - none / 1 U 2 - none / 2 A 0 - none / {loop}", (1, 1))
    empties = chain(64)[:-1] + ["63 E - - none"]
    yield "one 0", check(" / ".join(empties))
    yield "two 0", check(" / ".join(empties + ["40 E - - none"]))
    # A different nonterminal for each token, and the same in long.
    for count in (31, 32, 33, 63):
        spine = [f"{nth} B 63 {nth + 1} none" for nth in range(count - 1)]
        listed = " / ".join(spine + [f"{count - 1} A 0 - none", "63 A 0 - none"])
        yield "one 0", check(listed, *row(count))
        yield "none 0", check(listed, *row(count - 1))


# ---------------------------------------------------------------- long sweeps

# Four, five, six and seven tokens, beside PARTS: 9 is one, 20 to 22 are two, 30 is three.
LONGER = f"{PARTS} / 40 B 20 20 none / 50 B 20 30 none / 60 B 30 30 none / 63 B 30 40 none"

# A bound, two ways to read a sentence, and the first for which both hold.
FOUND = (
    # Five tokens.
    (5, "U 50 - none", "B 40 9 none", [(1, 1), (1, 2), (1, 3), (1, 4), (1, 5)]),
    (5, "U 50 - none", "B 40 9 align", [(1, 1), (1, 2), (1, 3), (1, 4), (2, 1)]),
    (5, "U 50 - none", "B 40 9 indent", [(1, 1), (1, 2), (1, 3), (1, 4), (2, 2)]),
    # Six tokens.
    (6, "U 60 - none", "B 9 50 none", [(1, 1), (1, 2), (1, 3), (1, 4), (1, 5), (1, 6)]),
    (7, "U 60 - none", "B 9 50 none", [(1, 1), (1, 2), (1, 3), (1, 4), (1, 5), (1, 6)]),
    (6, "B 30 30 align", "B 9 50 none", [(1, 1), (1, 2), (1, 3), (2, 1), (2, 2), (2, 3)]),
    (6, "B 30 30 indent", "B 9 50 none", [(1, 1), (1, 2), (1, 3), (2, 2), (2, 3), (2, 4)]),
    (6, "B 50 9 align", "B 9 50 none", [(1, 1), (1, 2), (1, 3), (1, 4), (1, 5), (2, 1)]),
    (6, "B 50 9 indent", "B 9 50 none", [(1, 1), (1, 2), (1, 3), (1, 4), (1, 5), (2, 2)]),
    (6, "B 22 40 none", "B 9 50 none", [(1, 1), (2, 2), (2, 3), (2, 4), (2, 5), (2, 6)]),
    (6, "B 40 22 align", "B 9 50 none", [(1, 1), (1, 2), (1, 3), (1, 4), (2, 1), (3, 2)]),
    # Seven tokens.
    (7, "U 63 - none", "B 60 9 none", [(1, 1), (1, 2), (1, 3), (1, 4), (1, 5), (1, 6), (1, 7)]),
    (7, "U 63 - none", "B 60 9 align", [(1, 1), (1, 2), (1, 3), (1, 4), (1, 5), (1, 6), (2, 1)]),
    (7, "U 63 - none", "B 60 9 indent", [(1, 1), (1, 2), (1, 3), (1, 4), (1, 5), (1, 6), (2, 2)]),
    (7, "B 40 30 align", "B 60 9 indent", [(1, 1), (1, 2), (1, 3), (1, 4), (2, 1), (2, 2), (3, 2)]),
    (7, "B 40 30 indent", "B 60 9 align", [(1, 1), (1, 2), (1, 3), (1, 4), (2, 2), (2, 3), (3, 1)]),
    (7, "U 63 - single", "B 60 9 align", None),
    (7, "B 21 50 none", "B 22 50 none", None),
    (7, "U 63 - offalign", "B 60 9 align", [(1, 1), (1, 2), (1, 3), (1, 4), (1, 5), (1, 6), (2, 1)]),
)


def long_findings():
    for bound, one, other, found in FOUND:
        yield two(*found) if found else CLEAR, sweep(bound, either(one, other, LONGER))
        if found:
            yield CLEAR, sweep(len(found) - 1, either(one, other, LONGER))


def stairs_found():
    """Each token deeper than the one before, or each second one: columns as far as the length."""
    for length in (5, 6, 7):
        # 0 derives itself behind a token, one indent deeper each time; the last two tokens are grouped twice.
        steps = "0 B 1 0 indent / 0 U 2 - none / 0 U 3 - none / 2 B 1 1 indent / 3 B 1 1 none / 1 A 0 - none"
        fixed = " / ".join(
            [f"{nth} B 60 {nth + 1} indent" for nth in range(length - 2)]
            + [f"{length - 2} B 60 60 indent", f"{length - 2} U 61 - none", "61 B 60 60 none", "60 A 0 - none"]
        )
        yield two(*[(nth, nth) for nth in range(1, length + 1)]), sweep(length, fixed)
        yield CLEAR, sweep(length - 1, fixed)
        yield two((1, 1), (2, 2)), sweep(length, steps)


def several_terminals():
    """Clear at five and six tokens, with as many terminals as the limit lets pass; and found there."""
    ends = {1: 3, 2: 6, 3: 9, 4: 12, 5: 15, 6: 18, 7: 21}
    atoms = [f"{10 + nth} A {term} - none" for nth, term in ends.items()]
    # Words of the terminals 3, 6, 9, 12, 15 in this order, whose first two are read in two ways at most.
    five = "0 B 1 3 none / 0 B 2 3 none / 1 B 11 12 {} / 2 B 11 12 {} / 3 B 13 4 none / 4 B 14 15 none"
    for one, other, second in (("align", "indent", None), ("none", "indent", (6, 2, 2)), ("align", "none", (6, 2, 1))):
        listed = " / ".join([five.format(one, other)] + atoms)
        if second is None:
            yield CLEAR, sweep(5, listed)
            continue
        _, line, col = second
        rest = [(term, line, col + nth) for nth, term in enumerate((9, 12, 15), 1)]
        yield two((3, 1, 1), second, *rest), sweep(5, listed)
        yield CLEAR, sweep(4, listed)
    # The greatest of seven terminals, alone and behind others.
    yield two((21, 1, 1)), sweep(5, " / ".join(["0 U 17 - none / 0 U 1 - none / 1 U 17 - none"] + atoms))
    yield two((18, 1, 1), (21, 1, 2)), sweep(4, " / ".join(["0 B 16 17 none / 0 U 1 - none / 1 B 16 17 none"] + atoms))
    # A list over seven terminals has one tree each.
    for bound in (1, 2, 3, 4, 5):
        yield CLEAR, sweep(bound, " / ".join(["0 B 1 0 none / 0 U 1 - none"] + [f"1 A {term} - none" for term in ends.values()]))
    for bound in (4, 5):
        yield CLEAR, sweep(bound, BRACKETS)
    # Three pairs of terminals 0 and 9, the first of them read in two ways at most.
    pairs = "0 B 1 3 none / 0 B 2 3 none / 1 B 5 6 {} / 2 B 5 6 {} / 3 B 4 4 none / 4 B 5 6 none / 5 A 0 - none / 6 A 9 - none"
    for one, other, second in (("none", "align", (9, 2, 1)), ("indent", "none", (9, 2, 2))):
        _, line, col = second
        later = [(term, line, col + nth) for nth, term in enumerate((0, 9, 0, 9), 1)]
        yield two((0, 1, 1), second, *later), sweep(6, pairs.format(one, other))
        yield CLEAR, sweep(5, pairs.format(one, other))
    yield CLEAR, sweep(6, pairs.format("align", "indent"))
    yield refused(24), sweep(7, pairs.format("none", "align"))


def high_lefts():
    """What a terminal may stand for goes by all its lefts, those from 32 on too."""
    for high in (32, 33, 48, 63):
        # 5 stands wherever 2 does but at one high nonterminal, and only there has a sentence two trees.
        listed = f"0 B 1 {high} none / 0 B {high} 1 none / 1 A 2 - none / 1 A 5 - none / {high} A 5 - none"
        yield two((5, 1, 1), (5, 1, 2)), sweep(2, listed)
        yield two((5, 1, 1), (5, 1, 2)), sweep(5, listed)
        listed = f"0 U 1 - none / 0 U {high} - none / 1 A 2 - none / 1 A 7 - none / {high} A 7 - none / {high} A 9 - none"
        yield two((7, 1, 1)), sweep(1, listed)
        # The lesser one of two that stand alike.
        listed = f"0 U {high} - none / 0 U 62 - none / {high} A 4 - none / {high} A 8 - none / 62 A 8 - none / 62 A 4 - none"
        yield two((4, 1, 1)), sweep(3, listed)


def check_meant():
    for made in (unary_marks(), unary_marks_behind(), binary_marks(), far_choices(), long_sheets()):
        for answer, text in made:
            yield b"" if answer is None else answer.encode() + b"\n", text


def sweep_meant():
    for made in (long_findings(), stairs_found(), several_terminals(), high_lefts()):
        yield from made
