"""Cases for the program `check`: whole inputs, as bytes.

`cases()` yields them in a fixed order.  First come those of `meant()`, made by
hand, each with how its output is meant to go on after the names; the maker of
the vectors asks the reference whether it is so.  What follows is drawn by
chance, seeded and the same on every run.

Rules are written here as the lines of a rule sheet, parted by ` / `.  A token
is (line, column) of terminal 0, or (terminal, line, column).
"""

import random

from reading_cases import (
    ALL_KINDS,
    SPREAD,
    damaged,
    many_rules,
    many_tokens,
    padded,
    rules,
    tokens,
    wide_tokens,
)


def rule_sheet(text):
    return rules(*[line.encode() for line in text.split(" / ")])


def token_sheet(listed):
    full = [token if len(token) == 3 else (0, *token) for token in listed]
    return tokens(*[b"%d %d %d" % token for token in full])


def check(text, *listed):
    """The input with these rules and these tokens."""
    return rule_sheet(text) + b"\n" + token_sheet(listed)


def row(count):
    """So many tokens side by side."""
    return [(1, col) for col in range(1, count + 1)]


PLAIN = "0 B 0 0 none / 0 A 0 - none"

# Lists of tokens that end with an empty word, or begin with one.
LIST = "0 B 1 0 none / 0 E - - none / 1 A 0 - none"
LIST_LEFT = "0 B 0 1 none / 0 E - - none / 1 A 0 - none"

# Items that begin at one column; what an item has on later lines stands deeper.
BLOCK = (
    "0 B 1 0 align / 0 U 1 - none / 1 U 2 - offside / 2 B 3 2 none / 2 U 3 - none"
    " / 3 A 0 - none / 3 A 1 - none"
)
ITEMS = [(1, 1), (1, 5), (2, 3), (3, 1), (1, 3, 4), (4, 1)]

# 0 opens, 1 closes.
BRACKETS = (
    "0 B 1 2 none / 0 E - - none / 1 A 0 - none / 2 B 0 3 none / 3 B 4 0 none"
    " / 4 A 1 - none"
)

# 0 if, 1 else, 2 a statement; {} is the mark between an if and its else.
DANGLING = (
    "0 B 1 0 none / 0 B 2 3 {} / 0 A 2 - none / 1 A 0 - none / 2 B 1 0 none"
    " / 3 B 4 0 none / 4 A 1 - none"
)


# ----------------------------------------------------------- the worked examples

P4 = "0 B 1 1 none / 1 A 0 - none / 1 E - - none"
P5 = "0 B 1 2 none / 0 U 1 - none / 1 E - - none / 2 E - - none"
P6 = "0 U 1 - offside / 1 B 2 2 none / 2 A 0 - none"
P8 = "0 B 1 1 indent / 1 A 0 - none"
P9 = (
    "0 U 1 - single / 1 U 2 - none / 1 U 3 - none / 2 B 4 4 indent / 3 B 4 4 none"
    " / 4 A 0 - none"
)


def patches():
    yield "two 0", check(PLAIN, (1, 1), (1, 2), (1, 3))
    # P1 to P3: the sentences that the sweep finds, and near misses.
    align, indent = PLAIN.replace("none", "align", 1), PLAIN.replace("none", "indent", 1)
    yield "two 0", check(align, (1, 1), (2, 1), (3, 1))
    yield "none 0", check(align, (1, 1), (2, 1), (3, 2))
    yield "two 0", check(indent, (1, 1), (2, 2), (3, 3))
    yield "one 0", check(indent, (1, 1), (2, 2), (3, 2))
    # P4
    for count, answer in enumerate(("one 0", "two 0", "one 0", "none 0")):
        yield answer, check(P4, *row(count))
    # P5
    yield "two 0", check(P5)
    yield "none 0", check(P5, (1, 1))
    # P6, P7
    yield "none 0", check(P6, (1, 3), (2, 3))
    yield "one 0", check(P6, (1, 3), (2, 4))
    yield "one 0", check(P6.replace("offside", "offalign"), (1, 3), (2, 3))
    yield "none 0", check(P6.replace("offside", "offalign"), (1, 3), (2, 2))
    # P8
    yield "one 0", check(P8, (1, 1), (2, 2))
    yield "one 0", check(P8, (1, 1), (3, 2))
    yield "none 0", check(P8, (1, 1), (2, 1))
    # P9, and where its nonterminal 1 has one tree
    yield "none 0", check(P9, (1, 1), (2, 2))
    yield "one 0", check(P9, (1, 1), (1, 2))
    # Rules that loop: no tree; two; a loop that no tree uses
    yield "none 0", check("0 U 0 - none", (1, 1))
    yield "two 0", check("0 U 0 - none / 0 A 0 - none", (1, 1))
    yield "one 0", check("0 A 0 - none / 1 U 1 - none", (1, 1))


# --------------------------------------------------------------- layout marks

# A word, after the marks of a U rule that hold of it.
WORDS = (
    ("offside offalign single", [(7, 5)]),
    ("offside offalign single", [(1, 2), (1, 3), (1, 9)]),
    ("offalign", [(1, 2), (2, 2)]),
    ("", [(1, 2), (2, 1)]),
    ("offside offalign", [(1, 2), (1, 4), (2, 3)]),
    ("offalign", [(1, 2), (2, 5), (2, 6), (3, 2)]),
    ("offside offalign", [(1, 65534), (65535, 65535)]),
)

# Two words of two tokens, after the marks of a B rule that hold of them.
PAIRS = (
    ("align", [(1, 3), (1, 7), (2, 3), (2, 9)]),
    ("indent", [(1, 3), (2, 4), (3, 4), (3, 5)]),
    # On the left word's last line; one line past its first line only.
    ("", [(1, 2), (2, 9), (2, 10), (3, 1)]),
    ("", [(1, 2), (2, 1), (2, 5), (3, 7)]),
    # Two lines further.
    ("indent", [(1, 2), (1, 9), (3, 3), (3, 4)]),
    ("indent", [(1, 2), (2, 1), (65535, 3), (65535, 4)]),
    ("", [(1, 2), (1, 9), (9, 1), (9, 4)]),
    ("align", [(1, 2), (2, 1), (3, 2), (3, 3)]),
    ("align", [(1, 2), (1, 3), (9, 2), (9, 3)]),
    ("indent", [(65534, 1), (65534, 65535), (65535, 2), (65535, 65535)]),
)


def marks():
    listed = "0 U 1 - {} / 1 B 2 1 none / 1 U 2 - none / 2 A 0 - none"
    for holding, word in WORDS:
        for mark in ("offside", "offalign", "single"):
            answer = "one 0" if mark in holding.split() else "none 0"
            yield answer, check(listed.format(mark), *word)
    for holding, word in PAIRS:
        for mark in ("align", "indent"):
            answer = "one 0" if mark in holding.split() else "none 0"
            yield answer, check(f"0 B 1 1 {mark} / 1 B 2 2 none / 2 A 0 - none", *word)


def marks_of_empty_words():
    chain = "0 U 1 - offside / 1 U 2 - offalign / 2 U 3 - single / 3 E - - none"
    yield "one 0", check(chain)
    for mark in ("align", "indent"):
        yield "one 0", check(f"0 B 1 1 {mark} / 1 E - - none")
        yield "one 0", check(f"0 B 1 2 {mark} / 1 E - - none / 2 A 0 - none", (5, 7))
        yield "one 0", check(f"0 B 2 1 {mark} / 1 E - - none / 2 A 0 - none", (5, 7))


def marks_inside():
    """Words that are a part of the sentence only."""
    last = "0 B 1 2 none / 1 A 0 - none / 2 U 3 - offside / 3 B 1 1 none"
    yield "one 0", check(last, (1, 9), (2, 3), (3, 4))
    yield "none 0", check(last, (1, 1), (2, 3), (3, 2))
    middle = (
        "0 B 1 2 none / 1 A 0 - none / 2 B 3 1 none / 3 U 4 - single / 4 B 1 1 none"
    )
    yield "one 0", check(middle, (1, 1), (2, 1), (2, 2), (3, 1))
    yield "none 0", check(middle, (1, 1), (1, 2), (2, 1), (2, 2))
    yield "one 0", check(BLOCK, *ITEMS)
    yield "two 0", check(BLOCK.replace("offside", "offalign"), *ITEMS)
    yield "none 0", check(BLOCK, (1, 2), (2, 1))
    dozen = ITEMS + [(5, 1), (5, 2), (6, 2), (7, 9), (9, 8), (10, 1)]
    yield "one 0", check(BLOCK, *dozen)


# ------------------------------------------------------------ choices and trees

def choices():
    """Which choices there are, and their order."""
    # By place, whatever the kind.
    yield "two 0", check("0 A 0 - none / 0 U 1 - none / 1 A 0 - none", (1, 1))
    yield "two 0", check("0 U 1 - none / 0 A 0 - none / 1 A 0 - none", (1, 1))
    yield "two 0", check("0 E - - none / 0 U 1 - none / 1 E - - none")
    # Left lengths 0 and 1, before and after a U rule.
    ends = "1 A 0 - none / 1 E - - none"
    yield "two 0", check(f"0 B 1 1 none / 0 U 1 - none / {ends}", (1, 1))
    yield "two 0", check(f"0 U 1 - none / 0 B 1 1 none / {ends}", (1, 1))
    # The place before the length: first a left word of 2 tokens, then one of 1.
    ends = "1 A 0 - none / 2 B 1 1 none"
    yield "two 0", check(f"0 B 2 1 none / 0 B 1 2 none / {ends}", *row(3))
    # Lengths 0 to 3 under one rule.
    lists = "0 B 1 1 none / 1 B 2 1 none / 1 E - - none / 2 A 0 - none"
    yield "one 0", check(lists)
    yield "two 0", check(lists, *row(3))
    # Two of three choices; a mark takes one away.
    three = (
        "0 U 3 - none / 0 U 1 - none / 0 U 2 - offside / 1 B 4 4 none / 2 B 4 4 none"
        " / 3 B 4 4 align / 4 A 0 - none"
    )
    yield "two 0", check(three, (1, 1), (2, 1))
    yield "two 0", check(three, (1, 1), (2, 2))
    yield "one 0", check(three, (1, 2), (2, 1))
    # A child without a tree takes one away; nothing but such choices.
    yield "one 0", check("0 B 1 2 none / 0 A 0 - none / 1 A 0 - none", (1, 1))
    yield "none 0", check("0 B 1 2 none / 0 A 0 - none / 1 A 0 - none", *row(2))
    yield "none 0", check("0 U 5 - none", (1, 1))
    yield "none 0", check("0 B 0 0 none")


def second_trees():
    """Where the second tree differs from the first."""
    ends = "2 A 0 - none / 9 A 0 - none / 9 U 2 - none"
    # Far below on the left, on the right, and in the middle.
    yield "two 0", check(f"0 B 1 2 none / 1 B 3 2 none / 3 B 9 2 none / {ends}", *row(4))
    yield "two 0", check(f"0 B 2 1 none / 1 B 2 3 none / 3 B 2 9 none / {ends}", *row(4))
    yield "two 0", check(f"0 B 2 1 none / 1 B 3 2 none / 3 B 2 9 none / {ends}", *row(4))
    # On both sides: left before right.
    yield "two 0", check(f"0 B 9 9 none / {ends}", *row(2))
    yield "two 0", check(f"0 B 1 9 none / 1 B 2 9 none / {ends}", *row(3))
    # A node before its children, and first trees beneath the second choice.
    below = "1 A 0 - none / 1 U 3 - none / 2 U 3 - none / 2 A 0 - none / 3 A 0 - none"
    yield "two 0", check(f"0 U 1 - none / 0 U 2 - none / {below}", (1, 1))
    yield "two 0", check(f"0 U 2 - none / 0 U 1 - none / {below}", (1, 1))
    # In an empty word: right, left, and deep in the whole.
    empties = "2 E - - none / 2 U 3 - none / 3 E - - none"
    yield "two 0", check(f"0 B 1 2 none / 1 A 0 - none / {empties}", (1, 1))
    yield "two 0", check(f"0 B 2 1 none / 1 A 0 - none / {empties}", (1, 1))
    yield "two 0", check(f"0 B 1 1 none / 1 B 3 2 none / {empties}")
    # Not the start: two trees never reached, of a token, of no token.
    yield "one 0", check("0 A 0 - none / 1 U 2 - none / 1 A 0 - none / 2 A 0 - none", (1, 1))
    yield "one 0", check("0 E - - none / 1 U 2 - none / 1 E - - none / 2 E - - none")
    # Two trees of a part, and the rest fits or not.
    part = "0 B 1 2 none / 1 U 3 - none / 1 A 0 - none / 3 A 0 - none / 2 A 1 - none"
    yield "none 0", check(part, (0, 1, 1), (0, 1, 2))
    yield "two 0", check(part, (0, 1, 1), (1, 1, 2))


def looping():
    """Rules that loop: least heights decide, and infinitely many trees are two."""
    loop = "9 U 9 - none"
    # The same trees with and without a loop that is not used, where the first
    # choice is the lowest; and where it is not.
    for tail in ("", f" / {loop}"):
        yield "two 0", check(f"0 A 0 - none / 0 U 1 - none / 1 A 0 - none{tail}", (1, 1))
        yield "two 0", check(f"0 U 1 - none / 0 A 0 - none / 1 A 0 - none{tail}", (1, 1))
        deep = "0 U 1 - none / 0 B 2 3 none / 1 U 4 - none / 4 U 5 - none / 5 A 0 - none"
        yield "two 0", check(f"{deep} / 2 A 0 - none / 3 E - - none{tail}", (1, 1))
        # Choices of one height: the earlier rule, the shorter left word.
        yield "two 0", check(f"0 U 2 - none / 0 U 1 - none / 1 A 0 - none / 2 A 0 - none{tail}", (1, 1))
        yield "two 0", check(f"0 B 0 0 none / 0 A 0 - none{tail}", *row(5))
        # A child that is not the tallest goes by its own least height.
        tall = "0 B 1 2 none / 1 U 3 - none / 1 A 0 - none / 3 A 0 - none / 2 U 4 - none / 4 U 3 - none"
        yield "two 0", check(f"{tall}{tail}", *row(2))
        # Only one tree, and none.
        yield "one 0", check(f"{LIST}{tail}", *row(3))
        yield "none 0", check(f"0 B 1 1 none / 1 A 0 - none{tail}", (1, 1))
    # Round and round: through one, two and three rules, and by the empty word.
    yield "two 0", check("0 A 0 - none / 0 U 0 - none", (1, 1))
    yield "two 0", check("0 U 1 - none / 1 U 0 - none / 1 A 0 - none", (1, 1))
    yield "two 0", check("0 U 1 - none / 1 U 2 - none / 2 U 0 - none / 2 A 0 - none", (1, 1))
    yield "two 0", check("0 B 0 0 none / 0 E - - none")
    yield "two 0", check("0 B 0 0 none / 0 E - - none / 0 A 0 - none", *row(3))
    yield "two 0", check("0 B 1 0 none / 0 B 0 1 none / 0 A 0 - none / 1 E - - none / 1 U 1 - none", *row(1))
    # A loop without a way out, and one that marks forbid.
    yield "none 0", check("0 U 1 - none / 1 U 0 - none", (1, 1))
    yield "one 0", check("0 U 0 - offside / 0 B 1 1 none / 1 A 0 - none", (1, 2), (2, 1))
    yield "two 0", check("0 U 0 - offside / 0 B 1 1 none / 1 A 0 - none", (1, 1), (2, 2))
    # The second tree parts below the top, on the left and on the right.
    ends = "1 A 0 - none / 1 U 1 - none / 2 A 0 - none"
    yield "two 0", check(f"0 B 1 2 none / {ends}", *row(2))
    yield "two 0", check(f"0 B 2 1 none / {ends}", *row(2))
    yield "two 0", check(f"0 B 1 1 none / {ends}", *row(2))


def sentences():
    """Sentences of many lengths and terminals."""
    yield "none 0", check(PLAIN)
    for count in (1, 2, 4, 5, 6, 7, 8, 9, 10, 11, 12):
        yield "two 0" if count > 2 else "one 0", check(PLAIN, *row(count))
    for count in (0, 1, 12):
        yield "one 0", check(LIST, *row(count))
    yield "one 0", check(LIST_LEFT, *row(12))
    # An empty word in the middle has start 0 as well.
    middle = "0 B 1 2 none / 1 A 0 - none / 2 B 3 1 none / 3 E - - none"
    yield "one 0", check(middle, *row(2))
    nested = [(each, 3, 2 * place + 1) for place, each in enumerate((0, 0, 1, 0, 1, 1, 0, 1))]
    yield "one 0", check(BRACKETS, *nested)
    yield "none 0", check(BRACKETS, *nested[:-1])
    tail = [(2, 2, 5), (1, 3, 1), (2, 3, 6)]
    yield "two 0", check(DANGLING.format("none"), (0, 1, 1), (0, 2, 2), *tail)
    yield "one 0", check(DANGLING.format("align"), (0, 1, 1), (0, 2, 2), *tail)
    yield "one 0", check(DANGLING.format("align"), (0, 1, 2), (0, 2, 1), *tail)
    several = "0 B 1 2 none / 1 A 5 - none / 1 A 63 - none / 2 A 0 - none / 2 A 63 - none"
    for answer, one, other in (
        ("one 0", 5, 0),
        ("one 0", 63, 63),
        ("none 0", 0, 5),
        ("none 0", 5, 62),
    ):
        yield answer, check(several, (one, 1, 1), (other, 1, 2))


# ------------------------------------------------------------------ large trees

def doubling(*names):
    """An empty word with 2 ** len(names) - 1 rows under the first name."""
    lines = [f"{one} B {next} {next} none" for one, next in zip(names, names[1:])]
    return " / ".join([*lines, f"{names[-1]} E - - none"])


def falling(count):
    """A chain for `doubling` in which most rows have short names."""
    return doubling(0, *range(count - 1, 0, -1))


def few_rows():
    """Large sheets, few rows."""
    yield "one 0", many_rules(128) + b"\n" + tokens(b"63 1 1")
    yield "none 0", many_rules(128) + b"\n" + many_tokens(2)
    chain = " / ".join(f"{one} U {one + 1} - none" for one in range(63))
    yield "one 0", check(f"{chain} / 63 A 0 - none", (1, 1))
    yield "two 0", check(PLAIN, *row(64))
    yield "one 0", check(LIST, *row(64))
    yield "none 0", rule_sheet(PLAIN) + b"\n" + many_tokens(64)
    # A tree of 2^63 - 1 rows that is not asked for.
    yield "one 0", check("0 A 0 - none / " + doubling(*range(1, 64)), (1, 1))


def about_4096_rows():
    twelve = doubling(*range(12, 0, -1))
    # 4,095 and 4,096 rows; 4,096 and 4,097; 4,097 and 4,096; 4,097.
    yield "two 0", check(f"{falling(12)} / 1 U 20 - none / 20 E - - none")
    yield "refused-22 0", check(f"0 U 12 - none / {twelve} / 1 U 20 - none / 20 E - - none")
    longer, shorter = "0 U 13 - none", "0 U 12 - none"
    yield "refused-22 0", check(f"{shorter} / {longer} / 13 U 12 - none / {twelve}")
    yield "refused-22 0", check(f"{longer} / {shorter} / 13 U 12 - none / {twelve}")
    yield "refused-22 0", check(f"{longer} / 13 U 12 - none / {twelve}")
    # 64 tokens with 63 rows each, and 64 rows above them; with 65 rows above.
    chain = " / ".join(f"{one} U {one + 1} - none" for one in range(1, 63))
    each = f"0 B 1 0 none / {chain} / 63 A 0 - none"
    yield "one 0", check(f"{each} / 0 U 1 - none", *row(64))
    yield "refused-22 0", check(f"{each} / 0 E - - none", *row(64))


def far_too_many_rows():
    # Small and large, either way round.
    yield "refused-22 0", check(f"0 E - - none / {falling(13)}")
    yield "refused-22 0", check(f"{falling(13)} / 0 E - - none")
    # Past 2^16 and 2^32 by one; 2^21 - 1; 2^63 - 1 and 2^63; 2^64 - 1.
    yield "refused-22 0", check("0 U 20 - none / 20 U 16 - none / " + doubling(*range(16, 0, -1)))
    yield "refused-22 0", check("0 U 40 - none / 40 U 32 - none / " + doubling(*range(32, 0, -1)))
    yield "refused-22 0", check(falling(21))
    yield "refused-22 0", check(f"{falling(63)} / 1 U 63 - none / 63 E - - none")
    yield "refused-22 0", check(falling(64))
    # 8 tokens, each beside an empty word of 2^61 - 1 rows: 2^64 + 16 in all.
    beside = "0 B 1 0 none / 0 U 1 - none / 1 B 3 2 none / 2 A 0 - none"
    yield "refused-22 0", check(f"{beside} / {doubling(*range(3, 64))}", *row(8))


# -------------------------------------------------------------------- refusals

GOOD = b"0 A 0 - none"

# Lines of a rule sheet after the names and `GOOD`, by their refusal.
RULE_LINES = (
    (2, b"1  A 0 - none"),
    (2, b"1 A 0 - none "),
    (2, b" "),
    (2, b"1 A 0 - none\r"),
    (2, b"1 a 0 - none"),
    (2, b"1 U 2 - off"),
    (2, b"1 A - - none"),
    (2, b"1 E 0 - none"),
    (2, b"000001 A 0 - none"),
    (2, b"1 A 000000 - none"),
    (3, b"1 A 64 - none"),
    (3, b"1 A 0064 - none"),
    (3, b"100 A 0 - none"),
    (3, b"1 A 0 64 none"),
    (2, b"1 E - 3 none"),
    (2, b"1 U 1 2 none"),
    (44, b"1 A 5 4 none"),
    (5, b"0 A 0 9 none"),
    # 3 before 44, 4 before 44, 44 before 5.
    (3, b"1 A 65 64 none"),
    (4, b"1 A 5 4 align"),
    (44, b"0 A 1 0 none"),
    (3, b"1 B 2 99 none"),
    (4, b"1 E - - single"),
    (4, b"1 U 2 - align"),
    (4, b"1 B 2 2 offalign"),
    (5, b"0 A 0 - none"),
    (5, b"00 A 00000 - none"),
    # 2 before 3, 3 before 4, 4 before 5.
    (2, b"1 E 64 - none"),
    (3, b"64 A 0 - offside"),
    (4, b"0 A 0 - indent"),
)

# Lines of a token sheet after the names and `0 5 5`.
TOKEN_LINES = (
    (12, b"0  6 1"),
    (12, b"0 6"),
    (12, b""),
    (12, b"0 000006 1"),
    (12, b"000000 6 1"),
    (12, b"0 6 100000"),
    (13, b"64 6 1"),
    (13, b"0064 6 1"),
    (13, b"0 00000 7"),
    (13, b"0 65536 1"),
    (13, b"0 0 7"),
    (13, b"0 6 0"),
    (15, b"0 5 5"),
    (15, b"0 4 9"),
    # 12 before 13, 13 before 15.
    (12, b"64 5 000005"),
    (13, b"0 5 0"),
)


def refused_sheets():
    good_tokens = tokens(b"0 1 1")
    for number, line in RULE_LINES:
        yield f"refused-{number} 3", rules(GOOD, line) + b"\n" + good_tokens
    for number, line in TOKEN_LINES:
        yield f"refused-{number} 3", rules(GOOD) + b"\n" + tokens(b"0 5 5", line)
    # 5 under another mark.
    yield "refused-5 4", check("0 U 1 - none / 1 A 0 - none / 0 U 1 - single", (1, 1))
    # 6, and a fault in an earlier line.
    yield "refused-6 130", many_rules(128) + b"x\n\n" + good_tokens
    twice = many_rules(129).replace(b"1 A 63 - none", b"0 A 63 - none")
    yield "refused-5 129", twice + b"\n" + good_tokens
    # 14, and a fault in an earlier line.
    yield "refused-14 66", rules(GOOD) + b"\n" + many_tokens(65)
    yield "refused-14 66", rules(GOOD) + b"\n" + many_tokens(64) + b"64"
    late = many_tokens(65).replace(b"63 1 64\n", b"63 1 63\n")
    yield "refused-15 65", rules(GOOD) + b"\n" + late
    # 7; a loop is no fault.
    yield "refused-7 0", rules() + b"\n" + good_tokens
    yield "refused-7 0", check("1 U 1 - none / 2 A 0 - none", (1, 1))
    yield "two 0", check("0 B 1 0 none / 1 E - - none / 0 A 0 - none", (1, 1))
    yield "one 0", check("0 A 0 - none / 5 U 6 - none / 6 B 7 5 none / 7 E - - none", (1, 1))
    # A line comes before the end, and before a lesser number in a later line.
    yield "refused-4 3", check("1 U 1 - none / 0 U 0 - align", (1, 1))
    yield "refused-5 3", check("0 U 0 - none / 0 U 0 - none / 0 A 000000 - none", (1, 1))
    yield "refused-15 3", rules(GOOD) + b"\n" + tokens(b"0 1 1", b"0 1 1", b"0 000001 1")
    # The last line is not ended.
    yield "refused-11 1", rules(GOOD) + b"\nterm line col"
    yield "refused-12 2", rules(GOOD) + b"\n" + good_tokens[:-1]


def padded_numbers():
    """One to five digits; the rows are plain."""
    for digits in (2, 3, 4, 5):
        yield "two 0", padded(check(PLAIN, *row(3)), digits)
        yield "one 0", padded(check(BLOCK, *ITEMS), digits)
        yield "refused-5 3", rules(GOOD, padded(GOOD, digits)) + b"\n" + tokens(b"0 1 1")
        yield "refused-15 3", rules(GOOD) + b"\n" + tokens(b"0 5 5", padded(b"0 5 5", digits))
    yield "refused-2 2", padded(check(PLAIN, *row(3)), 6)
    yield "refused-12 2", rules(GOOD) + b"\n" + padded(tokens(b"0 1 1"), 6)


def ranges():
    """A range is one rule, hence one choice."""
    alone, pair = "0 A 10 20 none", "0 B 1 1 none / 1 A 10 20 none"
    for term, answer in ((9, "none"), (10, "one"), (15, "one"), (20, "one"), (21, "none")):
        yield f"{answer} 0", check(alone, (term, 1, 1))
        yield f"{answer} 0", check(pair, (10, 1, 1), (term, 1, 2))
    # Two rules of one left that touch; a leaf of two lefts.
    yield "one 0", check("0 A 0 9 none / 0 A 10 63 none", (9, 1, 1))
    yield "one 0", check("0 A 0 9 none / 0 A 10 63 none", (63, 1, 1))
    both = "0 U 1 - none / 0 U 2 - none / 1 A 3 40 none / 2 A 40 63 none"
    for term, answer in ((3, "one"), (39, "one"), (40, "two"), (41, "one"), (2, "none")):
        yield f"{answer} 0", check(both, (term, 1, 1))


# Lines of a token sheet with widths after the names and `0 5 5 4`.
WIDE_LINES = (
    (12, b"0 5 9"),
    (12, b"0 5 9 1 1"),
    (12, b"0 5 9 000001"),
    (13, b"64 5 9 1"),
    (13, b"0 5 65536 1"),
    (47, b"0 6 1 0"),
    (47, b"0 6 1 256"),
    (47, b"0 6 65535 2"),
    (47, b"0 6 65282 255"),
    (15, b"0 5 8 1"),
    (15, b"0 4 9 1"),
    # 12 before 13, 13 before 47, 47 before 15.
    (12, b"64 5 9 000000"),
    (13, b"64 6 1 0"),
    (47, b"0 5 8 0"),
)


def widths():
    """Marks look at first columns; on one line no token may overlap the next."""
    for number, line in WIDE_LINES:
        yield f"refused-{number} 3", rules(GOOD) + b"\n" + wide_tokens(b"0 5 5 4", line)
    plain = rule_sheet(PLAIN) + b"\n"
    yield "two 0", plain + wide_tokens(b"0 1 1 9", b"0 1 10 255", b"0 1 265 1")
    yield "one 0", plain + wide_tokens(b"0 1 65281 255", b"0 2 65535 1")
    yield "none 0", plain + wide_tokens()
    yield "refused-12 2", plain + tokens(b"0 1 1 1")
    for mark, answer in (("align", "one"), ("indent", "none")):
        pair = rule_sheet(f"0 B 1 1 {mark} / 1 A 0 - none") + b"\n"
        yield f"{answer} 0", pair + wide_tokens(b"0 1 3 9", b"0 2 3 2")
    for col, answer in ((3, "none"), (4, "one")):
        yield f"{answer} 0", rule_sheet(P6) + b"\n" + wide_tokens(b"0 1 3 9", b"0 2 %d 1" % col)


def refused_names():
    good_rules, good_tokens = rules(GOOD), tokens(b"0 1 1")
    yield "refused-1 1", b"\n" + good_tokens
    yield "refused-1 1", b"left kind first second lay \n0 E - - none\n\n" + good_tokens
    yield "refused-11 1", good_rules + b"\n"
    yield "refused-11 1", good_rules + b"\nterm line col\r\n0 1 1\n"
    yield "refused-11 1", good_rules + b"\nterm col line\n0 1 1\n"
    # The first empty line parts the input, wherever it stands.
    yield "refused-11 1", good_rules + b"\n\n" + good_tokens
    yield "refused-11 1", good_rules + b"\n1 E - - none\n\n" + good_tokens
    yield "refused-12 3", good_rules + b"\n" + good_tokens + b"\n"
    # Two sheets, two faults.
    yield "refused-1 1", b"\n"
    yield "refused-1 1", good_tokens + b"\n" + good_rules
    yield "refused-2 2", rules(b"0 A 0") + b"\n" + tokens(b"0 0 1")
    yield "refused-7 0", rules() + b"\n"
    yield "refused-15 3", check("0 U 0 - none", (1, 2), (1, 1))


def refused_inputs():
    """31 and 32."""
    good_rules, good_tokens = rules(GOOD), tokens(b"0 1 1")
    yield "refused-32 0", b""
    yield "refused-32 0", b"x\n" + good_tokens
    yield "refused-32 0", good_rules
    yield "refused-32 0", good_rules + good_tokens
    yield "refused-32 0", good_rules + b" \n" + good_tokens
    yield "refused-32 0", (good_rules + b"\n" + good_tokens).replace(b"\n", b"\r\n")
    # 16,384 bytes and one more, with an empty line and without one.
    start = good_rules + b"\n" + many_tokens(64)
    yield "refused-14 66", start + b"7" * (16_384 - len(start))
    yield "refused-31 0", start + b"7" * (16_385 - len(start))
    yield "refused-31 0", b"left\n" * 3_277


# -------------------------------------------------------------------- by chance

def pick(draw, listed):
    return listed[int(draw.random() * len(listed))]


LAYS = {
    "E": ("none",),
    "A": ("none",),
    "U": ("none", "offside", "offalign", "single"),
    "B": ("none", "none", "align", "indent"),
}


def random_rule(draw, left, names, terminals, empties):
    """(left, kind, first, second, lay).

    A U rule leads to a later name and, where there are empty words, most B
    rules do: few sheets are cyclic.
    """
    later = [name for name in names if name > left]
    kinds = "AAAUUUBBBBB" if later else "AAAB"
    kind = pick(draw, kinds + "EE" if empties else kinds)
    first = second = "-"
    if kind == "A":
        first, second = pick(draw, terminals), pick(draw, ("-", "-", max(terminals)))
    if kind == "U":
        first = pick(draw, later)
    if kind == "B":
        tame = later and empties and draw.random() < 0.9
        first, second = [pick(draw, later if tame else names) for _ in range(2)]
    return (left, kind, first, second, pick(draw, LAYS[kind]))


def random_rules(draw, terminals):
    """A few rules, none of them twice; two or three for the start."""
    names = pick(draw, ((0, 1), (0, 1, 2), (0, 1, 2, 3), (0, 7, 63)))
    empties = draw.random() < 0.4
    lefts = [0, 0, *names, *[pick(draw, names) for _ in range(int(draw.random() * 4))]]
    listed = {}
    for left in lefts:
        rule = random_rule(draw, left, names, terminals, empties)
        head = (left, "A") if rule[1] == "A" else rule[:4]
        listed.setdefault(head, rule)
    return list(listed.values())


def sheet_of(listed):
    return rules(*[b"%d %s %s %s %s" % (rule[0], *map(written, rule[1:])) for rule in listed])


def written(field):
    return str(field).encode()


def grown(draw, listed, name, height):
    """Terminals of a tree by chance, marks not asked; None if it grows too high."""
    own = [rule for rule in listed if rule[0] == name]
    if height == 0 or not own:
        return None
    _, kind, first, second, _ = pick(draw, own)
    if kind == "E":
        return []
    if kind == "A":
        return [first]
    parts = [first] if kind == "U" else [first, second]
    below = [grown(draw, listed, part, height - 1) for part in parts]
    return None if None in below else sum(below, [])


def random_terminals(draw, listed, terminals):
    """Of a tree where one is soon found, and else any."""
    for _ in range(12):
        found = grown(draw, listed, 0, 6)
        if found and len(found) <= 6:
            return found
    return [pick(draw, terminals) for _ in range(int(draw.random() * 4))]


def random_tokens(draw, terms):
    line, col = pick(draw, (1, 1, 4)), pick(draw, (1, 2, 3))
    placed = []
    for term in terms:
        placed.append((term, line, col))
        step = pick(draw, (0, 0, 1, 1, 1, 2))
        line += step
        col = pick(draw, (1, 2, 2, 3, 4)) + (0 if step else col)
    return placed


def random_inputs(count):
    for seed in range(count):
        draw = random.Random(seed)
        terminals = pick(draw, ((0,), (0,), (0, 1), (5, 63)))
        listed = random_rules(draw, terminals)
        placed = random_tokens(draw, random_terminals(draw, listed, terminals))
        yield sheet_of(listed) + b"\n" + token_sheet(placed)


def digit_changed(draw, text):
    """Another digit for one: what comes of it may be good again."""
    digits = b"0123456789"
    place = pick(draw, [place for place, byte in enumerate(text) if byte in digits])
    other = pick(draw, [byte for byte in digits if byte != text[place]])
    return text[:place] + bytes([other]) + text[place + 1 :]


def damaged_inputs(count):
    """Inputs that were good, with damage in all, in the rules or in the tokens."""
    good = (
        check(PLAIN, (1, 1), (1, 2), (1, 3)),
        check(P9, (1, 1), (1, 2)),
        check(BLOCK, *ITEMS),
        ALL_KINDS + b"\n" + SPREAD,
        check(DANGLING.format("align"), (0, 1, 1), (0, 2, 2), (2, 2, 5), (1, 3, 1), (2, 3, 6)),
    )
    for seed in range(count):
        draw = random.Random(16_000 + seed)
        text = good[seed % len(good)]
        empty_line = text.index(b"\n\n") + 1
        place = pick(draw, (0, len(rules()), len(rules()), empty_line, empty_line))
        deeds = pick(draw, ((damaged,), (damaged,), (digit_changed,), (damaged, digit_changed)))
        for deed in deeds:
            text = text[:place] + deed(draw, text[place:])
        yield text


def meant():
    for made in (
        patches(),
        marks(),
        marks_of_empty_words(),
        marks_inside(),
        choices(),
        second_trees(),
        looping(),
        sentences(),
        few_rows(),
        about_4096_rows(),
        far_too_many_rows(),
        refused_sheets(),
        padded_numbers(),
        ranges(),
        widths(),
        refused_names(),
        refused_inputs(),
    ):
        for answer, text in made:
            yield answer.encode() + b"\n", text


def cases():
    for _, text in meant():
        yield text
    yield from damaged_inputs(72)
    yield from random_inputs(130)
