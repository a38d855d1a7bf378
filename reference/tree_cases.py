"""Cases for the calls about one sentence's trees: `rows`, `places`, and those on
a shared tour: `show`, `change`.

`cases()` yields (call, user, rule, parts) in a fixed order; a call takes what
it needs of them.  First come those of `meant()`, made by hand, each with how
the output is meant to go on after `answer line`.  What follows is drawn by
chance, seeded and the same on every run.
"""

import random

import check_cases as checks
import teplonga as base
from check_cases import check, doubling, row


def case(call, *parts, user=0, rule=0):
    return (call, user, rule, parts)


def rows(text):
    """`rows` of an input as `check` has it."""
    return case("rows", *base.parted(text))


def places(text):
    """`places` of an input as `check` has it."""
    return case("places", *base.parted(text))


# -------------------------------------------------------------- rows

FULL = doubling(*range(1, 33))  # nonterminal 1: 2^32 - 1 rows
HALF = doubling(*range(1, 32))  # nonterminal 1: 2^31 - 1 rows
SMALL = "40 E - - none"


def counted(answer, first, second):
    return f"{answer} 0\nfirst second\n{first} {second}\n"


def few_rows():
    yield counted("none", 0, 0), rows(check("0 A 0 - none"))
    yield counted("one", 1, 0), rows(check("0 A 0 - none", (1, 1)))
    yield counted("one", 1, 0), rows(check("0 E - - none"))
    yield counted("two", 5, 5), rows(check(checks.PLAIN, *row(3)))
    yield counted("two", 127, 127), rows(check(checks.PLAIN, *row(64)))
    # The trees have different counts, either way round.
    one = "1 A 0 - none / 2 U 3 - none / 3 A 0 - none"
    yield counted("two", 2, 3), rows(check(f"0 U 1 - none / 0 U 2 - none / {one}", (1, 1)))
    yield counted("two", 3, 2), rows(check(f"0 U 2 - none / 0 U 1 - none / {one}", (1, 1)))
    # Empty nodes are rows too: beside a token, before, behind and between.
    empties = "2 E - - none / 1 A 0 - none"
    yield counted("one", 3, 0), rows(check(f"0 B 2 1 none / {empties}", (1, 1)))
    yield counted("one", 3, 0), rows(check(f"0 B 1 2 none / {empties}", (1, 1)))
    between = f"0 B 1 3 none / 3 B 2 1 none / {empties}"
    yield counted("one", 5, 0), rows(check(between, *row(2)))
    # It parts in an empty word, on the left or on the right.
    parting = "2 E - - none / 2 U 3 - none / 3 E - - none / 1 A 0 - none"
    yield counted("two", 3, 4), rows(check(f"0 B 2 1 none / {parting}", (1, 1)))
    yield counted("two", 3, 4), rows(check(f"0 B 1 2 none / {parting}", (1, 1)))
    yield counted("two", 3, 4), rows(check(f"0 B 2 2 none / {parting}"))
    # 63 rows a token and 64 above: 4,096.
    chain = " / ".join(f"{name} U {name + 1} - none" for name in range(1, 63))
    each = f"0 B 1 0 none / 0 U 1 - none / {chain} / 63 A 0 - none"
    yield counted("one", 64 * 64, 0), rows(check(each, *row(64)))


def about_the_most():
    """4,294,967,295 rows are told, one more are not."""
    most, more = 4_294_967_295, "more"
    yield counted("one", most, 0), rows(check(checks.falling(32)))
    yield counted("one", more, 0), rows(check(f"0 U 1 - none / {FULL}"))
    # Each count by itself: of the first, of the second, of both.
    yield counted("two", 2, more), rows(check(f"0 U 40 - none / 0 U 1 - none / {FULL} / {SMALL}"))
    yield counted("two", more, 2), rows(check(f"0 U 1 - none / 0 U 40 - none / {FULL} / {SMALL}"))
    both = f"0 U 1 - none / 0 U 41 - none / 41 U 1 - none / {FULL}"
    yield counted("two", more, more), rows(check(both))
    just = f"0 B 1 1 none / 0 B 1 41 none / 41 B 2 2 none / {HALF}"
    yield counted("two", most, most), rows(check(just))
    # With a token: 2^31 - 1, 2^30 - 1, .., 1 rows in empty words, as many nodes above them, and
    # the token's row: 2^32 - 1; with one node more, in either tree, 2^32.
    names = [0, *range(33, 63), 63]
    spine = [f"{name} B {size + 1} {names[size + 1]} none" for size, name in enumerate(names[:-1])]
    above = " / ".join([*spine, HALF])
    leaf, node = "63 A 0 - none", "63 U 32 - none / 32 A 0 - none"
    yield counted("one", most, 0), rows(check(f"{above} / {leaf}", (1, 1)))
    yield counted("one", more, 0), rows(check(f"{above} / {node}", (1, 1)))
    yield counted("two", most, more), rows(check(f"{above} / {leaf} / {node}", (1, 1)))
    yield counted("two", more, most), rows(check(f"{above} / {node} / {leaf}", (1, 1)))
    # The second is one longer than the first: most and more.
    longer = f"{checks.falling(32)} / 1 U 62 - none / 62 E - - none"
    yield counted("two", most, more), rows(check(longer))
    # Many tokens, each with an empty word of 2^27 - 1 rows: 32 of them fit with 63 rows more.
    beside = "0 B 60 0 none / 0 U 60 - none / 60 B 1 61 none / 61 A 0 - none"
    small = doubling(*range(1, 28))
    yield counted("one", 31 * (2**27 + 2), 0), rows(check(f"{beside} / {small}", *row(31)))
    yield counted("one", more, 0), rows(check(f"{beside} / {small}", *row(32)))


def far_more_rows():
    """No memory could hold them, and they are counted at once."""
    for _, text in checks.far_too_many_rows():
        yield None, rows(text)
    chained = " / ".join(f"{name} B {name + 1} {name + 1} none" for name in range(63))
    yield counted("two", "more", "more"), rows(check(f"{chained} / 63 E - - none / 0 U 1 - none"))


def refused_rows():
    """The refusals of both sheets, alone and competing."""
    for answer, text in checks.refused_sheets():
        yield answer + "\n", rows(text)


# ----------------------------------------------------------- places

def listed(*entries):
    lines = "".join("%d %d %d\n" % entry for entry in entries)
    return f"two 0\nleft start length\n{lines}"


def few_places():
    # None and one list nothing, whatever has two trees elsewhere.
    yield "none 0\n", places(check("0 A 0 - none"))
    yield "one 0\n", places(check(checks.PLAIN, *row(2)))
    yield "none 0\n", places(check(checks.P9, (1, 1), (2, 2)))
    unreached = "0 A 0 - none / 1 U 2 - none / 1 A 0 - none / 2 A 0 - none"
    yield "one 0\n", places(check(unreached, (1, 1)))
    # Longest first, then by start, then by nonterminal.
    yield listed((0, 0, 3)), places(check(checks.PLAIN, *row(3)))
    yield listed((0, 0, 4), (0, 0, 3), (0, 1, 3)), places(check(checks.PLAIN, *row(4)))
    both = "0 B 9 9 none / 9 A 0 - none / 9 U 2 - none / 2 A 0 - none"
    yield listed((9, 0, 1), (9, 1, 1)), places(check(both, *row(2)))
    names = "0 U 5 - none / 0 U 3 - none / 5 A 0 - none / 5 U 7 - none / 3 A 0 - none / 3 U 7 - none / 7 A 0 - none"
    yield listed((0, 0, 1), (3, 0, 1), (5, 0, 1)), places(check(names, (1, 1)))
    # Its only choice has a child that is a place: not a place itself.
    only = "0 U 1 - none / 1 A 0 - none / 1 U 2 - none / 2 A 0 - none"
    yield listed((1, 0, 1)), places(check(only, (1, 1)))
    # A choice that neither tree takes leads to a place too.
    third = "0 U 1 - none / 0 U 2 - none / 0 U 3 - none / 1 A 0 - none / 2 A 0 - none / 3 A 0 - none / 3 U 4 - none / 4 A 0 - none"
    yield listed((0, 0, 1), (3, 0, 1)), places(check(third, (1, 1)))
    # Two trees of a part, which the start reaches or not.
    part = "0 B 1 2 none / 1 U 3 - none / 1 A 0 - none / 3 A 0 - none / 2 A 1 - none"
    yield "none 0\n", places(check(part, (0, 1, 1), (0, 1, 2)))
    yield listed((1, 0, 1)), places(check(part, (0, 1, 1), (1, 1, 2)))
    # A mark takes a choice away in one place and not in another.
    marked = "0 B 1 1 none / 1 B 2 2 none / 1 U 3 - none / 2 A 0 - none / 3 B 2 2 align"
    yield listed((1, 2, 2)), places(check(marked, (1, 1), (2, 2), (3, 1), (4, 1)))
    # Terminals in ranges: one rule, one choice.
    ranged = "0 A 0 9 none / 0 U 1 - none / 1 A 5 7 none"
    yield "one 0\n", places(check(ranged, (3, 1, 1)))
    yield listed((0, 0, 1)), places(check(ranged, (6, 1, 1)))


def empty_places():
    """An empty word is one place a nonterminal, start 0, at the list's end."""
    empties = "2 E - - none / 2 U 3 - none / 3 E - - none"
    yield listed((2, 0, 0)), places(check(f"0 B 1 2 none / 1 A 0 - none / {empties}", (1, 1)))
    around = f"0 B 2 4 none / 4 B 1 5 none / 5 B 2 6 none / 6 B 1 2 none / 1 A 0 - none / {empties}"
    yield listed((2, 0, 0)), places(check(around, *row(2)))
    yield listed((0, 0, 0)), places(check(checks.P5))
    several = "0 B 2 1 none / 1 U 2 - none / 1 E - - none / 2 E - - none / 2 U 3 - none / 3 E - - none"
    yield listed((1, 0, 0), (2, 0, 0)), places(check(several))
    mixed = f"0 B 1 1 none / 1 B 2 7 none / 1 U 7 - none / 7 A 0 - none / {empties}"
    yield listed((1, 0, 1), (1, 1, 1), (2, 0, 0)), places(check(mixed, *row(2)))
    for count, answer in enumerate(("one 0\n", listed((0, 0, 1)), "one 0\n", "none 0\n")):
        yield answer, places(check(checks.P4, *row(count)))


def layers(count):
    """Nonterminals 0 to count, each over all words; the last over single tokens."""
    lines = [f"{name} B {name} {name} none / {name} U {name + 1} - none" for name in range(count)]
    return " / ".join([*lines, f"{count} B {count} {count} none / {count} A 0 9 none"])


def many_places():
    """About 16,384: over 64 tokens, seven layers have 2,016 places each and the last 1,953."""
    row64 = [(0, 1, col) for col in range(1, 65)]
    yield listed((0, 0, 64)), places(check(layers(7), *row64))
    yield "refused-22 0\n", places(check(layers(8), *row64))
    # The last tokens have other terminals, of which a few more nonterminals are made: (n - 1)^2
    # places for n tokens, and 18 of nonterminal 0 over single tokens.
    terms = [0] * 46 + [1] * 14 + [2] * 2 + [3] * 2
    tail = [(term, 1, col) for col, term in enumerate(terms, start=1)]

    def more(name, low):
        over = f"{name} B {name} {name} none / {name} U {name + 1} - none"
        return f"0 U {name} - none / {over} / {name + 1} B {name + 1} {name + 1} none / {name + 1} A {low} 9 none"

    upper = [more(20, 1), more(30, 2), more(40, 3), more(42, 3), more(44, 3)]
    full = " / ".join([layers(7), *upper])
    yield listed((0, 0, 64)), places(check(full, *tail))
    yield "refused-22 0\n", places(check(f"{full} / {more(46, 3)}", *tail))


def refused_places():
    for number, (answer, text) in enumerate(checks.refused_sheets()):
        if number % 3 == 0:
            yield answer + "\n", places(text)


# ------------------------------------------------ a shared tour

def rights(*lines):
    """A rights sheet with these lines."""
    return b"".join(line.encode() + b"\n" for line in ("user low high may", *lines))


def show(text, granted, user=5):
    """`show` of an input as `check` has it."""
    return case("show", *base.parted(text), granted, user=user)


def rows_shown(answer, *lines):
    return f"{answer} 0\ntree left kind start length\n" + "".join(line + "\n" for line in lines)


ALL = rights("5 0 63 see")
NESTED = "0 B 1 2 none / 1 U 3 - none / 2 A 0 - none / 3 A 0 - none"
PARTING = "0 B 1 2 none / 1 U 3 - none / 1 A 0 - none / 2 A 0 - none / 2 U 3 - none / 3 A 0 - none"


def shown_trees():
    two = check(NESTED, *row(2))
    yield rows_shown("one", "1 0 B 0 2", "1 1 U 0 1", "1 3 A 0 1", "1 2 A 1 1"), show(two, ALL)
    # The root is closed like any node, and hides what the user may see.
    yield rows_shown("one", "1 0 C 0 2"), show(two, rights())
    yield rows_shown("one", "1 0 C 0 2"), show(two, rights("5 1 63 change"))
    yield rows_shown("one", "1 0 B 0 2", "1 1 C 0 1", "1 2 A 1 1"), show(two, rights("5 0 0 see", "5 2 3 see"))
    yield rows_shown("one", "1 0 B 0 2", "1 1 U 0 1", "1 3 C 0 1", "1 2 C 1 1"), show(two, rights("5 0 1 see"))
    # Ranges add up, those of other users do not; `change` includes seeing.
    one_by_one = rights("5 0 0 see", "5 1 1 change", "5 3 3 see", "5 2 2 see", "4 0 0 see")
    yield rows_shown("one", "1 0 B 0 2", "1 1 U 0 1", "1 3 A 0 1", "1 2 A 1 1"), show(two, one_by_one)
    yield rows_shown("one", "1 0 B 0 2", "1 1 C 0 1", "1 2 C 1 1"), show(two, one_by_one, user=4)
    # A user above 15 has no ranges.
    yield rows_shown("one", "1 0 C 0 2"), show(two, rights("0 0 63 see", "15 0 63 see"), user=16)
    yield rows_shown("one", "1 0 C 0 2"), show(two, rights("0 0 63 see", "15 0 63 see"), user=99_999)
    yield rows_shown("one", "1 0 B 0 2"), show(two, rights("15 0 63 see"), user=15)
    # An empty word has start 0.
    empty = check("0 B 1 2 none / 1 A 0 - none / 2 E - - none", (1, 1))
    yield rows_shown("one", "1 0 B 0 1", "1 1 A 0 1", "1 2 C 0 0"), show(empty, rights("5 0 1 see"))
    yield "none 0\n", show(check(NESTED, *row(3)), rights())
    # Numbers as in rule sheets: padded ones too.
    padded = rights("005 00000 0063 see")
    yield rows_shown("one", "1 0 B 0 2", "1 1 U 0 1", "1 3 A 0 1", "1 2 A 1 1"), show(two, padded)


def shown_pairs():
    """Two trees; the verdict is open to all."""
    plain = check(checks.PLAIN, *row(3))
    yield rows_shown("two", "1 0 C 0 3", "2 0 C 0 3"), show(plain, rights())
    # They part beneath a closed node: what stands behind it is as in the first tree.
    behind = check(PARTING, *row(2))
    alike = ["0 B 0 2", "1 C 0 1", "2 A 1 1"]
    both = [f"{tree} {line}" for tree in (1, 2) for line in alike]
    yield rows_shown("two", *both), show(behind, rights("5 0 0 see", "5 2 3 see"))
    # They part in what is seen; then all of the second is as it is.
    first = ["1 0 B 0 2", "1 1 U 0 1", "1 3 C 0 1", "1 2 C 1 1"]
    second = ["2 0 B 0 2", "2 1 A 0 1", "2 2 C 1 1"]
    yield rows_shown("two", *first, *second), show(behind, rights("5 0 1 see"))
    # A closed node before the parting one has a single tree, so the seeking goes on.
    later = check("0 B 1 2 none / 1 U 3 - none / 3 A 0 - none / 2 A 0 - none / 2 U 3 - none", *row(2))
    first = ["1 0 B 0 2", "1 1 C 0 1", "1 2 A 1 1"]
    second = ["2 0 B 0 2", "2 1 C 0 1", "2 2 U 1 1", "2 3 C 1 1"]
    yield rows_shown("two", *first, *second), show(later, rights("5 0 0 see", "5 2 2 see"))


def few_shown():
    """22 counts the rows shown: trees far past 4,096 rows, closed or not."""
    for answer, text in checks.far_too_many_rows():
        yield None, show(text, rights())
        yield None, show(text, ALL)
    long = check(f"0 U 1 - none / {FULL}")
    yield rows_shown("one", "1 0 C 0 0"), show(long, rights())
    yield rows_shown("one", "1 0 U 0 0", "1 1 C 0 0"), show(long, rights("5 0 0 see", "5 2 63 see"))
    yield "refused-22 0\n", show(long, ALL)


def bad_rights():
    """(line, rights sheet): all that 50 is for."""
    yield 1, b""
    yield 1, b"user low high may"
    yield 1, b"user low high may\r\n"
    yield 1, b"user low high\n"
    for line in ("5 0 0", "5 0 0 see ", " 5 0 0 see", "5  0 0 see", "5 0 0 sees", "5 0 0 See", "5 0 0 change see",
                 "5 0 0 none", "", "5 - 0 see", "5 0 - see", "a 0 0 see", "000005 0 0 see", "5 0 000000 see",
                 "16 0 0 see", "5 0 64 see", "5 64 64 see", "5 64 63 see", "5 1 0 see", "5 0 0 see\r", "5 0 0 "):
        yield 2, rights(line)
        yield 3, rights("5 0 0 see", line, "16 0 0 see")
    yield 2, rights("5 0 0 see")[:-1]
    yield 130, rights(*["5 0 0 see"] * 128, "5 0 0 seen")


def refused_shows():
    good = check(NESTED, *row(2))
    for line, granted in bad_rights():
        yield f"refused-50 {line}\n", show(good, granted)
    yield rows_shown("one", "1 0 B 0 2", "1 1 C 0 1", "1 2 C 1 1"), show(good, rights(*["5 0 0 see"] * 300))
    # The rule sheet and the token sheet come before the rights sheet.
    for number, (answer, text) in enumerate(checks.refused_sheets()):
        if number % 4 == 0:
            yield answer + "\n", show(text, b"")


def change(text, rule, lay, granted=rights("5 0 63 change"), user=5):
    """`change` of these rules."""
    return case("change", checks.rule_sheet(text), granted, lay.encode(), user=user, rule=rule)


def given(text):
    return "given 0\n" + checks.rule_sheet(text).decode()


CHANGED = "0 B 1 2 none / 1 U 2 - offside / 2 A 0 7 none / 2 A 8 - none / 3 E - - none"


def changes():
    lines = CHANGED.split(" / ")
    for rule, allowed in ((1, "none align indent"), (2, "none offside offalign single"), (3, "none"), (4, "none"), (5, "none")):
        for lay in base.ALL_LAYS:
            new = list(lines)
            new[rule - 1] = " ".join([*lines[rule - 1].split(" ")[:4], lay])
            made = given(" / ".join(new)) if lay in allowed.split(" ") else f"refused-4 {rule + 1}\n"
            yield made, change(CHANGED, rule, lay)
    # Padded numbers stay as written.
    yield given("000 B 01 002 align / 1 A 007 - none / 2 A 00 0063 none"), change("000 B 01 002 none / 1 A 007 - none / 2 A 00 0063 none", 1, "align")
    # 128 rules, the last of them changed.
    many = " / ".join(["0 U 1 - none", *[f"{name} A {2 * term} {2 * term + 1} none" for name in range(1, 5) for term in range(32)]][:128])
    yield given(many), change(many, 128, "none")


def refused_changes():
    # No word of lay: 2 in the rule's line, whatever else the bytes hold.
    for lay in ("", " ", "None", "none ", " none", "none none", "nonee", "non", "none\n", "none\n9 E - - none",
                "align\n0 A 9 - none\n1 U 1 - none", "offside\r", "-", "\n"):
        yield "refused-2 2\n", change(CHANGED, 1, lay)
        yield "refused-2 5\n", change(CHANGED, 4, lay)
        yield "refused-51 0\n", change(CHANGED, 1, lay, rights("5 1 63 change"))
    # 51: no such rule, or not the user's to change.
    for rule in (0, 6, 7, 128, 129, 99_999):
        yield "refused-51 0\n", change(CHANGED, rule, "none")
        yield "refused-51 0\n", change(CHANGED, rule, "?")
    for granted in (rights(), rights("5 0 63 see"), rights("4 0 63 change"), rights("5 0 0 change", "5 2 63 change"),
                    rights("5 0 63 see", "5 2 63 change")):
        yield "refused-51 0\n", change(CHANGED, 2, "single", granted)
        yield "refused-51 0\n", change(CHANGED, 2, "align", granted)
    yield "refused-51 0\n", change(CHANGED, 2, "single", rights("0 0 63 change", "15 0 63 change"), user=16)
    yield given(CHANGED.replace("offside", "single")), change(CHANGED, 2, "single", rights("5 0 0 change", "5 1 1 change", "5 1 1 see"))
    yield given(CHANGED.replace("offside", "single")), change(CHANGED, 2, "single", rights("15 1 1 change"), user=15)
    # 50 before 51, and the rule sheet before both.
    for line, granted in bad_rights():
        yield f"refused-50 {line}\n", change(CHANGED, 0, "?", granted)
    for number, (answer, text) in enumerate(checks.refused_sheets()):
        rules = base.parted(text)[0]
        if number % 3 == 0 and base.read_rules(rules)[0] == "refused":
            yield answer + "\n", case("change", rules, b"", b"?", user=5, rule=0)


def random_rights(draw, names):
    lines = []
    for _ in range(draw.randint(0, 5)):
        low, high = sorted(draw.choices(range(names + 1), k=2))
        lines.append(f"{draw.choice((5, 5, 5, 7))} {low} {high} {draw.choice(('see', 'see', 'change'))}")
    return rights(*lines)


def random_tours(count):
    """`show` and `change` of sheets drawn by chance."""
    draw = random.Random(12)
    for text in checks.random_inputs(count):
        sheets = base.parted(text)
        granted = random_rights(draw, 6)
        yield case("show", *sheets, granted, user=5)
        rule = draw.randint(0, len(sheets[0].split(b"\n")))
        lay = draw.choice([*base.ALL_LAYS, "", "aligned"]).encode()
        yield case("change", sheets[0], granted, lay, user=5, rule=rule)


# ------------------------------------------------- rules that loop

def looping():
    """The same calls where the rules loop."""
    round_once = check("0 U 0 - none / 0 A 0 - none", (1, 1))
    yield counted("two", 1, 2), rows(round_once)
    yield listed((0, 0, 1)), places(round_once)
    yield rows_shown("two", "1 0 A 0 1", "2 0 U 0 1", "2 0 A 0 1"), show(round_once, ALL)
    yield rows_shown("two", "1 0 C 0 1", "2 0 C 0 1"), show(round_once, rights())
    # A loop elsewhere makes least heights decide.
    low = "0 U 1 - none / 0 A 0 - none / 1 U 2 - none / 2 A 0 - none"
    yield counted("two", 3, 1), rows(check(low, (1, 1)))
    yield counted("two", 1, 3), rows(check(f"{low} / 9 U 9 - none", (1, 1)))
    # Over the empty word, and beside tokens.
    empty = "0 B 0 0 none / 0 E - - none"
    yield counted("two", 1, 3), rows(check(empty))
    yield counted("two", 3, 5), rows(check(f"{empty} / 0 A 0 - none", *row(2)))
    yield listed((0, 0, 0)), places(check(empty))
    # Far more rows than a tree of least height has.
    yield counted("one", "more", 0), rows(check(f"0 U 1 - none / {doubling(*range(1, 34))} / 63 U 63 - none"))
    # The trees part beneath a closed node, and beside one.
    parting = check("0 B 1 2 none / 1 U 1 - none / 1 A 0 - none / 2 A 0 - none", *row(2))
    alike = ["0 B 0 2", "1 C 0 1", "2 A 1 1"]
    both = [f"{tree} {line}" for tree in (1, 2) for line in alike]
    yield rows_shown("two", *both), show(parting, rights("5 0 0 see", "5 2 2 see"))
    first = ["1 0 B 0 2", "1 1 A 0 1", "1 2 C 1 1"]
    second = ["2 0 B 0 2", "2 1 U 0 1", "2 1 A 0 1", "2 2 C 1 1"]
    yield rows_shown("two", *first, *second), show(parting, rights("5 0 1 see"))


def meant():
    """(how the output goes on, or None; case)"""
    for made in (
        few_rows(),
        about_the_most(),
        far_more_rows(),
        refused_rows(),
        few_places(),
        empty_places(),
        many_places(),
        refused_places(),
        shown_trees(),
        shown_pairs(),
        few_shown(),
        refused_shows(),
        changes(),
        refused_changes(),
        looping(),
    ):
        yield from made


def cases():
    for _, each in meant():
        yield each
    for call in (rows, places):
        for text in checks.damaged_inputs(40):
            if base.parted(text) is not None:
                yield call(text)
        for text in checks.random_inputs(100):
            yield call(text)
    yield from random_tours(150)
