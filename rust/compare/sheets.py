"""Sheets drawn by chance: sound ones, damaged ones and those at a limit.

Rules and tokens are the reference's `Rule` and `Token`, sheets are bytes. All
chance comes from the `random.Random` that is handed in.
"""

import re

import check_cases
import teplonga
from teplonga import ALL_LAYS, LAYS, RULE_NAMES, START, Rule, Token


def padded(chance, sheet):
    """The sheet with zeros before some of its numbers, up to five digits."""
    def more(number):
        return number[0].rjust(chance.randint(1, 5), b"0") if chance.random() < 0.5 else number[0]

    names, end, lines = sheet.partition(b"\n")
    return names + end + re.sub(rb"[0-9]+", more, lines)


def rule_sheet(rules):
    lines = [RULE_NAMES] + [teplonga.rule_line(rule) for rule in rules]
    return b"".join(line + b"\n" for line in lines)


def accepted(sheet):
    return teplonga.read_rules(sheet)[0] == "accepted"


# ----------------------------------------------------------------------- rules

# Few empty rules: they make most sheets loop.
KINDS = "EAAAAUUBBBBB"


def drawn_range(chance, terminals):
    """A terminal alone, or one to another, now and then to a farther one."""
    first = chance.choice(terminals)
    if chance.random() < 0.7:
        return (first, None)
    last = chance.choice([*terminals, min(first + chance.randint(0, 3), 63)])
    return (min(first, last), max(first, last))


def drawn_rule(chance, names, terminals):
    kind = chance.choice(KINDS)
    lay = chance.choice(LAYS[kind])
    first = second = None
    if kind == "A":
        first, second = drawn_range(chance, terminals)
    if kind in "UB":
        first = chance.choice(names)
    if kind == "B":
        second = chance.choice(names)
    return Rule(chance.choice(names), kind, first, second, lay)


def distinct(rules):
    """Without those that refusal 5 is about."""
    kept = []
    for rule in rules:
        if not any(teplonga.clashes(rule, other) for other in kept):
            kept.append(rule)
    return kept


def few_rules(chance):
    """Some rules over a few names; they may be cyclic or lack the start."""
    names = [START] + chance.sample(range(1, 64), chance.randint(0, 5))
    terminals = chance.sample(range(64), chance.randint(1, 3))
    count = chance.randint(1, 12)
    return distinct(drawn_rule(chance, names, terminals) for _ in range(count))


def spread_rule(chance, empties):
    """A rule over all names. With empty rules about, children have greater
    names; without them, those of U rules have. Neither can be cyclic."""
    left = chance.randrange(63)
    kind = chance.choice("EAUB" if empties else "AAUBB")
    lay = chance.choice(LAYS[kind])
    greater = range(left + 1, 64)
    if kind == "E":
        return Rule(left, kind, None, None, lay)
    if kind == "A":
        return Rule(left, kind, chance.randrange(4), None, lay)
    if kind == "U":
        return Rule(left, kind, chance.choice(greater), None, lay)
    children = greater if empties else range(64)
    return Rule(left, kind, chance.choice(children), chance.choice(children), lay)


def many_rules(chance, count):
    """So many rules that are no cycle."""
    empties = chance.random() < 0.5
    rules = [Rule(START, "U", 63, None, "none"), Rule(63, "A", 0, None, "none")]
    while len(rules) < count:
        rules = distinct(rules + [spread_rule(chance, empties)])
    chance.shuffle(rules)
    return rules


def read(text):
    """The rules of a text as `check_cases` writes them."""
    return teplonga.read_rules(check_cases.rule_sheet(text))[1]


def known_texts():
    """Sheets that mean something."""
    cases = check_cases
    plain = [cases.PLAIN, cases.LIST, cases.LIST_LEFT, cases.BLOCK, cases.BRACKETS]
    patches = [cases.P4, cases.P5, cases.P6, cases.P8, cases.P9]
    return plain + patches + [cases.DANGLING.format("none")]


KNOWN = [read(text) for text in known_texts()]

# Those under which a sentence of any length has a tree, marks aside.
ENDLESS = KNOWN[:4]


def varied(chance, rules):
    """The rules with other names, in another order and with some other marks."""
    names = dict(zip(range(1, 64), chance.sample(range(1, 64), 63)))
    names[START] = START
    terminals = chance.sample(range(64), 64)
    after = []
    for left, kind, first, second, lay in rules:
        if chance.random() < 0.2:
            lay = chance.choice(LAYS[kind])
        if kind == "A":
            assert second is None
            after.append(Rule(names[left], kind, terminals[first], None, lay))
        else:
            after.append(Rule(names[left], kind, names.get(first), names.get(second), lay))
    chance.shuffle(after)
    return after


def known_rules(chance):
    """A sheet that means something, varied."""
    return varied(chance, chance.choice(KNOWN))


def late_rules(chance):
    """Sentences of two to five tokens, grouped from the left and from the right.

    They have two trees where the marks of both groupings hold.
    """
    length, terminals = chance.randint(2, 5), chance.choice([1, 1, 2])
    marks = ["none", *LAYS["B"]]
    # Names: 1 and on the leaves, 11 and on from the right, 21 and on from the left.
    rules = [Rule(START, "U", 11, None, "none"), Rule(START, "U", 20 + length, None, "none")]
    rules += [Rule(10 + length, "U", length, None, "none"), Rule(21, "U", 1, None, "none")]
    for place in range(1, length + 1):
        rules.append(Rule(place, "A", chance.randrange(terminals), None, "none"))
        if place < length:
            rules.append(Rule(10 + place, "B", place, 11 + place, chance.choice(marks)))
        if place > 1:
            rules.append(Rule(20 + place, "B", 19 + place, place, chance.choice(marks)))
    return varied(chance, rules)


def doubling_rules(chance):
    """A chain that doubles the rows of the empty word, alone or beside tokens.

    Eight tokens beside 2^61 - 1 rows each have more than 2^64 in all.
    """
    if chance.random() < 0.3:
        depth = chance.choice([1, 1, 2, 2, 3, 3, 4, 6, 61])
        text = "0 B 1 0 none / 0 U 1 - none / 1 B 3 2 none / 2 A 0 - none / "
        return read(text + check_cases.doubling(*range(3, 3 + depth)))
    depth = chance.choice([1, 2, 2, 3, 3, 4, 4, 5, 6, 7, 10, 62])
    rules = read("0 U 1 - none / " + check_cases.doubling(*range(1, depth + 1)))
    if chance.random() < 0.5:
        rules.insert(chance.randrange(2), Rule(START, "E", None, None, "none"))
    return rules


def chain_rules(chance):
    """Lists of tokens, each under a chain of U rules, in any order."""
    length = chance.choice([2, 3, 3, 4, 4, 5, 5, 10, 62])
    lays = ["none"] * 9 + list(LAYS["U"])
    rules = [Rule(name, "U", name + 1, None, chance.choice(lays)) for name in range(1, length)]
    rules.append(Rule(length, "A", 0, None, "none"))
    rules.append(Rule(START, "B", 1, START, chance.choice(LAYS["B"])))
    last = [Rule(START, "U", 1, None, "none"), Rule(START, "E", None, None, "none")]
    rules.append(chance.choice(last))
    if chance.random() < 0.5:
        chance.shuffle(rules)
    return rules


def sound_rules(chance):
    """The rules of an accepted sheet."""
    draws = [few_rules] * 6 + [known_rules] * 5 + [late_rules, doubling_rules, chain_rules]
    while True:
        rules = chance.choice(draws)(chance)
        if accepted(rule_sheet(rules)):
            return rules


def refused_rules(chance):
    """Rules with the start left out or with a cycle, but for luck."""
    rules = sound_rules(chance)
    names = sorted({rule.left for rule in rules})
    one, other = chance.choice(names), chance.choice(names)
    way = chance.choice(["no start", "unary", "binary"])
    if way == "no start":
        return [rule for rule in rules if rule.left != START]
    if way == "unary":
        more = [Rule(one, "U", other, None, chance.choice(LAYS["U"]))]
    else:
        more = [Rule(one, "E", None, None, "none"), Rule(START, "B", one, other, "none")]
    return distinct(rules + more)


# ------------------------------------------------------------------- sentences

def children_of(rule):
    return [name for name in (rule.first, rule.second) if rule.kind in "UB" and name is not None]


def least_heights(rules):
    """The height of a least tree of each name that has one, marks aside."""
    heights = {}
    grown = True
    while grown:
        grown = False
        for rule in rules:
            children = children_of(rule)
            if all(child in heights for child in children):
                height = 1 + max((heights[child] for child in children), default=0)
                if height < heights.get(rule.left, 1_000):
                    heights[rule.left] = height
                    grown = True
    return heights


def usable_rules(rules):
    """By name, the rules that derive some word, that of least height first."""
    heights = least_heights(rules)
    usable = {}
    for rule in rules:
        under = [heights.get(child) for child in children_of(rule)]
        if None not in under:
            usable.setdefault(rule.left, []).append((max(under, default=0), rule))
    return {
        name: [rule for _, rule in sorted(listed, key=lambda pair: pair[0])]
        for name, listed in usable.items()
    }


def derived(chance, usable, fuel, most):
    """Terminals that the rules derive, marks aside, or None.

    Where the fuel is used up, each node takes the rule of least height.
    """
    waiting, terminals = [START], []
    for step in range(20 + 4 * fuel):
        if not waiting or len(terminals) > most:
            break
        ways = usable[waiting.pop()]
        rule = chance.choice(ways) if step < fuel else ways[0]
        if rule.kind == "A":
            terminals.append(chance.choice(teplonga.terminals_covered(rule)))
        waiting += reversed(children_of(rule))
    return None if waiting or len(terminals) > most else terminals


def any_terminals(chance, rules, count):
    """Terminals of the rules' leaves, and now and then another one."""
    known = teplonga.terminals_of(rules) or [0]
    return [
        chance.choice(known) if chance.random() < 0.95 else chance.randrange(64)
        for _ in range(count)
    ]


# A line step and a column for the next token, from the column before.
STYLES = {
    "row": lambda chance, col: (0, col + chance.randint(1, 2)),
    "column": lambda chance, col: (1, col),
    "stairs": lambda chance, col: (1, col + 1),
    "block": lambda chance, col: chance.choice([(0, col + 1), (1, 1), (1, 3)]),
    "mixed": lambda chance, col: chance.choice([(0, col + 1), (1, chance.randint(1, 4)), (2, col)]),
}


def placed(chance, terminals):
    """The terminals as tokens in rising positions."""
    style = STYLES[chance.choice(list(STYLES))]
    line, col = chance.choice([(1, 1), (1, 1), (7, 3), (65535 - 2 * 64, 65535 - 2 * 64)])
    tokens = []
    for terminal in terminals:
        tokens.append(Token(terminal, line, col))
        step, col = style(chance, col)
        line += step
    return tokens


def wide_sheet(chance, tokens):
    """A sheet with widths: mostly such as the places allow, now and then one too wide."""
    lines = [teplonga.WIDE_NAMES]
    for at, token in enumerate(tokens):
        near = tokens[at + 1 : at + 2]
        room = min(255, 65_536 - token.col)
        if near and near[0].line == token.line:
            room = min(room, near[0].col - token.col)
        width = chance.choice([1, chance.randint(1, room), room])
        if chance.random() < 0.01:
            width = chance.choice([0, room + 1, 255, 256])
        lines.append(b"%s %d" % (teplonga.token_line(token), width))
    return b"".join(line + b"\n" for line in lines)


def token_sheet(chance, tokens):
    """Without widths, or, once in four, with them."""
    if chance.random() < 0.75:
        return teplonga.token_sheet(tokens)
    return wide_sheet(chance, tokens)


def sentence(chance, rules, least, most):
    """Tokens, mostly such as the rules derive but for their marks."""
    usable = usable_rules(rules)
    if START in usable and chance.random() < 0.85:
        for _ in range(6):
            terminals = derived(chance, usable, chance.randint(2, 4 + 4 * most), most)
            if terminals is not None and least <= len(terminals):
                return placed(chance, terminals)
    return placed(chance, any_terminals(chance, rules, chance.randint(least, most)))


# ---------------------------------------------------------------------- damage

BYTES = b"0123456789 -EAUB\nnx\r\t\0\xff"
FIELDS = [b"", b"-", b"0", b"1", b"2", b"00", b"01", b"007", b"9", b"10", b"63", b"64", b"99"]
FIELDS += [b"100", b"65535", b"65536", b"99999", b"065", b"100000", b"4294967297", b"+1", b"-1"]
FIELDS += [b"00000", b"000000", b"00063", b"0064", b"000001"]
FIELDS += [b"18446744073709551617", b"E", b"A", b"U", b"B", b"C", b"a", b"None", b"off"]
FIELDS += [lay.encode() for lay in ALL_LAYS]
LIMITS = [b"-", b"0", b"1", b"5", b"63", b"64", b"99", b"65535", b"65536"]


def of_bytes(chance, sheet):
    """A byte changed, put in or taken out."""
    at = chance.randrange(len(sheet) + 1)
    byte = bytes([chance.choice(BYTES) if chance.random() < 0.8 else chance.randrange(256)])
    kept = chance.choice([at, at, at + 1])
    return sheet[:at] + chance.choice([byte, byte, b""]) + sheet[kept:]


def of_the_end(chance, sheet):
    """The last byte 10 left out, one too many, or the sheet cut anywhere."""
    cut = sheet[: chance.randrange(len(sheet) + 1)]
    more = sheet + chance.choice([b"\n", b" ", b"0", b"\n\n", b"\0"])
    return chance.choice([sheet[:-1], more, cut])


def of_lines(chance, sheet):
    """A line dropped, doubled, emptied, or two of them swapped."""
    lines = sheet.splitlines(keepends=True) or [b""]
    one, other = chance.randrange(len(lines)), chance.randrange(len(lines))
    way = chance.choice(["drop", "double", "empty", "swap", "swap"])
    if way == "drop":
        del lines[one]
    if way == "double":
        lines.insert(max(one, 1), lines[one])
    if way == "empty":
        lines[one] = b"\n"
    if way == "swap":
        lines[one], lines[other] = lines[other], lines[one]
    return b"".join(lines)


def past_names(chance, lines):
    """The place of a line past the names, if there is one that is ended."""
    return chance.randrange(1, len(lines) - 1) if len(lines) > 2 else 0


def of_fields(chance, sheet):
    """A field replaced, given a leading zero, dropped, doubled or spaced."""
    lines = sheet.split(b"\n")
    at = past_names(chance, lines)
    fields = lines[at].split(b" ")
    one = chance.randrange(len(fields))
    old = fields[one]
    spaced = chance.choice([[b"", old], [old, b""], [], [old, old], [old + b"\r"]])
    fields[one : one + 1] = chance.choice([[chance.choice(FIELDS)], [b"0" + old], spaced])
    lines[at] = b" ".join(fields)
    return b"\n".join(lines)


def of_values(chance, sheet):
    """The last field replaced by a lay, a `-` by a number, or a number by one about a limit."""
    lines = sheet.split(b"\n")
    at = past_names(chance, lines)
    fields = lines[at].split(b" ")
    if len(fields) == 5 and fields[1] == b"A" and chance.random() < 0.2:
        fields[2:4] = [b"%d" % chance.randint(1, 65), b"%d" % chance.randint(0, 9)]
    elif len(fields) == 5 and chance.random() < 0.5:
        fields[4] = chance.choice(ALL_LAYS).encode()
        if chance.random() < 0.5:
            lines.insert(chance.randint(1, max(1, len(lines) - 1)), lines[at])
            at = chance.choice([at, at + 1])
    else:
        numbers = [place for place, field in enumerate(fields) if field.isdigit() or field == b"-"]
        if numbers:
            fields[chance.choice(numbers)] = chance.choice(LIMITS)
    lines[at] = b" ".join(fields)
    return b"\n".join(lines)


def damaged(chance, sheet):
    """The sheet with one damage, now and then with two."""
    while True:
        ways = [of_bytes, of_the_end, of_lines, of_fields, of_values, of_values]
        sheet = chance.choice(ways)(chance, sheet)
        if chance.random() < 0.75:
            return sheet


def junk(chance):
    """No sheet at all."""
    names = [RULE_NAMES, teplonga.TOKEN_NAMES, teplonga.WIDE_NAMES]
    names = chance.choice([b"", b"", b"", *[name + b"\n" for name in names]])
    length = chance.choice([0, 0, 1, 5, 40, 2_000])
    return names + bytes(chance.choice(BYTES) for _ in range(length))


# --------------------------------------------------------------- clause sheets

SUFFIXES = ["", "", "", "", "?", "+", "*", "+:align", "*:align"]


def clause_item(chance, depth, largest):
    """An item; `largest` is the largest nonterminal that is named."""
    way = chance.random()
    if way < 0.5:
        return f"t{chance.choice([0, 0, 1, 2])}" + chance.choice(SUFFIXES)
    if way < 0.75 or depth == 0:
        return f"n{chance.randint(0, largest)}" + chance.choice(SUFFIXES)
    marks = [":offside", ":offalign", ":single"]
    return f"({clause_text(chance, depth - 1, largest)})" + chance.choice(SUFFIXES + marks + marks)


def clause_text(chance, depth, largest):
    """Alternatives of sequences."""
    texts = []
    for _ in range(chance.choice([1, 1, 2, 3])):
        items = [clause_item(chance, depth, largest) for _ in range(chance.choice([1, 1, 2, 2, 3]))]
        text = items[0]
        for item in items[1:]:
            text += chance.choice([" ", " ", " :align: ", " :indent: "]) + item
        texts.append(text)
    return " | ".join(texts)


def clause_sheet(chance):
    """A well-written clause sheet; some have no start, a cycle or too much."""
    largest = chance.choice([0, 1, 1, 2, 3])
    lefts = [0, *(chance.randint(0, largest) for _ in range(chance.choice([0, 1, 1, 2])))]
    if chance.random() < 0.03:
        lefts = [left + 1 for left in lefts]
    lines = [f"{left} {clause_text(chance, chance.choice([0, 1, 1, 2, 4]), largest)}\n" for left in lefts]
    if chance.random() < 0.04:
        depth = chance.choice([15, 16, 17, 18])
        lines.insert(chance.randint(0, len(lines)), f"0 {'(' * depth}t0{')' * depth}\n")
    return ("left clause\n" + "".join(lines)).encode()


def clauses_damaged(chance, sheet):
    """The sheet with a byte or a piece changed, put in or taken out, or any other damage."""
    if chance.random() < 0.3:
        return damaged(chance, sheet)
    pieces = [b" ", b"(", b")", b"?", b":align", b" | ", b" :indent: ", b"n", b"t64", b"0", b"\n", b":single", b"+*"]
    at = chance.randrange(len(sheet) + 1)
    return sheet[:at] + chance.choice(pieces) + sheet[at + chance.choice([0, 0, 1, 2]) :]
