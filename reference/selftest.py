"""Self test of the reference: the worked examples, and second readings.

The second readings (a reader by patterns, trees by growing height, marks as in
the paper's Fig. 2) share no code with the reference.
"""

import itertools
import random
import re
import sys
import time
from collections import Counter

import make_reading
import reading_cases
import teplonga
from teplonga import Grammar, Token

CHECKED = Counter()


def same(topic, got, wanted):
    CHECKED[topic] += 1
    if got != wanted:
        sys.exit(f"{topic}:\n  got    {got!r}\n  wanted {wanted!r}")


def rule_sheet(*lines):
    return b"".join(line.encode() + b"\n" for line in ["left kind first second lay", *lines])


def token_sheet(*tokens):
    """Tokens as (line, column) of terminal 0, or (terminal, line, column)."""
    full = [token if len(token) == 3 else (0, *token) for token in tokens]
    lines = ["term line col"] + ["%d %d %d" % token for token in full]
    return b"".join(line.encode() + b"\n" for line in lines)


def sentence(*positions):
    return [Token(0, line, col) for line, col in positions]


WORDS = [9] * 80


# ------------------------------------------------------- the worked example

EXAMPLE = b"""left kind first second lay
0 B 0 0 none
0 A 0 - none

term line col
0 1 1
0 1 2
0 1 3
"""

EXAMPLE_OUTPUT = b"""answer line
two 0
tree left kind start length
1 0 B 0 3
1 0 A 0 1
1 0 B 1 2
1 0 A 1 1
1 0 A 2 1
2 0 B 0 3
2 0 B 0 2
2 0 A 0 1
2 0 A 1 1
2 0 A 2 1
"""


def worked_example():
    same("worked example", teplonga.check_program(EXAMPLE), EXAMPLE_OUTPUT)
    # Two choices at the top: a left word of length 1, and one of length 2.
    rules, tokens = EXAMPLE.split(b"\n\n")
    grammar = Grammar(teplonga.read_rules(rules + b"\n")[1])
    word = tuple(teplonga.read_tokens(tokens)[1])
    same("worked example", grammar.choices(0, word), [(0, 1), (0, 2)])
    same(
        "worked example",
        teplonga.span_sheet(grammar.rules, word),
        # empty; three of length 1; two of length 2; one of length 3
        [0, 0] + [1, 0] * 3 + [1, 0] * 2 + [1, 1],
    )


# ------------------------------------------------------------------ P1 to P9

def sweep(rules, bound):
    answer, line, found, _, after = teplonga.sweep_call(rules, bound, WORDS)
    need = 2 + bound * (bound + 1)
    same("sweep memory", (line, after), (0, [0] * need + WORDS[need:]))
    return (answer, [(token.line, token.col) for token in found])


def check(rules, *positions):
    return teplonga.verdict_call(rules, token_sheet(*positions), WORDS)[0]


def patches():
    plain = rule_sheet("0 B 0 0 none", "0 A 0 - none")
    same("P1", sweep(plain, 2), ("clear", []))
    same("P1", sweep(plain, 3), ("two", [(1, 1), (1, 2), (1, 3)]))

    align = rule_sheet("0 B 0 0 align", "0 A 0 - none")
    same("P2", sweep(align, 3), ("two", [(1, 1), (2, 1), (3, 1)]))

    indent = rule_sheet("0 B 0 0 indent", "0 A 0 - none")
    same("P3", sweep(indent, 3), ("two", [(1, 1), (2, 2), (3, 3)]))

    empty_side = rule_sheet("0 B 1 1 none", "1 A 0 - none", "1 E - - none")
    same("P4", check(empty_side, (1, 1)), "two")
    grammar = Grammar(teplonga.read_rules(empty_side)[1])
    word = tuple(sentence((1, 1)))
    same("P4", grammar.choices(0, word), [(0, 0), (0, 1)])

    empties = rule_sheet("0 B 1 2 none", "0 U 1 - none", "1 E - - none", "2 E - - none")
    same("P5", check(empties), "two")
    for bound in range(1, 8):
        same("P5", sweep(empties, bound), ("clear", []))

    offside = rule_sheet("0 U 1 - offside", "1 B 2 2 none", "2 A 0 - none")
    same("P6", check(offside, (1, 3), (2, 3)), "none")
    same("P6", check(offside, (1, 3), (2, 4)), "one")

    offalign = rule_sheet("0 U 1 - offalign", "1 B 2 2 none", "2 A 0 - none")
    same("P7", check(offalign, (1, 3), (2, 3)), "one")
    same("P7", check(offalign, (1, 3), (2, 2)), "none")

    indented = rule_sheet("0 B 1 1 indent", "1 A 0 - none")
    same("P8", check(indented, (1, 1), (2, 2)), "one")
    same("P8", check(indented, (1, 1), (3, 2)), "one")
    same("P8", check(indented, (1, 1), (2, 1)), "none")

    single = rule_sheet(
        "0 U 1 - single",
        "1 U 2 - none",
        "1 U 3 - none",
        "2 B 4 4 indent",
        "3 B 4 4 none",
        "4 A 0 - none",
    )
    same("P9", check(single, (1, 1), (2, 2)), "none")
    grammar = Grammar(teplonga.read_rules(single)[1])
    word = tuple(sentence((1, 1), (2, 2)))
    same("P9", [grammar.count(0, word), grammar.count(1, word)], [0, 2])
    same("P9", len(list(grammar.valid_trees(1, word))), 2)


def patches_after_p9():
    same("k = 5", teplonga.sweep_size(7, 5), 4_254_271_875)
    # Two trees of one token, so that a sweep which is taken ends at once.
    short = ["0 U 1 - none", "0 U 2 - none", "1 A 0 - none", "2 A 0 - none"]
    seven = rule_sheet(*short, *[f"3 A {term} - none" for term in range(7)])
    eight = rule_sheet(*short, *[f"3 A {term} - none" for term in range(8)])
    same("k = 5", sweep(seven, 5), ("two", [(1, 1)]))
    same("k = 5", teplonga.sweep_call(eight, 5, WORDS), ("refused-24", 0, [], 0, WORDS))
    token = (Token(0, 1, 1),)
    for rows, answer in (
        (("0 U 0 - none",), "none"),
        (("0 U 0 - none", "0 A 0 - none"), "two"),
        (("0 A 0 - none", "1 U 1 - none"), "one"),
    ):
        reading = teplonga.read_rules(rule_sheet(*rows))
        same("cyclic", teplonga.verdict(reading[1], token), answer)


# ----------------------------------------------------- a reader by patterns

NUMBER = rb"[0-9]{1,5}"
LAY = rb"(?:none|align|indent|offside|offalign|single)"
RULE_FORM = re.compile(
    rb"%(n)s (?:E - -|A %(n)s (?:-|%(n)s)|U %(n)s -|B %(n)s %(n)s) %(lay)s\n"
    % {b"n": NUMBER, b"lay": LAY}
)
TOKEN_FORM = re.compile(rb"%s %s %s\n" % (NUMBER, NUMBER, NUMBER))
WIDE_FORM = re.compile(rb"%s %s %s %s\n" % (NUMBER, NUMBER, NUMBER, NUMBER))
ALLOWED = re.compile(
    rb"\S+ (?:E \S+ \S+ none|A \S+ \S+ none"
    rb"|U \S+ \S+ (?:none|offside|offalign|single)"
    rb"|B \S+ \S+ (?:none|align|indent))\n"
)


def lines_with_ends(sheet):
    return re.findall(rb"[^\n]*\n|[^\n]+", sheet) or [b""]


def unpadded(text):
    """Without the leading zeros of its numbers."""
    return re.sub(rb"(?<![0-9])0+(?=[0-9])", b"", text)


LEAF = re.compile(rb"([0-9]+) A ([0-9]+) (-|[0-9]+) ")


def head_names(line):
    """What refusal 5 compares, a name for each terminal of an A rule."""
    ends = LEAF.match(line)
    if not ends:
        return [unpadded(line).rsplit(b" ", 1)[0]]
    last = ends[2] if ends[3] == b"-" else ends[3]
    return [(int(ends[1]), term) for term in range(int(ends[2]), int(last) + 1)]


def pattern_rules(sheet):
    """Number and line of the first refusal of a rule sheet, or None."""
    lines = lines_with_ends(sheet)
    if lines[0] != b"left kind first second lay\n":
        return (1, 1)
    for at, line in enumerate(lines[1:], start=2):
        if at == 130:
            return (6, at)
        if not RULE_FORM.fullmatch(line):
            return (2, at)
        if max(int(number) for number in re.findall(rb"[0-9]+", line)) > 63:
            return (3, at)
        if not ALLOWED.fullmatch(line):
            return (4, at)
        ends = LEAF.match(line)
        if ends and ends[3] != b"-" and int(ends[3]) < int(ends[2]):
            return (44, at)
        heads = [name for each in lines[1:at] for name in head_names(each)]
        if len(set(heads)) < len(heads):
            return (5, at)
    plain = [unpadded(line) for line in lines[1:]]
    if not any(line.startswith(b"0 ") for line in plain):
        return (7, 0)
    return None


def second_cyclic(rows):
    """The same question by a table of all pairs."""
    null = set()
    for _ in range(65):
        for left, kind, first, second, _lay in rows:
            if kind == "E" or (kind == "U" and first in null):
                null.add(left)
            if kind == "B" and first in null and second in null:
                null.add(left)
    names = [str(number) for number in range(64)]
    chain = {pair: False for pair in itertools.product(names, names)}
    for left, kind, first, second, _lay in rows:
        if kind == "U" or (kind == "B" and second in null):
            chain[left, first] = True
        if kind == "B" and first in null:
            chain[left, second] = True
    used = sorted({name for pair, there in chain.items() if there for name in pair})
    for via, begin, end in itertools.product(used, used, used):
        if chain[begin, via] and chain[via, end]:
            chain[begin, end] = True
    return any(chain[name, name] for name in names)


def pattern_tokens(sheet):
    """Number and line of the first refusal of a token sheet, or None."""
    lines = lines_with_ends(sheet)
    if lines[0] not in (b"term line col\n", b"term line col width\n"):
        return (11, 1)
    wide = b"width" in lines[0]
    before = (0, 0)
    for at, line in enumerate(lines[1:], start=2):
        if at == 66:
            return (14, at)
        if not (WIDE_FORM if wide else TOKEN_FORM).fullmatch(line):
            return (12, at)
        term, row, col, width = map(int, line.split() if wide else [*line.split(), 1])
        if term > 63 or row not in range(1, 65536) or col not in range(1, 65536):
            return (13, at)
        if width not in range(1, 256) or col + width > 65536:
            return (47, at)
        if (row, col) < before:
            return (15, at)
        before = (row, col + width)
    return None


def refusal_of(reading):
    return reading[1:] if reading[0] == "refused" else None


def readers():
    cases = list(reading_cases.cases())
    numbers = set()
    for rules, tokens in cases:
        read_rules = teplonga.read_rules(rules)
        read_tokens = teplonga.read_tokens(tokens)
        same("reading", refusal_of(read_rules), pattern_rules(rules))
        same("reading", refusal_of(read_tokens), pattern_tokens(tokens))
        numbers |= {each[1] for each in (read_rules, read_tokens) if each[0] == "refused"}
        if read_rules[0] == "accepted":
            written = [teplonga.rule_line(rule) for rule in read_rules[1]]
            plain = re.sub(rb"A ([0-9]+) \1 ", rb"A \1 - ", unpadded(rules))
            same("reading", plain.split(b"\n")[1:-1], written)
        if read_tokens[0] == "accepted":
            wide = tokens.startswith(teplonga.WIDE_NAMES)
            line_of = make_reading.wide_line if wide else teplonga.token_line
            written = [line_of(token) for token in read_tokens[1]]
            same("reading", unpadded(tokens).split(b"\n")[1:-1], written)
        same("refused line", teplonga.refused_line(rules, tokens), second_line(rules, tokens))
    same("reading", numbers, {1, 2, 3, 4, 5, 6, 7, 11, 12, 13, 14, 15, 44, 47})
    same("reading", len(cases) <= 300, True)
    same("reading", len(make_reading.all_input()) <= 60_000, True)
    for each in reading_cases.refused_rule_sheets():
        same("reading", teplonga.read_rules(each)[0], "refused")
    for each in reading_cases.accepted_rule_sheets():
        same("reading", teplonga.read_rules(each)[0], "accepted")
    for each in reading_cases.refused_token_sheets():
        same("reading", teplonga.read_tokens(each)[0], "refused")
    for each in reading_cases.accepted_token_sheets():
        same("reading", teplonga.read_tokens(each)[0], "accepted")


def second_line(rules, tokens):
    for sheet, refusal in ((rules, pattern_rules(rules)), (tokens, pattern_tokens(tokens))):
        if refusal is not None:
            number = refusal[1]
            return sheet.split(b"\n")[number - 1] if number else b""
    return b""


# ------------------------------------------------ trees by growing height

def second_mark(lay, *words):
    """The paper's Fig. 2; tokens are (terminal, line, column)."""
    if lay == "none" or any(word == () for word in words):
        return True
    if lay == "align":
        return words[0][0][2] == words[1][0][2]
    if lay == "indent":
        (*_, (_, last_line, _)), ((_, line, col), *_) = words
        return col > words[0][0][2] and line > last_line
    ((_, line0, col0), *_) = words[0]
    if lay == "offside":
        return all(line <= line0 or col > col0 for _, line, col in words[0])
    if lay == "offalign":
        return all(line <= line0 or col >= col0 for _, line, col in words[0])
    return {line for _, line, _ in words[0]} == {line0}


def top_trees(rule, tokens, begin, end, lower):
    """Valid trees whose top follows the rule, over the lower trees given."""
    left, kind, first, second, lay = rule
    if kind == "E" and begin == end:
        yield ("empty", left)
    last = first if second is None else second
    if kind == "A" and end == begin + 1 and first <= tokens[begin][0] <= last:
        yield ("leaf", left, tokens[begin])
    if kind == "U" and second_mark(lay, tokens[begin:end]):
        for tree in lower.get((first, begin, end), ()):
            yield ("unary", left, tree)
    if kind == "B":
        for cut in range(begin, end + 1):
            if second_mark(lay, tokens[begin:cut], tokens[cut:end]):
                lefts = lower.get((first, begin, cut), ())
                rights = lower.get((second, cut, end), ())
                for one, other in itertools.product(lefts, rights):
                    yield ("binary", left, one, other)


def all_trees(rules, tokens, most_height):
    """All valid trees up to a height, by (nonterminal, begin, end).

    None where there are too many to list.
    """
    length = len(tokens)
    table = {}
    for _ in range(most_height):
        grown = {}
        for rule in rules:
            for begin in range(length + 1):
                for end in range(begin, length + 1):
                    trees = set(top_trees(rule, tokens, begin, end, table))
                    grown.setdefault((rule[0], begin, end), set()).update(trees)
                    if len(grown[rule[0], begin, end]) > 400:
                        return None
        if grown == table:
            return table
        table = grown
    assert second_cyclic([[str(field) for field in rule] for rule in rules]), "still growing, though the sheet is not cyclic"
    return table


def length_of(tree):
    if tree[0] == "empty":
        return 0
    if tree[0] == "leaf":
        return 1
    return sum(length_of(child) for child in tree[2:])


def top_choice(rules, tree):
    """(the rule's place, left length) at the top of a valid tree."""
    kind = {"empty": "E", "leaf": "A", "unary": "U", "binary": "B"}[tree[0]]
    below = [None, None]
    if kind in "UB":
        below = [child[1] for child in tree[2:]] + [None] * (4 - len(tree))

    def tops(rule):
        if kind == "A":
            first, last = rule[2], rule[2] if rule[3] is None else rule[3]
            return rule[:2] == (tree[1], kind) and tree[2][0] in range(first, last + 1)
        return rule[:4] == (tree[1], kind, *below)

    (place,) = [at for at, rule in enumerate(rules) if tops(rule)]
    return (place, length_of(tree[2]) if kind == "B" else 0)


def walk_choices(rules, tree):
    """The choices of all nodes in walking order."""
    listed = [top_choice(rules, tree)]
    if tree[0] in ("unary", "binary"):
        for child in tree[2:]:
            listed += walk_choices(rules, child)
    return listed


def agreement(one, other):
    """At how many nodes two walks agree before they part."""
    return next(at for at, (a, b) in enumerate(zip(one, other)) if a != b)


def first_and_second(rules, trees):
    """The two trees of an answer, picked out of all of them.

    First: the least by the choices in walking order.  Second: of the others,
    those that leave the first tree at the earliest node, and of these the
    least.
    """
    walks = sorted((walk_choices(rules, tree), tree) for tree in trees)
    if not walks:
        return (None, None)
    first, others = walks[0], walks[1:]
    if not others:
        return (first[1], None)
    second = min((agreement(first[0], walk), walk, tree) for walk, tree in others)
    return (first[1], second[2])


def second_rows(tree, start=0):
    length = length_of(tree)
    kind = ("empty", "leaf", "unary", "binary").index(tree[0])
    rows = bytes([tree[1], kind, start if length else 0, length])
    if kind >= 2:
        for child in tree[2:]:
            rows += second_rows(child, start)
            start += length_of(child)
    return rows


def nested(tree):
    """A tree of the reference, in the form used here."""
    if tree.kind == "E":
        return ("empty", tree.nonterminal)
    if tree.kind == "A":
        return ("leaf", tree.nonterminal, tuple(tree.word[0][:3]))
    kind = "unary" if tree.kind == "U" else "binary"
    return (kind, tree.nonterminal, *[nested(child) for child in tree.children])


# ------------------------------------------------------ random tiny grammars

MARKS = {"U": ("offside", "offalign", "single"), "B": ("align", "indent")}


def random_rule(draw, nonterminals):
    left = draw.randrange(nonterminals)
    kind = draw.choice("EAAUUBBB")
    first = second = None
    if kind == "A":
        first = draw.choice((0, 0, 1))
        second = draw.choice((None, None, first, 1))
    if kind in "UB":
        first = draw.randrange(nonterminals)
    if kind == "B":
        second = draw.randrange(nonterminals)
    lay = draw.choice(("none", *MARKS.get(kind, ("none",))))
    return (left, kind, first, second, lay)


def random_rules(draw):
    nonterminals = draw.randrange(1, 5)
    by_head = {}
    for _ in range(draw.randrange(2, 11)):
        rule = random_rule(draw, nonterminals)
        by_head.setdefault(rule[:4], rule)
    return list(by_head.values())


def random_tokens(draw, most):
    line, col, listed = 1, 0, []
    for _ in range(draw.randrange(most + 1)):
        step = draw.choice((0, 0, 1, 1, 2))
        line, col = line + step, draw.randrange(1, 4) + (0 if step else col)
        listed.append((draw.choice((0, 0, 1)), line, col))
    return tuple(listed)


def sheet_of(rules):
    return rule_sheet(
        *[" ".join("-" if field is None else str(field) for field in rule) for rule in rules]
    )


def trees_of_grammar(draw, rules, tokens, table):
    """Everything about one sentence, against the list of all its trees."""
    grammar = Grammar(teplonga.read_rules(sheet_of(rules))[1])
    words = []
    for start, length in teplonga.spans(len(tokens)):
        word = tuple(Token(*token) for token in tokens[start : start + length])
        pair = [0, 0]
        for nonterminal in (0, 1, 2, 3, 63):
            trees = table.get((nonterminal, start, start + length), set())
            listed = list(grammar.valid_trees(nonterminal, word))
            same("valid trees", {nested(tree) for tree in listed}, trees)
            same("valid trees", len(listed), len(trees))
            for tree in listed:
                same("valid trees", teplonga.is_valid(grammar.rules, tree), True)
            same("count", grammar.count(nonterminal, word), min(2, len(trees)))
            same(
                "choices",
                grammar.choices(nonterminal, word),
                sorted({top_choice(rules, tree) for tree in trees}),
            )
            pair[0] |= (len(trees) >= 1) << nonterminal
            pair[1] |= (len(trees) >= 2) << nonterminal
        words += pair
    trees = table.get((0, 0, len(tokens)), set())
    first, second = first_and_second(rules, trees)
    trees_answer(draw, rules, tokens, words, first, second)
    return min(2, len(trees))


def trees_answer(draw, rules, tokens, sheet, first, second):
    """The calls on one sentence, each lent word and byte."""
    rows = [b"" if tree is None else second_rows(tree) for tree in (first, second)]
    sizes = [draw.choice((250, len(each), max(0, len(each) - 1))) for each in rows]
    lent = [b"\x07" * size for size in sizes]
    words = [5] * (len(sheet) + draw.randrange(3))
    after = sheet + words[len(sheet) :]
    answer = ("none", "one", "two")[(first is not None) + (second is not None)]
    if all(len(each) <= size for each, size in zip(rows, sizes)):
        written = [each + bytes(size - len(each)) for each, size in zip(rows, sizes)]
        counts = [len(each) // 4 for each in rows]
        wanted = (answer, 0, *counts, after, *written)
    else:
        wanted = ("refused-22", 0, 0, 0, after, *[bytes(size) for size in sizes])
    sheets = (sheet_of(rules), token_sheet(*tokens))
    same("trees call", teplonga.trees_call(*sheets, words, *lent), wanted)
    same("verdict call", teplonga.verdict_call(*sheets, words), (answer, 0, after))
    short = words[: len(sheet) - 1]
    refused = ("refused-21", 0, 0, 0, short, *lent)
    same("trees call", teplonga.trees_call(*sheets, short, *lent), refused)


def random_sentences(draw, rules):
    """Sentences with all their trees: the empty one, and more with than without.

    None where there are too many trees to list.
    """
    with_trees, without = [], []
    for tokens in [(), *[random_tokens(draw, 4) for _ in range(20)]]:
        # Not cyclic: a chain takes each of four nonterminals once at each length.
        table = all_trees(rules, tokens, 4 * (len(tokens) + 1) + 1)
        if table is None:
            return None
        kept = with_trees if table.get((0, 0, len(tokens))) else without
        kept.append((tokens, table))
    return with_trees[:6] + without[:2]


def height_of(tree):
    return 1 + max((height_of(child) for child in tree[2:]), default=0) if tree[0] in ("unary", "binary") else 1


def looping_trees(rules, tokens, table):
    """A looping sheet, against its trees up to a height: all low ones are there."""
    grammar = Grammar(read_anyway(rules))
    for start, length in teplonga.spans(len(tokens)):
        word = tuple(Token(*token) for token in tokens[start : start + length])
        for nonterminal in (0, 1, 2, 3, 63):
            trees = table.get((nonterminal, start, start + length), set())
            same("looping count", grammar.count(nonterminal, word), min(2, len(trees)))
            if not trees:
                continue
            lowest = min(map(height_of, trees))
            same("least height", grammar.least_heights(word)[nonterminal], lowest)
            first = nested(grammar.first_tree(nonterminal, word))
            same("lowest tree", height_of(first), lowest)
            tops = sorted({top_choice(rules, tree) for tree in trees})
            low = sorted({top_choice(rules, tree) for tree in trees if height_of(tree) == lowest})
            same("low choice", top_choice(rules, first), low[0])
            if len(tops) >= 2:
                second = nested(grammar.second_tree(nonterminal, word))
                same("other choice", top_choice(rules, second), min(set(tops) - {low[0]}))


def random_grammars(wanted):
    seen = Counter()
    seed = 0
    while seen["grammars"] < wanted:
        seed += 1
        draw = random.Random(seed)
        rules = random_rules(draw)
        rows = [line.decode().split() for line in sheet_of(rules).splitlines()[1:]]
        reading = teplonga.read_rules(sheet_of(rules))
        same("random sheets", refusal_of(reading), pattern_rules(sheet_of(rules)))
        same("random sheets", teplonga.cyclic(read_anyway(rules)), second_cyclic(rows))
        if reading[0] == "refused":
            seen[f"refused-{reading[1]}"] += 1
            continue
        sentences = random_sentences(draw, rules)
        if sentences is None:
            seen["too many trees"] += 1
            continue
        if second_cyclic(rows):
            for tokens, table in sentences:
                looping_trees(rules, tokens, table)
            seen["looping"] += 1
            continue
        for tokens, table in sentences:
            count = trees_of_grammar(draw, rules, tokens, table)
            seen[("none", "one", "two")[count]] += 1
        seen[sweep_of_grammar(rules)] += 1
        seen["grammars"] += 1
    return seen


def read_anyway(rules):
    return [teplonga.Rule(*rule) for rule in rules]


# ------------------------------------------------------------------ the sweep

def second_candidates(terminals, length):
    """All sequences of (terminal, line step, column), sifted and sorted."""
    steps = list(itertools.product(terminals, range(3), range(1, length + 1)))
    kept = []
    for sequence in itertools.product(steps, repeat=length):
        line, tokens = 1, []
        for term, step, col in sequence:
            line += step
            tokens.append((term, line, col))
        positions = itertools.pairwise([token[1:] for token in tokens])
        rising = all(before < after for before, after in positions)
        if sequence[0][1] == 0 and rising:
            kept.append((sequence, tuple(tokens)))
    return [tokens for _, tokens in sorted(kept)]


def candidate_order():
    for terminals, most in (([0], 4), ([2, 5], 3), ([], 2), ([63, 0, 7], 2)):
        for length in range(1, most + 1):
            got = [
                tuple(tuple(token[:3]) for token in each)
                for each in teplonga.candidates(terminals, length)
            ]
            same("candidates", got, second_candidates(terminals, length))


CANDIDATES = {
    (terminals, length): second_candidates(terminals, length)
    for terminals in ((), (0,), (1,), (0, 1))
    for length in (1, 2, 3)
}


def second_sweep(rules, terminals, bound):
    """The first candidate with two trees, by listing all trees; None for clear."""
    for length in range(1, bound + 1):
        for tokens in CANDIDATES[terminals, length]:
            table = all_trees(rules, tokens, 4 * (length + 1) + 1)
            if len(table.get((0, 0, length), ())) >= 2:
                return tokens
    return None


def second_tried(rules, terminals, bound, found):
    """The candidates tried, counted one by one; a length is possible if some word of it has a tree under the rules without marks."""
    plain = [(*rule[:4], "none") for rule in rules]
    count = 0
    for length in range(1, bound + 1):
        words = (
            [(term, 1, col) for col, term in enumerate(terms, 1)]
            for terms in itertools.product(terminals, repeat=length)
        )
        possible = any(Grammar(read_anyway(plain)).count(0, tuple(Token(*token) for token in word)) for word in words)
        for tokens in CANDIDATES[terminals, length] if possible else ():
            count += 1
            if tokens == found:
                return count
    return count


def candidate_counts():
    """Each candidate's number by the formula, and how many there are."""
    for terminals, most in (([0], 4), ([2, 5], 3), ([], 2), ([63, 0, 7], 2)):
        for length in range(1, most + 1):
            listed = list(teplonga.candidates(terminals, length))
            same("candidate counts", teplonga.candidate_count(len(terminals), length), len(listed))
            got = [teplonga.candidates_before(sorted(terminals), each) for each in listed]
            same("candidate counts", got, list(range(len(listed))))


def sweep_of_grammar(rules):
    """A sweep with bound 3 (2 where there are two terminals)."""
    ends = [(rule[2], rule[2] if rule[3] is None else rule[3]) for rule in rules if rule[1] == "A"]
    terminals = tuple(term for term in range(64) if any(a <= term <= b for a, b in ends))
    bound = 2 if len(terminals) == 2 else 3
    found = second_sweep(rules, terminals, bound)
    answer = "clear" if found is None else "two"
    tokens = [Token(*token) for token in found or ()]
    need = 2 + bound * (bound + 1)
    got = teplonga.sweep_call(sheet_of(rules), bound, [3] * (need + 1))
    count = second_tried(rules, terminals, bound, found)
    same("random sweeps", got, (answer, 0, tokens, count, [0] * need + [3]))
    return f"{answer} in a sweep"


# ------------------------------------------------------ refusals of the calls

def call_refusals():
    rules, tokens = rule_sheet("0 B 0 0 none", "0 A 0 - none"), token_sheet((1, 1), (1, 2), (1, 3))
    words, lent = [8] * 20, b"\x09" * 30
    # Rule sheet, token sheet, words, rows: in this order.
    calls = (
        ((b"", b"", [], b"", b""), "refused-1", 1),
        ((rules, b"", [], b"", b""), "refused-11", 1),
        ((rules, tokens, words[:13], b"", b""), "refused-21", 0),
    )
    for (rule, token, memory, first, second), answer, line in calls:
        unchanged = (answer, line, 0, 0, memory, first, second)
        same("refused calls", teplonga.trees_call(rule, token, memory, first, second), unchanged)
        unchanged = (answer, line, memory)
        same("refused calls", teplonga.verdict_call(rule, token, memory), unchanged)
    filled = [0, 0] + [1, 0] * 5 + [1, 1] + [8] * 6
    first = bytes([0, 3, 0, 3, 0, 1, 0, 1, 0, 3, 1, 2, 0, 1, 1, 1, 0, 1, 2, 1])
    second = bytes([0, 3, 0, 3, 0, 3, 0, 2, 0, 1, 0, 1, 0, 1, 1, 1, 0, 1, 2, 1])
    wanted = ("two", 0, 5, 5, filled, first + bytes(10), second + bytes(3))
    same("refused calls", teplonga.trees_call(rules, tokens, words, lent, lent[:23]), wanted)
    for sizes in ((30, 19), (19, 30), (0, 0), (20, 3)):
        one, other = lent[: sizes[0]], lent[: sizes[1]]
        wanted = ("refused-22", 0, 0, 0, filled, bytes(sizes[0]), bytes(sizes[1]))
        same("refused calls", teplonga.trees_call(rules, tokens, words, one, other), wanted)
    # On `one` the second memory is 0 and needs no place; on `none` neither.
    one = (token_sheet((1, 1)), "one", 1, first[4:8] + bytes(2))
    none = (token_sheet((1, 1, 1)), "none", 0, bytes(6))
    for sheet, answer, count, written in (one, none):
        got = teplonga.trees_call(rules, sheet, words, lent[:6], lent[:2])
        same("refused calls", (*got[:4], *got[5:]), (answer, 0, count, 0, written, bytes(2)))
    # The sweep: rule sheet, 23, 24, 21.
    many = rule_sheet(*[f"0 A {term} - none" for term in range(64)])
    for sheet, bound, memory, answer, line in (
        (b"x\n", 0, [], "refused-1", 1),
        (rule_sheet("1 A 0 - none"), 8, [], "refused-7", 0),
        (rule_sheet("0 A 0 - none", "0 A 0 - align"), 8, [], "refused-4", 3),
        (rules, 0, [], "refused-23", 0),
        (many, 8, [], "refused-23", 0),
        (many, 7, [], "refused-24", 0),
        (many, 4, [], "refused-24", 0),
        (many, 3, [], "refused-21", 0),
        (rules, 3, [8] * 13, "refused-21", 0),
    ):
        got = teplonga.sweep_call(sheet, bound, memory)
        same("refused calls", got, (answer, line, [], 0, memory))
    same("refused calls", teplonga.token_places([]), [(0, 0, 0)] * 7)
    same("refused calls", teplonga.token_places([Token(4, 1, 2)])[:2], [(4, 1, 2), (0, 0, 0)])


def large_trees():
    """Trees of the empty word that double at each level."""
    names = token_sheet()
    for levels in (3, 11, 12, 63):
        lines = [f"{each} B {each + 1} {each + 1} none" for each in range(levels)]
        lines.append(f"{levels} E - - none")
        rows = 2 ** (levels + 1) - 1
        sheets = (rule_sheet(*lines), names)
        size = 4 * 4_096
        answer, line, count, *_ = teplonga.trees_call(*sheets, [1, 1], bytes(size), b"")
        wanted = ("one", 0, rows) if rows <= 4_096 else ("refused-22", 0, 0)
        same("large trees", (answer, line, count), wanted)
        grammar = Grammar(teplonga.read_rules(sheets[0])[1])
        same("large trees", grammar.first_tree(0, ()).rows, rows)
        same("large trees", grammar.second_tree(0, ()), None)
    # Two trees at the lowest level: only the leftmost lowest node differs.
    lines = [f"{each} B {each + 1} {each + 1} none" for each in range(62)]
    lines += ["62 E - - none", "62 U 63 - none", "63 E - - none"]
    grammar = Grammar(teplonga.read_rules(rule_sheet(*lines))[1])
    same("large trees", grammar.first_tree(0, ()).rows, 2**63 - 1)
    same("large trees", grammar.second_tree(0, ()).rows, 2**63)
    same("large trees", grammar.count(0, ()), 2)


# --------------------------------------------------------------- the programs

def programs():
    rules = "left kind first second lay\n0 B 0 0 none\n0 A 0 - none\n"
    out = "answer line\n{} {}\n"

    def check(text, answer, line=0, more=""):
        data = text.encode()
        got = teplonga.check_program(data)
        same("check program", got, (out.format(answer, line) + more).encode())

    def sweep(text, answer, line=0, more=""):
        data = text.encode()
        got = teplonga.sweep_program(data)
        same("sweep program", got, (out.format(answer, line) + more).encode())

    check("", "refused-32")
    check("\n", "refused-1", 1)
    check("x\n\n", "refused-1", 1)
    check(rules, "refused-32")
    check(rules.replace("\n", "\r\n") + "\r\nterm line col\r\n", "refused-32")
    check(rules + "\n", "refused-11", 1)
    check(rules + "\n\nterm line col\n", "refused-11", 1)
    check(rules + "\nterm line col\n", "none")
    check(rules + "\nterm line col\n0 1 1", "refused-12", 2)
    check(rules + "\nterm line col\n0 1 1\n\n", "refused-12", 3)
    check(rules + "0 A 0 - align\n\n", "refused-4", 4)
    rows = "tree left kind start length\n1 0 A 0 1\n"
    check(rules + "\nterm line col\n0 1 1\n", "one", 0, rows)
    fill = 16_384 - len(rules) - 1
    check(rules + "\n" + "x" * fill, "refused-11", 1)
    check(rules + "\n" + "x" * (fill + 1), "refused-31")
    check("x" * 16_385, "refused-31")
    check("x" * 16_384, "refused-32")
    empties = "0 B 1 2 none\n0 U 1 - none\n1 E - - none\n2 E - - none\n"
    rows = "tree left kind start length\n"
    rows += "1 0 B 0 0\n1 1 E 0 0\n1 2 E 0 0\n2 0 U 0 0\n2 1 E 0 0\n"
    check("left kind first second lay\n" + empties + "\nterm line col\n", "two", 0, rows)
    # Empty words have start 0 wherever they stand.
    trailing = "0 B 1 2 none\n1 A 0 - none\n2 E - - none\n"
    rows = "tree left kind start length\n1 0 B 0 1\n1 1 A 0 1\n1 2 E 0 0\n"
    check("left kind first second lay\n" + trailing + "\nterm line col\n0 1 1\n", "one", 0, rows)
    lines = "".join(f"{each} B {each + 1} {each + 1} none\n" for each in range(12))
    doubled = "left kind first second lay\n" + lines + "12 E - - none\n\nterm line col\n"
    check(doubled, "refused-22")

    sweep("", "refused-32")
    sweep("\n" + rules, "refused-32")
    sweep("bound\n\n" + rules, "refused-32")
    sweep("bound\n3\n" + rules, "refused-32")
    sweep("bound\n3\n4\n\n" + rules, "refused-32")
    sweep("Bound\n3\n\n" + rules, "refused-32")
    for written in ("000003", "000000", "", " 3", "3 ", "-1", "x", "3\r"):
        sweep(f"bound\n{written}\n\n" + rules, "refused-32")
    for written in ("0", "8", "99", "00000", "00008", "00100"):
        sweep(f"bound\n{written}\n\n" + rules, "refused-23")
        sweep(f"bound\n{written}\n\n" + rules[:-1], "refused-2", 3)
    sweep("bound\n3\n\n", "refused-1", 1)
    sweep("bound\n3\n\n" + rules + "\n", "refused-2", 4)
    sweep("bound\n2\n\n" + rules, "clear")
    sweep("bound\n00002\n\n" + rules, "clear")
    sweep("bound\n3\n\n" + rules, "two", 0, "term line col\n0 1 1\n0 1 2\n0 1 3\n")
    sweep("bound\n7\n\n" + rules + "x" * 16_384, "refused-31")


# ----------------------------------------------------------------------- main

def main():
    begun = time.time()
    worked_example()
    patches()
    patches_after_p9()
    readers()
    candidate_order()
    candidate_counts()
    call_refusals()
    large_trees()
    programs()
    seen = random_grammars(300)
    for topic, count in CHECKED.items():
        print(f"{topic}: {count}")
    print("random grammars:", ", ".join(f"{name} {count}" for name, count in seen.items()))
    print(f"all {sum(CHECKED.values())} checks pass, {time.time() - begun:.0f} s")


if __name__ == "__main__":
    main()
