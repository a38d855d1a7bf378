"""Reference for document 01: rule sheets, token sheets and their trees.

Naive on purpose.  Each function states a rule of docs/FORMAT.md, or a
definition of the paper (sections 3 and 4) that the rules rest on.
Bytes go in, plain Python values come out; no lent memory is changed in place,
its later state is returned.
"""

import sys
from typing import NamedTuple, Optional

# A chain of nodes takes at most 64 nonterminals at each length 64, 63, ..., 0.
sys.setrecursionlimit(20_000)


# ---------------------------------------------------------------- the sheets

RULE_NAMES = b"left kind first second lay"
TOKEN_NAMES = b"term line col"
WIDE_NAMES = b"term line col width"
MOST_RULES = 128
MOST_TOKENS = 64
NONTERMINALS = range(64)
START = 0

# "lay may be", by kind.
LAYS = {
    "E": ("none",),
    "A": ("none",),
    "U": ("none", "offside", "offalign", "single"),
    "B": ("none", "align", "indent"),
}
ALL_LAYS = ("none", "align", "indent", "offside", "offalign", "single")

# By kind: does a number stand in `first`, does one stand in `second`?  In an A
# rule either may.
NUMBERED = {
    "E": (False, False),
    "A": (True, None),
    "U": (True, False),
    "B": (True, True),
}


class Rule(NamedTuple):
    left: int
    kind: str
    first: Optional[int]
    second: Optional[int]
    lay: str


class Token(NamedTuple):
    term: int
    line: int
    col: int
    width: int = 1


def sheet_lines(sheet):
    """The lines of a sheet, each with whether it ends with byte 10.

    "bytes after the last byte 10 are a line not so ended, and a sheet of no
    bytes has an empty line 1."
    """
    *ended, rest = sheet.split(b"\n")
    lines = [(line, True) for line in ended]
    if rest != b"" or sheet == b"":
        lines.append((rest, False))
    return lines


def fields(line):
    """"Fields are parted by exactly one blank." """
    return line.split(b" ")


def is_number(field):
    """Request 1: "one to five digits with leading zeros" """
    digits_only = all(byte in b"0123456789" for byte in field)
    return digits_only and 1 <= len(field) <= 5


def refused(number, line):
    return ("refused", number, line)


# ------------------------------------------------------- reading a rule sheet

def number_or_dash(field, numbered):
    """(well written, value): a number where one belongs, else `-`."""
    if numbered is None:
        numbered = field != b"-"
    if numbered:
        if is_number(field):
            return True, int(field)
        return False, None
    return field == b"-", None


def rule_of_line(line, ended):
    """The rule a line writes, or None where refusal 2 is due."""
    parts = fields(line)
    if not ended or len(parts) != 5:
        return None
    left, kind, first, second, lay = parts
    kind = kind.decode("latin-1")
    lay = lay.decode("latin-1")
    if kind not in LAYS or lay not in ALL_LAYS:
        return None
    left_well, left = number_or_dash(left, True)
    first_well, first = number_or_dash(first, NUMBERED[kind][0])
    second_well, second = number_or_dash(second, NUMBERED[kind][1])
    if not (left_well and first_well and second_well):
        return None
    return Rule(left, kind, first, second, lay)


def numbers_of(rule):
    return [n for n in (rule.left, rule.first, rule.second) if n is not None]


def terminals_covered(rule):
    """Request 5: "every terminal from `first` to `second`, both included; `-`
    means `first` alone" """
    last = rule.first if rule.second is None else rule.second
    return range(rule.first, last + 1)


def clashes(one, other):
    """"the same left, kind, first and second, under any lay"; for A rules
    "of the same left shares any terminal" """
    if one.kind == "A" and other.kind == "A":
        shared = set(terminals_covered(one)) & set(terminals_covered(other))
        return one.left == other.left and bool(shared)
    return one[:4] == other[:4]


def rule_line_refusal(line, ended, earlier):
    """The refusal of one rule line in the order 6, 2, 3, 4, 44, 5, or None."""
    if len(earlier) == MOST_RULES:
        return 6
    rule = rule_of_line(line, ended)
    if rule is None:
        return 2
    if any(number > 63 for number in numbers_of(rule)):
        return 3
    if rule.lay not in LAYS[rule.kind]:
        return 4
    if rule.kind == "A" and len(terminals_covered(rule)) == 0:
        return 44
    if any(clashes(rule, other) for other in earlier):
        return 5
    return None


def read_rules(sheet):
    """("refused", number, line) or ("accepted", rules), by the table of refusals."""
    lines = sheet_lines(sheet)
    if lines[0] != (RULE_NAMES, True):
        return refused(1, 1)
    rules = []
    for number, (line, ended) in enumerate(lines[1:], start=2):
        refusal = rule_line_refusal(line, ended, rules)
        if refusal is not None:
            return refused(refusal, number)
        rules.append(rule_of_line(line, ended))
    if all(rule.left != START for rule in rules):
        return refused(7, 0)
    return ("accepted", rules)


def rule_line(rule):
    """A rule, written as in a rule sheet, without byte 10.

    An A rule of one terminal is written with `-`.
    """
    first = "-" if rule.first is None else str(rule.first)
    alone = rule.second is None or (rule.kind == "A" and rule.second == rule.first)
    second = "-" if alone else str(rule.second)
    return f"{rule.left} {rule.kind} {first} {second} {rule.lay}".encode()


# ------------------------------------------------------ reading a token sheet

def token_of_line(line, ended, wide):
    """The token a line writes, or None where refusal 12 is due.

    wide: the names have `width`, and the line four numbers.
    """
    parts = fields(line)
    if not ended or len(parts) != (4 if wide else 3):
        return None
    if not all(is_number(part) for part in parts):
        return None
    return Token(*map(int, parts))


def in_range(token):
    """"terminal above 63, line or column 0 or above 65,535" is refused."""
    return (
        token.term <= 63
        and 1 <= token.line <= 65_535
        and 1 <= token.col <= 65_535
    )


def width_fits(token):
    """"width 1 to 255, column plus width at most 65,536" """
    return 1 <= token.width <= 255 and token.col + token.width <= 65_536


def comes_after(token, before):
    """A later line; "on one line a token must begin at or after the column plus
    width of the one before" """
    if token.line > before.line:
        return True
    return token.line == before.line and token.col >= before.col + before.width


def token_line_refusal(line, ended, earlier, wide):
    """The refusal of one token line in the order 14, 12, 13, 47, 15, or None."""
    if len(earlier) == MOST_TOKENS:
        return 14
    token = token_of_line(line, ended, wide)
    if token is None:
        return 12
    if not in_range(token):
        return 13
    if not width_fits(token):
        return 47
    if earlier and not comes_after(token, earlier[-1]):
        return 15
    return None


def read_tokens(sheet):
    """("refused", number, line) or ("accepted", tokens), by the table of refusals."""
    lines = sheet_lines(sheet)
    if lines[0] not in ((TOKEN_NAMES, True), (WIDE_NAMES, True)):
        return refused(11, 1)
    wide = lines[0][0] == WIDE_NAMES
    tokens = []
    for number, (line, ended) in enumerate(lines[1:], start=2):
        refusal = token_line_refusal(line, ended, tokens, wide)
        if refusal is not None:
            return refused(refusal, number)
        tokens.append(token_of_line(line, ended, wide))
    return ("accepted", tokens)


def token_line(token):
    """A token, written as in a token sheet without widths, without byte 10."""
    return f"{token.term} {token.line} {token.col}".encode()


def token_sheet(tokens):
    lines = [TOKEN_NAMES] + [token_line(token) for token in tokens]
    return b"".join(line + b"\n" for line in lines)


# ------------------------------------------------------------ the refused line

def refused_place(rules, tokens):
    """(sheet, offset, length) of the refused line in the sheet that holds it.

    "with no such line, the first zero bytes of the rule sheet."
    """
    for name, sheet, read in (
        ("rules", rules, read_rules),
        ("tokens", tokens, read_tokens),
    ):
        reading = read(sheet)
        if reading[0] == "refused":
            line = reading[2]
            if line == 0:
                return ("rules", 0, 0)
            before = sheet_lines(sheet)[: line - 1]
            offset = sum(len(text) + 1 for text, _ in before)
            return (name, offset, len(sheet_lines(sheet)[line - 1][0]))
    return ("rules", 0, 0)


def refused_line(rules, tokens):
    """"the refused line itself, without its byte 10" """
    name, offset, length = refused_place(rules, tokens)
    sheet = rules if name == "rules" else tokens
    return sheet[offset : offset + length]


# --------------------------------------------------------------- layout marks

def mark_of_one(lay, word):
    """A mark of a U rule; a word is a tuple of tokens."""
    if len(word) == 0 or lay == "none":
        return True
    first = word[0]
    later = [token for token in word if token.line > first.line]
    if lay == "offside":
        return all(token.col > first.col for token in later)
    if lay == "offalign":
        return all(token.col >= first.col for token in later)
    assert lay == "single"
    return all(token.line == first.line for token in word)


def mark_of_two(lay, left, right):
    """A mark of a B rule."""
    if len(left) == 0 or len(right) == 0 or lay == "none":
        return True
    if lay == "align":
        return left[0].col == right[0].col
    assert lay == "indent"
    return right[0].col > left[0].col and right[0].line > left[-1].line


# ---------------------------------------------------------------------- trees

class Tree(NamedTuple):
    """A node with its nonterminal (root), the word below it and its children.

    `rows` is the number of nodes.  Equal subtrees may be shared, so a tree
    can have far more rows than objects.
    """
    nonterminal: int
    kind: str
    word: tuple
    children: tuple
    rows: int


def empty(nonterminal):
    return Tree(nonterminal, "E", (), (), 1)


def leaf(nonterminal, token):
    return Tree(nonterminal, "A", (token,), (), 1)


def unary(nonterminal, child):
    return Tree(nonterminal, "U", child.word, (child,), 1 + child.rows)


def binary(nonterminal, left, right):
    word = left.word + right.word
    rows = 1 + left.rows + right.rows
    return Tree(nonterminal, "B", word, (left, right), rows)


def node_follows(rule, tree):
    """Does the top node follow this rule, and does the rule's mark hold?"""
    if (rule.left, rule.kind) != (tree.nonterminal, tree.kind):
        return False
    if rule.kind == "E":
        return True
    if rule.kind == "A":
        return tree.word[0].term in terminals_covered(rule)
    if rule.kind == "U":
        (child,) = tree.children
        if child.nonterminal != rule.first:
            return False
        return mark_of_one(rule.lay, child.word)
    left, right = tree.children
    if (left.nonterminal, right.nonterminal) != (rule.first, rule.second):
        return False
    return mark_of_two(rule.lay, left.word, right.word)


def is_valid(rules, tree):
    """"valid if each node follows a rule and the marks hold" """
    if not any(node_follows(rule, tree) for rule in rules):
        return False
    return all(is_valid(rules, child) for child in tree.children)


class Grammar:
    """The rules of a sheet, with what has been worked out about words so far.

    A word is a tuple of tokens.  Trees are finite; only `valid_trees` needs a
    sheet that is not cyclic, since a looping sheet may have infinitely many.
    """

    def __init__(self, rules):
        self.rules = list(rules)
        self.loops = None
        self.forget()

    def forget(self):
        """Drop what has been worked out; it can be worked out again."""
        self.known = {}
        self.twos = {}
        self.heights = {}
        self.first_trees = {}
        self.second_trees = {}

    def derivable(self, word):
        """The nonterminals that have a valid tree of this word."""
        return self.work_out(word)[0]

    def choices(self, nonterminal, word):
        """The choices of a nonterminal at a word, in their order.

        A choice is (the rule's place in the sheet, the left word's length);
        the length is 0 for E, A and U.
        """
        return self.work_out(word)[1].get(nonterminal, [])

    def work_out(self, word):
        if word not in self.known:
            self.known[word] = self.work_out_anew(word)
        return self.known[word]

    def work_out_anew(self, word):
        """Grow the set of nonterminals with a valid tree until it is full.

        Each one taken in has a valid tree, and each valid tree gets its root
        taken in after those of its subtrees.
        """
        found = set()
        splits = self.splits(word, found)
        grown = True
        while grown:
            grown = False
            for rule in self.rules:
                if rule.left not in found and ways(rule, word, found, splits):
                    found.add(rule.left)
                    grown = True
        choices = {}
        for place, rule in enumerate(self.rules):
            for left_length in ways(rule, word, found, splits):
                choices.setdefault(rule.left, []).append((place, left_length))
        return (found, choices)

    def splits(self, word, found):
        """Left and right word for every left length, "0 up to the whole".

        With each comes the set of nonterminals that have a valid tree of it;
        for the whole word that is the set `found`, still growing.
        """
        listed = []
        for left_length in range(len(word) + 1):
            left, right = word[:left_length], word[left_length:]
            of_left = found if left == word else self.derivable(left)
            of_right = found if right == word else self.derivable(right)
            listed.append((left_length, left, right, of_left, of_right))
        return listed

    def parts(self, choice, word):
        """The children a choice asks for, as (nonterminal, word)."""
        place, left_length = choice
        rule = self.rules[place]
        if rule.kind == "U":
            return [(rule.first, word)]
        if rule.kind == "B":
            left, right = word[:left_length], word[left_length:]
            return [(rule.first, left), (rule.second, right)]
        return []

    def node(self, choice, word, children):
        """The node of a choice over the given children."""
        rule = self.rules[choice[0]]
        if rule.kind == "E":
            return empty(rule.left)
        if rule.kind == "A":
            return leaf(rule.left, word[0])
        if rule.kind == "U":
            return unary(rule.left, *children)
        return binary(rule.left, *children)

    def valid_trees(self, nonterminal, word):
        """All valid trees of a nonterminal at a word, one by one."""
        for choice in self.choices(nonterminal, word):
            parts = self.parts(choice, word)
            for children in self.valid_children(parts):
                yield self.node(choice, word, children)

    def valid_children(self, parts):
        if not parts:
            yield []
            return
        for child in self.valid_trees(*parts[0]):
            for others in self.valid_children(parts[1:]):
                yield [child] + others

    def count(self, nonterminal, word):
        """The number of valid trees, counted up to two; infinitely many are two."""
        if not self.choices(nonterminal, word):
            return 0
        return 2 if nonterminal in self.with_two(word) else 1

    def with_two(self, word):
        """The nonterminals that have at least two valid trees of this word.

        Different choices give different trees, and so do different children
        under one choice.  So these have two choices, or a child under their
        only choice that has two trees; grown until the set is full.
        """
        if word not in self.twos:
            found = set()
            grown = True
            while grown:
                grown = False
                for nonterminal, choices in self.work_out(word)[1].items():
                    if nonterminal not in found and self.has_two(choices, word, found):
                        found.add(nonterminal)
                        grown = True
            self.twos[word] = found
        return self.twos[word]

    def has_two(self, choices, word, found):
        if len(choices) != 1:
            return len(choices) > 1
        return any(
            child in (found if part == word else self.with_two(part))
            for child, part in self.parts(choices[0], word)
        )

    def looping(self):
        """A looping sheet is one that is cyclic, anywhere in it."""
        if self.loops is None:
            self.loops = cyclic(self.rules)
        return self.loops

    def least_heights(self, word):
        """How high the lowest valid tree of each nonterminal at this word is.

        A height that is not known yet counts as endless; heights fall until
        none falls any more.
        """
        if word not in self.heights:
            lowest = {}
            fell = True
            while fell:
                fell = False
                for nonterminal, choices in self.work_out(word)[1].items():
                    height = min(self.height_by(choice, word, lowest) for choice in choices)
                    if height < lowest.get(nonterminal, float("inf")):
                        lowest[nonterminal] = height
                        fell = True
            self.heights[word] = lowest
        return self.heights[word]

    def height_by(self, choice, word, lowest):
        """The least height of a tree with this choice at the top."""
        below = [
            (lowest if part == word else self.least_heights(part)).get(child, float("inf"))
            for child, part in self.parts(choice, word)
        ]
        return 1 + max(below, default=0)

    def preferred(self, nonterminal, word):
        """What the first tree takes, where there is a choice.

        "On a looping sheet the first tree takes, at each node, the earliest
        choice among those giving the least height."  Else the first.
        """
        choices = self.choices(nonterminal, word)
        if not self.looping():
            return choices[0]
        lowest = self.least_heights(word)
        return min(choices, key=lambda choice: self.height_by(choice, word, lowest))

    def topped(self, choice, word):
        """This choice at the top, first trees beneath."""
        children = []
        for child, part in self.parts(choice, word):
            children.append(self.first_tree(child, part))
        return self.node(choice, word, children)

    def first_tree(self, nonterminal, word):
        """The tree that takes what is preferred at each node.

        None where there is no valid tree.
        """
        key = (nonterminal, word)
        if key not in self.first_trees:
            tree = None
            if self.choices(nonterminal, word):
                tree = self.topped(self.preferred(nonterminal, word), word)
            self.first_trees[key] = tree
        return self.first_trees[key]

    def second_tree(self, nonterminal, word):
        """The first tree but for its first node with two or more choices.

        There it takes "the earliest choice not already taken, then first
        trees".  The walk is node before children, left before right.  None
        where no node of the first tree has two choices.
        """
        key = (nonterminal, word)
        if key not in self.second_trees:
            self.second_trees[key] = self.second_tree_anew(nonterminal, word)
        return self.second_trees[key]

    def second_tree_anew(self, nonterminal, word):
        choices = self.choices(nonterminal, word)
        if len(choices) == 0:
            return None
        taken = self.preferred(nonterminal, word)
        if len(choices) >= 2:
            return self.topped(next(other for other in choices if other != taken), word)
        parts = self.parts(taken, word)
        for place, (child, part) in enumerate(parts):
            changed = self.second_tree(child, part)
            if changed is not None:
                children = [self.first_tree(*other) for other in parts]
                children[place] = changed
                return self.node(taken, word, children)
        return None


def ways(rule, word, found, splits):
    """The left lengths with which a rule can stand at the top at this word.

    [0] or [] for E, A and U.  `found` and `splits` tell which nonterminals
    have valid trees of the word and of its parts.
    """
    if rule.kind == "E":
        return [0] if len(word) == 0 else []
    if rule.kind == "A":
        return [0] if len(word) == 1 and word[0].term in terminals_covered(rule) else []
    if rule.kind == "U":
        stands = rule.first in found and mark_of_one(rule.lay, word)
        return [0] if stands else []
    return [
        left_length
        for left_length, left, right, of_left, of_right in splits
        if rule.first in of_left
        and rule.second in of_right
        and mark_of_two(rule.lay, left, right)
    ]


# ------------------------------------------------------------- cyclic sheets

def nullable(rules):
    """"Nullable means: has a valid tree of the empty word." """
    return Grammar(rules).derivable(())


def edges(rules):
    """The edges (A, B) of a sheet."""
    empties = nullable(rules)
    found = set()
    for rule in rules:
        if rule.kind == "U":
            found.add((rule.left, rule.first))
        if rule.kind == "B" and rule.second in empties:
            found.add((rule.left, rule.first))
        if rule.kind == "B" and rule.first in empties:
            found.add((rule.left, rule.second))
    return found


def reached_by_edges(origin, all_edges):
    """The ends of all chains of one or more edges from here."""
    reached = {end for begin, end in all_edges if begin == origin}
    grown = True
    while grown:
        further = {end for begin, end in all_edges if begin in reached}
        grown = not further <= reached
        reached |= further
    return reached


def cyclic(rules):
    """"some chain of one or more edges returns to where it began" """
    all_edges = edges(rules)
    return any(
        nonterminal in reached_by_edges(nonterminal, all_edges)
        for nonterminal in NONTERMINALS
    )


# -------------------------------------------------- verdict, span sheet, rows

ANSWERS = ("none", "one", "two")


def verdict(rules, tokens):
    """none, one or two: valid trees of the start at the whole sentence."""
    return ANSWERS[Grammar(rules).count(START, tuple(tokens))]


def spans(length):
    """(start, length) of each pair of the span sheet, in its order."""
    listed = [(0, 0)]
    for span_length in range(1, length + 1):
        for start in range(length - span_length + 1):
            listed.append((start, span_length))
    return listed


def words_needed(length):
    """"1 + n(n+1)/2 pairs of 64-bit words" """
    return 2 * (1 + length * (length + 1) // 2)


def span_words(grammar, tokens):
    """The span sheet as a list of 64-bit words."""
    words = []
    for start, length in spans(len(tokens)):
        word = tuple(tokens[start : start + length])
        counts = [grammar.count(each, word) for each in NONTERMINALS]
        words.append(sum(1 << each for each in NONTERMINALS if counts[each] >= 1))
        words.append(sum(1 << each for each in NONTERMINALS if counts[each] >= 2))
    return words


def span_sheet(rules, tokens):
    return span_words(Grammar(rules), tokens)


def two_trees(rules, tokens):
    """The first and the second tree of a sentence; None for one that is not."""
    grammar = Grammar(rules)
    sentence = tuple(tokens)
    return (grammar.first_tree(START, sentence), grammar.second_tree(START, sentence))


KIND_NUMBERS = {"E": 0, "A": 1, "U": 2, "B": 3}


def tree_rows(tree):
    """Rows (nonterminal, kind 0 to 3, start, length) in walking order.

    "An empty word has start 0."
    """
    rows = []
    waiting = [(tree, 0)]
    while waiting:
        node, start = waiting.pop()
        length = len(node.word)
        kind = KIND_NUMBERS[node.kind]
        rows.append((node.nonterminal, kind, start if length else 0, length))
        children = []
        for child in node.children:
            children.append((child, start))
            start += len(child.word)
        waiting.extend(reversed(children))
    return rows


def rows_in_memory(tree, size):
    """"bytes of the lent tree memory after the rows are 0" """
    if tree is None:
        return bytes(size)
    rows = b"".join(bytes(row) for row in tree_rows(tree))
    return rows + bytes(size - len(rows))


def row_count(tree):
    """"each tree's row count, 0 for a tree not written" """
    return 0 if tree is None else tree.rows


def fits(tree, memory):
    """Not "more rows than its memory has whole four-byte places"."""
    return row_count(tree) <= len(memory) // 4


# ------------------------------------------------------------------ the calls

def refused_answer(number):
    return f"refused-{number}"


def sheets_refusal(rules, tokens):
    """The first refusal of the rule sheet, then of the token sheet, or None."""
    for reading in (read_rules(rules), read_tokens(tokens)):
        if reading[0] == "refused":
            return reading[1:]
    return None


def sentence_refusal(rules, tokens, words):
    """(number, line) of a call on one sentence before any tree, or None."""
    refusal = sheets_refusal(rules, tokens)
    if refusal is not None:
        return refusal
    if len(words) < words_needed(len(read_tokens(tokens)[1])):
        return (21, 0)
    return None


def filled(sheet, words):
    """"Words past the span sheet never change." """
    return list(sheet) + list(words[len(sheet) :])


def verdict_call(rules, tokens, words):
    """(answer, line, words after)."""
    refusal = sentence_refusal(rules, tokens, words)
    if refusal is not None:
        return (refused_answer(refusal[0]), refusal[1], list(words))
    grammar = Grammar(read_rules(rules)[1])
    sentence = tuple(read_tokens(tokens)[1])
    answer = ANSWERS[grammar.count(START, sentence)]
    return (answer, 0, filled(span_words(grammar, sentence), words))


def trees_call(rules, tokens, words, first, second):
    """(answer, line, count 1, count 2, words after, first after, second after).

    `first` and `second` are the two lent tree memories, as bytes.
    """
    refusal = sentence_refusal(rules, tokens, words)
    if refusal is not None:
        answer = refused_answer(refusal[0])
        lent = (list(words), bytes(first), bytes(second))
        return (answer, refusal[1], 0, 0, *lent)
    grammar = Grammar(read_rules(rules)[1])
    sentence = tuple(read_tokens(tokens)[1])
    after = filled(span_words(grammar, sentence), words)
    tree1 = grammar.first_tree(START, sentence)
    tree2 = grammar.second_tree(START, sentence)
    if not (fits(tree1, first) and fits(tree2, second)):
        zeros = (bytes(len(first)), bytes(len(second)))
        return (refused_answer(22), 0, 0, 0, after, *zeros)
    return (
        ANSWERS[grammar.count(START, sentence)],
        0,
        row_count(tree1),
        row_count(tree2),
        after,
        rows_in_memory(tree1, len(first)),
        rows_in_memory(tree2, len(second)),
    )


# ------------------------------------------------------------------ the sweep

def terminals_of(rules):
    """"the different terminals in the sheet's A rules", rising; "T counts every
    terminal covered" """
    leaves = [rule for rule in rules if rule.kind == "A"]
    return sorted({term for rule in leaves for term in terminals_covered(rule)})


def sweep_size(terminal_count, bound):
    """T^k x 3^(k-1) x k^k"""
    return terminal_count**bound * 3 ** (bound - 1) * bound**bound


def candidates(terminals, length):
    """The candidates of one length, in their order.

    Token by token: terminal, line step, column, the lesser first; the first
    token on line 1 with step 0; only positions that rise.
    """
    return extensions((), sorted(terminals), length)


def extensions(prefix, terminals, length):
    """The candidates that begin with the given tokens."""
    if len(prefix) == length:
        yield prefix
        return
    line_before = prefix[-1].line if prefix else 1
    for term in terminals:
        for step in (0, 1, 2) if prefix else (0,):
            for col in range(1, length + 1):
                token = Token(term, line_before + step, col)
                if not prefix or comes_after(token, prefix[-1]):
                    yield from extensions(prefix + (token,), terminals, length)


def first_ambiguous(rules, bound):
    """The first candidate that has two trees, or None."""
    grammar = Grammar(rules)
    terminals = terminals_of(rules)
    for length in range(1, bound + 1):
        for sentence in candidates(terminals, length):
            if grammar.count(START, sentence) == 2:
                return sentence
            if len(grammar.known) > 300_000:
                grammar.forget()
    return None


def sweep_refusal(rules, bound, words):
    """(number, line) in the order of the table of refusals, or None."""
    reading = read_rules(rules)
    if reading[0] == "refused":
        return reading[1:]
    if not 1 <= bound <= 7:
        return (23, 0)
    if sweep_size(len(terminals_of(reading[1])), bound) > 4_294_967_296:
        return (24, 0)
    if len(words) < words_needed(bound):
        return (21, 0)
    return None


def token_places(sentence):
    """The seven token places of a sweep's answer.

    "The answer's token places past that sentence are 0"
    """
    return [token[:3] for token in sentence] + [(0, 0, 0)] * (7 - len(sentence))


def start_lengths(rules):
    """Which of the lengths 0 to 7 nonterminal 0 "can have when all marks are ignored"."""
    known = set()
    while True:
        given = {(rule.left, length) for rule in rules for length in lengths_by(rule, known)}
        if given <= known:
            return {length for left, length in known if left == START}
        known |= given


def lengths_by(rule, known):
    """The lengths that a rule gives to its left, where its parts have the known ones."""
    if rule.kind == "E":
        return [0]
    if rule.kind == "A":
        return [1]
    first = [length for left, length in known if left == rule.first]
    if rule.kind == "U":
        return first
    second = [length for left, length in known if left == rule.second]
    return [one + other for one in first for other in second if one + other <= 7]


def goings_on(count, length, left, column):
    """How many ways a candidate over so many terminals goes on with `left` tokens after one in a column."""
    ways_by_column = [1] * (length + 1)
    for _ in range(left):
        any_column = sum(ways_by_column[1:])
        ways_by_column = [
            count * (sum(ways_by_column[before + 1 :]) + 2 * any_column) for before in range(length + 1)
        ]
    return ways_by_column[column]


def candidate_count(count, length):
    """How many candidates of one length there are."""
    return count * sum(goings_on(count, length, length - 1, column) for column in range(1, length + 1))


def candidates_before(terminals, sentence):
    """How many candidates of its length come before a candidate."""
    count, length, total = len(terminals), len(sentence), 0
    for place, token in enumerate(sentence):
        line_before = sentence[place - 1].line if place else 1
        for term in terminals:
            for step in (0, 1, 2) if place else (0,):
                for col in range(1, length + 1):
                    other = Token(term, line_before + step, col)
                    risen = not place or comes_after(other, sentence[place - 1])
                    if risen and (term, other.line, col) < (token.term, token.line, token.col):
                        total += goings_on(count, length, length - 1 - place, col)
    return total


def tried(rules, bound, sentence):
    """"Its answer also counts the candidates tried: all of the other lengths up to k, or up to and with the found one" """
    terminals = terminals_of(rules)
    longest = bound if sentence is None else len(sentence) - 1
    lengths = [length for length in start_lengths(rules) if 1 <= length <= longest]
    whole = sum(candidate_count(len(terminals), length) for length in lengths)
    return whole if sentence is None else whole + candidates_before(terminals, sentence) + 1


def sweep_call(rules, bound, words):
    """(answer, line, sentence, candidates tried, words after); no sentence is []."""
    refusal = sweep_refusal(rules, bound, words)
    if refusal is not None:
        return (refused_answer(refusal[0]), refusal[1], [], 0, list(words))
    after = filled([0] * words_needed(bound), words)
    read = read_rules(rules)[1]
    sentence = first_ambiguous(read, bound)
    count = tried(read, bound, sentence)
    if sentence is None:
        return ("clear", 0, [], count, after)
    return ("two", 0, list(sentence), count, after)


# --------------------------------------------------------------- the programs

MOST_INPUT = 16_384
TREE_PLACES = 4_096


def parted(data):
    """What stands before and after the first empty line, or None.

    An empty line is a byte 10 at the very start or right after a byte 10.
    """
    for place in range(len(data)):
        if data[place : place + 1] == b"\n":
            if place == 0 or data[place - 1 : place] == b"\n":
                return (data[:place], data[place + 1 :])
    return None


def answer_lines(answer, line):
    return f"answer line\n{answer} {line}\n".encode()


def row_lines(number, memory, count):
    """The rows of a tree as `tree left kind start length`."""
    lines = b""
    for place in range(0, 4 * count, 4):
        left, kind, start, length = memory[place : place + 4]
        lines += f"{number} {left} {'EAUB'[kind]} {start} {length}\n".encode()
    return lines


def check_program(data):
    """The whole output of `check` on this input."""
    if len(data) > MOST_INPUT:
        return answer_lines(refused_answer(31), 0)
    sheets = parted(data)
    if sheets is None:
        return answer_lines(refused_answer(32), 0)
    rules, tokens = sheets
    words = [0] * words_needed(MOST_TOKENS)
    lent = bytes(4 * TREE_PLACES)
    answer, line, count1, count2, _, first, second = trees_call(
        rules, tokens, words, lent, lent
    )
    output = answer_lines(answer, line)
    if answer in ("one", "two"):
        output += b"tree left kind start length\n"
        output += row_lines(1, first, count1) + row_lines(2, second, count2)
    return output


def bound_of(head):
    """k as written before the empty line, or None where refused-32 is due."""
    lines = sheet_lines(head)
    if len(lines) != 2 or lines[0] != (b"bound", True):
        return None
    text, ended = lines[1]
    return int(text) if ended and is_number(text) else None


def sweep_program(data):
    """The whole output of `sweep` on this input."""
    if len(data) > MOST_INPUT:
        return answer_lines(refused_answer(31), 0)
    sheets = parted(data)
    if sheets is None or bound_of(sheets[0]) is None:
        return answer_lines(refused_answer(32), 0)
    bound = bound_of(sheets[0])
    words = [0] * words_needed(7)
    answer, line, sentence, _, _ = sweep_call(sheets[1], bound, words)
    output = answer_lines(answer, line)
    if answer == "two":
        output += token_sheet(sentence)
    return output


def main():
    programs = {"check": check_program, "sweep": sweep_program}
    if len(sys.argv) != 2 or sys.argv[1] not in programs:
        sys.exit("usage: teplonga.py check|sweep")
    sys.stdout.buffer.write(programs[sys.argv[1]](sys.stdin.buffer.read()))


if __name__ == "__main__":
    main()
