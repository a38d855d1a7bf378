"""Reference for request 2 of document 02: clauses as people write them.

Written from the rules that docs/FORMAT.md states and section 3 of the paper alone.  A clause
sheet is read, expanded to a rule sheet, and then judged by `teplonga.py`, which
knows nothing of clauses.  Naive on purpose: whether a line is well written is
found by taking its groups out from the inside, and new nonterminals are
numbered by sorting everything that gets one by where it begins.
"""

import re
import sys
from typing import NamedTuple

import teplonga
from teplonga import Rule, answer_lines, refused, refused_answer

CLAUSE_NAMES = b"left clause"
MOST_LEVELS = 16
MOST_NONTERMINAL = 63


# ------------------------------------------------------- is a line so written?

# A group that was taken out is one character past all bytes.
GROUP = "[\u0100-\U0010ffff]"
PLAIN = "[nt][0-9]{1,5}"
SUFFIX = r"(?:\?|\+:align|\*:align|\+|\*)"
MARK = "(?::offside|:offalign|:single)"
ITEM = f"(?:{PLAIN}{SUFFIX}?|{GROUP}(?:{SUFFIX}|{MARK})?)"
SEQUENCE = f"{ITEM}(?:(?: | :align: | :indent: ){ITEM})*"
ALTERNATIVES = re.compile(rf"{SEQUENCE}(?: \| {SEQUENCE})*")
INNERMOST = re.compile(r"\(([^()]*)\)")
NUMBER = re.compile("[nt]([0-9]+)")


def well_written(text):
    """Are these alternatives without a group, numbers 0 to 63 in them?"""
    if ALTERNATIVES.fullmatch(text) is None:
        return False
    return all(int(number) <= 63 for number in NUMBER.findall(text))


def levels(expression):
    """How deep groups are nested, or None where it is not so written.

    Takes out all innermost groups, then those that have become innermost.
    """
    text = expression.decode("latin-1")
    depth = 0
    while INNERMOST.search(text) is not None:
        if not all(well_written(inner) for inner in INNERMOST.findall(text)):
            return None
        text = INNERMOST.sub("\u0100", text)
        depth += 1
    return depth if well_written(text) else None


def left_and_expression(line):
    """(left, expression) of "a nonterminal number, a blank, and an expression"."""
    match = re.fullmatch(rb"([0-9]{1,5}) (.*)", line, re.DOTALL)
    if match is None or int(match[1]) > 63:
        return None
    return (int(match[1]), match[2])


def clause_line_refusal(line, ended):
    """41, 42 or None: "41 clause not so written .., depth aside, 42 nested deeper than sixteen"."""
    parts = left_and_expression(line)
    if not ended or parts is None:
        return 41
    depth = levels(parts[1])
    if depth is None:
        return 41
    return 42 if depth > MOST_LEVELS else None


# ------------------------------------------------- what a line so written says

class Item(NamedTuple):
    """kind: n, t or group; value: a number or a list of alternatives.

    Places are offsets in the expression; `atom_end` is where the item ends
    without what stands after it, which is in `suffix`.
    """
    kind: str
    value: object
    suffix: str
    begin: int
    atom_end: int
    end: int


class Sequence(NamedTuple):
    items: list
    binds: list
    begin: int
    end: int


BINDS = ((" :align: ", "align"), (" :indent: ", "indent"), (" ", "none"))
SUFFIXES = ("?", "+:align", "*:align", "+", "*", ":offside", ":offalign", ":single")


def item_at(text, begin):
    if text[begin] == "(":
        value, end = alternatives_at(text, begin + 1)
        kind, end = "group", end + 1
    else:
        number = re.compile("[0-9]+").match(text, begin + 1)
        kind, value, end = text[begin], int(number[0]), number.end()
    for suffix in SUFFIXES:
        if text.startswith(suffix, end):
            return Item(kind, value, suffix, begin, end, end + len(suffix))
    return Item(kind, value, "", begin, end, end)


def sequence_at(text, begin):
    items, binds = [item_at(text, begin)], []
    while True:
        end = items[-1].end
        if text.startswith(" | ", end):
            break
        bind = next((each for each in BINDS if text.startswith(each[0], end)), None)
        if bind is None:
            break
        binds.append(bind[1])
        items.append(item_at(text, end + len(bind[0])))
    return Sequence(items, binds, begin, items[-1].end)


def alternatives_at(text, begin):
    """A list of sequences, and the place behind it."""
    found = [sequence_at(text, begin)]
    while text.startswith(" | ", found[-1].end):
        found.append(sequence_at(text, found[-1].end + 3))
    return found, found[-1].end


def alternatives(expression):
    """What a well written expression says."""
    return alternatives_at(expression.decode("latin-1"), 0)[0]


# --------------------------------------------------------------- the expansion

class Made(NamedTuple):
    """Something that gets a new nonterminal, by its line and its place there.

    `order` parts what begins at one place and ends at one: an alternative
    before its only item, a repeat before its C, a mark before its group.
    """
    line: int
    begin: int
    end: int
    order: int


class Expansion:
    """The rules of (left, alternatives) lines."""

    def __init__(self, lines):
        self.lines = lines
        self.made = []
        for line, (_, found) in enumerate(lines):
            self.collect_alternatives(line, found)
        # "by where they begin, outer before inner"
        self.made.sort(key=lambda each: (each.line, each.begin, -each.end, each.order))
        first = 1 + max([-1] + [left for left, _ in lines] + self.written())
        self.numbers = {each: first + place for place, each in enumerate(self.made)}
        self.rules = self.all_rules()

    # ---- what gets a nonterminal

    def collect_alternatives(self, line, found):
        for sequence in found:
            self.made.append(self.alternative(line, sequence))
            for place, item in enumerate(sequence.items):
                if 1 <= place < len(sequence.items) - 1:
                    self.made.append(self.rest(line, sequence, place))
                self.collect_item(line, item)

    def collect_item(self, line, item):
        if item.suffix:
            self.made.append(self.suffixed(line, item))
        if item.suffix[:1] in ("+", "*"):
            self.made.append(self.fresh(line, item))
        if item.kind != "n":
            self.made.append(self.atom(line, item))
        if item.kind == "group":
            self.collect_alternatives(line, item.value)

    def alternative(self, line, sequence):
        return Made(line, sequence.begin, sequence.end, 0)

    def rest(self, line, sequence, place):
        """The rest of a sequence from an item on, two or more items."""
        return Made(line, sequence.items[place].begin, sequence.end, 0)

    def suffixed(self, line, item):
        return Made(line, item.begin, item.end, 1)

    def fresh(self, line, item):
        """C, "right after its repeat" """
        return Made(line, item.begin, item.end, 2)

    def atom(self, line, item):
        """A terminal or a group without what stands after it."""
        return Made(line, item.begin, item.atom_end, 3)

    def written(self):
        """The nonterminals that stand as `n` items."""
        numbers, waiting = [], [found for _, found in self.lines]
        while waiting:
            for sequence in waiting.pop():
                for item in sequence.items:
                    if item.kind == "n":
                        numbers.append(item.value)
                    if item.kind == "group":
                        waiting.append(item.value)
        return numbers

    # ---- their rules

    def atom_number(self, line, item):
        """"An `n` item stands for itself." """
        return item.value if item.kind == "n" else self.numbers[self.atom(line, item)]

    def item_number(self, line, item):
        return self.numbers[self.suffixed(line, item)] if item.suffix else self.atom_number(line, item)

    def all_rules(self):
        rules = []
        for line, (left, found) in enumerate(self.lines):
            self.add_alternatives(rules, line, left, found)
        # "by rising left"; sorting keeps the order within a left
        return sorted(rules, key=lambda rule: rule.left)

    def add_alternatives(self, rules, line, left, found):
        """"Alternatives .. are reached by U rules with `none`." """
        for sequence in found:
            number = self.numbers[self.alternative(line, sequence)]
            rules.append(Rule(left, "U", number, None, "none"))
            self.add_sequence(rules, line, number, sequence, 0)

    def add_sequence(self, rules, line, left, sequence, place):
        """"Longer sequences split off their first item." """
        item, follow = sequence.items[place], sequence.items[place + 1 :]
        number = self.item_number(line, item)
        if not follow:
            rules.append(Rule(left, "U", number, None, "none"))
        else:
            behind = self.item_number(line, follow[0])
            if len(follow) > 1:
                behind = self.numbers[self.rest(line, sequence, place + 1)]
            rules.append(Rule(left, "B", number, behind, sequence.binds[place]))
        self.add_item(rules, line, item)
        if len(follow) == 1:
            self.add_item(rules, line, follow[0])
        elif follow:
            self.add_sequence(rules, line, behind, sequence, place + 1)

    def add_item(self, rules, line, item):
        atom = self.atom_number(line, item)
        if item.suffix:
            number = self.numbers[self.suffixed(line, item)]
            if item.suffix == "?":
                rules.append(Rule(number, "U", atom, None, "none"))
                rules.append(Rule(number, "E", None, None, "none"))
            elif item.suffix[0] in "+*":
                fresh = self.numbers[self.fresh(line, item)]
                lay = "align" if item.suffix.endswith("align") else "none"
                if item.suffix[0] == "+":
                    rules.append(Rule(number, "U", atom, None, "none"))
                else:
                    rules.append(Rule(number, "E", None, None, "none"))
                rules.append(Rule(number, "U", fresh, None, "none"))
                rules.append(Rule(fresh, "B", number, atom, lay))
            else:
                rules.append(Rule(number, "U", atom, None, item.suffix[1:]))
        if item.kind == "t":
            rules.append(Rule(atom, "A", item.value, None, "none"))
        if item.kind == "group":
            self.add_alternatives(rules, line, atom, item.value)


def too_large(expansion):
    """43: "new nonterminals past 63 or over 128 rules" """
    numbers = expansion.numbers.values()
    return max(numbers, default=0) > MOST_NONTERMINAL or len(expansion.rules) > teplonga.MOST_RULES


def read_clauses(sheet):
    """("refused", number, line) or ("accepted", rules)."""
    lines = teplonga.sheet_lines(sheet)
    if lines[0] != (CLAUSE_NAMES, True):
        return refused(1, 1)
    read = []
    for number, (line, ended) in enumerate(lines[1:], start=2):
        refusal = clause_line_refusal(line, ended)
        if refusal is not None:
            return refused(refusal, number)
        left, expression = left_and_expression(line)
        read.append((left, alternatives(expression)))
    expansion = Expansion(read)
    if too_large(expansion):
        return refused(43, 0)
    if all(rule.left != teplonga.START for rule in expansion.rules):
        return refused(7, 0)
    return ("accepted", expansion.rules)


def rule_sheet(rules):
    """Rules as a rule sheet, numbers without leading zeros."""
    lines = [teplonga.RULE_NAMES] + [teplonga.rule_line(rule) for rule in rules]
    return b"".join(line + b"\n" for line in lines)


# ------------------------------------------------------------------- the calls

def refused_place(clauses, tokens):
    """(sheet, offset, length) of the refused line, as `teplonga.refused_place`."""
    for name, sheet, read in (
        ("clauses", clauses, read_clauses),
        ("tokens", tokens, teplonga.read_tokens),
    ):
        reading = read(sheet)
        if reading[0] == "refused":
            line = reading[2]
            if line == 0:
                return ("clauses", 0, 0)
            before = teplonga.sheet_lines(sheet)[: line - 1]
            offset = sum(len(text) + 1 for text, _ in before)
            return (name, offset, len(teplonga.sheet_lines(sheet)[line - 1][0]))
    return ("clauses", 0, 0)


def refused_line(clauses, tokens):
    name, offset, length = refused_place(clauses, tokens)
    sheet = clauses if name == "clauses" else tokens
    return sheet[offset : offset + length]


def verdict_call(clauses, tokens, words):
    """(answer, line, words after)."""
    reading = read_clauses(clauses)
    if reading[0] == "refused":
        return (refused_answer(reading[1]), reading[2], list(words))
    return teplonga.verdict_call(rule_sheet(reading[1]), tokens, words)


def trees_call(clauses, tokens, words, first, second):
    """(answer, line, count 1, count 2, words after, first after, second after)."""
    reading = read_clauses(clauses)
    if reading[0] == "refused":
        lent = (list(words), bytes(first), bytes(second))
        return (refused_answer(reading[1]), reading[2], 0, 0, *lent)
    return teplonga.trees_call(rule_sheet(reading[1]), tokens, words, first, second)


def sweep_call(clauses, bound, words):
    """(answer, line, sentence, candidates tried, words after); no sentence is []."""
    reading = read_clauses(clauses)
    if reading[0] == "refused":
        return (refused_answer(reading[1]), reading[2], [], 0, list(words))
    return teplonga.sweep_call(rule_sheet(reading[1]), bound, words)


def expand_call(clauses, out):
    """(answer, line, count, bytes after).

    "stands at the front of lent bytes, with 0 after it, and the answer holds
    its number of entries; one that doesn't fit is refused 22, those bytes all
    0 and that number 0."
    """
    reading = read_clauses(clauses)
    if reading[0] == "refused":
        return (refused_answer(reading[1]), reading[2], 0, bytes(out))
    sheet = rule_sheet(reading[1])
    if len(sheet) > len(out):
        return (refused_answer(22), 0, 0, bytes(len(out)))
    return ("given", 0, len(sheet), sheet + bytes(len(out) - len(sheet)))


# --------------------------------------------- outputs of the program `calls`

def clauses_output(clauses, tokens):
    """The output of the call `clauses` on these two sheets."""
    words = [0] * teplonga.words_needed(teplonga.MOST_TOKENS)
    lent = bytes(4 * teplonga.TREE_PLACES)
    answer, line, count1, count2, _, first, second = trees_call(clauses, tokens, words, lent, lent)
    output = answer_lines(answer, line)
    if answer in ("one", "two"):
        output += b"tree left kind start length\n"
        output += teplonga.row_lines(1, first, count1) + teplonga.row_lines(2, second, count2)
    return output


def sweep_output(clauses, bound):
    """The output of the call `clauses` with a bound."""
    answer, line, sentence, _, _ = sweep_call(clauses, bound, [0] * teplonga.words_needed(7))
    output = answer_lines(answer, line)
    if answer == "two":
        output += teplonga.token_sheet(sentence)
    return output


def expand_output(clauses):
    """The output of the call `expand`."""
    answer, line, count, out = expand_call(clauses, bytes(16_384))
    return answer_lines(answer, line) + out[:count]


def main():
    if len(sys.argv) == 2 and sys.argv[1] == "expand":
        sys.stdout.buffer.write(expand_output(sys.stdin.buffer.read()))
        return
    sys.exit("usage: clauses.py expand < clause sheet")


if __name__ == "__main__":
    main()
