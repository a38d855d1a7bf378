"""Why a patch has no reading: the mark that fails, or how far a beginning goes.

The verdict `none` is the proved program's, and so is every tree that is looked at here. Which mark
of a tree fails, and how far some word begins as the patch does, is worked out by these functions.
"""

from collections import defaultdict
from typing import NamedTuple, Optional

from .answers import rows_of
from .nodes import Node, Trees
from .sentences import Code, over
from .sheets import rules_of

# so many marks are tried without, each by itself
MOST_TRIES = 12

NAMES = "left kind first second lay\n"


class Why(NamedTuple):
    """A sentence, the tokens that it is about, and the piece of the sheet: line and characters."""

    sentence: list
    tokens: list
    span: Optional[tuple] = None


# ---- marks


def failing(rule, node, tokens):
    """The token by which a node's mark fails and how, in words; nothing where it holds."""
    word = [(n, tokens[n]) for n in range(node.start, node.start + node.length)]
    if rule.kind == "U" and word:
        return failing_alone(rule.lay, word)
    if rule.kind == "B" and all(each.length for each in node.below):
        second = node.below[1].start
        return failing_pair(rule.lay, word[0][1], tokens[second - 1], (second, tokens[second]))
    return None


def failing_alone(lay, word):
    first = word[0][1]
    for n, token in word:
        if token.line == first.line:
            continue
        if lay == "single":
            return n, f"is not on line {first.line}"
        if lay == "offside" and token.col <= first.col:
            return n, f"is on a later line and not right of column {first.col}"
        if lay == "offalign" and token.col < first.col:
            return n, f"is on a later line and left of column {first.col}"
    return None


def failing_pair(lay, first, last, second):
    n, token = second
    if lay == "align" and token.col != first.col:
        return n, f"does not stand in column {first.col}"
    if lay == "indent" and token.line <= last.line:
        return n, f"is not on a line below {last.line}"
    if lay == "indent" and token.col <= first.col:
        return n, f"is not right of column {first.col}"
    return None


class Failure(NamedTuple):
    rule: object
    node: Node
    token: int
    how: str


def failures(tree, rules, tokens):
    """The nodes of a tree whose marks fail, by the rules as they are."""
    by_line = {rule.line: rule for rule in rules}
    for node in tree.walk():
        rule = by_line[node.taken.line] if node.taken else None
        found = failing(rule, node, tokens) if rule else None
        if found:
            yield Failure(rule, node, *found)


# ---- beginnings


def symbols(rule):
    return (
        [each for each in (rule.first, rule.second) if each is not None]
        if rule.kind in "UB"
        else []
    )


def fixed(rules, is_in):
    """The least set of nonterminals with a rule that is in, given those found."""
    found = set()
    while more := {rule.left for rule in rules if rule.left not in found and is_in(rule, found)}:
        found |= more
    return found


class Beginnings:
    """How far a list of terminals goes as the beginning of some word of nonterminal 0, all marks
    aside.
    """

    def __init__(self, rules):
        has_words = fixed(rules, lambda rule, found: all(each in found for each in symbols(rule)))
        rules = [rule for rule in rules if all(each in has_words for each in symbols(rule))]
        self.empty = fixed(
            rules, lambda rule, found: rule.kind != "A" and found.issuperset(symbols(rule))
        )
        self.by_left = defaultdict(list)
        for rule in rules:
            self.by_left[rule.left].append(rule)

    def length(self, terminals):
        """How many terminals; -1 where nonterminal 0 has no word at all."""
        if not self.by_left[0]:
            return -1
        sets = [self.closed({(rule, 0, 0) for rule in self.by_left[0]}, [], 0)]
        for at, terminal in enumerate(terminals):
            met = {
                (rule, 1, begun) for rule, dot, begun in sets[at] if self.meets(rule, dot, terminal)
            }
            if not met:
                return at
            sets.append(self.closed(met, sets, at + 1))
        return len(terminals)

    @staticmethod
    def meets(rule, dot, terminal):
        return rule.kind == "A" and dot == 0 and rule.covers(terminal)

    def closed(self, items, sets, at):
        """All that follows from these items: rules that may begin here, and those that go on behind
        an ended one.
        """
        found, waiting = set(items), list(items)
        while waiting:
            for more in self.follows(waiting.pop(), found, sets, at):
                if more not in found:
                    found.add(more)
                    waiting.append(more)
        return found

    def follows(self, item, found, sets, at):
        rule, dot, begun = item
        if rule.kind == "A" and dot == 0:
            return
        if rule.kind != "A" and dot < len(symbols(rule)):
            wanted = symbols(rule)[dot]
            yield from ((each, 0, at) for each in self.by_left[wanted])
            if wanted in self.empty:
                yield rule, dot + 1, begun
            return
        for other, there, before in list(found if begun == at else sets[begun]):
            if symbols(other)[there : there + 1] == [rule.left]:
                yield other, there + 1, before


# ---- why


class Asked(NamedTuple):
    """A question whose answer is `none`: the programs, the token sheet, the answer."""

    programs: object
    tokens: bytes
    answer: object

    def tree(self, without):
        """The first tree under the sheet without the marks of these lines; nothing where there is
        none.
        """
        rules = rules_of(self.answer.rules)
        lines = [without_mark(rule) if rule.line in without else rule.text for rule in rules]
        sheet = NAMES + "".join(f"{line}\n" for line in lines)
        _, rows = rows_of(self.programs.answer("checker", sheet.encode("ascii"), self.tokens))
        return (
            Trees(rules_of(sheet.encode("ascii")), self.answer.tokens).made(rows[0])
            if rows
            else None
        )


def without_mark(rule):
    return " ".join([*rule.text.split(" ")[:4], "none"])


def why(asked):
    """Why there is no reading."""
    rules = rules_of(asked.answer.rules)
    marked = [rule.line for rule in rules if rule.lay != "none"]
    tree = asked.tree(marked) if marked else None
    if tree is None:
        return why_not_begun(asked, rules)
    found = list(failures(tree, rules, asked.answer.tokens))
    likely = list(dict.fromkeys(failure.rule.line for failure in found))
    if len(likely) > 1:
        for line in [*likely, *[each for each in marked if each not in likely]][:MOST_TRIES]:
            tree = asked.tree([line])
            if tree is not None:
                found = list(failures(tree, rules, asked.answer.tokens))
                return why_marked(asked, found, is_only=True)
    return why_marked(asked, found, is_only=len(likely) == 1)


def why_marked(asked, found, is_only):
    """By the innermost node whose mark fails."""
    failure = found[-1]
    names, tokens = asked.answer.names, asked.answer.tokens
    piece = failure.rule
    if names.sheet:
        piece = names.sheet.roles[failure.rule.left].piece
    token = tokens[failure.token]
    front = "It would be one but for " if is_only else "Several marks fail, among them "
    sentence = [
        front,
        Code(failure.rule.lay),
        " in ",
        Code(names.spelled(piece)),
        f", {over(failure.node, tokens)}: ",
    ]
    sentence += [Code(names.terminal(token.terminal)), f" at {token.place} {failure.how}."]
    return Why(sentence, [failure.token], piece.span)


def why_not_begun(asked, rules):
    names, tokens = asked.answer.names, asked.answer.tokens
    start = Code(names.nonterminal(0))
    length = Beginnings(rules).length([token.terminal for token in tokens])
    if length < 0:
        return Why(["Nothing is a ", start, ": its clauses never end."], [])
    if length == len(tokens):
        if not tokens:
            return Why(["The patch is empty, and no ", start, " is."], [])
        last = tokens[-1]
        behind = [Code(names.terminal(last.terminal)), f" at {last.place}"]
        return Why(
            ["It can begin a ", start, ", but behind ", *behind, " something is missing."], []
        )
    token = tokens[length]
    next_one = [Code(names.terminal(token.terminal)), f" at {token.place}"]
    if length == 0:
        return Why(["No ", start, " begins with ", *next_one, "."], [0])
    front = [Code(names.words(tokens[:length])), " can begin a ", start, ", but "]
    return Why([*front, *next_one, " cannot follow, wherever it stands."], [length])
