"""Rows of a tree turned into nodes: of the rules themselves, or of readings in the clauses' own
words.
"""

from typing import NamedTuple, Optional, Union

from .clauses import Alternative, Disagreement, Piece
from .sheets import Rule

# how many rows stand below a row, by its kind; a closed one (C) shows none
BELOW = {"E": 0, "A": 0, "U": 1, "B": 2, "C": 0}


class Node(NamedTuple):
    """A node. `kind` is `clause` (of a nonterminal that is written, `left`), `group`, `repeat` (a
    list of its items' words), `token` or `closed`; `piece` is the text that it stands for, `taken`
    the alternative or the rule that it takes. Two nodes of one sentence have the same `like`
    exactly if they and all below them are the same.
    """

    kind: str
    left: Optional[int]
    piece: Optional[Piece]
    taken: Union[Alternative, Rule, None]
    start: int
    length: int
    below: tuple
    like: int

    def walk(self):
        """All nodes, a node before those below it."""
        waiting = [self]
        while waiting:
            node = waiting.pop()
            yield node
            waiting.extend(reversed(node.below))


def row_text(left, kind, span):
    return f"the row {left} {kind} {span[0]} {span[1]}"


class Maker:
    """Makes the nodes of the trees of one sentence."""

    def __init__(self):
        self.likes = {}

    def node(self, kind, span, left=None, piece=None, taken=None, below=()):
        key = (kind, left, id(piece), id(taken), span, tuple(node.like for node in below))
        like = self.likes.setdefault(key, len(self.likes))
        return Node(kind, left, piece, taken, *span, tuple(below), like)

    def value(self, left, kind, span, below):
        """What a row stands for, given the nonterminals and values of the rows below it."""
        raise NotImplementedError

    def made(self, rows):
        """The top node of a tree's rows. They are in walking order, so backwards all below a row is
        done.
        """
        done = []
        for left, kind, start, length in reversed(rows):
            if kind not in BELOW or len(done) < BELOW[kind]:
                raise Disagreement(f"{row_text(left, kind, (start, length))} is of no tree")
            below = [done.pop() for _ in range(BELOW[kind])]
            done.append((left, self.value(left, kind, (start, length), below)))
        if len(done) != 1 or not isinstance(done[0][1], Node) or done[0][1].left != 0:
            raise Disagreement("the rows are not those of one tree of nonterminal 0")
        return done[0][1]


class Trees(Maker):
    """The trees of a rule sheet, as they are."""

    def __init__(self, rules, tokens):
        super().__init__()
        self.rules, self.tokens = rules, tokens

    def value(self, left, kind, span, below):
        if kind == "C":
            return self.node("closed", span, left=left)
        rule = self.followed(left, kind, span[0], [number for number, _ in below])
        if rule is None:
            raise Disagreement(f"{row_text(left, kind, span)} follows no rule of the sheet")
        nodes = [node for _, node in below] if kind != "A" else [self.node("token", span)]
        return self.node("clause", span, left=left, taken=rule, below=nodes)

    def followed(self, left, kind, start, symbols):
        """The rule that a row follows: no two rules of a sheet are alike, so one at most."""
        for rule in self.rules:
            if (rule.left, rule.kind) != (left, kind):
                continue
            if kind == "A":
                fits = rule.covers(self.tokens[start].terminal)
            else:
                fits = symbols == [each for each in (rule.first, rule.second) if each is not None]
            if fits:
                return rule
        return None


class Readings(Maker):
    """Readings under a clause sheet. Of an alternative or a rest the value is a list of nodes."""

    def __init__(self, sheet):
        super().__init__()
        self.sheet = sheet

    def value(self, left, kind, span, below):
        role = self.sheet.roles.get(left)
        numbers, values = [number for number, _ in below], [value for _, value in below]
        if role is None:
            made = None
        elif kind == "C":
            made = self.closed(role, span)
        else:
            made = getattr(self, role.name)(role.piece, kind, span, numbers, values)
        if made is None:
            raise Disagreement(f"{row_text(left, kind, span)} follows no rule of the expansion")
        return made

    def closed(self, role, span):
        """A closed row: of what is written only the piece is told."""
        if role.name == "clause":
            return self.node("closed", span, left=role.piece)
        made = self.node("closed", span, piece=role.piece)
        return [made] if role.name in ("alternative", "rest", "fresh") else made

    def clause(self, left, kind, span, numbers, values):
        taken = self.taken(numbers)
        if kind == "U" and taken in self.sheet.alternatives(left):
            return self.node("clause", span, left=left, taken=taken, below=values[0])
        return None

    def group(self, item, kind, span, numbers, values):
        taken = self.taken(numbers)
        if kind == "U" and taken in item.alternatives:
            return self.node("group", span, piece=item, taken=taken, below=values[0])
        return None

    def taken(self, numbers):
        """The alternative that the one number below is of."""
        role = self.sheet.roles.get(numbers[0]) if numbers else None
        return role.piece if role and role.name == "alternative" else None

    def alternative(self, alternative, kind, _, numbers, values):
        return self.items(alternative, 0, kind, numbers, values)

    def rest(self, rest, kind, _, numbers, values):
        return self.items(rest.alternative, rest.place, kind, numbers, values)

    @staticmethod
    def items(alternative, place, kind, numbers, values):
        """The nodes of an alternative's items from a place on."""
        items = alternative.items
        if kind == "U" and len(items) == 1 and numbers == [items[0].outer]:
            return [values[0]]
        if kind == "B" and numbers == [items[place].outer, alternative.after(place + 1)]:
            return [values[0], *(values[1] if isinstance(values[1], list) else [values[1]])]
        return None

    def token(self, item, kind, span, *_):
        return self.node("token", span, piece=item) if kind == "A" else None

    def marked(self, item, kind, _, numbers, values):
        """A marked group is the group itself: its item has the mark."""
        return values[0] if kind == "U" and numbers == [item.inner] else None

    def repeat(self, item, kind, span, numbers, values):
        if kind == "E" and item.suffix[0] in "?*":
            return self.node("repeat", span, piece=item)
        if kind == "U" and item.suffix[0] in "?+" and numbers == [item.inner]:
            return self.node("repeat", span, piece=item, below=values)
        if kind == "U" and item.fresh is not None and numbers == [item.fresh]:
            return self.node("repeat", span, piece=item, below=values[0])
        return None

    def fresh(self, item, kind, _, numbers, values):
        """The words before the last one, of a repeat that may be closed, and the last."""
        if kind == "B" and numbers == [item.outer, item.inner]:
            before = values[0].below if values[0].kind == "repeat" else [values[0]]
            return [*before, values[1]]
        return None


class Parting(NamedTuple):
    """The first node at which two readings part, as it is in each, and the nonterminal's node it
    stands in.
    """

    first: Node
    second: Node
    within: Node


def parting(first, second):
    """Where two readings part: the highest node that takes another alternative (or follows another
    rule), or gives other words to what is below it. Nothing where they are alike, as closed ones
    may be.
    """
    within = first
    while first.like != second.like:
        within = first if first.left is not None else within
        if first.taken is not second.taken or spans(first) != spans(second):
            return Parting(first, second, within)
        apart = [pair for pair in zip(first.below, second.below) if pair[0].like != pair[1].like]
        if not apart:
            return Parting(first, second, within)
        first, second = apart[0]
    return None


def spans(node):
    return [(below.kind, below.left, below.length) for below in node.below]


def only_in(node, other):
    """The likes of a tree that do not stand in the other one."""
    others = {each.like for each in other.walk()}
    return {each.like for each in node.walk()} - others
