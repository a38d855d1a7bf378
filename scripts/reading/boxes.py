"""Compact boxes: what a picture or an outline shows of a tree or a reading.

A box of a reading stands for a node and those that say nothing beside it: the group or repeat that
is all of an alternative, the group around one item, the item that stands for a `?`. What is left
out is always told by a box's text, so two readings that differ never look alike.
"""

from dataclasses import dataclass, field, replace

from .cells import cells
from .nodes import only_in
from .spelling import count_of

# a chain of nonterminals is one box while its title is no longer than this
LONGEST_CHAIN = 28

# so many boxes in a row that both readings share are folded to one; of tokens alone, which are
# small, so many
FOLDED_RUN, FOLDED_TOKENS = 3, 8


@dataclass(eq=False)
class Box:
    """`kind` is `node` (of a nonterminal), `piece` (a group or repeat), `token`, `closed` or `fold`
    (what both readings share); `label` stands on the lines below it, `words` at the bottom beneath
    a fold.
    """

    kind: str
    title: str
    note: str
    start: int
    length: int
    nodes: list
    below: list = field(default_factory=list)
    label: str = ""
    said: str = ""
    words: str = ""
    differs: bool = False
    parts: bool = False
    # does the note say just what stands below?
    is_plain: bool = False
    # of a fold, by what it can be asked to be opened
    key: str = ""

    def walk(self):
        """All boxes, a box before those below it."""
        waiting = [self]
        while waiting:
            box = waiting.pop()
            yield box
            waiting.extend(reversed(box.below))

    @property
    def is_empty(self):
        """Does a box stand for a word of no tokens, with nothing below it?"""
        return not self.below and self.kind in ("node", "piece") and not self.length

    @property
    def spans(self):
        """The pieces of the sheet that a box stands for: line and characters."""
        pieces = [node.taken if node.kind == "clause" else node.piece for node in self.nodes]
        return (
            list(dict.fromkeys(piece.span for piece in pieces if piece))
            if self.kind != "fold"
            else []
        )


class Boxes:
    """Makes the boxes of all trees of an answer."""

    def __init__(self, answer):
        self.answer, self.names, self.tokens = answer, answer.names, answer.tokens

    def box(self, node):
        """The box of a node, without what differs; from the bottom up, since trees may be deep."""
        made = {}
        for each in reversed(list(node.walk())):
            made[id(each)] = getattr(self, each.kind)(each, made)
        return made[id(node)]

    def token(self, node, _):
        token = self.tokens[node.start]
        name = self.names.terminal(token.terminal)
        return Box(
            "token", name, "", node.start, node.length, [node], said=f"{name}, {token.place}"
        )

    def closed(self, node, _):
        """Of a closed node that it is there, and of what."""
        written = node.left is not None
        title = self.names.nonterminal(node.left) if written else ""
        note = "" if written else self.names.spelled(node.piece)
        said = f"{title or note}, closed"
        return Box("closed", title, note, node.start, node.length, [node], said=said)

    # ---- all boxes of an answer

    def all(self, chained=False):
        """The boxes of each tree, with what differs and where they part."""
        nodes, found = self.answer.readings, self.answer.parting
        boxes = [self.box(node) for node in nodes]
        if len(nodes) == 2:
            for place, box in enumerate(boxes):
                only = only_in(nodes[place], nodes[1 - place])
                mark(box, only, found[place] if found else None)
        return [chain(box) for box in boxes] if chained else boxes


class TreeBoxes(Boxes):
    """Boxes of the trees of a rule sheet: a node a box, kind and mark on its lines."""

    def clause(self, node, made):
        name, rule = self.names.nonterminal(node.left), node.taken
        label = rule.kind if rule.lay == "none" else f"{rule.kind} {rule.lay}"
        below = [made[id(each)] for each in node.below]
        said = f"{name}: {self.names.rule(rule)}"
        return Box("node", name, "", node.start, node.length, [node], below, label, said)


class ReadingBoxes(Boxes):
    """Boxes of readings."""

    def alternatives(self, node):
        """All alternatives that a node could take."""
        if node.kind == "group":
            return node.piece.alternatives
        return self.names.sheet.alternatives(node.left)

    def told(self, node):
        """The text of the alternative that a node takes, and which one it is where another is
        written alike.
        """
        text, alternatives = self.names.spelled(node.taken), self.alternatives(node)
        alike = [each for each in alternatives if self.names.spelled(each) == text]
        if len(alike) == 1:
            return text
        return f"{text} ({alike.index(node.taken) + 1} of {len(alike)} alike)"

    def clause(self, node, made):
        name, text = self.names.nonterminal(node.left), self.told(node)
        nodes, below = absorbed([node], list(node.below))
        boxes = [made[id(each)] for each in below]
        said = f"{name}: {text} (line {node.taken.line})"
        box = Box("node", name, text, node.start, node.length, nodes, boxes, said=said)
        box.is_plain = is_symbol(node.taken) and tells_itself(node.taken, self.alternatives(node))
        return box

    def group(self, node, made):
        alternatives, mark_of = node.piece.alternatives, node.piece.mark
        if not mark_of and len(node.below) == 1 and tells_itself(node.taken, alternatives):
            return through(node, made)
        if len(alternatives) == 1:
            text = self.names.spelled(node.piece)
            text = text[: len(text) - len(node.piece.suffix)] if node.piece.is_repeat else text
        else:
            text = self.told(node) + (f"  :{mark_of}" if mark_of else "")
        return self.of_piece(node, text, *absorbed([node], list(node.below)), made)

    def repeat(self, node, made):
        if node.piece.suffix == "?" and node.below:
            return through(node, made)
        return self.of_piece(node, self.names.spelled(node.piece), [node], list(node.below), made)

    @staticmethod
    def of_piece(node, text, nodes, below, made):
        boxes = [made[id(each)] for each in below]
        return Box("piece", "", text, node.start, node.length, nodes, boxes, said=text)


def faces(alternative):
    """What an alternative of one item may look like when its group is left out."""
    if len(alternative.items) != 1:
        return set()
    (item,) = alternative.items
    if item.mark or item.suffix[:1] in ("+", "*"):
        return {id(item)}
    if item.kind == "group":
        return set().union(*[faces(inner) or {id(item)} for inner in item.alternatives])
    return {(item.kind, item.number)}


def is_symbol(alternative):
    """Is an alternative one symbol?"""
    (item, *more) = alternative.items
    return not more and item.kind != "group" and not item.suffix


def tells_itself(taken, alternatives):
    """Is it plain from its one item which alternative is taken?"""
    mine = faces(taken)
    return bool(mine) and not any(
        mine & faces(other) for other in alternatives if other is not taken
    )


def absorbed(nodes, below):
    """While all that stands below is a repeat, or a group without a choice, it is part of the box
    above it.
    """
    while len(below) == 1 and below[0].kind == "group" and len(below[0].piece.alternatives) == 1:
        nodes, below = [*nodes, below[0]], list(below[0].below)
    if len(below) == 1 and below[0].kind == "repeat":
        nodes, below = [*nodes, below[0]], list(below[0].below)
    return nodes, below


def through(node, made):
    """The box of the one node below, which stands for this one too."""
    box = made[id(node.below[0])]
    return replace(box, nodes=[node, *box.nodes])


def mark(top, only, parts):
    """What differs: what stands in this tree only, and all that leads to where they part. (The like
    of that may stand in the other tree too, elsewhere: empty words are alike wherever they are.)
    """
    leads = set()
    for box in reversed(list(top.walk())):
        box.parts = any(node is parts for node in box.nodes)
        if box.parts or any(id(below) in leads for below in box.below):
            leads.add(id(box))
        box.differs = id(box) in leads or any(node.like in only for node in box.nodes)


def chain(box):
    """The same with a nonterminal that is one other put into one box with it, where they look
    alike.
    """
    made = {}
    for each in reversed(list(box.walk())):
        each.below = [made[id(below)] for below in each.below]
        made[id(each)] = chained(each)
    return made[id(box)]


def chained(box):
    (only,) = box.below if len(box.below) == 1 else (None,)
    if not box.is_plain or only.kind != "node" or only.differs != box.differs:
        return box
    title = f"{box.title} › {only.title}"
    if cells(title) > LONGEST_CHAIN:
        return box
    nodes, said = [*box.nodes, *only.nodes], f"{box.said}; {only.said}"
    return replace(only, title=title, nodes=nodes, said=said, parts=box.parts or only.parts)


# ---- folds


class Folds:
    """Folds up what both trees share: long runs, and all below a box; but for those that are
    opened.
    """

    def __init__(self, boxes, opened=()):
        self.tokens, self.names, self.opened = boxes.tokens, boxes.names, set(opened)
        self.number = 0

    def folded(self, tops):
        return [self.fold(top) for top in tops]

    def fold(self, top):
        self.number += 1
        walk = list(top.walk())
        self.place = {id(box): place for place, box in enumerate(walk)}
        made = {}
        for each in reversed(walk):
            below = self.runs(each.below, made) if each.differs else each.below
            made[id(each)] = replace(each, below=below)
        return made[id(top)]

    def runs(self, boxes, made):
        """The boxes below one that differs: those that are shared are folded, run by run."""
        found, run = [], []
        for box in [*boxes, None]:
            if box is not None and not box.differs:
                run.append(box)
                continue
            found += self.run(run)
            found += [] if box is None else [made[id(box)]]
            run = []
        return found

    def run(self, run):
        least = FOLDED_TOKENS if all(each.kind == "token" for each in run) else FOLDED_RUN
        if len(run) >= least:
            return self.one(run)
        return [
            each
            for box in run
            for each in (self.one([box]) if box.length > 1 and box.below else [box])
        ]

    def one(self, run):
        """One box for a run of boxes; the boxes themselves where it is opened."""
        key = f"{self.number}.{self.place[id(run[0])]}"
        if key in self.opened:
            return run
        length = sum(box.length for box in run)
        start = next((box.start for box in run if box.length), 0)
        count, name = count_of(length, "token"), name_of(run)
        kinds = {box.kind for box in run}
        title, note = (count, "") if kinds == {"token"} else (name, count)
        if kinds <= {"piece", "closed"}:
            title, note = "", f"{name}, {count}"
        words = self.names.words(self.tokens[start : start + length])
        nodes = [node for box in run for node in box.nodes]
        said = f"{name}, the same in both"
        return [Box("fold", title, note, start, length, nodes, said=said, words=words, key=key)]


def name_of(run):
    """What a run of boxes is."""
    names = list(dict.fromkeys(box.title or box.note for box in run))
    name = names[0] if len(names) == 1 else f"{names[0]} … {names[-1]}"
    return f"{name} ×{len(run)}" if len(run) > 1 else name
