"""A clause sheet taken apart, and its expansion worked out again, so that each nonterminal of it
has a piece of text.

The sheet is one that the proved call `expand` has accepted. `Sheet.agree` compares what is worked
out here with what that call wrote, byte for byte: only then do the roles below say what the
nonterminals of a tree stand for.
"""

import re
from dataclasses import dataclass, field
from typing import NamedTuple, Optional

NAMES = "left clause"
LEFT = re.compile(r"([0-9]{1,5}) ")
SYMBOL = re.compile(r"([nt])([0-9]{1,5})")
OPEN, CLOSE = re.compile(r"\("), re.compile(r"\)")
REPEAT = re.compile(r"[+*]:align|[?+*]")
SUFFIX = re.compile(r"[+*]:align|[?+*]|:(?:offside|offalign|single)")
BETWEEN = re.compile(r" :(align|indent): | (\|) | ")
WRITTEN = re.compile(r"^([0-9]{1,5})|n([0-9]{1,5})", re.MULTILINE)
LARGEST = 63


class Disagreement(Exception):
    """The expansion worked out here is not the one of the proved call, or a tree does not follow
    it.
    """


class IllWritten(Exception):
    """A line that cannot go on to be a clause: the characters where that is so."""

    def __init__(self, first, last):
        super().__init__(f"not so written at {first + 1}")
        self.place = first, last


class Piece:
    """Something with a place in the text."""

    @property
    def span(self):
        """The line, counted from 1 with the names, and the characters there."""
        return self.line, self.begin, self.end


@dataclass(eq=False)
class Item(Piece):
    """An item with its suffix: `n`, `t` or `group`, and the nonterminals that the expansion gives
    it.
    """

    line: int
    begin: int
    kind: str
    number: int = 0
    alternatives: list = field(default_factory=list)
    suffix: str = ""
    end: int = 0
    # of the item without its suffix; with it; and the fresh one of a repeat
    inner: int = 0
    outer: int = 0
    fresh: Optional[int] = None

    @property
    def is_repeat(self):
        return self.suffix[:1] in ("?", "+", "*")

    @property
    def mark(self):
        """The mark of a marked group."""
        return self.suffix[1:] if self.suffix.startswith(":") else None


@dataclass(eq=False)
class Alternative(Piece):
    """A sequence of items, what binds each to all that follows it, and the nonterminals of its
    rests.
    """

    line: int
    begin: int
    items: list = field(default_factory=list)
    binds: list = field(default_factory=list)
    end: int = 0
    number: int = 0
    rests: dict = field(default_factory=dict)

    def after(self, place):
        """The nonterminal of all items from this place on."""
        return self.rests[place] if place in self.rests else self.items[place].outer


@dataclass(eq=False)
class Rest(Piece):
    """The items of a sequence from a place on."""

    alternative: Alternative
    place: int

    @property
    def line(self):
        return self.alternative.line

    @property
    def begin(self):
        return self.alternative.items[self.place].begin

    @property
    def end(self):
        return self.alternative.end


class Clause(NamedTuple):
    """A line of the sheet, counted from 1 with the names."""

    line: int
    left: int
    alternatives: list


class Role(NamedTuple):
    """What a nonterminal of the expansion stands for: `clause`, `alternative`, `rest`, `token`,
    `group`, `marked`, `repeat` or `fresh`, and the piece of text (of a clause its nonterminal).
    """

    name: str
    piece: object = None


class Reader:
    """One line, read from left to right; groups that are open stand on a stack, since lines may be
    deep.
    """

    def __init__(self, line, text):
        self.line, self.text, self.at = line, text, 0

    def take(self, form):
        found = form.match(self.text, self.at)
        if found:
            self.at = found.end()
        return found

    def clause(self):
        left = self.take(LEFT)
        if not left or int(left[1]) > LARGEST:
            raise IllWritten(0, len(self.text.split(" ")[0]))
        clause = Clause(self.line, int(left[1]), [])
        self.open = [clause]
        self.begin()
        while between := self.items_to_next():
            if between[2]:
                self.begin()
            else:
                self.open[-1].alternatives[-1].binds.append(between[1] or "none")
        if self.at < len(self.text) or len(self.open) > 1:
            raise IllWritten(self.at, min(self.at + 1, len(self.text)))
        return clause

    def begin(self):
        self.open[-1].alternatives.append(Alternative(self.line, self.at))

    def items_to_next(self):
        """An item, with all groups that begin or end with it; and what stands between it and the
        next one.
        """
        begun = self.at
        while self.take(OPEN):
            group = self.item("group", begun)
            self.open.append(group)
            self.begin()
            begun = self.at
        symbol = self.take(SYMBOL)
        if not symbol or int(symbol[2]) > LARGEST:
            raise IllWritten(begun, symbol.end() if symbol else min(begun + 1, len(self.text)))
        item = self.item(symbol[1], begun)
        item.number = int(symbol[2])
        self.suffixed(item, REPEAT)
        while len(self.open) > 1 and self.take(CLOSE):
            self.suffixed(self.open.pop(), SUFFIX)
        return self.take(BETWEEN)

    def item(self, kind, begun):
        made = Item(self.line, begun, kind)
        self.open[-1].alternatives[-1].items.append(made)
        return made

    def suffixed(self, item, form):
        found = self.take(form)
        item.suffix, item.end = found[0] if found else "", self.at
        # an alternative ends with its last item
        self.open[-1].alternatives[-1].end = self.at


def clause_of(line, text):
    """The clause in a line; fails at the first place at which the line cannot go on to be so
    written.
    """
    return Reader(line, text).clause()


class Sheet:
    """A clause sheet: its clauses, the roles of all nonterminals of its expansion, and the
    expansion's rules.
    """

    def __init__(self, text):
        self.lines = text.splitlines()
        if self.lines[:1] != [NAMES]:
            raise Disagreement("the clause sheet does not begin with its names")
        self.clauses = list(self.read())
        written = WRITTEN.findall("\n".join(self.lines[1:]))
        self.next = 1 + max((int(left or item) for left, item in written), default=-1)
        self.roles, self.rules = {}, []
        for clause in self.clauses:
            self.roles[clause.left] = Role("clause", clause.left)
            self.number_all(clause.alternatives)
        for clause in self.clauses:
            self.expand_all(clause.left, clause.alternatives)
        self.rules.sort(key=lambda rule: rule[0])

    def read(self):
        for number, line in enumerate(self.lines[1:], start=2):
            try:
                yield clause_of(number, line)
            except IllWritten as error:
                raise Disagreement(
                    f"line {number} of the clause sheet is {error}: {line}"
                ) from error

    def text(self, piece):
        """A piece as it is written."""
        line, begin, end = piece.span
        return self.lines[line - 1][begin:end]

    def alternatives(self, left):
        """All alternatives of a nonterminal."""
        return [
            each for clause in self.clauses if clause.left == left for each in clause.alternatives
        ]

    # ---- numbers, on the way through the text: what contains the other comes first

    def new(self, role):
        self.roles[self.next] = role
        self.next += 1
        return self.next - 1

    def number_all(self, alternatives):
        for alternative in alternatives:
            alternative.number = self.new(Role("alternative", alternative))
            for place, item in enumerate(alternative.items):
                if 1 <= place < len(alternative.items) - 1:
                    alternative.rests[place] = self.new(Role("rest", Rest(alternative, place)))
                self.number_item(item)

    def number_item(self, item):
        if item.suffix:
            item.outer = self.new(Role("marked" if item.mark else "repeat", item))
        if item.suffix[:1] in ("+", "*"):
            item.fresh = self.new(Role("fresh", item))
        if item.kind == "n":
            item.inner = item.number
        else:
            item.inner = self.new(Role("token" if item.kind == "t" else "group", item))
        item.outer = item.outer if item.suffix else item.inner
        self.number_all(item.alternatives)

    # ---- rules, by rising left, then in the order of the text

    def rule(self, left, kind, first="-", second="-", lay="none"):
        self.rules.append((left, f"{left} {kind} {first} {second} {lay}\n"))

    def expand_all(self, left, alternatives):
        for alternative in alternatives:
            self.rule(left, "U", alternative.number)
            self.expand_sequence(alternative)

    def expand_sequence(self, alternative):
        items, last = alternative.items, len(alternative.items) - 1
        if last == 0:
            self.rule(alternative.number, "U", items[0].outer)
        for place in range(last):
            left = alternative.rests[place] if place else alternative.number
            rest, bind = alternative.after(place + 1), alternative.binds[place]
            self.rule(left, "B", items[place].outer, rest, bind)
        for item in items:
            self.expand_item(item)

    def expand_item(self, item):
        if item.mark:
            self.rule(item.outer, "U", item.inner, lay=item.mark)
        elif item.is_repeat:
            self.expand_repeat(item)
        if item.kind == "t":
            self.rule(item.inner, "A", item.number)
        elif item.kind == "group":
            self.expand_all(item.inner, item.alternatives)

    def expand_repeat(self, item):
        if item.suffix[0] in "?+":
            self.rule(item.outer, "U", item.inner)
        if item.suffix[0] in "?*":
            self.rule(item.outer, "E")
        if item.fresh is not None:
            lay = "align" if item.suffix.endswith("align") else "none"
            self.rule(item.outer, "U", item.fresh)
            self.rule(item.fresh, "B", item.outer, item.inner, lay)

    def expansion(self):
        text = "left kind first second lay\n" + "".join(text for _, text in self.rules)
        return text.encode("ascii")

    def agree(self, expanded):
        """Fails where the proved call gave another rule sheet than the one worked out here."""
        if self.expansion() != expanded:
            raise Disagreement("the script's expansion is not the one that the call `expand` gave")
        return self
