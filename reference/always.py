"""Reference for the test at every length: may some sentence have two trees?

Written from the definitions of the test alone, on top of the readers and the
layout marks of `teplonga.py`.  Naive on purpose: how
two nodes of two trees lie against one another is tried out on real tokens, one
where each node and each child starts, and the least family of relations is
grown over all pairs of shapes until nothing is new.

    python3 reference/always.py rules < rule sheet
    python3 reference/always.py clauses < clause sheet
"""

import sys
from dataclasses import dataclass
from functools import cache
from itertools import combinations, product

import clauses
import places
import teplonga as base
from teplonga import Token, answer_lines, refused_answer

SAME_WORD = (0, 0)
WHYS = ("rules", "cuts", "empty")

# the words that the call is lent at least
NEEDED = 73_728


# ------------------------------------------------------------------- the survey

LEVELS = ("none", "offalign", "offside", "single")


def stronger(one, other):
    return max(one, other, key=LEVELS.index)


def grown(found, more):
    """The least set with these members and with all that `more` finds to a member's side."""
    while True:
        new = set(more(found)) - found
        if not new:
            return found
        found = found | new


def nullables(rules):
    """Nonterminals that derive the empty word."""
    return grown(set(), lambda found: (rule.left for rule in rules if is_empty_by(rule, found)))


def is_empty_by(rule, nullable):
    """Has this rule the empty word?"""
    if rule.kind == "A":
        return False
    return all(child in nullable for child in (rule.first, rule.second) if child is not None)


def productives(rules, nullable):
    """Nonterminals that derive some word with tokens, marks ignored."""

    def more(found):
        for rule in rules:
            if rule.kind == "A" or any(filled_by(rule, nullable, found)):
                yield rule.left

    return grown(set(), more)


def filled_by(rule, nullable, productive):
    """The children that have tokens, for each way in which some have and the others are empty."""
    children = [child for child in (rule.first, rule.second) if child is not None]
    if rule.kind in "UB":
        for filled in product((True, False), repeat=len(children)):
            ways = zip(children, filled)
            if any(filled) and all(child in (productive if full else nullable) for child, full in ways):
                yield filled


def reached_from_start(rules, nullable, productive):
    """Nonterminals that stand in some tree of the start, marks ignored."""
    some = nullable | productive

    def more(found):
        for rule in rules:
            children = {rule.first, rule.second} - {None} if rule.kind in "UB" else set()
            if rule.left in found and children <= some:
                yield from children

    return grown({base.START}, more)


def inherited(rules, nullable, productive):
    """Pairs of a nonterminal and a mark that words of it keep below some chain of nodes from the start."""

    def more(found):
        for left, mark in found:
            for rule in rules:
                if rule.left == left:
                    for filled in filled_by(rule, nullable, productive):
                        yield from handed_down(rule, filled, mark)

    return grown({(base.START, "none")}, more)


def handed_down(rule, filled, mark):
    """What the children that have tokens inherit under a node whose word keeps a mark."""
    if rule.kind == "U":
        yield rule.first, stronger(mark, rule.lay)
    elif filled == (True, True):
        yield rule.first, mark
        yield rule.second, "single" if mark == "single" else "none"
    else:
        yield (rule.first if filled[0] else rule.second), mark


# ------------------------------------------------------------------- the shapes

@dataclass(eq=False)
class Shape:
    """A node that has tokens: its children that have tokens, its marks (those of
    its word, the one between two children), the terminals of a leaf."""

    left: int
    rule: int
    children: tuple
    marks: tuple
    terminals: frozenset


def shapes_of(rules, nullable, productive, levels):
    """The shapes of each nonterminal that has a level."""
    listed = []
    for place, rule in enumerate(rules, start=1):
        if rule.left not in levels:
            continue
        level = levels[rule.left]
        if rule.kind == "A":
            listed.append(Shape(rule.left, place, (), ((), "none"), frozenset(base.terminals_covered(rule))))
        for filled in filled_by(rule, nullable, productive):
            children = tuple(child for child, full in zip((rule.first, rule.second), filled) if full)
            marks = ((level, rule.lay), "none") if rule.kind == "U" else ((level,), rule.lay)
            listed.append(Shape(rule.left, place, children, marks, frozenset()))
    return listed


def first_terminals(shapes):
    """Pairs of a nonterminal and a terminal with which a word of it may begin."""

    def more(found):
        for shape in shapes:
            for terminal in shape.terminals:
                yield shape.left, terminal
            for left, terminal in found:
                if shape.children and left == shape.children[0]:
                    yield shape.left, terminal

    return grown(set(), more)


# ------------------------------------- how two nodes lie against one another

# A point is a place in the sentence.  A node with one child or none has two,
# its start and its end, a node with two children three.  A piece is (start, end).

def pieces_of(children, points):
    """The node's piece, then those of its children that have tokens."""
    return [(points[0], points[-1])] + (list(zip(points, points[1:])) if children else [])


def meet(piece, other):
    return piece[0] < other[1] and other[0] < piece[1]


def order(one, other):
    return (one > other) - (one < other)


def orders(piece, other):
    """The orders of the starts and of the ends."""
    return order(piece[0], other[0]), order(piece[1], other[1])


class Arrangement:
    """The points of two nodes.  Members are counted: 0 is the node, then its children."""

    def __init__(self, children, fellows, points, others):
        self.points, self.others = points, others
        self.pieces, self.parts = pieces_of(children, points), pieces_of(fellows, others)
        self.starts = sorted({start for start, _ in self.pieces + self.parts})
        ends = {end for _, end in self.pieces + self.parts}
        self.ends = sorted(ends - {max(ends)})
        # (member, other member, their orders) of each pair that shares a token, but for the two nodes
        self.pairs = [
            (place, at, orders(piece, part))
            for place, piece in enumerate(self.pieces)
            for at, part in enumerate(self.parts)
            if meet(piece, part) and (place, at) != (0, 0)
        ]

    def whole(self):
        return self.pieces[0], self.parts[0]

    def starting(self, end):
        """The members of each node that start there."""
        return [[place for place, piece in enumerate(listed) if piece[0] == end] for listed in (self.pieces, self.parts)]

    def ending(self, end):
        """The pairs whose shorter member ends there."""
        return [
            (place, at, found)
            for place, at, found in self.pairs
            if found[1] != 0 and min(self.pieces[place][1], self.parts[at][1]) == end
        ]


def arrangements(children, fellows):
    """All arrangements of a node of so many children and another one that share a token.

    A leaf has one token: no point is inside it.
    """
    first, second = max(2, children + 1), max(2, fellows + 1)
    for values in product(range(6), repeat=first + second):
        points, others = values[:first], values[first:]
        numbered = set(values) == set(range(max(values) + 1))
        rising = all(list(each) == sorted(set(each)) for each in (points, others))
        if numbered and rising and meet((points[0], points[-1]), (others[0], others[-1])):
            leaves = [each for size, each in ((children, points), (fellows, others)) if size == 0]
            if not any(each[0] < point < each[1] for each in leaves for point in values):
                yield Arrangement(children, fellows, points, others)


ARRANGEMENTS = {sizes: list(arrangements(*sizes)) for sizes in product(range(3), repeat=2)}


def lay_between(tokens, one, other):
    """How the later of two starts lies: on the line of the earlier one, or below it
    in a column that is less, equal or greater."""
    earlier, later = tokens[min(one, other)], tokens[max(one, other)]
    if earlier.line == later.line:
        return "same"
    return order(later.col, earlier.col)


def placements(count):
    """So many tokens on rising positions, one for each way in which they can lie."""
    seen = {}
    for steps in product((0, 1), repeat=count - 1):
        lines = [1 + sum(steps[:place]) for place in range(count)]
        for cols in product(range(1, count + 1), repeat=count):
            tokens = tuple(Token(0, *place) for place in zip(lines, cols))
            if all(base.comes_after(*pair) for pair in zip(tokens[1:], tokens)):
                pairs = combinations(range(count), 2)
                seen.setdefault(tuple(lay_between(tokens, *pair) for pair in pairs), tokens)
    return list(seen.values())


PLACEMENTS = {count: placements(count) for count in range(1, 5)}


def word_of(tokens, piece):
    """The tokens of a piece: those where something starts."""
    return tuple(tokens[point] for point in sorted(tokens) if piece[0] <= point < piece[1])


def keeps(marks, pieces, tokens):
    """Do the marks of a node hold, those of its word and the one between its children?"""
    whole, *parts = [word_of(tokens, piece) for piece in pieces]
    if len(parts) == 2 and not base.mark_of_two(marks[1], *parts):
        return False
    return all(base.mark_of_one(mark, whole) for mark in marks[0])


@cache
def layouts(arrangement, marks, others):
    """The lays of the starts of each pair, and of the two nodes, in all placements in which the marks hold."""
    found = []
    for placement in PLACEMENTS[len(arrangement.starts)]:
        tokens = dict(zip(arrangement.starts, placement))
        if keeps(marks, arrangement.pieces, tokens) and keeps(others, arrangement.parts, tokens):
            pairs = [(arrangement.pieces[place], arrangement.parts[at]) for place, at, _ in arrangement.pairs]
            lays = [lay_between(tokens, piece[0], part[0]) for piece, part in [*pairs, arrangement.whole()]]
            found.append((lays[:-1], lays[-1]))
    return found


# ------------------------------------------------- the least family of relations

class Family:
    """Relations that nodes of two trees may have, and terminals that may follow.

    A relation is (order of the starts, order of the ends), and the lay of the
    starts.  Nodes go by their shapes, children by their nonterminals; `None` in
    place of a lay stands for some lay.
    """

    def __init__(self, shapes):
        self.shapes = shapes
        self.firsts = first_terminals(shapes)
        self.terminals = {terminal for shape in shapes for terminal in shape.terminals}
        self.may = set()  # (shape or nonterminal, shape or nonterminal, orders, lay)
        self.next = set()  # (nonterminal, nonterminal, orders, terminal)
        while self.grow():
            pass

    def grow(self):
        """Take in all that one step finds; was there something new?"""
        size = len(self.may) + len(self.next)
        for one, other in product(self.shapes, repeat=2):
            for arrangement, lay, terminals in list(self.step(one, other)):
                found = orders(*arrangement.whole())
                named = product((one, one.left), (other, other.left), (found,), (lay, None))
                self.may.update(named)
                self.next.update((one.left, other.left, found, terminal) for terminal in terminals)
        return size < len(self.may) + len(self.next)

    def step(self, one, other):
        """(arrangement, lay of the starts, terminals at the shorter end) of each
        way in which nodes of two shapes may stand in two trees."""
        members, fellows = (one, *one.children), (other, *other.children)
        for arrangement in ARRANGEMENTS[len(one.children), len(other.children)]:
            pairs = arrangement.pairs
            if not one.terminals & other.terminals and not one.children and not other.children:
                continue
            if all((members[place], fellows[at], found, None) in self.may for place, at, found in pairs):
                follow = {end: self.following(members, fellows, arrangement, end) for end in arrangement.ends}
                if all(follow.values()):
                    yield from self.placed(one, other, arrangement, follow)

    def following(self, members, fellows, arrangement, end):
        """"some terminal is in First of every node that starts there and in T of
        every pair whose shorter member ends there": these terminals."""
        starting, others = arrangement.starting(end)
        lefts = [nonterminal(members[each]) for each in starting] + [nonterminal(fellows[each]) for each in others]
        ending = [
            (nonterminal(members[place]), nonterminal(fellows[at]), found)
            for place, at, found in arrangement.ending(end)
        ]
        return {
            terminal
            for terminal in self.terminals
            if all((left, terminal) in self.firsts for left in lefts)
            and all((*pair, terminal) in self.next for pair in ending)
        }

    def placed(self, one, other, arrangement, follow):
        """The step of an arrangement with the starts on positions that fit."""
        members, fellows = (one, *one.children), (other, *other.children)
        piece, part = arrangement.whole()
        shorter = follow[min(piece[1], part[1])] if piece[1] != part[1] else ()
        for lays, top in layouts(arrangement, one.marks, other.marks):
            pairs = zip(arrangement.pairs, lays)
            if all((members[place], fellows[at], found, lay) in self.may for (place, at, found), lay in pairs):
                yield arrangement, top, shorter


def nonterminal(node):
    return node.left if isinstance(node, Shape) else node


# ------------------------------------------------------------------- the answer

def two_rules_or_cuts(rules, nullable, productive):
    """Entries of two shapes, or two cuts of one, over one word."""
    pairs = inherited(rules, nullable, productive)
    levels = {
        left: min((mark for nonterminal, mark in pairs if nonterminal == left), key=LEVELS.index)
        for left, _ in pairs
    }
    family = Family(shapes_of(rules, nullable, productive, levels))
    alive = {shape for shape in family.shapes if (shape, shape, SAME_WORD, None) in family.may}
    seen = grown(
        {base.START},
        lambda found: (child for shape in alive if shape.left in found for child in shape.children),
    )
    for one, other in product(family.shapes, repeat=2):
        if one.left == other.left and one.left in seen and one.rule <= other.rule:
            if any(parts_ways(one, other, way) for way in family.step(one, other)):
                yield one.left, one.rule, other.rule, "rules" if one.rule < other.rule else "cuts"


def parts_ways(one, other, way):
    """Two different choices over one word?"""
    arrangement = way[0]
    alike = one is other and arrangement.points == arrangement.others
    return orders(*arrangement.whole()) == SAME_WORD and not alike


def two_empty_rules(rules, nullable, productive):
    """Entries of two rules that have the empty word."""
    for left in reached_from_start(rules, nullable, productive):
        having = [
            place
            for place, rule in enumerate(rules, start=1)
            if rule.left == left and is_empty_by(rule, nullable)
        ]
        for one, other in combinations(having, 2):
            yield left, one, other, "empty"


def entries_of(rules):
    """(nonterminal, first rule, second rule, why), in the order of the list; rules by place from 1."""
    nullable = nullables(rules)
    productive = productives(rules, nullable)
    found = {*two_rules_or_cuts(rules, nullable, productive), *two_empty_rules(rules, nullable, productive)}
    return sorted(found, key=lambda entry: (*entry[:3], WHYS.index(entry[3])))


def answer_on(reading):
    """(answer, line, entries) of a sheet that was read."""
    if reading[0] == "refused":
        return refused_answer(reading[1]), reading[2], []
    entries = entries_of(reading[1])
    return ("unknown" if entries else "clear"), 0, entries


def listed(entries, lent):
    """The rule for lists, four bytes an entry: (fits, number of entries, the lent bytes after)."""
    return places.in_lent_bytes([(*entry[:3], WHYS.index(entry[3])) for entry in entries], lent)


def call_on(reading, words, lent):
    """(answer, line, number of entries, words after, lent bytes after)."""
    if reading[0] != "refused" and len(words) < NEEDED:
        return refused_answer(21), 0, 0, list(words), bytes(lent)
    answer, line, entries = answer_on(reading)
    if reading[0] == "refused":
        return answer, line, 0, list(words), bytes(lent)
    fits, count, made = listed(entries, lent)
    return answer if fits else refused_answer(22), 0, count, [0] * NEEDED + list(words[NEEDED:]), made


def output_on(reading):
    answer, line, entries = answer_on(reading)
    output = answer_lines(answer, line)
    if answer == "unknown":
        output += b"left first second why\n"
        output += b"".join(b"%d %d %d %s\n" % (*entry[:3], entry[3].encode()) for entry in entries)
    return output


def always_output(rules):
    """What the program `calls` writes for `always` and this rule sheet."""
    return output_on(base.read_rules(rules))


def clauses_always_output(sheet):
    """What the program `calls` writes for `clauses-always` and this clause sheet."""
    return output_on(clauses.read_clauses(sheet))


OUTPUTS = {"rules": always_output, "clauses": clauses_always_output}


def main():
    if len(sys.argv) != 2 or sys.argv[1] not in OUTPUTS:
        sys.exit("usage: always.py rules|clauses < sheet")
    sys.stdout.buffer.write(OUTPUTS[sys.argv[1]](sys.stdin.buffer.read()))


if __name__ == "__main__":
    main()
