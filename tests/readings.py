#!/usr/bin/env python3
"""Readings: outlines and pictures read back by the clauses alone, and compared with the rows of the
program.

    tests/readings.py        needs the built programs
"""

import random
import re
import shutil
import subprocess
import sys
import tempfile
import unittest
import xml.etree.ElementTree as ElementTree
from pathlib import Path
from typing import NamedTuple

TOP = Path(__file__).resolve().parent.parent
CALL, DRAW = TOP / "bin" / "teplonga", TOP / "bin" / "draw"
EXAMPLES = TOP / "examples"
sys.path[:0] = [str(TOP / "reference"), str(TOP / "scripts"), str(TOP / "tests")]

import clause_cases  # noqa: E402
import clauses as reference  # noqa: E402
from asking import Programs, Refused  # noqa: E402
from drawing.picture import Picture  # noqa: E402
from drawings import SVG, groups, middle, place as text_place, points, shown  # noqa: E402
from reading.answers import Question, read, rows_of  # noqa: E402
from reading.boxes import Folds  # noqa: E402
from reading.clauses import Disagreement, Sheet  # noqa: E402
from reading.nodes import Readings  # noqa: E402
from reading.outline import outline  # noqa: E402
from reading.sheets import parted  # noqa: E402

BLOCK = (EXAMPLES / "block.readings").read_bytes()
PROGRAMS = Programs("tests/readings.py")


def run(*words, data=b"", **more):
    words = [str(word) for word in words]
    return subprocess.run(words, input=data, capture_output=True, check=False, timeout=120, **more)


# ---- what is shown, and which rows are shown so


class Shown(NamedTuple):
    """A node as it is shown: a nonterminal's name or nothing, a text or nothing, and what is below
    it.
    """

    name: str
    text: str
    is_empty: bool
    below: list


def nested(listed):
    """The top one of nodes in walking order, each with its depth."""
    roots, path = [], []
    for depth, node in listed:
        del path[depth:]
        (path[-1].below if path else roots).append(node)
        path.append(node)
    (top,) = roots
    return top


def leaves(top):
    """The nodes with nothing below them."""
    waiting, found = [top], []
    while waiting:
        node = waiting.pop()
        found += [] if node.below else [node]
        waiting.extend(node.below)
    return found


PLACE = re.compile(r".( +)([0-9]+:[0-9]+)  ")


def outlined(lines):
    """The nodes of an outline, their places, marks and depths."""
    found = [PLACE.match(line) for line in lines]
    wide = max((len(each[1]) - 1 + len(each[2]) for each in found if each), default=0)
    listed, places, marks = [], [], []
    for line in lines:
        text = line[wide + 4 :]
        told = text.lstrip(" ")
        said = told.removesuffix("  ε")
        name, rest = re.fullmatch(r"(?:(n[0-9]+): )?(.*)", said).groups()
        node = Shown(name or "", rest, said != told, [])
        listed.append(((len(text) - len(told)) // 2, node))
        places.append(line[2 : wide + 2].strip())
        marks.append(line[0])
    return nested(listed), places, marks, [depth for depth, _ in listed]


def drawn(tree):
    """The nodes of a reading in a picture."""
    boxes = iter(groups(tree, "box"))

    def node():
        group = next(boxes)
        return in_picture(group, [node() for _ in range(int(group.get("data-below")))])

    return node()


def in_picture(group, below):
    """A box of a picture; one that is a chain stands for several nodes."""
    said, classes = group.find(SVG + "title").text, group.get("class").split()
    if "leaf" in classes:
        return Shown("", shown(group)[0], False, [])
    is_empty = not below and group.get("data-length") == "0"
    if "piece" in classes:
        return Shown("", said, is_empty, below)
    for part in reversed(said.split("; ")):
        name, text = re.fullmatch(r"(n[0-9]+): (.*) \(line [0-9]+\)", part).groups()
        below, is_empty = [Shown(name, text, is_empty, below)], False
    return below[0]


class Reader:
    """Finds all trees that are shown as something is, by the reference's own reading of the clause
    sheet.
    """

    def __init__(self, sheet, tokens):
        lines = sheet.decode("ascii").splitlines()[1:]
        self.texts = [line.split(" ", 1)[1] for line in lines]
        self.lines = [
            (int(line.split(" ")[0]), reference.alternatives(text.encode()))
            for line, text in zip(lines, self.texts)
        ]
        self.made = reference.Expansion(self.lines)
        self.terminals = [
            int(line.split(" ")[0]) for line in tokens.decode("ascii").splitlines()[1:]
        ]

    def text(self, line, piece, end=None):
        """A piece's text, numbers without leading zeros."""
        text = self.texts[line][piece.begin : piece.end if end is None else end]
        return re.sub(r"([nt])0+(?=[0-9])", r"\1", text)

    def trees(self, top):
        """The rows of each tree that is shown so."""
        return [rows for rows, end in self.nonterminal(0, top, 0) if end == len(self.terminals)]

    @staticmethod
    def row(number, kind, start, end):
        return (number, kind, start if end > start else 0, end - start)

    def over(self, number, kind, start, found):
        """A row above each of these trees."""
        return [([self.row(number, kind, start, end), *rows], end) for rows, end in found]

    def nonterminal(self, left, node, start):
        if node.name != f"n{left}":
            return []
        found = []
        listed = [
            (line, each)
            for line, (number, all_of) in enumerate(self.lines)
            if number == left
            for each in all_of
        ]
        for line, taken in self.told(listed, node.text):
            found += self.over(left, "U", start, self.taken(line, taken, node, start))
        return found

    def told(self, listed, text):
        """The alternatives that a text tells: the one so written, or the one of several that it
        says.
        """
        number = re.fullmatch(r"(.*) \(([0-9]+) of ([0-9]+) alike\)", text)
        wanted = number[1] if number else text
        alike = [(line, each) for line, each in listed if self.text(line, each) == wanted]
        if number:
            return [alike[int(number[2]) - 1]] if len(alike) == int(number[3]) else []
        return alike if len(alike) == 1 else []

    def taken(self, line, taken, node, start):
        """The trees of an alternative. The one group without a choice that it is, or the one
        repeat, is left out.
        """
        number = self.made.numbers[self.made.alternative(line, taken)]
        (item, *more) = taken.items
        if more:
            return self.sequence(line, taken, 0, node.below, start, number)
        if item.kind == "group" and not item.suffix[:1] in ("?", "+", "*") and len(item.value) == 1:
            inner = self.taken(line, item.value[0], node, start)
            found = self.marked(
                line, item, start, self.over(self.made.atom_number(line, item), "U", start, inner)
            )
        elif item.suffix[:1] in ("?", "+", "*"):
            found = self.repeated(line, item, node.below, start)
        elif item.kind == "t" and not node.below:
            # the token stands in the row of the alternative that it is
            found = self.token(line, item, f"t{item.value}", start)
        else:
            found = self.item(line, item, node.below[0], start) if len(node.below) == 1 else []
        return self.over(number, "U", start, found)

    def sequence(self, line, taken, place, below, start, number):
        """The trees of a sequence from an item on."""
        if len(below) != len(taken.items) - place:
            return []
        first = self.item(line, taken.items[place], below[0], start)
        if len(below) == 1:
            return first
        behind = (
            place + 1 < len(taken.items) - 1
            and self.made.numbers[self.made.rest(line, taken, place + 1)]
        )
        found = []
        for rows, at in first:
            for more, end in self.sequence(line, taken, place + 1, below[1:], at, behind):
                found.append(([self.row(number, "B", start, end), *rows, *more], end))
        return found

    def item(self, line, item, node, start):
        if item.suffix[:1] in ("+", "*"):
            return (
                self.repeated(line, item, node.below, start)
                if self.is_piece(node, self.text(line, item))
                else []
            )
        if item.suffix == "?":
            if not node.below and node.is_empty and self.is_piece(node, self.text(line, item)):
                return self.repeated(line, item, [], start)
            return self.repeated(line, item, [node], start)
        return self.marked(line, item, start, self.atom(line, item, node, start))

    @staticmethod
    def is_piece(node, text):
        return not node.name and node.text == text

    def marked(self, line, item, start, found):
        is_marked = item.suffix.startswith(":")
        return (
            self.over(self.made.item_number(line, item), "U", start, found) if is_marked else found
        )

    def repeated(self, line, item, below, start):
        number = self.made.item_number(line, item)
        if not below:
            return (
                [([self.row(number, "E", start, start)], start)] if item.suffix[0] in "?*" else []
            )
        if len(below) == 1 and item.suffix[0] in "?+":
            return self.over(number, "U", start, self.atom(line, item, below[0], start))
        if item.suffix == "?":
            return []
        fresh, found = self.made.numbers[self.made.fresh(line, item)], []
        for rows, at in self.repeated(line, item, below[:-1], start):
            for more, end in self.atom(line, item, below[-1], at):
                top = [self.row(number, "U", start, end), self.row(fresh, "B", start, end)]
                found.append(([*top, *rows, *more], end))
        return found

    def atom(self, line, item, node, start):
        if item.kind == "n":
            return self.nonterminal(item.value, node, start)
        if item.kind == "t":
            is_token = not node.name and not node.below and not node.is_empty
            return self.token(line, item, node.text, start) if is_token else []
        return self.over(
            self.made.atom_number(line, item), "U", start, self.group(line, item, node, start)
        )

    def token(self, line, item, text, start):
        if text != f"t{item.value}" or self.terminals[start : start + 1] != [item.value]:
            return []
        return [([(self.made.atom_number(line, item), "A", start, 1)], start + 1)]

    def group(self, line, item, node, start):
        """A group is left out where it is plain which alternative of one item is taken; else it has
        its text.
        """
        mark = item.suffix if item.suffix.startswith(":") else ""
        listed = [(line, each) for each in item.value]
        if not mark:
            plain = [
                (each, self.item(line, each.items[0], node, start))
                for each in item.value
                if len(each.items) == 1
            ]
            plain = [(each, found) for each, found in plain if found]
            if len(plain) == 1:
                number = self.made.numbers[self.made.alternative(line, plain[0][0])]
                return self.over(number, "U", start, plain[0][1])
        if node.name:
            return []
        if len(listed) == 1:
            end = item.end if mark else item.atom_end
            return (
                self.taken(line, listed[0][1], node, start)
                if node.text == self.text(line, item, end)
                else []
            )
        text = node.text.removesuffix(f"  {mark}") if mark else node.text
        return [
            each
            for _, taken in self.told(listed, text)
            for each in self.taken(line, taken, node, start)
        ]


# ---- what is asked


def drawn_sheets(count, seed):
    """Sheets drawn by chance that are often ambiguous, with tokens."""
    draw = random.Random(seed)

    def item(depth):
        is_symbol = depth > 2 or draw.random() < 0.6
        made = (
            draw.choice(["n0", "n1", "t0", "t0", "t1", "t01"])
            if is_symbol
            else f"({alternatives(depth + 1)})"
        )
        suffixes = ["?", "+", "*", "+:align", "*:align"]
        suffixes += [":offside", ":offalign", ":single"] if made[0] == "(" else []
        return made + (draw.choice(suffixes) if draw.random() < 0.4 else "")

    def alternatives(depth=0):
        return " | ".join(sequence(depth) for _ in range(draw.choice([1, 1, 2])))

    def sequence(depth):
        between = draw.choice([" ", " ", " :align: ", " :indent: "])
        return between.join(item(depth) for _ in range(draw.choice([1, 1, 2, 3])))

    for _ in range(count):
        lines = [f"{left} {alternatives()}\n" for left in (0, 1, draw.choice([0, 1]))]
        places, line, col = [], 1, 1
        for _ in range(draw.randint(0, 5)):
            places.append(f"{draw.choice([0, 1])} {line} {col}\n")
            line, col = (
                (line + 1, draw.choice([1, 1, 2])) if draw.random() < 0.4 else (line, col + 2)
            )
        yield ("left clause\n" + "".join(lines)).encode(), (
            "term line col\n" + "".join(places)
        ).encode()


def cases():
    """The examples, the reference's own inputs, and those drawn by chance."""
    yield tuple(parted(BLOCK))
    for kind, sheet, tokens in clause_cases.cases():
        if kind == "clauses":
            yield sheet, tokens
    yield from drawn_sheets(1200, 7)


class Whole(unittest.TestCase):
    """What is shown of each input, read back."""

    @classmethod
    def setUpClass(cls):
        sys.setrecursionlimit(20_000)
        cls.answers = []
        for sheet, tokens in cases():
            question = Question(True, sheet, tokens)
            try:
                answer = read(PROGRAMS, question)
            except Refused:
                continue
            rows = rows_of(PROGRAMS.answer("calls", sheet, tokens, call=b"call\nclauses\n"))[1]
            cls.answers.append((question, answer, rows))

    def readings(self):
        """Each input with a reading."""
        return [each for each in self.answers if each[2]]

    def test_there_are_enough_of_each(self):
        counts = [
            len([1 for *_, rows in self.answers if len(rows) == count]) for count in (0, 1, 2)
        ]
        self.assertGreater(min(counts), 100, counts)

    def test_the_expansion_is_the_proved_one_and_the_references(self):
        for question, _, _ in self.answers:
            sheet = Sheet(question.sheet.decode("ascii"))
            accepted, rules = reference.read_clauses(question.sheet)
            self.assertEqual(
                (accepted, sheet.expansion()), ("accepted", reference.rule_sheet(rules))
            )

    def test_outlines_show_just_the_rows(self):
        for question, answer, rows in self.readings():
            for wanted, lines in zip(rows, self.outlines(answer)):
                top, places, *_ = outlined(lines)
                trees = Reader(question.sheet, question.tokens).trees(top)
                self.assertEqual(trees, [wanted], (question, lines))
                self.assertEqual(places[0], answer.tokens[0].place if answer.tokens else "")

    @staticmethod
    def outlines(answer, fold=False):
        """The lines of each outline, without its heading."""
        boxes = answer.boxes()
        tops = Folds(boxes).folded(boxes.all()) if fold else boxes.all()
        listed = [list(outline([top], answer.tokens)) for top in tops]
        assert all(lines[0] == "reading" for lines in listed)
        return [lines[1:] for lines in listed]

    def test_the_place_of_a_row_is_that_of_its_first_token(self):
        """In walking order tokens come in theirs, so each token's row has the next place."""
        for question, answer, _ in self.readings():
            terminals = Reader(question.sheet, question.tokens).terminals
            for lines in self.outlines(answer):
                top, places, *_ = outlined(lines)
                self.assertEqual(
                    self.token_places(top, places), [token.place for token in answer.tokens], lines
                )
                self.assertEqual(len(terminals), len(answer.tokens))

    def token_places(self, top, places):
        """The places of the rows that end in a token."""
        found, waiting, at = [], [top], iter(places)
        while waiting:
            node, place = waiting.pop(), next(at)
            if not node.below and not node.is_empty:
                found.append(place)
            waiting.extend(reversed(node.below))
        return found

    def test_what_differs_is_marked(self):
        for question, answer, rows in self.readings():
            lists = self.outlines(answer)
            marks = [[mark for mark in outlined(lines)[2]] for lines in lists]
            if len(rows) == 1:
                self.assertEqual(set(marks[0]), {" "})
                continue
            self.assertNotEqual(*[[line[2:] for line in lines] for lines in lists])
            self.assertEqual([each.count(">") for each in marks], [1, 1], (question, lists))
            for lines in lists:
                self.leads(*outlined(lines)[2:], lines)
            folded = self.outlines(answer, fold=True)
            self.assertNotEqual(*folded)
            for lines, each in zip(folded, marks):
                kept = [line[0] for line in lines if line[0] != " "]
                self.assertEqual(kept, [mark for mark in each if mark != " "])

    def leads(self, marks, depths, lines):
        """All above a row that differs differs."""
        above = {}
        for mark, depth in zip(marks, depths):
            above[depth] = mark != " "
            if above[depth] and depth:
                self.assertTrue(above[depth - 1], lines)

    def test_pictures_show_just_the_rows(self):
        for question, answer, rows in self.readings():
            picture = ElementTree.fromstring(Picture(answer).svg())
            trees = groups(picture, "reading")
            self.assertEqual(len(trees), len(rows))
            for wanted, tree in zip(rows, trees):
                found = Reader(question.sheet, question.tokens).trees(drawn(tree))
                self.assertEqual(found, [wanted], question)
                self.visible(tree)
                self.edges(tree)
            parts = [len(groups(tree, "parts")) for tree in trees]
            self.assertEqual(parts, [1, 1] if len(rows) == 2 else [0] * len(rows))

    def visible(self, tree):
        """What is written in a box is what its title says: all of it, or its front, or that below
        says it.
        """
        for group in groups(tree, "box"):
            texts, classes = shown(group), group.get("class").split()
            said = group.find(SVG + "title").text
            if "node" in classes:
                names = [part.split(": ")[0] for part in said.split("; ")]
                self.assertEqual(texts.pop(0), " › ".join(names))
                said = re.sub(r" \(line [0-9]+\)$", "", said.split("; ")[-1].split(": ", 1)[1])
            if "leaf" in classes:
                self.assertEqual(", ".join(texts), said)
            elif texts:
                note, said = " ".join(texts), said.replace("  ", " ")
                self.assertTrue(
                    note == said or (note.endswith(" …") and said.startswith(note[:-2])),
                    (note, said),
                )
            else:
                self.assertRegex(said, r"^[nt][0-9]+$")

    def edges(self, tree):
        """The lines from a box lead to all below it, in order."""
        boxes = groups(tree, "box")
        below, done = {}, []
        for place in reversed(range(len(boxes))):
            below[place] = [done.pop() for _ in range(int(boxes[place].get("data-below")))]
            done.append(place)
        above = [
            place for place in range(len(boxes)) if "leaf" not in boxes[place].get("class").split()
        ]
        for place, edge in zip(above, groups(tree, "edge"), strict=True):
            lines = list(points(edge))
            if not below[place]:
                self.assertEqual((lines, shown(edge)), ([], ["ε"]))
                continue
            x, y, half = middle(boxes[place])
            self.meet(lines[0][0], (x, y + half))
            for line, child in zip(lines[-len(below[place]) :], below[place], strict=True):
                x, y, half = middle(boxes[child])
                self.meet(line[-1], (x, y - half))

    def meet(self, one, other):
        for here, there in zip(one, other):
            self.assertAlmostEqual(here, there, delta=0.11)

    def test_no_text_stands_on_another(self):
        for question, answer, _ in self.readings()[::3]:
            picture = ElementTree.fromstring(Picture(answer, fold=True).svg())
            size = [float(picture.get(key)) for key in ("width", "height")]
            places = sorted(text_place(text) for text in picture.iter(SVG + "text"))
            for nth, (low, high, left, right, said) in enumerate(places):
                inside = 0 <= left and right <= size[0] and 0 <= low and high <= size[1]
                self.assertTrue(inside, (question, said))
                for other_low, _, other_left, other_right, other in places[nth + 1 :]:
                    if other_low >= high:
                        break
                    self.assertFalse(
                        left < other_right and other_left < right, (question, said, other)
                    )


class Commands(unittest.TestCase):
    """bin/teplonga readings and bin/draw --clauses."""

    def setUp(self):
        self.room = Path(tempfile.mkdtemp())
        self.addCleanup(shutil.rmtree, self.room)

    def test_the_block(self):
        ended = run(
            CALL, "readings", "--names", EXAMPLES / "block.names", EXAMPLES / "block.readings"
        )
        where = "They part at stmt+:align in block, 1:1 to 3:1"
        said = f"{where}: the first takes [do nop nop], the second [do nop] [nop]."
        wanted = f"""answer line
two 0
{said}
reading 1
> 1:1  block: stmt+:align
| 1:1    stmt: do block
  1:1      do
| 2:1      block: stmt+:align
  2:1        stmt: nop
  3:1        stmt: nop
reading 2
> 1:1  block: stmt+:align
| 1:1    stmt: do block
  1:1      do
| 2:1      block: stmt+:align
  2:1        stmt: nop
  3:1    stmt: nop
"""
        self.assertEqual((ended.returncode, ended.stdout.decode(), ended.stderr), (0, wanted, b""))

    def test_one_and_none(self):
        one, none = BLOCK.rsplit(b"0 3 1\n")[0], BLOCK.replace(b"0 3 1", b"0 3 2")
        self.assertEqual(
            run(CALL, "readings", data=one).stdout.decode().splitlines()[1:3], ["one 0", "reading"]
        )
        self.assertEqual(run(CALL, "readings", data=none).stdout, b"answer line\nnone 0\n")

    def test_refusals_are_the_programs(self):
        for data in (
            b"",
            b"left clause\n0 t0\n",
            b"x" * 16_385,
            BLOCK.replace(b"n1+", b"n1 +"),
            BLOCK + b"0 1 1\n",
        ):
            program = run(CALL, "-v", "clauses", data=data)
            for words in (["-v", "readings"], ["readings", "-v"]):
                ended = run(CALL, *words, data=data)
                self.assertEqual(
                    (ended.returncode, ended.stdout, ended.stderr),
                    (1, program.stdout, program.stderr),
                )
            self.assertEqual(run(CALL, "readings", data=data).stderr, b"")
            ended = run(DRAW, "--clauses", data=data)
            self.assertEqual(
                (ended.returncode, ended.stdout, ended.stderr), (1, b"", program.stderr)
            )

    def test_usage_and_files(self):
        self.assertEqual(run(CALL, "readings", "--nope").returncode, 2)
        ended = run(CALL, "readings", self.room / "none")
        self.assertEqual((ended.returncode, ended.stdout), (3, b""))
        (self.room / "names").write_text("q\n")
        ended = run(CALL, "readings", "--names", self.room / "names", data=BLOCK)
        self.assertEqual((ended.returncode, ended.stdout), (2, b""))
        path = EXAMPLES / "block.readings"
        ended = run(CALL, "readings", path, self.room / "none", path)
        self.assertEqual(
            (ended.returncode, ended.stdout), (3, run(CALL, "readings", path).stdout * 2)
        )
        self.assertEqual(ended.stderr.decode().count("==> "), 3)

    def test_expanded_trees_are_those_of_the_rules(self):
        rules = run(CALL, "expand", EXAMPLES / "block.clauses").stdout.split(b"\n", 2)[2]
        by_rules = run(DRAW, data=rules + b"\n" + parted(BLOCK)[1]).stdout
        self.assertEqual(run(DRAW, "--clauses", "--expanded", data=BLOCK).stdout, by_rules)

    def test_the_picture_of_the_example(self):
        drawn_now = run(
            DRAW, "--clauses", "--names", EXAMPLES / "block.names", EXAMPLES / "block.readings"
        ).stdout
        self.assertEqual((TOP / "docs" / "pictures" / "readings.svg").read_bytes(), drawn_now)

    def test_closed_nodes_stay_closed(self):
        """For each set of nonterminals that a user may see: nothing of what is below a closed row
        is shown.
        """
        for last in range(9):
            rights = f"\nuser low high may\n4 0 {last} see\n".encode()
            ended = run(CALL, "readings", "--user", 4, data=BLOCK + rights)
            self.assertEqual(ended.returncode, 0, ended.stderr)
            shown_rows = self.shown_rows(last)
            for number, rows in enumerate(shown_rows, start=1):
                lines = (
                    ended.stdout.decode()
                    .split(f"reading {number}\n")[1]
                    .split("reading 2\n")[0]
                    .splitlines()
                )
                closed = [row for row in rows if row[1] == "C"]
                self.assertEqual(
                    len([line for line in lines if line.endswith("  closed")]), len(closed), lines
                )
                tokens = [row for row in rows if row[1] == "A"]
                told = [
                    node for node in leaves(outlined(lines)[0]) if not node.text.endswith("closed")
                ]
                self.assertEqual(len(told), len(tokens), lines)
            picture = ElementTree.fromstring(
                run(DRAW, "--clauses", "--user", 4, data=BLOCK + rights).stdout
            )
            drawn_closed = [len(groups(tree, "closed")) for tree in groups(picture, "reading")]
            self.assertEqual(
                drawn_closed, [len([1 for row in rows if row[1] == "C"]) for rows in shown_rows]
            )

    @staticmethod
    def shown_rows(last):
        sheet, tokens = parted(BLOCK)
        rules = PROGRAMS.answer("calls", sheet, call=b"call\nexpand\n").split(b"\n", 2)[2]
        rights = f"user low high may\n4 0 {last} see\n".encode()
        return rows_of(
            PROGRAMS.answer("calls", rules, tokens, rights, call=b"call user\nshow 4\n")
        )[1]

    def test_closed_nodes_by_chance(self):
        """A box for each closed row and a token for each leaf shown, whatever may be seen."""
        draw, count = random.Random(9), 0
        for sheet, tokens in drawn_sheets(250, 31):
            low = draw.randrange(4)
            ranges = f"4 {low} {low + draw.randrange(12)} see\n4 0 {draw.randrange(3)} see\n"
            rights = f"user low high may\n{ranges}".encode()
            try:
                answer = read(PROGRAMS, Question(True, sheet, tokens, rights, 4))
                rules = PROGRAMS.answer("calls", sheet, call=b"call\nexpand\n").split(b"\n", 2)[2]
                show = b"call user\nshow 4\n"
                rows = rows_of(PROGRAMS.answer("calls", rules, tokens, rights, call=show))[1]
            except Refused:
                continue
            for top, listed in zip(answer.boxes().all(chained=True), rows, strict=True):
                kinds = [box.kind for box in top.walk()]
                for kind, letter in (("closed", "C"), ("token", "A")):
                    wanted = [row for row in listed if row[1] == letter]
                    self.assertEqual(kinds.count(kind), len(wanted), (sheet, rights, listed))
                count += kinds.count("closed")
            ElementTree.fromstring(Picture(answer).svg())
            "\n".join(outline(answer.boxes().all(), answer.tokens))
        self.assertGreater(count, 30)

    def test_rules_for_a_user(self):
        data = (EXAMPLES / "two-trees.check").read_bytes() + b"\nuser low high may\n"
        picture = ElementTree.fromstring(run(DRAW, "--user", 5, data=data).stdout)
        self.assertEqual([len(groups(tree, "closed")) for tree in groups(picture, "tree")], [1, 1])


class Failures(unittest.TestCase):
    """What does not fit together is never shown."""

    def setUp(self):
        self.room = Path(tempfile.mkdtemp())
        self.addCleanup(shutil.rmtree, self.room)
        for name in ("bin", "scripts", "docs"):
            shutil.copytree(TOP / name, self.room / name)
        (self.room / "crates").mkdir()
        (self.room / "crates.txt").write_text("")
        (self.room / "target" / "bin").mkdir(parents=True)

    def program(self, expansion, rows):
        """A program in the place of `calls` that answers so."""
        (self.room / "expand").write_bytes(b"answer line\ngiven 0\n" + expansion)
        (self.room / "clauses").write_bytes(rows)
        made = self.room / "target" / "bin" / "calls"
        made.write_text(
            f"#!/bin/sh\nread names\nread call\ncat >/dev/null\ncat '{self.room}'/$call\n"
        )
        made.chmod(0o755)

    def ended(self):
        for words in (["teplonga", "readings"], ["draw", "--clauses"]):
            ended = run(self.room / "bin" / words[0], *words[1:], data=BLOCK)
            yield ended.returncode, ended.stdout, ended.stderr.decode()

    def test_another_expansion(self):
        sheet = Sheet(parted(BLOCK)[0].decode())
        rows = PROGRAMS.answer("calls", *parted(BLOCK), call=b"call\nclauses\n")
        self.program(sheet.expansion(), rows)
        self.assertEqual([status for status, *_ in self.ended()], [0, 0])
        for damaged in (
            sheet.expansion().replace(b"A 1", b"A 2"),
            sheet.expansion() + b"9 E - - none\n",
            b"",
        ):
            self.program(damaged, rows)
            for status, out, errors in self.ended():
                self.assertEqual((status, out), (3, b""))
                self.assertIn(
                    "the script's expansion is not the one that the call `expand` gave", errors
                )

    def test_rows_that_follow_no_rule(self):
        sheet = Sheet(parted(BLOCK)[0].decode())
        for row in (
            "1 0 U 0 3\n1 7 B 0 3\n",
            "1 0 U 0 3\n1 2 E 0 0\n",
            "1 63 A 0 1\n",
            "1 2 U 0 3\n",
        ):
            self.program(
                sheet.expansion(),
                f"answer line\none 0\ntree left kind start length\n{row}".encode(),
            )
            for status, out, _ in self.ended():
                self.assertEqual((status, out), (3, b""), row)

    def test_roles(self):
        sheet = Sheet("left clause\n0 t0 t1\n")
        for rows in (
            [(0, "U", 0, 1), (2, "A", 0, 1)],
            [(1, "B", 0, 2)],
            [(9, "A", 0, 1)],
            [(2, "A", 0, 1)],
        ):
            with self.assertRaises((Disagreement, ValueError)):
                Readings(sheet).made(rows)


if __name__ == "__main__":
    unittest.main()
