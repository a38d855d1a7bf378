#!/usr/bin/env python3
"""Draws, reads the picture back, and compares what it shows with the rows of the program and the sheets.

    tests/drawings.py        needs the built program `check`
"""

import re
import shutil
import subprocess
import sys
import tempfile
import unittest
import xml.etree.ElementTree as ElementTree
from pathlib import Path

TOP = Path(__file__).resolve().parent.parent
DRAW, CHECK = TOP / "bin" / "draw", TOP / "bin" / "check"
sys.path[:0] = [str(TOP / "reference"), str(TOP / "scripts")]

import check_cases  # noqa: E402
import teplonga  # noqa: E402
from drawing.svg import width  # noqa: E402

SVG = "{http://www.w3.org/2000/svg}"

# one token, empty words, a block on several lines, many tokens, a chain of many rows, far lines and columns, widths
CHAIN = " / ".join([f"{n} U {n + 1} - none" for n in range(40)] + ["40 B 41 0 none", "40 A 0 - none", "41 A 0 - none"])
INPUTS = {
    "one token": check_cases.check("0 A 7 - none", (7, 1, 1)),
    "no tree": check_cases.check(check_cases.P6, (1, 3), (2, 3)),
    "no tokens": check_cases.check(check_cases.P5),
    "empty words": check_cases.check("0 B 1 1 align / 1 B 2 1 none / 1 E - - none / 2 A 0 - none", (1, 2), (2, 2), (2, 9)),
    "a block": check_cases.check(check_cases.BLOCK.replace("offside", "offalign"), *check_cases.ITEMS),
    "64 tokens": check_cases.check(check_cases.PLAIN, *[(1 + n // 16, 1 + 3 * (n % 16)) for n in range(64)]),
    "200 rows": check_cases.check(CHAIN, *check_cases.row(5)),
    "far": check_cases.check(check_cases.LIST, (1, 1), (1, 65_000), (900, 7), (65_535, 65_535)),
    "widths": check_cases.rule_sheet(check_cases.LIST) + b"\nterm line col width\n0 1 1 9\n0 1 10 255\n0 2 3 1\n",
}
EXAMPLES = {path.name: path.read_bytes() for path in sorted((TOP / "examples").glob("*.check"))}


def run(*words, data=b"", **more):
    return subprocess.run([str(word) for word in words], input=data, capture_output=True, check=False, timeout=120, **more)


def rows_of(data):
    """The rows of both trees, as the program writes them."""
    lines = run(CHECK, data=data).stdout.decode().splitlines()[3:]
    rows = {1: [], 2: []}
    for line in lines:
        tree, left, kind, start, length = line.split()
        rows[int(tree)].append((int(left), kind, int(start), int(length)))
    return [listed for listed in rows.values() if listed]


def sheets_of(data):
    """Rules and tokens, as the reference reads them."""
    rules, tokens = teplonga.parted(data)
    return teplonga.read_rules(rules)[1], teplonga.read_tokens(tokens)[1]


def groups(element, name):
    """The groups of a class."""
    return [each for each in element.iter(SVG + "g") if name in each.get("class", "").split()]


def shown(group):
    """The texts of a group."""
    return [text.text for text in group.iter(SVG + "text")]


def middle(group):
    """The middle of a group's last box, and half its height."""
    box = list(group.iter(SVG + "rect"))[-1]
    x, y, wide, high = (float(box.get(key)) for key in ("x", "y", "width", "height"))
    return x + wide / 2, y + high / 2, high / 2


def points(group):
    """The points of each line of an edge."""
    for path in group.iter(SVG + "path"):
        numbers = list(map(float, re.findall(r"[\d.]+", path.get("d"))))
        yield list(zip(numbers[::2], numbers[1::2]))


def row(node):
    left, start, length = (int(node.get(f"data-{key}")) for key in ("left", "start", "length"))
    return left, node.get("data-kind"), start, length


def below(rows):
    """The places of the nodes below each node, from rows in walking order."""
    listed, done = {}, []
    for place in reversed(range(len(rows))):
        count = {"E": 0, "A": 0, "U": 1, "B": 2}[rows[place][1]]
        listed[place] = [done.pop() for _ in range(count)]
        done.append(place)
    return listed


def span(rows, children, place):
    """The rows of a node and all below it."""
    found = [rows[place]]
    for child in children[place]:
        found += span(rows, children, child)
    return tuple(found)


class Drawings(unittest.TestCase):
    """Each input is drawn once."""

    @classmethod
    def setUpClass(cls):
        sys.setrecursionlimit(20_000)
        cls.inputs = {**INPUTS, **EXAMPLES}
        cls.pictures, cls.rows = {}, {}
        for name, data in cls.inputs.items():
            ended = run(DRAW, data=data)
            assert ended.returncode == 0, (name, ended.stderr)
            cls.pictures[name] = ElementTree.fromstring(ended.stdout)
            cls.rows[name] = rows_of(data)

    def trees(self):
        """Each tree of each picture: its name, its group and its rows."""
        for name, picture in self.pictures.items():
            drawn = groups(picture, "tree")
            self.assertEqual(len(drawn), len(self.rows[name]), name)
            for tree, rows in zip(drawn, self.rows[name]):
                yield name, tree, rows

    def test_the_nodes_are_the_rows(self):
        for name, tree, rows in self.trees():
            nodes = groups(tree, "node")
            self.assertEqual([row(node) for node in nodes], rows, name)
            self.assertEqual([shown(node) for node in nodes], [[str(left)] for left, *_ in rows], name)

    def test_the_edges_lead_to_what_is_below(self):
        for name, tree, rows in self.trees():
            nodes, edges = groups(tree, "node"), groups(tree, "edge")
            for place, children in below(rows).items():
                x, y, half = middle(nodes[place])
                lines = list(points(edges[place]))
                self.meet(lines[0][0], (x, y + half), name)
                ends = [line[-1] for line in lines][-len(children) :] if children else []
                tops = [(middle(nodes[child])[0], middle(nodes[child])[1] - middle(nodes[child])[2]) for child in children]
                for end, top in zip(ends, tops, strict=True):
                    self.meet(end, top, name)

    def meet(self, one, other, name):
        """Two points are the same but for rounding."""
        for here, there in zip(one, other):
            self.assertAlmostEqual(here, there, delta=0.11, msg=name)

    def test_the_edges_have_kind_and_mark(self):
        for name, tree, rows in self.trees():
            rules, tokens = sheets_of(self.inputs[name])
            children, edges = below(rows), groups(tree, "edge")
            for place, (left, kind, start, _) in enumerate(rows):
                symbols = [rows[child][0] for child in children[place]]
                marks = [rule.lay for rule in rules if (rule.left, rule.kind) == (left, kind) and self.fits(rule, symbols, tokens, start)]
                said = kind if marks == ["none"] else f"{kind} {marks[0]}"
                self.assertEqual(shown(edges[place])[-1], said, (name, place))
                self.assertEqual("ε" in shown(edges[place]), kind == "E", (name, place))

    @staticmethod
    def fits(rule, symbols, tokens, start):
        if rule.kind == "A":
            return tokens[start].term in teplonga.terminals_covered(rule)
        return symbols == [number for number in (rule.first, rule.second) if number is not None]

    def test_the_tokens_stand_in_order_at_the_bottom(self):
        for name, tree, rows in self.trees():
            _, tokens = sheets_of(self.inputs[name])
            leaves, edges = groups(tree, "leaf"), groups(tree, "edge")
            self.assertEqual([int(leaf.get("data-token")) for leaf in leaves], list(range(len(tokens))), name)
            at = [middle(leaf) for leaf in leaves]
            self.assertEqual(at, sorted(at), name)
            self.assertEqual(len({y for _, y, _ in at}), min(len(at), 1), name)
            for leaf, token, n in zip(leaves, tokens, range(len(tokens))):
                self.assertEqual(shown(leaf), [str(token.term), str(n), f"{token.line}:{token.col}"], name)
            for place, (_, kind, start, _) in enumerate(rows):
                if kind == "A":
                    end = list(points(edges[place]))[-1][-1]
                    self.meet(end, (at[start][0], at[start][1] - at[start][2]), name)

    def test_what_differs_stands_out(self):
        for name, both in self.rows.items():
            if len(both) != 2:
                self.assertEqual(groups(self.pictures[name], "parts"), [], name)
                continue
            spans = [[span(rows, below(rows), place) for place in range(len(rows))] for rows in both]
            for which, tree in enumerate(groups(self.pictures[name], "tree")):
                for place, node in enumerate(groups(tree, "node")):
                    is_shared = spans[which][place] in spans[1 - which]
                    wanted = "differs" if not is_shared or "parts" in node.get("class") else "shared"
                    self.assertEqual(node.get("data-look"), wanted, (name, which, place))

    def test_the_first_node_with_two_choices_is_marked_and_named(self):
        for name, both in self.rows.items():
            if len(both) != 2:
                continue
            place, chosen = self.parting(name, both[0])
            picture = self.pictures[name]
            marked = [[n for n, node in enumerate(groups(tree, "node")) if "parts" in node.get("class")] for tree in groups(picture, "tree")]
            self.assertEqual(marked, [[place], [place]], name)
            left, _, start, length = both[0][place]
            said = picture.find(SVG + "desc").text
            word = "the empty word" if length == 0 else f"token {start}" if length == 1 else f"tokens {start} to {start + length - 1}"
            self.assertIn(f"They part at nonterminal {left} over {word}.", said, name)
            lines = self.inputs[name].decode().splitlines()
            for number, (rule, cut) in enumerate(chosen, start=1):
                text = lines[rule + 1]
                cuts = f", with {cut} token{'s' if cut != 1 else ''} on the left" if text.split()[1] == "B" else ""
                self.assertIn(f"Tree {number} takes line {rule + 2}, `{text}`{cuts}.", said, name)

    def parting(self, name, rows):
        """The first node that has two choices, by the reference, and the first two of them."""
        rules, tokens = sheets_of(self.inputs[name])
        grammar = teplonga.Grammar(rules)
        for place, (left, _, start, length) in enumerate(rows):
            choices = grammar.choices(left, tuple(tokens[start : start + length]))
            if len(choices) >= 2:
                return place, choices[:2]
        return None

    def test_the_patch_stands_as_it_is(self):
        for name, picture in self.pictures.items():
            _, tokens = sheets_of(self.inputs[name])
            boxes = groups(picture, "token-box")
            self.assertEqual([shown(box) for box in boxes], [[str(token.term)] for token in tokens], name)
            lefts = [float(next(box.iter(SVG + "rect")).get("x")) for box in boxes]
            heights = [middle(box)[1] for box in boxes]
            for axis, places in (("col", lefts), ("line", heights)):
                order = sorted((getattr(token, axis), place) for token, place in zip(tokens, places))
                for (one, here), (other, there) in zip(order, order[1:]):
                    self.assertEqual(one < other, here < there, (name, axis))

    def test_no_text_stands_on_another(self):
        for name, picture in self.pictures.items():
            size = [float(picture.get(key)) for key in ("width", "height")]
            places = sorted(place(text) for text in picture.iter(SVG + "text"))
            for low, high, left, right, said in places:
                self.assertTrue(0 <= left and right <= size[0] and 0 <= low and high <= size[1], (name, said))
            for nth, (_, high, left, right, said) in enumerate(places):
                for other_low, _, other_left, other_right, other in places[nth + 1 :]:
                    if other_low >= high:
                        break
                    self.assertFalse(left < other_right and other_left < right, (name, said, other))

    def test_both_trees_are_on_one_scale(self):
        for name, picture in self.pictures.items():
            steps = set()
            for tree in groups(picture, "tree"):
                tops = sorted({middle(node)[1] for node in groups(tree, "node")})
                steps |= {round(b - a, 1) for a, b in zip(tops, tops[1:])}
            self.assertLessEqual(len(steps), 1, name)


def place(text):
    """Low, high, left and right of a text, and the text."""
    size, x, y = (float(text.get(key)) for key in ("font-size", "x", "y"))
    wide = width(text.text, size)
    left = x if text.get("text-anchor") == "start" else x - wide / 2
    return y - size * 0.72, y + size * 0.2, left, left + wide, text.text


class Options(unittest.TestCase):
    def setUp(self):
        self.room = Path(tempfile.mkdtemp())
        self.addCleanup(shutil.rmtree, self.room)
        self.data = EXAMPLES["block.check"]

    def test_a_file_and_its_place(self):
        ended = run(DRAW, TOP / "examples" / "block.check", "-o", self.room / "a.svg")
        self.assertEqual((ended.returncode, ended.stdout, ended.stderr), (0, b"", b""))
        self.assertEqual((self.room / "a.svg").read_bytes(), run(DRAW, data=self.data).stdout)

    def test_a_page_holds_the_picture(self):
        page = run(DRAW, "--html", data=self.data).stdout.decode()
        self.assertTrue(page.startswith("<!doctype html>"))
        self.assertIn(run(DRAW, data=self.data).stdout.decode().strip(), page)

    def test_names(self):
        names = self.room / "names"
        names.write_text("# names\n\nn 0 Bl\u00f6ck <&>\nn 01 \u8a9e\nt 0 no \"op\"\n", encoding="utf-8")
        picture = ElementTree.fromstring(run(DRAW, "--names", names, data=self.data).stdout)
        nodes = [shown(node)[0] for node in groups(picture, "node")]
        self.assertEqual(nodes[:3], ["Bl\u00f6ck <&>", "\u8a9e", "3"])
        self.assertIn('no "op"', [shown(leaf)[0] for leaf in groups(picture, "leaf")])
        self.assertIn("`0 U 1 - none` (Bl\u00f6ck <&> is \u8a9e)", picture.find(SVG + "desc").text)

    def test_the_names_of_the_example(self):
        picture = ElementTree.fromstring((TOP / "docs" / "pictures" / "block.svg").read_text())
        drawn = run(DRAW, "--names", TOP / "examples" / "block.names", TOP / "examples" / "block.check").stdout
        self.assertEqual(ElementTree.tostring(picture), ElementTree.tostring(ElementTree.fromstring(drawn)))
        drawn = run(DRAW, TOP / "examples" / "two-trees.check").stdout
        self.assertEqual((TOP / "docs" / "pictures" / "two-trees.svg").read_bytes(), drawn)

    def test_bad_names_are_told(self):
        for line in ("n 64 x", "x 1 y", "n 1", "n -1 x", "t 000001 x"):
            (self.room / "names").write_text(f"n 0 a\n{line}\n")
            ended = run(DRAW, "--names", self.room / "names", data=self.data)
            self.assertEqual((ended.returncode, ended.stdout), (2, b""))
            self.assertIn(f"line 2 is not `n NUMBER NAME` or `t NUMBER NAME`, with a number up to 63: {line}", ended.stderr.decode())

    def test_a_refused_input_has_words_and_no_picture(self):
        ended = run(DRAW, data=b"left kind first second lay\n0 A 64 - none\n\nterm line col\n")
        self.assertEqual((ended.returncode, ended.stdout), (1, b""))
        self.assertIn(b"refused-3, rule sheet, line 2: a number above 63\n", ended.stderr)

    def test_what_cannot_be_read_or_written_is_told(self):
        for words in (["no such file"], ["--names", "no such file"], ["-o", "/no such folder/a.svg"]):
            ended = run(DRAW, *words, data=self.data, cwd=self.room)
            self.assertEqual((ended.returncode, ended.stdout), (3, b""), words)
            self.assertRegex(ended.stderr.decode(), r"^bin/draw: .*: No such file or directory\n$")

    def test_bad_usage(self):
        self.assertEqual(run(DRAW, "--nope").returncode, 2)
        self.assertEqual(run(DRAW, "a", "b").returncode, 2)

    def test_clauses_are_drawn_by_the_rules_that_they_expand_to(self):
        """With a program in the place of `calls`: the trees are those of `clauses`, the rules those of `expand`."""
        for name in ("bin", "scripts"):
            shutil.copytree(TOP / name, self.room / name)
        (self.room / "crates").mkdir()
        (self.room / "crates.txt").write_text("")
        rules, tokens = teplonga.parted(EXAMPLES["two-trees.check"])
        (self.room / "clauses").write_bytes(run(CHECK, data=EXAMPLES["two-trees.check"]).stdout)
        (self.room / "expand").write_bytes(b"answer line\ngiven 0\n" + rules)
        script = self.room / "target" / "bin" / "calls"
        script.parent.mkdir(parents=True)
        kept = f"'{self.room}'/asked-$call"
        script.write_text(f"#!/bin/sh\nread names\nread call\nread empty\ncat > {kept}\ncat '{self.room}'/$call\n")
        script.chmod(0o755)
        clauses = b"left clause\n0 n0 n0 | t0\n"
        ended = run(self.room / "bin" / "draw", "--clauses", "--expanded", data=clauses + b"\n" + tokens)
        self.assertEqual((ended.returncode, ended.stderr), (0, b""))
        self.assertEqual(ended.stdout, run(DRAW, data=EXAMPLES["two-trees.check"]).stdout)
        self.assertEqual((self.room / "asked-clauses").read_bytes(), clauses + b"\n" + tokens)
        self.assertEqual((self.room / "asked-expand").read_bytes(), clauses)


if __name__ == "__main__":
    unittest.main()
