#!/usr/bin/env python3
"""How much the test at every length clears: sheets of four kinds in tests/strength, each clear but
where its heading says `two` (it has a sentence with two trees, which the finder finds) or `missed`
(it is clear, and the test cannot tell).

    tests/strength.py       needs the built programs and finder
"""

import subprocess
import tempfile
import unittest
from pathlib import Path

TOP = Path(__file__).resolve().parent.parent
SHEETS = TOP / "tests" / "strength"
# cleared, ambiguous and missed sheets of each kind
KINDS = {"expressions": (24, 3, 0), "far": (10, 0, 1), "hard": (26, 6, 0), "layout": (29, 5, 0)}


def sheets(kind):
    """The heading and the clause sheet of each part of a file."""
    for part in (SHEETS / f"{kind}.txt").read_text().strip().split("\n\n"):
        heading, lines = part.split("\n", 1)
        yield heading.removeprefix("# "), f"left clause\n{lines}\n"


def asked(call, texts):
    """The second line of what a call writes on each sheet: its answer."""
    with tempfile.TemporaryDirectory() as made:
        paths = [Path(made) / str(place) for place in range(len(texts))]
        for path, text in zip(paths, texts):
            path.write_text(text)
        command = [TOP / "bin" / "teplonga", call, *paths]
        ended = subprocess.run(command, capture_output=True, check=True, timeout=300)
    outputs = ended.stdout.decode().split("answer line\n")[1:]
    return [output.split()[0] for output in outputs]


class Strength(unittest.TestCase):
    def test_kinds(self):
        self.assertEqual({path.stem for path in SHEETS.iterdir()}, set(KINDS))

    def told(self, kind):
        """How many sheets of a kind have each answer, all being as their headings say."""
        headings, texts = zip(*sheets(kind))
        doubtful = [text for heading, text in zip(headings, texts) if heading.startswith("two: ")]
        missed = sum(heading.startswith("missed: ") for heading in headings)
        self.assertEqual(asked("find", doubtful) if doubtful else [], ["two"] * len(doubtful))
        answers = asked("clauses-always", texts)
        for heading, answer in zip(headings, answers):
            meant = "unknown" if heading.startswith(("two: ", "missed: ")) else "clear"
            self.assertEqual(answer, meant, (kind, heading))
        return answers.count("clear"), len(doubtful), missed

    def test_answers(self):
        for kind, meant in KINDS.items():
            with self.subTest(kind):
                self.assertEqual(self.told(kind), meant)


if __name__ == "__main__":
    unittest.main()
