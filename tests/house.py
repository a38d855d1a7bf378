#!/usr/bin/env python3
"""The sources keep the house's rules, and the plan of the crates is true.

    tests/house.py
"""

import sys
import unittest
from pathlib import Path

TOP = Path(__file__).resolve().parent.parent
sys.path.insert(0, str(TOP / "scripts"))

from house import needs, plan, text  # noqa: E402  (the path comes first)


def places(files, found):
    """file:line and what was found there."""
    for path in files:
        for number, *what in found(path.read_text()):
            yield f"{path.relative_to(TOP)}:{number} {' '.join(what)}".rstrip()


class House(unittest.TestCase):
    maxDiff = None

    def test_no_line_is_too_long(self):
        found = places(text.sources(".antt", ".rt"), lambda t: ((n,) for n in text.too_long(t)))
        self.assertEqual(list(found), [])

    def test_every_import_is_used(self):
        proofs = places(text.sources(".antt"), lambda t: text.unused_imports(t, "--"))
        code = places(text.sources(".rt"), lambda t: text.unused_imports(t, "//"))
        self.assertEqual([*proofs, *code], [])

    def test_every_let_is_used(self):
        self.assertEqual(list(places(text.sources(".antt"), text.unused_lets)), [])

    def test_no_answer_is_the_search_that_is_made_anyway(self):
        answers = (path for path in text.sources(".antt") if path.name == "Answers.antt")
        found = {str(p.relative_to(TOP)): needs.needless(p.read_text()) for p in answers}
        self.assertEqual({path: names for path, names in found.items() if names}, {})

    def test_no_law_is_stated_twice(self):
        self.assertEqual(text.stated_twice(), {})

    def test_the_plan_is_that_of_the_crates(self):
        self.assertEqual(list(plan.faults()), [])
        self.assertEqual(plan.PICTURE.read_text(), plan.picture())

    def test_what_is_wrong_is_found(self):
        sheet = "use A.{used, spare}\n\nx = let a = used in\n    let b = a in\n    used\n"
        self.assertEqual(list(text.unused_imports(sheet, "--")), [(1, "spare")])
        self.assertEqual(list(text.unused_lets(sheet)), [(4, "b")])
        self.assertEqual(list(text.too_long("short\n" + "word " * 30)), [2])
        plain = "-- src/lib.rt:7:9\npub add : goal.add\nadd c = search rules\n"
        other = "pub sum : goal.sum\nsum c = ap suc (search rules)\n"
        self.assertEqual(needs.needless(f"use A.{{rules}}\n\n{plain}\n{other}"), ["add"])
        self.assertEqual(needs.without(f"use A.{{rules}}\n\n{plain}\n{other}"), f"use A.{{rules}}\n\n{other}")
        law = "pub law : (n : ℕ) → n ≡ n\n    → n ≡ n\nlaw n e = e\n"
        self.assertEqual(list(text.statements(law)), [(1, "law", "(n : ℕ) → n ≡ n → n ≡ n")])


if __name__ == "__main__":
    unittest.main()
