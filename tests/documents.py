#!/usr/bin/env python3
"""The inputs and outputs that README.md and docs/FORMAT.md show are those of the programs.

    tests/documents.py        needs the built programs
"""

import re
import subprocess
import unittest
from pathlib import Path

TOP = Path(__file__).resolve().parent.parent


def blocks(text):
    """The indented blocks, each without its indent."""
    found = re.findall(r"(?:^    [^\n]*\n(?:\n(?=    ))?)+", text, re.M)
    return [re.sub(r"^    ", "", block, flags=re.M) for block in found]


def pairs(text):
    """Each output that is shown, with the input or the command before it; of `judge` that is a sheet alone."""
    before = sheet = None
    for block in blocks(text):
        if block.startswith("answer line\n"):
            yield before, block
        elif block.startswith("two readings: "):
            yield sheet, block
        elif block.startswith(("left kind", "left clause\n", "bound\n", "call\n")) and "\n\n" in block:
            before = block
        elif re.fullmatch(r"bin/teplonga .*\n", block):
            before = block
        elif block.startswith("left "):
            sheet = block


def command(shown):
    """What answers an input: a program, or a call of bin/teplonga."""
    first, call = shown.split("\n")[0], TOP / "bin" / "teplonga"
    if first.startswith("bin/"):
        return [TOP / first.split(" ")[0], *(first.split(" ")[1:])]
    if "\n\n" not in shown:
        return [call, "judge"]
    if first == "left clause":
        return [call, "readings"]
    return [TOP / "target" / "bin" / {"bound": "sweeper", "call": "calls"}.get(first, "checker")]


class Documents(unittest.TestCase):
    def test_what_is_shown_is_what_is_answered(self):
        count = 0
        for name in ("README.md", "docs/FORMAT.md"):
            for shown, answer in pairs((TOP / name).read_text()):
                told = {"input": shown, "capture_output": True, "text": True, "cwd": TOP}
                ended = subprocess.run(command(shown), **told, check=False)
                self.assertEqual(ended.stdout, answer, name)
                count += 1
        self.assertGreaterEqual(count, 6)

    def test_every_file_that_is_named_is_there(self):
        for name in ("README.md", *(f"docs/{path.name}" for path in (TOP / "docs").glob("*.md"))):
            text = (TOP / name).read_text()
            for path in re.findall(r"`((?:bin|docs|scripts|tests|include|reference|examples)/[\w./-]+\w)`", text):
                self.assertTrue((TOP / path).exists(), f"{name}: {path}")


if __name__ == "__main__":
    unittest.main()
