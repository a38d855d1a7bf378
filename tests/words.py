#!/usr/bin/env python3
"""Each refusal in words: bin/check -v, bin/sweep -v and bin/teplonga -v say the sentence of docs/refusals.tsv, show the refused line and
mark the field at fault. Every number of the table is reached.

    tests/words.py        needs the built programs
"""

import subprocess
import sys
import unittest
from pathlib import Path

TOP = Path(__file__).resolve().parent.parent
sys.path.insert(0, str(TOP / "scripts"))

import refusals  # noqa: E402
import words  # noqa: E402

MEANING = {refusal.number: refusal.meaning for refusal in refusals.table()}
RULES, TOKENS, WIDE = "left kind first second lay\n", "term line col\n", "term line col width\n"
PLAIN = RULES + "0 B 0 0 none\n0 A 0 - none\n"


def check(rules, tokens=TOKENS):
    return "check", f"{rules}\n{tokens}"


def sweep(bound, rules=PLAIN):
    return "sweep", f"bound\n{bound}\n\n{rules}"


def clauses(line, *earlier, tokens=TOKENS):
    return "teplonga clauses", "left clause\n" + "".join(f"{each}\n" for each in (*earlier, line)) + f"\n{tokens}"


def rule(line, *earlier):
    return check(RULES + "".join(f"{each}\n" for each in (*earlier, line)))


def token(line, *earlier, names=TOKENS):
    return check(PLAIN, names + "".join(f"{each}\n" for each in (*earlier, line)))


# number, line, the input, then the refused line, the mark under it and what else is said; or nothing
CASES = [
    (31, 0, ("check", "x" * 16_385)),
    (32, 0, ("check", PLAIN)),
    (32, 0, sweep("three")),
    (1, 1, check("left kind first lay\n"), "left kind first lay", "                ^^^"),
    (1, 1, check("Left kind first second lay\n"), "Left kind first second lay", "^^^^"),
    (6, 130, check(RULES + "".join(f"{n // 64} A {n % 64} - none\n" for n in range(129))), "2 A 0 - none"),
    (2, 2, rule("0 A none"), "0 A none", "    ^^^^"),
    (2, 2, rule("0 A 1 -"), "0 A 1 -", "       ^"),
    (2, 2, rule("0 A 1 - none x"), "0 A 1 - none x", "             ^"),
    (2, 2, rule("0 X 1 - none"), "0 X 1 - none", "  ^"),
    (2, 2, rule("0 E 1 - none"), "0 E 1 - none", "    ^"),
    (2, 2, rule("0 B 1 - none"), "0 B 1 - none", "      ^"),
    (2, 2, rule("0 U 1 2 none"), "0 U 1 2 none", "      ^"),
    (2, 2, rule("000000 A 1 - none"), "000000 A 1 - none", "^^^^^^"),
    (2, 2, rule("0 A 1 - nono"), "0 A 1 - nono", "        ^^^^"),
    (2, 2, rule("0 A 1 - none\r"), "0 A 1 - none\\x0d", "        ^^^^^^^^"),
    (2, 2, rule("0  A 1 - none"), "0  A 1 - none", "  ^"),
    (2, 3, sweep(3, RULES + "0 A 1 - none\n0 A 2 - none"), "0 A 2 - none", "            ^", "(the line is not ended by byte 10)"),
    (3, 2, rule("64 A 64 - none"), "64 A 64 - none", "^^"),
    (3, 2, rule("0 B 0 00064 none"), "0 B 0 00064 none", "      ^^^^^"),
    (4, 2, rule("0 A 0 - align"), "0 A 0 - align", "        ^^^^^"),
    (44, 2, rule("0 A 7 06 none"), "0 A 7 06 none", "      ^^"),
    (5, 4, rule("0 U 01 - single", "0 E - - none", "0 U 1 - none"), "0 U 01 - single", "^^^^^^^^", "line 3 is 0 U 1 - none"),
    (5, 3, rule("0 A 3 9 none", "0 A 9 - none"), "0 A 3 9 none", "^^^^^^^", "line 2 is 0 A 9 - none"),
    (7, 0, rule("1 A 0 - none")),
    (11, 1, check(PLAIN, "term line width\n"), "term line width", "          ^^^^^"),
    (11, 1, check(PLAIN, "term line col wide\n"), "term line col wide", "              ^^^^"),
    (14, 66, check(PLAIN, TOKENS + "".join(f"0 {n} 1\n" for n in range(1, 66))), "0 65 1"),
    (12, 2, token("0 1"), "0 1", "   ^"),
    (12, 2, token("0 1 1 1"), "0 1 1 1", "      ^"),
    (12, 2, token("0 1 1", names=WIDE), "0 1 1", "     ^"),
    (12, 3, token("0 x 1", "0 1 1"), "0 x 1", "  ^"),
    (13, 2, token("64 0 1"), "64 0 1", "^^"),
    (13, 2, token("0 0 1"), "0 0 1", "  ^"),
    (13, 2, token("0 1 65536"), "0 1 65536", "    ^^^^^"),
    (47, 2, token("0 1 1 256", names=WIDE), "0 1 1 256", "      ^^^"),
    (47, 2, token("0 1 65535 2", names=WIDE), "0 1 65535 2", "          ^"),
    (15, 3, token("0 1 3", "0 2 1"), "0 1 3", "  ^", "line 2 is 0 2 1"),
    (15, 3, token("0 1 3 1", "0 1 1 3", names=WIDE), "0 1 3 1", "    ^", "line 2 is 0 1 1 3"),
    (1, 1, ("teplonga expand", "left clauses\n"), "left clauses", "     ^^^^^^^"),
    (41, 2, clauses("0"), "0", "^"),
    (41, 2, clauses("64 t0"), "64 t0", "^^"),
    (41, 2, clauses("0 t64 | n0"), "0 t64 | n0", "  ^^^"),
    (41, 2, clauses("0 t1 |n0"), "0 t1 |n0", "     ^"),
    (41, 3, clauses("0 (t1 (n0)+:single)", "0 t1"), "0 (t1 (n0)+:single)", "           ^"),
    (41, 2, clauses("0 n1+:align:"), "0 n1+:align:", "           ^"),
    (41, 2, clauses("0 (t1 n0"), "0 (t1 n0", "        ^"),
    (41, 2, clauses("0 t1 :offside"), "0 t1 :offside", "     ^"),
    (41, 2, clauses("0 ()"), "0 ()", "   ^"),
    (41, 2, ("teplonga expand", "left clause\n0 t1"), "0 t1", "    ^", "(the line is not ended by byte 10)"),
    (42, 2, clauses("0 " + "(" * 17 + "t0" + ")" * 17), "0 " + "(" * 17 + "t0" + ")" * 17, " " * 18 + "^"),
    (43, 0, clauses("0 n63")),
    (7, 0, clauses("1 t0")),
    (13, 2, clauses("0 t0", tokens=TOKENS + "0 0 1\n"), "0 0 1", "  ^"),
    (32, 0, ("teplonga rows", PLAIN)),
    (23, 0, sweep(8)),
    (24, 0, sweep(5, RULES + "0 A 0 7 none\n")),
    (45, 0, ("teplonga share 3 65 70", PLAIN)),
    (46, 0, ("teplonga share 3 12 12", PLAIN)),
    (48, 2, ("teplonga columns", PLAIN + "\nterm line low high\n0 1 3 02\n"), "0 1 3 02", "      ^^"),
    (49, 0, ("teplonga columns", PLAIN + "\nterm line low high\n0 1 1 256\n0 2 1 257\n")),
    (11, 1, ("teplonga columns", PLAIN + "\nterm line low hi\n"), "term line low hi", "              ^^"),
    (12, 2, ("teplonga columns", PLAIN + "\nterm line low high\n0 1 3\n"), "0 1 3", "     ^"),
    (50, 2, ("teplonga show 5", PLAIN + "\n" + TOKENS + "\nuser low high may\n16 0 0 see\n"), "16 0 0 see", "^^"),
    (51, 0, ("teplonga change 5 1 align", PLAIN + "\nuser low high may\n5 0 0 see\n")),
    (22, 0, check(RULES + "".join(f"{n} B {n + 1} {n + 1} none\n" for n in range(12)) + "12 E - - none\n")),
]


def sheet_of(number, call):
    """The sheet that a refusal of a line is about; `call` has the words of bin/teplonga."""
    if number == 50:
        return "rights"
    if number in (11, 12, 13, 14, 15, 47, 48):
        return "range" if call[:1] == ["columns"] else "token"
    return "clause" if call[:1] in (["clauses"], ["expand"]) else "rule"


class Words(unittest.TestCase):
    def test_every_refusal_in_words(self):
        for number, line, (script, data), *said in CASES:
            name, *call = script.split(" ")
            ended = subprocess.run([TOP / "bin" / name, "-v", *call], input=data.encode(), capture_output=True, check=False)
            self.assertEqual(ended.stdout.decode(), f"answer line\nrefused-{number} {line}\n", data[:200])
            self.assertEqual(ended.returncode, 1)
            first, *rest = ended.stderr.decode().splitlines()
            sheet = sheet_of(number, call)
            place = f", {sheet} sheet, line {line}" if line else ""
            self.assertEqual(first, f"refused-{number}{place}: {MEANING[number]}")
            self.assertEqual(rest, [f"    {text}" for text in said], data[:200])

    def test_every_number_is_reached(self):
        # the programs lend words enough, so 21 is said of no input
        self.assertEqual({number for number, *_ in CASES} | {21}, set(MEANING))
        self.assertEqual(words.explained("checker", "refused-21", 0, b""), [f"refused-21: {MEANING[21]}"])

    def test_the_sheets_of_calls(self):
        token = b"call\nplaces\n\n" + PLAIN.encode() + b"\n" + TOKENS.encode() + b"0 0 1\n"
        said = [f"refused-13, token sheet, line 2: {MEANING[13]}", "    0 0 1", "      ^"]
        self.assertEqual(words.explained("calls", "refused-13", 2, token), said)
        # a new mark: the field in whose place it is to stand
        change = b"call user rule lay\nchange 5 2 foo\n\n" + PLAIN.encode() + b"\nuser low high may\n"
        for number in (2, 4):
            said = [f"refused-{number}, rule sheet, line 3: {MEANING[number]}", "    0 A 0 - none", "            ^^^^"]
            self.assertEqual(words.explained("calls", f"refused-{number}", 3, change), said)

    def test_the_rights_sheet(self):
        for line, mark in (("16 0 0 see", "^^"), ("5 0 64 see", "    ^^"), ("5 2 1 see", "    ^"), ("5 0 1 sees", "      ^^^^"), ("5 0", "   ^")):
            show = f"call user\nshow 5\n\n{PLAIN}\n{TOKENS}\nuser low high may\n{line}\n"
            said = [f"refused-50, rights sheet, line 2: {MEANING[50]}", f"    {line}", f"    {mark}"]
            self.assertEqual(words.explained("calls", "refused-50", 2, show.encode()), said)
        change = b"call user rule lay\nchange 5 9 none\n\n" + PLAIN.encode() + b"\nuser low high may\n"
        self.assertEqual(words.explained("calls", "refused-51", 0, change), [f"refused-51: {MEANING[51]}"])

    def test_a_line_that_is_not_there_leaves_the_sentence(self):
        ended = subprocess.run(["python3", TOP / "scripts" / "words.py", "checker", "refused-3", "9"], input=b"x\n\n", capture_output=True, check=True)
        self.assertEqual(ended.stdout.decode(), f"refused-3: {MEANING[3]}\n")

    def test_a_long_line_is_cut_about_the_fault(self):
        line = "0 A 1 - " + "x" * 300
        shown = words.explained("checker", "refused-2", 2, f"{RULES}{line}\n\n".encode())
        self.assertTrue(all(len(text) <= 110 for text in shown[1:]))
        self.assertIn("^" * 60, shown[2])


if __name__ == "__main__":
    unittest.main()
