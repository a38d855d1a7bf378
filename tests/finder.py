#!/usr/bin/env python3
"""The finder, by bin/teplonga find: the paper's variants at their shortest lengths, refusals,
limits, guide and solver.

    tests/finder.py        needs the built programs and finder
"""

import os
import re
import shutil
import subprocess
import sys
import tempfile
import unittest
from pathlib import Path

TOP = Path(__file__).resolve().parent.parent
CALL, SWEEP = TOP / "bin" / "teplonga", TOP / "bin" / "sweep"
FINDER = TOP / "target" / "bin" / "finder"
SHEETS = TOP / "bench" / "sheets"
RULES = b"left kind first second lay\n"
PLAIN = RULES + b"0 B 0 0 none\n0 A 0 - none\n"
UNKNOWN = b"answer line\nunknown 0\n"

sys.path.insert(0, str(TOP / "reference"))
import teplonga  # noqa: E402

# a variant, the length of its shortest sentence with two trees, and what it changes in the paper's
# grammar: the paper gives 6 for its variant #3-2 and 7, 10 and 11 for variants of Haskell whose
# marks it does not name
VARIANTS = {
    "yaml-3-2": (
        6,
        {
            "12 U 25 - offside": "12 U 25 - none",
            "25 B 26 2 none": "25 B 26 32 none",
            "13 U 27 - offalign": "13 U 27 - none",
            "15 U 28 - offside": "15 U 28 - none",
            "28 B 29 2 none": "28 B 29 33 none",
            "16 U 30 - offalign": "16 U 30 - none",
        },
        "32 U 2 - offside\n33 U 2 - offside\n",
    ),
    "haskell-valdef-decl": (
        7,
        {"2 U 8 - offside": "2 U 8 - none", "3 U 10 - single": "3 U 10 - none"},
        "",
    ),
    "haskell-valdef": (10, {"2 U 8 - offside": "2 U 8 - none"}, ""),
    "haskell-decl": (11, {"3 U 10 - single": "3 U 10 - none"}, ""),
    "fsharp-rule": (17, {"18 U 20 - offside": "18 U 20 - none"}, ""),
    "fsharp-unmarked": (17, {" offside": " none", " align": " none"}, ""),
}

# all tokens stand on one line, and two parts never do: no length but 1 has a tree, and each takes
# more room than the one before
GROWING = (
    RULES
    + b"0 U 1 - single\n"
    + b"".join(
        b"%d B %d %d indent\n" % (a, b, c)
        for a in range(1, 5)
        for b in range(1, 6)
        for c in range(1, 6)
    )
    + b"".join(b"%d A 0 - none\n" % a for a in range(1, 6))
)

# 128 rules under which nearly everything meets everything
DENSE = (
    RULES
    + b"".join(
        b"%d B %d %d none\n" % (a, b, c) for a in range(5) for b in range(5) for c in range(5)
    )
    + b"0 A 0 - none\n0 E - - none\n1 A 0 - none\n"
)


def run(*words, data=None, timeout=120, **more):
    """A command's status, output and errors."""
    if data is not None:
        more["input"] = data
    ended = subprocess.run(
        [str(word) for word in words], capture_output=True, timeout=timeout, check=False, **more
    )
    return ended.returncode, ended.stdout, ended.stderr.decode()


def find(*words, **more):
    return run(CALL, "find", *words, **more)


def unguided(path, *words, **more):
    """The finder without the test for every length."""
    return run(FINDER, "--guide", "none", *words, data=path.read_bytes(), **more)


def has_two(path, tokens):
    """Does the unrelated implementation say that a sentence has two trees?"""
    checked = teplonga.check_program(path.read_bytes() + b"\n" + tokens)
    return checked.startswith(b"answer line\ntwo 0\n")


class Variants(unittest.TestCase):
    """The paper's grammars and those that lack marks."""

    def test_each_is_the_papers_grammar_but_for_what_it_changes(self):
        self.assertEqual(
            {path.stem for path in (SHEETS / "variants").glob("*.rules")}, set(VARIANTS)
        )
        for name, (_, changes, more) in VARIANTS.items():
            text = (SHEETS / f"{name.split('-')[0]}.rules").read_text()
            for old, new in changes.items():
                self.assertIn(f"{old}\n", text, name)
                text = text.replace(f"{old}\n", f"{new}\n")
            self.assertEqual((SHEETS / "variants" / f"{name}.rules").read_text(), text + more, name)

    def test_each_has_its_shortest_length_where_the_sweep_is_clear(self):
        for name, (length, _, _) in VARIANTS.items():
            path = SHEETS / "variants" / f"{name}.rules"
            status, out, errors = find(path)
            self.assertEqual((status, errors), (0, ""), name)
            self.assertTrue(out.startswith(b"answer line\ntwo 0\nterm line col\n"), out)
            tokens = out.split(b"two 0\n")[1]
            self.assertEqual(len(tokens.splitlines()) - 1, length, name)
            self.assertTrue(has_two(path, tokens), name)
            swept = run(SWEEP, data=b"bound\n5\n\n" + path.read_bytes())
            self.assertEqual(swept, (0, b"answer line\nclear 0\n", ""), name)
            self.assertEqual(find(path)[1], out, f"{name}: another sentence the second time")

    def test_nothing_is_found_where_there_is_nothing(self):
        for name, most in (("block-repaired", 16), ("haskell", 16), ("fsharp", 12), ("yaml", 7)):
            path, words = SHEETS / f"{name}.rules", ["--seconds", "600", "--to", most]
            said = f"nothing found up to {most} tokens\n"
            self.assertEqual(unguided(path, *words, timeout=900), (0, UNKNOWN, said), name)
            clear = "nothing to be found: the test for every length says clear\n"
            self.assertEqual(find(*words, path, timeout=900), (0, UNKNOWN, clear), name)

    def test_the_sentence_that_README_shows(self):
        text = (TOP / "README.md").read_text()
        blocks = re.compile(r"^    (bin/teplonga find \S+)$.*?^((?:    [^\n]+\n)+)", re.M | re.S)
        command, shown = blocks.search(text).groups()
        out = run(*command.split(), cwd=TOP)[1].decode()
        self.assertEqual(
            re.sub("^    ", "", shown, flags=re.M), out.removeprefix("answer line\ntwo 0\n")
        )
        self.assertGreater(len(shown.splitlines()) - 1, 7)


class Inputs(unittest.TestCase):
    """What is read, and what is refused."""

    def test_short_sentences(self):
        one = b"answer line\ntwo 0\nterm line col\n0 1 1\n"
        self.assertEqual(find(data=PLAIN), (0, one + b"0 1 2\n0 1 3\n", ""))
        self.assertEqual(
            find("-", data=b"left clause\n0 t0 | n0 n0\n"), (0, one + b"0 1 2\n0 1 3\n", "")
        )
        self.assertEqual(find(data=RULES + b"0 U 0 - none\n0 A 0 63 none\n"), (0, one, ""))

    def test_the_sentence_of_no_tokens_comes_last(self):
        empty = RULES + b"0 B 1 2 none\n0 U 1 - none\n1 E - - none\n2 E - - none\n"
        self.assertEqual(find(data=empty), (0, b"answer line\ntwo 0\nterm line col\n", ""))
        longer = empty + b"0 B 0 3 none\n3 A 0 - none\n"
        self.assertEqual(find(data=longer), (0, b"answer line\ntwo 0\nterm line col\n0 1 1\n", ""))

    def test_refused_as_by_sweep(self):
        rules = [
            b"",
            b"\n",
            b"left clause",
            b"left kind",
            RULES,
            RULES[:-1],
            PLAIN[:-1],
            PLAIN + b"\n",
            RULES + b"1 A 0 - none\n",
        ]
        lines = [
            b"0 A 64 - none",
            b"0 A - - none",
            b"0 U 0 - align",
            b"0 A 5 4 none",
            b"0 A 0 3 none",
            b"x",
            b"",
            b"0 B 0 0 align",
        ]
        rules += [PLAIN + line + b"\n" for line in lines] + [PLAIN + b"0 E - - none\n" * 128]
        for sheet in rules:
            wanted = run(SWEEP, data=b"bound\n1\n\n" + sheet)
            self.assertEqual(wanted[0], 1, sheet)
            self.assertEqual(find(data=sheet), wanted, sheet)
        clauses = [
            b"0 ()",
            b"0 t64",
            b"",
            b"1 t0",
            b"0 " + b"(" * 17 + b"t0" + b")" * 17,
            b"0" + b" t0" * 70,
            b"63 t0",
        ]
        for sheet in [b"left clause\n" + line + b"\n" for line in clauses] + [
            b"left clause\n",
            b"left clause\n0 t0",
        ]:
            wanted = run(CALL, "clauses-sweep", "1", data=sheet)
            self.assertEqual(wanted[0], 1, sheet)
            self.assertEqual(find(data=sheet), wanted, sheet)

    def test_too_many_bytes(self):
        self.assertEqual(
            find(data=PLAIN.ljust(16_385, b"x")), (1, b"answer line\nrefused-31 0\n", "")
        )
        self.assertEqual(
            find(data=PLAIN.ljust(16_384, b"x")), (1, b"answer line\nrefused-2 4\n", "")
        )

    def test_words(self):
        status, out, errors = run(CALL, "-v", "find", data=b"left clause\n0 (t0\n")
        self.assertEqual((status, out), (1, b"answer line\nrefused-41 2\n"))
        self.assertTrue(errors.startswith("refused-41, clause sheet, line 2: "), errors)
        status, out, errors = run(CALL, "-v", "find", data=PLAIN + b"0 A 64 - none\n")
        words = "refused-3, rule sheet, line 4: a number above 63\n"
        self.assertEqual(errors, words + "    0 A 64 - none\n        ^^\n")

    def test_usage(self):
        for words in (
            ["--seconds"],
            ["--seconds", "x"],
            ["--seconds", "1.2.3"],
            ["--to", "0"],
            ["--to", "65"],
            ["--to", ""],
            ["--memory", "0"],
            ["--solver"],
            ["--nope"],
        ):
            status, out, errors = find(*words)
            self.assertEqual((status, out), (2, b""), words)
            self.assertIn("usage: bin/teplonga", errors)
        for words in (
            ["--seconds"],
            ["--seconds", "-1"],
            ["--seconds", "inf"],
            ["--to", "65"],
            ["--memory", "1e3"],
            ["--guide", "never"],
            ["--nope", "1"],
        ):
            self.assertEqual(run(FINDER, *words, data=PLAIN)[:2], (2, b""), words)
        self.assertEqual(
            find("--seconds", ".5", "--to", "007", "--memory", "64", "--", "-", data=PLAIN)[0], 0
        )
        self.assertIn(b"\n  find ", run(CALL)[1])
        self.assertEqual(find("--to", "5", "--help"), run(CALL, "--help"))

    def test_a_failed_write_is_3(self):
        self.assertEqual(run("sh", "-c", f"'{FINDER}' >/dev/full", data=PLAIN)[0], 3)
        for target in (">/dev/full", ">&-"):
            status, _, errors = run("sh", "-c", f"'{CALL}' find {target}", data=PLAIN)
            self.assertEqual(status, 3, target)
            self.assertIn("standard output: could not be written", errors)


class Limits(unittest.TestCase):
    """Time and memory."""

    def test_a_tenth_of_a_second(self):
        # all of these lengths would take hours
        status, out, errors = unguided(SHEETS / "yaml.rules", "--seconds", "0.1", "--to", "64")
        self.assertEqual((status, out), (0, UNKNOWN))
        self.assertRegex(
            errors, r"^nothing found( up to \d+ tokens?)?: the 0\.1 seconds are over\n$"
        )

    def test_memory_is_bounded(self):
        for most in (16, 64):
            with tempfile.TemporaryFile() as data:
                data.write(GROWING)
                data.seek(0)
                words = [FINDER, "--guide", "none", "--memory", str(most)]
                words += ["--seconds", "600", "--to", "64"]
                with subprocess.Popen(
                    words, stdin=data, stdout=subprocess.PIPE, stderr=subprocess.PIPE
                ) as child:
                    out, errors = child.stdout.read(), child.stderr.read().decode()
                    _, status, used = os.wait4(child.pid, 0)
                    child.returncode = os.waitstatus_to_exitcode(status)
            self.assertEqual((child.returncode, out), (0, UNKNOWN))
            self.assertRegex(
                errors, rf"^nothing found up to \d+ tokens: the {most} MB are used up\n$"
            )
            # the program itself takes some megabytes before it begins
            self.assertLess(used.ru_maxrss / 1024, 1.1 * most + 8)


class Others(unittest.TestCase):
    """What the finder asks: the test for every length, and a solver."""

    def setUp(self):
        self.room = Path(tempfile.mkdtemp())
        self.addCleanup(shutil.rmtree, self.room)

    def program(self, script):
        path = self.room / "program"
        path.write_text(f"#!/bin/sh\n{script}\n")
        path.chmod(0o755)
        return path

    def test_the_test_for_every_length_guides_the_search(self):
        for name, (length, _, _) in VARIANTS.items():
            path = SHEETS / "variants" / f"{name}.rules"
            status, out, errors = unguided(path, "--seconds", "600", timeout=900)
            self.assertEqual((status, errors), (0, ""), name)
            self.assertEqual(len(out.splitlines()) - 3, length, name)
        # what is clear at every length is not looked at, however little time there is
        clear = (0, UNKNOWN, "nothing to be found: the test for every length says clear\n")
        self.assertEqual(find("--seconds", "2", "--to", "64", SHEETS / "yaml.rules"), clear)

    def test_a_test_that_takes_too_long_is_given_up(self):
        ended = find("--seconds", "0.01", data=DENSE)
        self.assertEqual(ended, (0, UNKNOWN, "nothing found: the 0.01 seconds are over\n"))

    @unittest.skipUnless(shutil.which("cadical"), "cadical is not installed: not tested with it")
    def test_cadical(self):
        for name, (length, _, _) in VARIANTS.items():
            path = SHEETS / "variants" / f"{name}.rules"
            status, out, errors = find("--seconds", "600", "--solver", "cadical", path, timeout=900)
            self.assertEqual((status, errors), (0, ""), name)
            tokens = out.split(b"two 0\n")[1]
            self.assertEqual(len(tokens.splitlines()) - 1, length, name)
            self.assertTrue(has_two(path, tokens), name)
        said = "nothing found up to 8 tokens\n"
        none = unguided(SHEETS / "haskell.rules", "--to", "8", "--solver", "cadical")
        self.assertEqual(none, (0, UNKNOWN, said))

    def test_a_solver_is_not_believed(self):
        solver = self.program("cat > /dev/null; echo 's SATISFIABLE'; echo 'v 0'")
        aligned = PLAIN.replace(b"0 0 none", b"0 0 align")
        status, out, errors = find("--to", "3", "--solver", solver, data=aligned)
        self.assertEqual((status, out), (0, UNKNOWN))
        said = "nothing found up to 3 tokens; what was found at 3 tokens has not two trees\n"
        self.assertEqual(errors, said)

    def test_a_solver_that_does_not_answer(self):
        for solver, said in (
            (self.room / "no such", "cannot be run"),
            ("cat", "says neither SATISFIABLE nor UNSATISFIABLE"),
        ):
            status, out, errors = find("--solver", solver, data=PLAIN)
            self.assertEqual((status, out), (3, b""), solver)
            self.assertIn(f"{solver} {said}\n", errors)
        # by itself, and where it leaves another program behind that holds its output open
        for script in ("exec sleep 1000", "sleep 90; echo"):
            slow = self.program(script)
            status, out, errors = find("--seconds", "0.2", "--solver", slow, data=PLAIN, timeout=60)
            self.assertEqual((status, out), (0, UNKNOWN))
            self.assertIn("the 0.2 seconds are over\n", errors)


class First(unittest.TestCase):
    """The first run, in a copy without the built finder."""

    def test_what_it_is_built_with_is_named(self):
        room = Path(tempfile.mkdtemp())
        self.addCleanup(shutil.rmtree, room)
        for name in ("bin", "scripts", "docs"):
            shutil.copytree(TOP / name, room / name)
        shutil.copy(TOP / "crates.txt", room)
        (room / "crates").mkdir()
        tools = room / "tools"
        tools.mkdir()
        for tool in ("sh", "awk", "cut", "dirname", "find", "grep", "mkdir", "readlink", "sort"):
            (tools / tool).symlink_to(shutil.which(tool))
        for tool in ("rt", "cargo", None):
            path = {"PATH": str(tools)}
            status, out, errors = run(room / "bin" / "teplonga", "find", data=PLAIN, env=path)
            self.assertEqual((status, out), (3, b""))
            self.assertIn(f"`{tool}`" if tool else "target/build-finder.log says why", errors)
            if tool:
                (tools / tool).write_text("#!/bin/sh\nexit 1\n")
                (tools / tool).chmod(0o755)


if __name__ == "__main__":
    unittest.main()
