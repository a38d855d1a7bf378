#!/usr/bin/env python3
"""An installation into a temporary folder: a C program built by pkg-config, shared and static, and run; the programs
from there; the manual pages without a warning; and that nothing is left after it is taken away.

    tests/install.py
"""

import os
import re
import shutil
import subprocess
import tempfile
import unittest
from pathlib import Path

TOP = Path(__file__).resolve().parent.parent
PATCH = TOP / "examples" / "two-trees.check"


def run(*words, **more):
    return subprocess.run(words, stdout=subprocess.PIPE, stderr=subprocess.PIPE, text=True, check=False, **more)


def example():
    """The program that man 3 teplonga shows."""
    page = (TOP / "docs" / "man" / "teplonga.3").read_text()
    text = re.search(r"^\.EX\n(.*?)^\.EE$", page, re.M | re.S)[1]
    return text.replace("\\e", "\\").replace("\\-", "-")


class Installation(unittest.TestCase):
    @classmethod
    def setUpClass(cls):
        cls.folder = Path(tempfile.mkdtemp())
        cls.addClassCleanup(shutil.rmtree, cls.folder, ignore_errors=True)
        cls.prefix = cls.folder / "a prefix"
        done = run(TOP / "bin" / "install", "--prefix", cls.prefix)
        assert done.returncode == 0, done.stderr
        (cls.folder / "program.c").write_text(example())

    def flags(self, *words):
        found = {**os.environ, "PKG_CONFIG_PATH": str(self.prefix / "lib" / "pkgconfig")}
        if shutil.which("pkg-config") is None:
            self.skipTest("no pkg-config: apt-get install pkg-config")
        answer = run("pkg-config", *words, "teplonga", env=found)
        self.assertEqual(answer.returncode, 0, answer.stderr)
        return answer.stdout.replace("a\\ prefix", "a prefix").replace(" -l", "\n-l").split("\n")

    def built(self, *words):
        program = self.folder / "program"
        flags = [flag.strip() for line in self.flags("--cflags", "--libs") for flag in re.split(r" (?=-)", line) if flag.strip()]
        made = run("cc", *words, self.folder / "program.c", *flags, "-o", program)
        self.assertEqual(made.returncode, 0, made.stderr)
        return program

    def test_a_C_program_with_the_shared_library(self):
        program = self.built()
        answer = run(program, env={"LD_LIBRARY_PATH": str(self.prefix / "lib")})
        self.assertEqual((answer.stdout, answer.returncode), ("two\n", 0), answer.stderr)
        self.assertNotEqual(run(program, env={"LD_LIBRARY_PATH": str(self.folder)}).returncode, 0)

    def test_a_C_program_with_the_archive(self):
        answer = run(self.built("-static"), env={})
        self.assertEqual((answer.stdout, answer.returncode), ("two\n", 0), answer.stderr)

    def test_the_shared_library_shows_the_C_functions_alone(self):
        library = self.prefix / "lib" / "libteplonga.so"
        shown = {line.split()[-1] for line in run("nm", "-D", "--defined-only", library).stdout.splitlines()}
        header = (TOP / "include" / "teplonga.h").read_text()
        self.assertEqual(shown, set(re.findall(r"^\w+ (teplonga_\w+)\(", header, re.M)))
        self.assertIn("libteplonga.so.0]", run("readelf", "-d", library).stdout)

    def test_the_programs(self):
        program = self.prefix / "bin" / "teplonga"
        here = run(TOP / "bin" / "teplonga", "check", PATCH)
        there = run(program, "check", PATCH, cwd=self.folder)
        self.assertEqual((there.stdout, there.returncode), (here.stdout, 0), there.stderr)
        drawn = run(self.prefix / "bin" / "teplonga-draw", PATCH, cwd=self.folder)
        self.assertTrue(drawn.stdout.startswith("<svg"), drawn.stderr)
        refused = run(program, "-v", "rows", input="", cwd=self.folder)
        self.assertEqual(refused.returncode, 1)
        self.assertIn("refused-32", refused.stderr)

    def test_the_manual_pages(self):
        if shutil.which("man") is None or shutil.which("groff") is None:
            self.skipTest("no man: apt-get install man-db groff")
        for page in sorted((self.prefix / "share" / "man").glob("man*/*")):
            shown = run("man", "--warnings", "-E", "UTF-8", "-l", page, env={**os.environ, "MANWIDTH": "100"})
            self.assertEqual((shown.stderr, shown.returncode), ("", 0), str(page))
            self.assertIn("NAME", shown.stdout)

    def test_nothing_is_left_and_nothing_else_is_taken(self):
        prefix = self.folder / "other"
        self.assertEqual(run(TOP / "bin" / "install", "--prefix", prefix).returncode, 0)
        self.assertEqual(run(TOP / "bin" / "install", "--prefix", prefix).returncode, 0)
        (prefix / "lib" / "another").write_text("stays\n")
        run(prefix / "bin" / "teplonga-draw", PATCH)
        self.assertEqual(run(TOP / "bin" / "install", "--prefix", prefix, "--uninstall").returncode, 0)
        left = [path for path in prefix.rglob("*") if not path.is_dir()]
        self.assertEqual(left, [prefix / "lib" / "another"])
        again = run(TOP / "bin" / "install", "--prefix", prefix, "--uninstall")
        self.assertEqual(again.returncode, 3)
        self.assertIn("nothing is installed", again.stderr)

    def test_bad_usage(self):
        for words in (["--prefix"], ["--prefix", ""], ["here"]):
            self.assertEqual(run(TOP / "bin" / "install", *words).returncode, 2, words)


if __name__ == "__main__":
    unittest.main()
