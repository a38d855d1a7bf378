#!/usr/bin/env python3
"""The programs `check`, `sweep` and `calls` and the scripts in front of them: exit status, files, failing reads and writes.

    tests/programs.py        needs the built programs and a C compiler
"""

import os
import pty
import re
import shutil
import subprocess
import sys
import tempfile
import threading
import time
import unittest
from pathlib import Path

TOP = Path(__file__).resolve().parent.parent
CHECK, SWEEP, CALL = TOP / "bin" / "check", TOP / "bin" / "sweep", TOP / "bin" / "teplonga"
BUILT = TOP / "target" / "bin"
RULES = b"left kind first second lay\n0 B 0 0 none\n0 A 0 - none\n"
GOOD = RULES + b"\nterm line col\n0 1 1\n0 1 2\n0 1 3\n"
SHORTER = RULES + b"\nterm line col\n0 1 1\n0 1 2\n"
BAD = b"left kind first second lay\n0 A 64 - none\n\nterm line col\n"
SWEPT = b"bound\n3\n\n" + RULES

sys.path.insert(0, str(TOP / "reference"))
import calls  # noqa: E402
import teplonga  # noqa: E402

TWO = teplonga.check_program(GOOD)
REFUSED = teplonga.check_program(BAD)


def run(*words, data=None, **more):
    """A command's status, output and errors."""
    if data is not None:
        more["input"] = data
    ended = subprocess.run([str(word) for word in words], capture_output=True, timeout=60, check=False, **more)
    return ended.returncode, ended.stdout, ended.stderr.decode()


class Room(unittest.TestCase):
    """A test with a folder of its own."""

    def setUp(self):
        self.room = Path(tempfile.mkdtemp())
        self.addCleanup(shutil.rmtree, self.room)

    def file(self, name, data):
        path = self.room / name
        path.write_bytes(data)
        return path


CLAUSES = b"left clause\n0 t0 | n0 n0\n"
TOKENS = b"\nterm line col\n0 1 1\n0 1 2\n0 1 3\n"
REPORT = b"answer line\nclear 0\nquotient remainder number\n20 3 -\n"
# words of bin/teplonga, the call sheet that they stand for, and an input
CALLS = [
    (["rows"], b"call\nrows\n", GOOD),
    (["places"], b"call\nplaces\n", GOOD),
    (["always"], b"call\nalways\n", RULES),
    (["always"], b"call\nalways\n", RULES.replace(b"0 B 0 0", b"0 B 1 0") + b"1 A 0 - none\n"),
    (["clauses-always"], b"call\nclauses-always\n", CLAUSES),
    (["clauses"], b"call\nclauses\n", CLAUSES + TOKENS),
    (["expand"], b"call\nexpand\n", CLAUSES),
    (["clauses-sweep", "3"], b"call bound\nclauses 3\n", CLAUSES),
    (["clauses-sweep", "00002"], b"call bound\nclauses 00002\n", CLAUSES),
    (["share", "3", "12", "0"], b"call length racks share\nshare 3 12 0\n", RULES),
    (["share", "2", "12", "00011"], b"call length racks share\nshare 2 12 00011\n", RULES),
    (["merge"], b"call\nmerge\n", REPORT + b"\n" + REPORT),
    (["columns"], b"call\ncolumns\n", RULES + b"\nterm line low high\n0 1 1 2\n0 1 1 3\n0 2 1 1\n"),
    (["show", "5"], b"call user\nshow 5\n", GOOD + b"\nuser low high may\n5 0 0 see\n"),
    (["show", "16"], b"call user\nshow 16\n", GOOD + b"\nuser low high may\n5 0 0 see\n"),
    (["change", "5", "1", "align"], b"call user rule lay\nchange 5 1 align\n", RULES + b"\nuser low high may\n5 0 63 change\n"),
]


class Calls(Room):
    """The program `calls` and bin/teplonga in front of it."""

    def test_each_call(self):
        for words, sheet, data in CALLS:
            output = calls.calls_program(sheet + b"\n" + data)
            self.assertIn(output.split(b" ")[1].split(b"\n")[1], (b"two", b"given", b"clear", b"unknown"), words)
            self.assertEqual(run(CALL, *words, data=data), (0, output, ""), words)
            self.assertEqual(run(CALL, *words, self.file("input", data)), (0, output, ""), words)

    def test_refusals_and_missing_sheets(self):
        for words, sheet, data in CALLS:
            for damaged in (b"", b"\n", data[:-1], data.replace(b"0 ", b"0  ", 1), data.split(b"\n\n")[0]):
                output = calls.calls_program(sheet + b"\n" + damaged)
                self.assertEqual(run(CALL, *words, data=damaged), (int(b"\nrefused-" in output), output, ""), (words, damaged))

    def test_call_sheets(self):
        names = [b"call", b"call bound", b"call ", b"call  bound", b"Call"]
        values = [b"rows", b"rows ", b"clauses 3", b"clauses 000003", b"clauses  3", b"clauses 3 3", b"clauses", b"expand\n", b""]
        for sheet in [name + b"\n" + value for name in names for value in values]:
            for end in (b"\n\n", b"\n", b""):
                data = sheet + end + GOOD
                self.assertEqual(run(BUILT / "calls", data=data)[1], calls.calls_program(data), data)
        for count in (16_384, 16_385):
            data = (b"call\nrows\n\n" + GOOD).ljust(count, b"x")
            self.assertEqual(run(BUILT / "calls", data=data)[1], calls.calls_program(data))

    def test_doubts_in_words(self):
        front = "unknown: the test cannot tell that no sentence has two trees; some sentence may, where\n"
        status, out, errors = run(CALL, "-v", "always", data=RULES)
        self.assertEqual((status, out), (0, calls.calls_program(b"call\nalways\n\n" + RULES)))
        cuts = "  rule 1 of nonterminal 0 may part a word at two places:\n    rule 1: 0 B 0 0 none\n"
        self.assertEqual(errors, front + cuts)
        status, out, errors = run(CALL, "-v", "clauses-always", data=b"left clause\n0 t0? | t0?\n")
        self.assertEqual(status, 0)
        pair = "    expanded rule 1: 0 U 1 - none\n    expanded rule 2: 0 U 4 - none\n"
        rules = f"  rules 1 and 2 of nonterminal 0 may read the same words:\n{pair}"
        empty = f"  rules 1 and 2 of nonterminal 0 both have the empty word:\n{pair}"
        self.assertEqual(errors, front + rules + empty)
        self.assertEqual(run(CALL, "-v", "always", data=RULES.replace(b"0 B 0 0", b"0 U 1 -"))[2], "")
        many = b"".join(b"0 U %d - none\n%d A 0 - none\n" % (n, n) for n in range(1, 9))
        errors = run(CALL, "-v", "always", data=RULES[:27] + many)[2]
        self.assertTrue(errors.endswith("\n  and 8 entries more\n"), errors)
        self.assertEqual(run(CALL, "always", data=RULES)[2], "")

    def test_marks_of_a_change(self):
        rights = b"\nuser low high may\n5 0 63 change\n"
        for user, rule, lay in ((5, 1, ""), (5, 1, "foo"), (5, 2, "align"), (5, 3, "none"), (4, 1, "x"), (5, "00002", "none"), (5, 1, "a b")):
            data = RULES + rights
            output = calls.calls_program(f"call user rule lay\nchange {user} {rule} {lay}\n\n".encode() + data)
            self.assertEqual(run(CALL, "change", user, rule, lay, data=data), (int(b"\nrefused-" in output), output, ""), (user, rule, lay))

    def test_check_and_sweep(self):
        self.assertEqual(run(CALL, "check", data=GOOD), (0, TWO, ""))
        self.assertEqual(run(CALL, "sweep", data=SWEPT), run(SWEEP, data=SWEPT))

    def test_usage(self):
        status, out, errors = run(CALL)
        self.assertEqual((status, errors), (0, ""))
        for words, _, _ in CALLS:
            self.assertIn(f"\n  {words[0]} ".encode(), out)
        for words in (["no-such"], ["clauses-sweep"], ["clauses-sweep", "3\n\nleft"], ["change", "5", "1"], ["share", "3", "12"], ["--nope"]):
            status, out, errors = run(CALL, *words)
            self.assertEqual((status, out), (2, b""), words)
            self.assertIn("usage: bin/teplonga", errors)

    def test_the_examples(self):
        for path in sorted((TOP / "examples").glob("*.clauses")):
            output = calls.calls_program(b"call bound\nclauses 3\n\n" + path.read_bytes())
            self.assertEqual(run(CALL, "clauses-sweep", 3, path), (0, output, ""), path)
        path = TOP / "examples" / "block.readings"
        self.assertEqual(run(CALL, "clauses", path), (0, calls.calls_program(b"call\nclauses\n\n" + path.read_bytes()), ""))


class Scripts(Room):
    """bin/check and bin/sweep."""

    def test_an_answer_is_0_and_a_refusal_1(self):
        self.assertEqual(run(CHECK, data=GOOD), (0, TWO, ""))
        self.assertEqual(run(CHECK, data=BAD), (1, REFUSED, ""))
        self.assertEqual(run(SWEEP, data=SWEPT), (0, teplonga.sweep_program(SWEPT), ""))
        self.assertEqual(run(SWEEP, data=b""), (1, b"answer line\nrefused-32 0\n", ""))

    def test_the_examples(self):
        for path in sorted((TOP / "examples").glob("*.*")):
            if path.suffix == ".check":
                self.assertEqual(run(CHECK, path), (0, teplonga.check_program(path.read_bytes()), ""), path)
            if path.suffix == ".sweep":
                self.assertEqual(run(SWEEP, path), (0, teplonga.sweep_program(path.read_bytes()), ""), path)

    def test_bad_usage_is_2(self):
        for words in (["--nope"], ["-x", "file"], ["-v", "--nope"]):
            status, out, errors = run(CHECK, *words)
            self.assertEqual((status, out), (2, b""))
            self.assertIn("usage: bin/check", errors)

    def test_help(self):
        for words in (["--help"], ["-h"], ["-v", "--help"]):
            for script in (CHECK, SWEEP):
                status, out, errors = run(script, *words)
                self.assertEqual((status, errors), (0, ""))
                self.assertIn(b"usage: bin/", out)
                self.assertIn(b"Exit status: 0 an answer, 1 a refusal, 2 bad usage, 3", out)

    def test_standard_input_by_name(self):
        for words in ([], ["-"], ["/dev/stdin"], ["--"], ["--", "-"]):
            self.assertEqual(run(CHECK, *words, data=GOOD), (0, TWO, ""), words)

    def test_a_file_that_begins_with_a_dash(self):
        self.file("-v", GOOD)
        self.assertEqual(run(CHECK, "--", "-v", cwd=self.room), (0, TWO, ""))

    def test_unreadable_files_are_named(self):
        missing = self.room / "no such"
        self.assertEqual(run(CHECK, missing), (3, b"", f"bin/check: {missing}: no such file\n"))
        self.assertEqual(run(CHECK, self.room), (3, b"", f"bin/check: {self.room}: is a directory\n"))
        (self.room / "loop").symlink_to("loop")
        self.assertEqual(run(CHECK, self.room / "loop")[:2], (3, b""))

    @unittest.skipIf(os.geteuid() == 0, "root may read all files")
    def test_a_file_without_permission_is_named(self):
        closed = self.file("closed", GOOD)
        closed.chmod(0)
        self.assertEqual(run(CHECK, closed), (3, b"", f"bin/check: {closed}: permission denied\n"))

    def test_several_files_have_headings(self):
        good, bad = self.file("good one", GOOD), self.file("bad", BAD)
        status, out, errors = run(CHECK, good, bad, good)
        self.assertEqual((status, out), (1, TWO + REFUSED + TWO))
        self.assertEqual(errors, f"==> {good} <==\n==> {bad} <==\n==> {good} <==\n")
        status, out, errors = run(CHECK, good, self.room, bad)
        self.assertEqual((status, out), (3, TWO + REFUSED))
        self.assertIn(f"bin/check: {self.room}: is a directory\n", errors)

    def test_a_pipe_by_name(self):
        pipe = self.room / "pipe"
        os.mkfifo(pipe)
        writer = threading.Thread(target=pipe.write_bytes, args=[GOOD])
        writer.start()
        self.assertEqual(run(CHECK, pipe), (0, TWO, ""))
        writer.join()

    def test_a_link_to_the_script(self):
        (self.room / "link").symlink_to(CHECK)
        (self.room / "again").symlink_to("link")
        self.assertEqual(run(self.room / "again", data=GOOD, cwd="/"), (0, TWO, ""))
        path = f"{self.room}:{os.environ['PATH']}"
        self.assertEqual(run("again", data=GOOD, cwd="/", env={**os.environ, "PATH": path}), (0, TWO, ""))

    def test_a_closed_or_unreadable_standard_input_is_3(self):
        for words in ([], ["-v"]):
            with self.subTest(words=words):
                status, out, errors = run("sh", "-c", f"'{CHECK}' {' '.join(words)} <&-")
                self.assertEqual((status, out), (3, b""))
                self.assertIn("bin/check: standard input: ", errors)
                with_folder = run("sh", "-c", f"'{CHECK}' {' '.join(words)} < '{self.room}'")
                self.assertEqual(with_folder[:2], (3, b""))
                self.assertIn("irectory", with_folder[2])

    def test_a_full_or_closed_standard_output_is_3(self):
        good = self.file("good", GOOD)
        for target in (">/dev/full", ">&-"):
            status, _, errors = run("sh", "-c", f"'{CHECK}' '{good}' {target}")
            self.assertEqual(status, 3, target)
            self.assertIn("bin/check: standard output: could not be written", errors)

    def test_words_are_said_where_they_are_asked_for(self):
        words = "refused-3, rule sheet, line 2: a number above 63\n    0 A 64 - none\n        ^^\n"
        self.assertEqual(run(CHECK, "-v", data=BAD), (1, REFUSED, words))
        self.assertEqual(run(CHECK, "-v", data=GOOD), (0, TWO, ""))


    def test_words_are_said_on_a_terminal(self):
        screen, terminal = pty.openpty()
        ended = subprocess.run([CHECK], input=BAD, stdout=subprocess.PIPE, stderr=terminal, check=False, timeout=60)
        os.close(terminal)
        said = os.read(screen, 10_000).decode()
        os.close(screen)
        self.assertEqual((ended.returncode, ended.stdout), (1, REFUSED))
        self.assertIn("refused-3, rule sheet, line 2: a number above 63", said)


class First(Room):
    """The first run, in a copy without the built programs."""

    def setUp(self):
        super().setUp()
        for name in ("bin", "scripts", "docs"):
            shutil.copytree(TOP / name, self.room / name)
        shutil.copy(TOP / "crates.txt", self.room)
        for crate in (TOP / "crates").iterdir():
            (self.room / "crates" / crate.name).mkdir(parents=True)
        self.tools = self.room / "tools"
        self.tools.mkdir()
        tools = "sh awk basename cat cp cut dirname find grep ln mkdir mkfifo mktemp readlink rm sed sort tee touch wc"
        for tool in tools.split():
            (self.tools / tool).symlink_to(shutil.which(tool))

    def check(self):
        return run(self.room / "bin" / "check", data=GOOD, env={"PATH": str(self.tools)})

    def kit(self, script):
        """A command rt that does this, in a crate's folder."""
        rt = self.tools / "rt"
        rt.write_text(f"#!/bin/sh\n{script}\n")
        rt.chmod(0o755)

    def test_without_the_kit_it_is_named(self):
        status, out, errors = self.check()
        self.assertEqual((status, out), (3, b""))
        self.assertIn("`rt`", errors)
        self.assertIn("README.md", errors)

    def test_it_says_that_it_builds_and_how_far_it_is(self):
        self.kit(f"echo logic=proved; [ $1 = lib ] || {{ mkdir -p out && cp '{BUILT / 'checker'}' out/; }}")
        status, out, errors = self.check()
        self.assertEqual((status, out), (0, TWO))
        lines = errors.splitlines()
        self.assertRegex(lines[0], r"is proved and built first: \d\d crates, some minutes")
        count = re.search(r"(\d\d) crates", lines[0])[1]
        self.assertIn(f"proved 1 of {count}: ", lines[1])
        self.assertIn(f"proved {count} of {count}: checker", lines[-1])
        self.assertEqual(self.check(), (0, TWO, ""))

    def test_it_is_built_anew_where_a_source_is_newer(self):
        shutil.copytree(BUILT, self.room / "target" / "bin")
        old = time.time() - 1000
        os.utime(self.room / "target" / "bin" / "checker", (old, old))
        self.assertEqual(self.check(), (0, TWO, ""))
        source = self.room / "crates" / "sets" / "lib.rt"
        source.write_text("")
        self.kit(f"[ $1 = lib ] || {{ mkdir -p out && cp '{BUILT / 'checker'}' out/; }}")
        self.assertIn("proved 1 of", self.check()[2])
        self.assertEqual(self.check(), (0, TWO, ""))

    def test_a_crate_is_begun_once_those_that_it_names_are_proved(self):
        (self.tools / "sleep").symlink_to(shutil.which("sleep"))
        told = self.room / "told"
        self.kit(f"at=$(basename \"$PWD\"); echo begun $at >>'{told}'; sleep 0.02; echo ended $at >>'{told}'")
        self.check()
        named = {}
        for line in (TOP / "crates.txt").read_text().splitlines():
            if ":" in line and not line.startswith("#"):
                crate, names = line.split(":")
                named[crate.split()[0]] = set(names.split())
        running, ended = set(), set()
        for word, crate in (line.split() for line in told.read_text().splitlines()):
            if word == "begun":
                self.assertLessEqual(named[crate] & set(named), ended, crate)
                running.add(crate)
                self.assertLessEqual(len(running), 2)
            else:
                running.remove(crate)
                ended.add(crate)
        self.assertIn("checker", ended)
        self.assertLessEqual(named["checker"] & set(named), ended)

    def test_a_build_that_fails_is_3(self):
        self.kit("echo 'logic=not-proved'; exit 1")
        status, out, errors = self.check()
        self.assertEqual((status, out), (3, b""))
        self.assertIn("target/build-checker.log says why", errors)
        self.assertIn("logic=not-proved", (self.room / "target" / "build-checker.log").read_text())


class Programs(Room):
    """The programs themselves."""

    @classmethod
    def setUpClass(cls):
        cls.made = tempfile.mkdtemp()
        cls.addClassCleanup(shutil.rmtree, cls.made)
        cls.library = f"{cls.made}/faults.so"
        flags = ["-shared", "-fPIC", "-O1", "-Wall", "-Wextra", "-Werror"]
        subprocess.run(["cc", *flags, "-o", cls.library, str(TOP / "tests" / "faults.c"), "-ldl"], check=True)

    def under(self, faults, command=BUILT / "checker", program="checker"):
        return run(command, data=GOOD, env={**os.environ, "LD_PRELOAD": self.library, "FAULTS": faults, "FAULTS_IN": program})

    def test_short_and_interrupted_calls_are_made_again(self):
        for faults in ("r1", "w1", "r7 rEINTR r3 rEINTR rEINTR r1", "wEINTR w5 wEINTR w1", "rEINTR r16384 wEINTR w262144"):
            self.assertEqual(self.under(faults), (0, TWO, ""), faults)

    def test_a_failed_read_is_not_the_end(self):
        ends_early = len(SHORTER)
        for error, number, text in (("EIO", 5, "Input/output error"), ("EAGAIN", 11, "Resource temporarily unavailable")):
            for faults in (f"r{error}", f"r{ends_early} r{error}", f"r{ends_early} rEINTR r{error} r0"):
                wanted = (1, b"", f"standard input: {text} (os error {number})\n")
                self.assertEqual(self.under(faults), wanted, faults)
                self.assertEqual(self.under(faults, BUILT / "sweeper", "sweeper"), wanted, faults)

    def test_a_failed_write_stops_the_output(self):
        status, out, errors = self.under("w20 wENOSPC w100")
        self.assertEqual((status, out, errors), (1, TWO[:20], "standard output: No space left on device (os error 28)\n"))
        self.assertEqual(self.under("w0")[:2], (1, b""))

    def test_the_script_says_3(self):
        for faults in ("rEIO", f"r{len(SHORTER)} rEAGAIN"):
            status, out, errors = self.under(faults, CHECK)
            self.assertEqual((status, out), (3, b""))
            self.assertIn("bin/check: standard input: no answer", errors)

    def test_an_input_that_is_not_ready_yet(self):
        reader, writer = os.pipe()
        os.set_blocking(reader, False)
        with subprocess.Popen([CHECK], stdin=reader, stdout=subprocess.PIPE, stderr=subprocess.PIPE) as script:
            os.write(writer, SHORTER)
            time.sleep(0.5)
            try:
                os.write(writer, GOOD[len(SHORTER) :])
            except BrokenPipeError:
                pass
            os.close(writer)
            os.close(reader)
            out, errors = script.communicate(timeout=30)
        self.assertIn((script.returncode, out), [(0, TWO), (3, b"")])
        self.assertEqual(script.returncode == 3, b"temporarily unavailable" in errors)

    def test_the_stack_that_README_states(self):
        nested = b"left clause\n0 " + b"(n0 " * 15 + b"(n0" + b" n0" * 60 + b")" * 16 + b"\n"
        called, told = b"call\nclauses\n\n" + nested + TOKENS, b"call\nclauses-always\n\n" + nested
        for name, size, data, wanted in (
            ("checker", 720, GOOD, TWO),
            ("sweeper", 350, SWEPT, teplonga.sweep_program(SWEPT)),
            ("calls", 1000, called, calls.calls_program(called)),
            ("calls", 1000, told, calls.calls_program(told)),
        ):
            # what stands in the environment counts against the limit too
            limited = ("env", "-i", "/bin/sh", "-c", f"ulimit -s {size} && exec '{BUILT / name}'")
            self.assertEqual(run(*limited, data=data), (0, wanted, ""))

    def test_a_program_that_is_ended_is_told(self):
        status, out, errors = run("sh", "-c", f"ulimit -s 128 && '{CHECK}'", data=GOOD)
        self.assertEqual((status, out), (3, b""))
        self.assertIn("was ended by signal 11", errors)


if __name__ == "__main__":
    unittest.main()
