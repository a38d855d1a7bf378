#!/usr/bin/env python3
"""bin/teplonga judge: each way to tell, its sentence and its exit status; patches as text.

    tests/judge.py        needs the built programs
"""

import os
import pty
import random
import shutil
import subprocess
import sys
import tempfile
import unittest
from pathlib import Path

TOP = Path(__file__).resolve().parent.parent
CALL, DRAW = TOP / "bin" / "teplonga", TOP / "bin" / "draw"
EXAMPLES, SHEETS = TOP / "examples", TOP / "bench" / "sheets"
sys.path[:0] = [str(TOP / "scripts"), str(TOP / "tests")]

from asking import Programs, Refused  # noqa: E402
from judging import WAYS, Inquiry, always, find, judged, nothing, sweep  # noqa: E402
from readings import drawn_sheets  # noqa: E402
from reading.patches import sheet_of, text_of, words_in  # noqa: E402
from reading.sheets import tokens_of  # noqa: E402
from reading.spelling import Names  # noqa: E402

BLOCK = (EXAMPLES / "block.clauses").read_bytes()
REPAIRED = (EXAMPLES / "block-repaired.clauses").read_bytes()
# a sheet of rules that reads three tokens in two ways, and one that reads none in two
PLAIN = b"left kind first second lay\n0 B 0 0 none\n0 A 0 - none\n"
SINGLE = b"left kind first second lay\n0 A 0 - none\n"
PROGRAMS = Programs("tests/judge.py")


def judge(*words, data=b"", top=TOP, seconds=1):
    words = (top / "bin" / "teplonga", "judge", "--seconds", seconds, *words)
    command = [str(word) for word in words]
    ended = subprocess.run(command, input=data, capture_output=True, check=False, timeout=300)
    return ended.returncode, ended.stdout.decode(), ended.stderr.decode()


class Told(unittest.TestCase):
    def setUp(self):
        self.room = Path(tempfile.mkdtemp())
        self.addCleanup(shutil.rmtree, self.room)

    def test_two(self):
        status, out, errors = judge("--names", EXAMPLES / "block.names", data=BLOCK)
        proved = "proved of it: both trees, and that no shorter patch has two"
        front = f"two readings: told by the sweep; {proved}"
        patch = ["", "    1", "1 | do", "2 | nop", "3 | nop", ""]
        self.assertEqual((status, errors), (4, ""))
        self.assertEqual(out.splitlines()[:7], [front, *patch])
        readings = (EXAMPLES / "block.readings").read_bytes()
        read = subprocess.run(
            [CALL, "readings", "--names", EXAMPLES / "block.names"],
            input=readings,
            capture_output=True,
        )
        self.assertEqual(out.splitlines()[7:], read.stdout.decode().splitlines()[2:])

    def test_two_under_rules(self):
        status, out, _ = judge(data=PLAIN)
        self.assertEqual(status, 4)
        self.assertEqual(out.splitlines()[1:5], ["", "    1...5", "1 | 0 0 0", ""])
        self.assertIn("\ntree 1\n> 1:1  0 [B]\n", out)
        self.assertIn("Tree 2 takes line 2, `0 B 0 0 none`, with 2 tokens on the left.", out)

    def test_the_patch_without_tokens(self):
        status, out, _ = judge(data=b"left clause\n0 t0? | t1*\n")
        self.assertEqual(status, 4)
        self.assertIn("two readings: told by the verdict on it", out.splitlines()[0])
        self.assertIn("\n(no tokens)\n", out)
        self.assertIn("ε", out)

    def test_clear(self):
        clear = "clear at every length: told by `always`; "
        said = f"{clear}proved of every patch, whatever its length\n"
        self.assertEqual(judge(data=REPAIRED), (0, said, ""))
        status, out, _ = judge("--draw", self.room / "out", data=REPAIRED)
        self.assertEqual((status, out, list(self.room.iterdir())), (0, said, []))

    def test_the_papers_grammars_and_their_variants(self):
        """Clear at every length, or a patch with two readings, of each."""
        clear = {"block-repaired", "yaml", "haskell", "fsharp"}
        paths = [*EXAMPLES.glob("*.clauses"), *SHEETS.glob("*.rules")]
        paths += SHEETS.glob("variants/*.rules")
        fronts = {0: "clear at every length: told by `always`; ", 4: "two readings: told by "}
        for path in sorted(paths):
            status, out, _ = judge(path, seconds=60)
            self.assertEqual(status, 0 if path.stem in clear else 4, path)
            self.assertTrue(out.startswith(fronts[status]), out)

    def test_a_refusal_has_its_words(self):
        for data, said in (
            (b"left clause\n0 t0 |\n", "refused-41, clause sheet, line 2: "),
            (b"left kind first second lay\n0 A 64 - none\n", "refused-3, rule sheet, line 2: "),
            (BLOCK + b"\nterm line col\n", "refused-41, clause sheet, line 4: "),
            (b"", "refused-1, clause sheet, line 1: "),
            (b"left clause\n" + b"x" * 16_384, "refused-31: "),
        ):
            status, out, errors = judge(data=data)
            self.assertEqual((status, out, errors[: len(said)]), (1, "", said))

    def test_usage_and_files(self):
        self.assertEqual(judge("--nope")[0], 2)
        self.assertEqual(judge("a", "b")[0], 2)
        (self.room / "names").write_text("q\n")
        self.assertEqual(judge("--names", self.room / "names", data=BLOCK)[:2], (2, ""))
        self.assertEqual(judge(self.room / "none")[:2], (3, ""))
        self.assertEqual(judge("--draw", self.room / "none" / "x", data=BLOCK)[:2], (3, ""))

    def test_drawn(self):
        """The picture is that of the patch as it is written."""
        names = EXAMPLES / "block.names"
        self.assertEqual(judge("--names", names, "--draw", self.room / "a.svg", data=BLOCK)[0], 4)
        tokens = sheet_of(words_in("do\nnop\nnop", Names(names.read_text())))
        drawn = subprocess.run(
            [DRAW, "--clauses", "--names", names], input=BLOCK + b"\n" + tokens, capture_output=True
        )
        self.assertEqual((self.room / "a.svg").read_bytes(), drawn.stdout)
        judge("--draw", self.room / "a.html", data=BLOCK)
        self.assertTrue((self.room / "a.html").read_text().startswith("<!doctype html>"))

    def test_progress_on_a_terminal(self):
        screen, terminal = pty.openpty()
        slow = Slow(self.room, 3)
        ended = subprocess.run(
            [slow.command, "judge"],
            input=BLOCK,
            stdout=subprocess.PIPE,
            stderr=terminal,
            check=False,
        )
        os.close(terminal)
        said = os.read(screen, 10_000).decode()
        os.close(screen)
        self.assertEqual(ended.returncode, 4)
        self.assertRegex(said, r"sweeping all patches of up to [1-3] tokens?: [0-9]+ s")
        self.assertTrue(said.endswith("\r\x1b[K"))
        self.assertEqual(judge(data=BLOCK, top=self.room)[2], "")


class Room:
    """A copy of the scripts, with programs of our own before the built ones."""

    def __init__(self, room):
        self.room = room
        for name in ("bin", "scripts", "docs"):
            shutil.copytree(TOP / name, room / name, dirs_exist_ok=True)
        (room / "crates").mkdir()
        (room / "crates.txt").write_text("")
        (room / "target" / "bin").mkdir(parents=True)
        for name in ("calls", "checker", "sweeper"):
            (room / "target" / "bin" / name).symlink_to(TOP / "target" / "bin" / name)
        self.command = room / "bin" / "teplonga"

    def put(self, path, text):
        place = self.room / path
        place.unlink()
        place.write_text(text)
        place.chmod(0o755)


class Slow(Room):
    """Each question of a sweep takes so many seconds in all."""

    def __init__(self, room, seconds):
        super().__init__(room)
        kept = room / "input"
        real = TOP / "target" / "bin" / "calls"
        wait = f"case $(head -n 1 '{kept}') in *bound*) sleep {seconds / 2};; esac"
        self.put("target/bin/calls", f"#!/bin/sh\ncat > '{kept}'\n{wait}\n'{real}' < '{kept}'\n")


class Ways(unittest.TestCase):
    """The ways that other calls give, with programs that answer as those will."""

    def setUp(self):
        room = Path(tempfile.mkdtemp())
        self.addCleanup(shutil.rmtree, room)
        self.room = Room(room)

    def with_always(self, answer):
        """The program `calls` with the calls `always` and `clauses-always`."""
        real, kept = TOP / "target" / "bin" / "calls", self.room.room / "input"
        told = f"always|clauses-always) printf 'answer line\\n{answer}\\n';;"
        asked = f"case $(sed -n 2p '{kept}') in {told} *) '{real}' < '{kept}';; esac"
        self.room.put("target/bin/calls", f"#!/bin/sh\ncat > '{kept}'\n{asked}\n")

    def with_find(self, answer):
        """The script with the call `find`."""
        script = self.room.command.read_text()
        script = script.replace("  readings  ", "  find                  a patch\n  readings  ", 1)
        found = f"printf 'answer line\\n{answer}'; exit 0"
        script = script.replace(
            "case $call in\n",
            f"case $call in\nfind) echo \"$@\" > '{self.room.room}/words'; {found} ;;\n",
            1,
        )
        self.room.put("bin/teplonga", script)

    def judge(self, data):
        return judge(data=data, top=self.room.room)

    def test_the_order(self):
        self.assertEqual(WAYS, [always, nothing, sweep, find])

    def test_clear_at_every_length(self):
        self.with_always("clear 0")
        for data in (REPAIRED, SINGLE):
            proved = "proved of every patch, whatever its length"
            said = f"clear at every length: told by `always`; {proved}\n"
            self.assertEqual(self.judge(data), (0, said, ""))

    def test_always_cannot_tell(self):
        self.with_always("unknown 0\\nleft first second why\\n0 1 2 rules")
        self.assertEqual(self.judge(REPAIRED)[0], 5)
        self.assertEqual(self.judge(BLOCK)[0], 4)

    def test_the_finder(self):
        self.with_always("unknown 0")
        # its only patch has six tokens, and with ten terminals the sweep ends at four
        sheet = b"left clause\n0 t0 t1 t2 t3 t4 n1\n1 t5 | n2\n2 t5\n3 t6 t7 t8 t9\n"
        self.assertEqual(self.judge(sheet)[0], 5)
        tokens = "".join(f"{n} 1 {n + 1}\\n" for n in range(6))
        self.with_find(f"two 0\\nterm line col\\n{tokens}")
        status, out, _ = self.judge(sheet)
        self.assertEqual(status, 4)
        self.assertTrue(
            out.startswith(
                "two readings: told by the finder; proved of it: both trees; that no shorter"
            )
        )
        self.assertIn("\n1 | t0 t1 t2 t3 t4 t5\n", out)
        self.assertEqual((self.room.room / "words").read_text(), "--seconds 1.0 -\n")

    def test_the_finder_finds_nothing(self):
        self.with_find("unknown 0\\n")
        self.with_always("unknown 0")
        self.assertEqual(self.judge(REPAIRED)[0], 5)

    def test_a_patch_that_has_no_two_readings_is_not_shown(self):
        self.with_find("two 0\\nterm line col\\n0 1 1\\n")
        self.with_always("unknown 0")
        status, out, errors = self.judge(REPAIRED)
        self.assertEqual((status, out), (3, ""))
        self.assertIn("as text has one", errors)

    def test_by_chance(self):
        """Two exactly where the sweep at that bound, or the verdict on no tokens, says so."""
        counts = {"two": 0, "so far": 0}
        for sheet, _ in drawn_sheets(150, 11):
            try:
                known = judged(Inquiry(sheet, PROGRAMS, bound=3), [nothing, sweep])
            except Refused:
                continue
            empty = PROGRAMS.answer("calls", sheet, b"term line col\n", call=b"call\nclauses\n")
            swept = PROGRAMS.answer("calls", sheet, call=b"call bound\nclauses 3\n")
            is_two = empty.startswith(b"answer line\ntwo") or swept.startswith(b"answer line\ntwo")
            self.assertEqual(known.verdict, "two" if is_two else "so far", sheet)
            counts[known.verdict] += 1
        self.assertGreater(min(counts.values()), 20, counts)


NAMES = Names("t 0 nop\nt 1 do\nt 2 end if\nt 3 x\nt 4 x\nt 5 7\nt 6 語\nt 7 e\u0301\n")


class Patches(unittest.TestCase):
    """Patches as text."""

    @staticmethod
    def words(text):
        return [(word.line, word.col, word.text, word.terminal) for word in words_in(text, NAMES)]

    def test_words(self):
        listed = [
            (1, 1, "do", 1),
            (1, 4, "nop", 0),
            (3, 3, "end if", 2),
            (3, 10, "12", 12),
            (3, 13, "t1", 1),
            (3, 16, "7", 5),
        ]
        self.assertEqual(self.words("do nop\n\n  end if 12 t1 7"), listed)
        listed = [
            (1, 1, "x", None),
            (1, 3, "do!", None),
            (1, 7, "64", None),
            (1, 10, "\t", None),
            (1, 12, "end", None),
        ]
        self.assertEqual(self.words("x do! 64 \t end iffy"), [*listed, (1, 16, "iffy", None)])

    def test_columns_are_those_of_the_grid(self):
        """A wide letter takes two columns, one that stands on another none."""
        listed = words_in("語 do e\u0301 nop", NAMES)
        self.assertEqual(
            [(word.col, word.width) for word in listed], [(1, 2), (4, 2), (7, 1), (9, 3)]
        )

    def test_written_and_read(self):
        """Tokens written as text keep their terminals and how their lines and columns compare."""
        draw = random.Random(3)
        for _ in range(400):
            tokens, line, col = [], 1, 1
            far = draw.choice([1, 1, 900])
            for _ in range(draw.randint(0, 12)):
                tokens.append(f"{draw.choice([0, 1, 2, 3, 5, 6, 7, 9])} {line} {col} 1\n")
                if draw.random() < 0.4:
                    line, col = line + far * draw.randint(1, 2), draw.randint(1, 6) * far
                else:
                    col += draw.randint(1, 4) * far
            tokens = tokens_of(("term line col width\n" + "".join(tokens)).encode())
            text = text_of(tokens, NAMES)
            back = tokens_of(sheet_of(words_in(text, NAMES)))
            self.assertEqual([each.terminal for each in back], [each.terminal for each in tokens])
            for key in ("line", "col"):
                self.assertEqual(compared(back, key), compared(tokens, key), text)


def compared(tokens, key):
    """How each two tokens' places compare."""
    values = [getattr(token, key) for token in tokens]
    return [(one > other) - (one < other) for one in values for other in values]


if __name__ == "__main__":
    unittest.main()
