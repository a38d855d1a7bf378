#!/usr/bin/env python3
"""The whiteboard: what the page asks, the server's manners, and the page itself in a browser
without a window.

    tests/whiteboard.py        needs the built programs; the last part needs Chromium and its driver

WHITEBOARD_SHOT=docs/pictures/whiteboard.png tests/whiteboard.py Page.test_the_papers_block makes
README's picture.
"""

import json
import os
import random
import re
import shutil
import signal
import socket
import subprocess
import sys
import tempfile
import threading
import time
import unittest
import xml.etree.ElementTree as ElementTree
from http.client import HTTPConnection
from pathlib import Path

TOP = Path(__file__).resolve().parent.parent
sys.path[:0] = [str(TOP / "scripts"), str(TOP / "tests")]

from asking import Programs, Refused, TimeUp, Unanswered, at_most  # noqa: E402
from browser import MISSING, Browser, is_installed  # noqa: E402
from readings import drawn_sheets  # noqa: E402
from reading.answers import Question, read, rows_of  # noqa: E402
from reading.sheets import rules_of, tokens_of  # noqa: E402
from reading.why import Asked, Beginnings, why  # noqa: E402
from whiteboard import desk  # noqa: E402
from whiteboard.files import FIELDS, opened  # noqa: E402
from whiteboard.server import FILES, Server  # noqa: E402

BOARD, CALL, DRAW = TOP / "bin" / "whiteboard", TOP / "bin" / "teplonga", TOP / "bin" / "draw"
EXAMPLES = TOP / "examples"
PROGRAMS = Programs("tests/whiteboard.py")
BLOCK, NAMES = desk.EXAMPLE["sheet"], desk.EXAMPLE["names"]
REPAIRED = BLOCK.replace("t1 n0", "(t1 n0):offside")


def at(fields=None, **more):
    return desk.Desk({**(fields or desk.EXAMPLE), **more}, PROGRAMS)


def sentence(made):
    """What is said, as text."""
    return " ".join("".join(part["text"] for part in each) for each in made["sentences"])


class Shown(unittest.TestCase):
    """What the page is told of its fields."""

    def notes(self, **fields):
        made = at(**fields).shown(False)
        self.assertEqual(made["verdict"], "")
        return [(note["field"], note["line"], note["from"], note["to"]) for note in made["notes"]]

    def test_the_block_and_its_repair(self):
        made = at().shown(True)
        self.assertEqual((made["verdict"], len(made["readings"])), ("two", 2))
        self.assertEqual(at(sheet=REPAIRED).shown(True)["verdict"], "none")
        made = at(sheet=REPAIRED, patch="do\n  nop\nnop").shown(True)
        self.assertEqual((made["verdict"], len(made["readings"])), ("one", 1))

    def test_refusals_stand_at_their_place(self):
        self.assertEqual(self.notes(sheet="left clause\n0 t0 |"), [("sheet", 2, 5, 6)])
        self.assertEqual(
            self.notes(sheet="left clause\n0 (t0 | t1):inside"), [("sheet", 2, 11, 12)]
        )
        self.assertEqual(self.notes(sheet="left clause\n\n0 t0"), [("sheet", 2, 0, 0)])
        self.assertEqual(self.notes(sheet=""), [("sheet", 1, 0, 0)])
        self.assertEqual(self.notes(sheet="left clause\n0 t0 é"), [("sheet", 2, 5, 6)])
        self.assertEqual(
            self.notes(sheet="left kind first second lay\n0 U 0 - align"), [("sheet", 2, 8, 13)]
        )
        self.assertEqual(self.notes(sheet="left clause\n1 t0"), [("sheet", 0, 0, 0)])
        self.assertEqual(self.notes(names="n 0 block\nq"), [("names", 2, 0, 1)])
        self.assertEqual(self.notes(patch=" ".join(["0"] * 65)), [("patch", 1, 128, 129)])

    def test_a_word_that_names_no_terminal(self):
        made = at(patch="do\n  fud nop").shown(False)
        self.assertEqual([word["known"] for word in made["words"]], [True, False, True])
        self.assertEqual(self.notes(patch="do\n  fud nop"), [("patch", 2, 2, 5)])
        self.assertEqual(sentence(made), "Look at the patch, line 2.")
        # a sheet that is refused is told of all the same
        places = [note[:2] for note in self.notes(patch="fud", sheet="left clause\n0 t0 |")]
        self.assertEqual(places, [("patch", 1), ("sheet", 2)])

    def test_many_words_are_told_in_short(self):
        made = at(patch="fud " * 4_000).shown(True)
        self.assertEqual((len(made["words"]), len(made["notes"])), (4_000, 100))

    def test_a_name_is_offered(self):
        made = at(names="t 0 nop", patch="do nop").shown(False)
        self.assertEqual(made["notes"][0]["offer"], "t 1 do")

    def test_odd_characters(self):
        """Whatever is typed, what is shown can be."""
        odd = "\x00\x01\x0b\ud800\uffff\u2028<&'"
        fields = {
            "names": f"n 0 a{odd}\nn 1 b\nt 0 nop\nt 1 do{odd}\n",
            "patch": f"do{odd}\nnop\nnop",
        }
        self.assertEqual(at(**fields).shown(True)["verdict"], "two")
        for made in (
            at(**fields).shown(True),
            at(patch=odd).shown(True),
            at(sheet=odd).shown(True),
        ):
            json.dumps(made).encode("ascii")
            for reading in made["readings"]:
                ElementTree.fromstring(reading["svg"])

    def test_what_is_too_long(self):
        for field in FIELDS:
            with self.assertRaises(desk.Fault):
                at(**{field: "é" * 8_193})

    def test_by_chance(self):
        """Any text gives an answer that can be sent, and never an error."""
        draw = random.Random(5)
        letters = "left clause\n0123 ntn0t1()|?+*::alignoffside -ABUE<>&é語\t"
        for _ in range(150):
            fields = {
                name: "".join(draw.choices(letters, k=draw.randint(0, 60))) for name in FIELDS
            }
            fields["sheet"] = (
                draw.choice(["left clause\n", "left kind first second lay\n", ""]) + fields["sheet"]
            )
            made = at(fields).shown(True)
            json.dumps(made).encode("ascii")
            self.assertTrue(sentence(made))

    def test_a_fold_is_opened_alone(self):
        patch = "do\n" + "nop\n" * 63
        made = at(patch=patch).shown(True)
        self.assertEqual(made["verdict"], "two")
        rows = [len(reading["rows"]) for reading in made["readings"]]
        self.assertLess(max(rows), 12)
        keys = [
            [row["key"] for row in reading["rows"] if row["key"]] for reading in made["readings"]
        ]
        self.assertTrue(keys[0] and keys[1])
        after = at(patch=patch).shown(True, [keys[0][0]])
        self.assertGreater(len(after["readings"][0]["rows"]), 60)
        self.assertEqual(after["readings"][1]["rows"], made["readings"][1]["rows"])
        pictures = [ElementTree.fromstring(reading["svg"]) for reading in after["readings"]]
        self.assertEqual(
            [len(each.findall(".//*[@data-key]")) for each in pictures], [0, len(keys[1])]
        )
        self.assertLess(int(pictures[1].get("width")), 300)

    def test_pieces_are_in_the_sheet(self):
        """Each row has the piece of the sheet that it stands for."""
        lines = BLOCK.split("\n")
        wanted = {
            "block: stmt+:align": "n1+:align",
            "stmt: do block": "t1 n0",
            "do": "t1",
            "stmt: nop": "t0",
        }
        for reading in at().shown(False)["readings"]:
            for row in reading["rows"]:
                pieces = [lines[line - 1][begin:end] for line, begin, end in row["pieces"]]
                self.assertEqual(pieces[0], wanted[row["text"]])


class Why(unittest.TestCase):
    """Why there is no reading."""

    def why(self, sheet, patch, names=NAMES):
        made = at(sheet=sheet, patch=patch, names=names).shown(False)
        self.assertEqual(made["verdict"], "none")
        return "".join(part["text"] for part in made["sentences"][1]), made["why"]

    def test_a_mark_that_fails(self):
        said, told = self.why(REPAIRED, "do\nnop\nnop")
        self.assertIn(
            "It would be one but for offside in (do block):offside, 1:1 to 3:1: nop at 2:1 is", said
        )
        self.assertEqual(told, {"tokens": [1], "pieces": [(3, 7, 22)]})
        said, told = self.why(REPAIRED, "do\n  nop\n nop")
        self.assertIn(
            "but for align in stmt+:align, 2:3 to 3:2: nop at 3:2 does not stand in column 3.", said
        )
        self.assertEqual(told, {"tokens": [2], "pieces": [(2, 2, 11)]})

    def test_each_mark(self):
        for clause, patch, how in (
            ("(t0 t0):offside", "0\n0", "is on a later line and not right of column 1"),
            ("(t0 t0):offalign", " 0\n0", "is on a later line and left of column 2"),
            ("(t0 t0):single", "0\n0", "is not on line 1"),
            ("t0 :align: t0", "0\n 0", "does not stand in column 1"),
            ("t0 :indent: t0", "0 0", "is not on a line below 1"),
            ("t0 :indent: t0", "0\n0", "is not right of column 1"),
            ("t0+:align", "0\n 0", "does not stand in column 1"),
        ):
            said, told = self.why(f"left clause\n0 {clause}\n", patch, "")
            self.assertIn(how, said)
            self.assertEqual((told["tokens"], len(told["pieces"])), ([1], 1))

    def test_a_beginning(self):
        self.assertIn(
            "do nop can begin a block, but t3 at 3:1 cannot follow",
            self.why(REPAIRED, "do\n  nop\n3")[0],
        )
        self.assertIn("behind do at 1:1 something is missing", self.why(REPAIRED, "do")[0])
        self.assertIn("No block begins with t3 at 1:1.", self.why(REPAIRED, "3")[0])
        self.assertIn("its clauses never end", self.why("left clause\n0 n0 t0\n", "0")[0])

    def test_beginnings_by_the_program(self):
        """What is said of a beginning, beside all that goes on from it by up to three tokens, the
        marks left out.
        """
        terminals, count = (0, 1), 0
        for sheet, _ in drawn_sheets(60, 3):
            try:
                expanded = PROGRAMS.answer("calls", sheet, call=b"call\nexpand\n").split(b"\n", 2)[
                    2
                ]
            except Refused:
                continue
            rules = re.sub(rb" (align|indent|offside|offalign|single)\n", b" none\n", expanded)
            words = [word for word in all_words(terminals, 3) if has_tree(rules, word)]
            beginnings = {word[:end] for word in words for end in range(len(word) + 1)}
            told = Beginnings(rules_of(rules))
            for word in all_words(terminals, 2):
                if word in beginnings:
                    self.assertEqual(told.length(word), len(word), (sheet, word))
                    count += 1
                if told.length(word) < len(word):
                    self.assertFalse(
                        [each for each in words if each[: len(word)] == word], (sheet, word)
                    )
        self.assertGreater(count, 100)

    def test_marks_by_the_program(self):
        """A mark that is said to fail alone: without it there is a reading."""
        count = 0
        for sheet, tokens in drawn_sheets(500, 23):
            try:
                answer = read(PROGRAMS, Question(True, sheet, tokens))
            except Refused:
                continue
            if answer.verdict != "none":
                continue
            found = why(Asked(PROGRAMS, tokens, answer))
            if not found.sentence[0].startswith("It would be one but"):
                continue
            line, begin, end = found.span
            mark = found.sentence[1]
            lines = sheet.decode().split("\n")
            text = lines[line - 1][begin:end]
            # a mark that binds stands behind the first item of the piece; one of a group or repeat
            # at its end
            without = {text.removesuffix(f":{mark}"), unbound(text, mark)} - {text}
            tried = []
            for each in without:
                lines[line - 1] = lines[line - 1][:begin] + each + lines[line - 1][end:]
                tried.append(
                    read(PROGRAMS, Question(True, "\n".join(lines).encode(), tokens)).verdict
                )
                lines = sheet.decode().split("\n")
            self.assertTrue(any(verdict != "none" for verdict in tried), (sheet, tokens, found))
            count += 1
        self.assertGreater(count, 10)


def unbound(text, mark):
    """A sequence without the mark behind its first item, which may be a group."""
    depth = 0
    for place, letter in enumerate(text):
        depth += (letter == "(") - (letter == ")")
        if not depth and text.startswith(f" :{mark}: ", place):
            return f"{text[:place]} {text[place + len(mark) + 4:]}"
    return text


def all_words(terminals, most):
    words = [()]
    for word in words:
        if len(word) < most:
            words.extend((*word, each) for each in terminals)
    return words


def has_tree(rules, word):
    tokens = "term line col\n" + "".join(f"{each} 1 {n + 1}\n" for n, each in enumerate(word))
    return bool(rows_of(PROGRAMS.answer("checker", rules, tokens.encode()))[1])


class Files(unittest.TestCase):
    """What is saved is what the commands read, and opens as it was."""

    def setUp(self):
        self.room = Path(tempfile.mkdtemp())
        self.addCleanup(shutil.rmtree, self.room)

    def saved(self, **fields):
        made = at(**fields).files("board")
        return {each["name"]: each["text"] for each in made["files"]}, made["said"]

    def test_the_commands_read_what_is_saved(self):
        files, said = self.saved()
        self.assertEqual(
            sorted(files),
            [f"board.{each}" for each in ("clauses", "names", "readings", "svg", "whiteboard")],
        )
        self.assertEqual(said, "")
        for name, text in files.items():
            (self.room / name).write_text(text, encoding="utf-8")
        names = ["--names", self.room / "board.names"]
        run = lambda *words: subprocess.run(words, capture_output=True, check=False)  # noqa: E731
        self.assertIn(b"two 0", run(CALL, "readings", *names, self.room / "board.readings").stdout)
        self.assertEqual(run(CALL, "judge", *names, self.room / "board.clauses").returncode, 4)
        drawn = run(DRAW, "--clauses", *names, self.room / "board.readings").stdout.decode()
        self.assertEqual(drawn, files["board.svg"])

    def test_what_is_saved_opens_as_it_was(self):
        files, _ = self.saved()
        whole = {**desk.EXAMPLE, "patch": "do\nnop\nnop"}
        self.assertEqual(opened([files["board.readings"], files["board.names"]]), (whole, ""))
        self.assertEqual(opened([files["board.whiteboard"]]), (desk.EXAMPLE, ""))
        self.assertEqual(opened([files["board.readings"]], NAMES)[0]["patch"], whole["patch"])
        self.assertEqual(opened([files["board.readings"]], "malformed")[0]["patch"], "t1\nt0\nt0")
        self.assertEqual(opened([files["board.clauses"]]), ({"sheet": BLOCK}, ""))

    def test_rules(self):
        rules = (EXAMPLES / "two-trees.check").read_text()
        fields, _ = opened([rules])
        self.assertEqual(fields["patch"], "0 0 0")
        files, _ = self.saved(**fields, names="")
        self.assertEqual(
            sorted(files), ["board.check", "board.rules", "board.svg", "board.whiteboard"]
        )
        self.assertEqual(opened([(EXAMPLES / "p2.sweep").read_text()])[0]["sheet"][:9], "left kind")

    def test_unknown_words_are_in_the_state_alone(self):
        files, said = self.saved(patch="fud")
        self.assertEqual(sorted(files), ["board.clauses", "board.names", "board.whiteboard"])
        self.assertIn("fud", said)
        self.assertEqual(opened([files["board.whiteboard"]])[0]["patch"], "fud")
        files, said = self.saved(sheet="")
        self.assertEqual(sorted(files), ["board.names", "board.whiteboard"])

    def test_what_is_no_file_of_ours(self):
        self.assertIn("left out", opened(["left clause\n0 t0\n\nterm line\n0 1\n"])[1])
        for text in ("", "{", '{"sheet": 1}', "[" * 9_999, "\x00"):
            json.dumps(opened([text])).encode("ascii")


class Looking(unittest.TestCase):
    def test_two(self):
        found = at(patch="").found(5, 1)
        self.assertEqual((found["verdict"], found["patch"]), ("two", "do\nnop\nnop"))

    def test_clear(self):
        found = at(sheet=REPAIRED).found(2, 1)
        self.assertNotIn("patch", found)
        self.assertIn(found["verdict"], ("so far", "clear"))

    def test_bad_sheets(self):
        self.assertIn("Nothing was looked for", at(sheet="").found(3, 1)["said"])
        self.assertIn("Nothing was looked for", at(sheet="left clause\n0 t0 |").found(3, 1)["said"])


SLOW = "#!/bin/sh\necho $$ >> '{room}/pids'\nexec sleep 60\n"


class Slow(unittest.TestCase):
    """Programs that do not end."""

    def setUp(self):
        self.room = Path(tempfile.mkdtemp())
        self.addCleanup(shutil.rmtree, self.room)
        self.slow = self.room / "slow"
        self.slow.write_text(SLOW.format(room=self.room))
        self.slow.chmod(0o755)

    def pids(self):
        return [int(line) for line in (self.room / "pids").read_text().split()]

    def gone(self, pid):
        """Waits until a program is no more."""
        for _ in range(200):
            try:
                os.kill(pid, 0)
            except ProcessLookupError:
                return True
            time.sleep(0.02)
        return False

    def test_a_limit(self):
        with self.assertRaises(TimeUp):
            Programs("test", seconds=0.3).run([self.slow], b"")
        self.assertTrue(self.gone(*self.pids()))

    def test_two_at_once(self):
        """A third one waits for its turn, and where it gets none it says so."""
        turns, over, said = at_most(2), threading.Event(), []

        def ask():
            try:
                Programs("test", 60, turns, over.is_set).run([self.slow], b"")
            except Unanswered as error:
                said.append(str(error))

        threads = [threading.Thread(target=ask) for _ in range(2)]
        for thread in threads:
            thread.start()
        while not (self.room / "pids").exists() or len(self.pids()) < 2:
            time.sleep(0.01)
        with self.assertRaisesRegex(Unanswered, "try again"):
            Programs("test", 0.1, turns).run([self.slow], b"")
        over.set()
        for thread in threads:
            thread.join()
        self.assertEqual((said, len(self.pids())), (["nobody waits for the answer"] * 2, 2))

    def test_a_program_ends_with_its_request(self):
        """The page goes away while a program runs: in a copy of the scripts whose programs do not
        end.
        """
        for name in ("bin", "scripts", "docs"):
            shutil.copytree(TOP / name, self.room / name)
        (self.room / "crates").mkdir()
        (self.room / "crates.txt").write_text("")
        (self.room / "target" / "bin").mkdir(parents=True)
        for name in ("calls", "checker", "sweeper"):
            shutil.copy(self.slow, self.room / "target" / "bin" / name)
        served, port = begun(self.room / "bin" / "whiteboard")
        self.addCleanup(end, served)
        body = json.dumps(desk.EXAMPLE).encode()
        host = f"127.0.0.1:{port}"
        head = f"POST /api/read HTTP/1.1\r\nHost: {host}\r\nOrigin: http://{host}\r\n"
        head += "Content-Type: application/json\r\n"
        link = socket.create_connection(("127.0.0.1", port))
        link.sendall(head.encode() + f"Content-Length: {len(body)}\r\n\r\n".encode() + body)
        for _ in range(500):
            if (self.room / "pids").exists() and self.pids():
                break
            time.sleep(0.01)
        link.close()
        self.assertTrue(self.gone(self.pids()[0]))


def interruptible():
    """Of a job in the background interrupts are ignored; the whiteboard takes them."""
    signal.signal(signal.SIGINT, signal.SIG_DFL)


def begun(command, *words):
    """A whiteboard that serves on a free port, and the port."""
    words = [str(word) for word in (command, "--port", 0, *words)]
    pipe = subprocess.PIPE
    served = subprocess.Popen(words, stdout=pipe, text=True, preexec_fn=interruptible)
    address = served.stdout.readline().split()[0]
    return served, int(address.rstrip("/").rsplit(":", 1)[1])


def end(served):
    served.send_signal(signal.SIGINT)
    assert served.wait(timeout=20) == 0
    served.stdout.close()


class Manners(unittest.TestCase):
    """The server, by HTTP."""

    @classmethod
    def setUpClass(cls):
        PROGRAMS.build("calls", "checker", "sweeper")
        cls.server = Server(None, 0, PROGRAMS.built)
        cls.port = cls.server.server_port
        threading.Thread(target=cls.server.serve_forever, daemon=True).start()
        cls.asked = json.dumps(desk.EXAMPLE)

    @classmethod
    def tearDownClass(cls):
        cls.server.shutdown()
        cls.server.server_close()

    def answer(self, method, path, body=None, **headers):
        link = HTTPConnection("127.0.0.1", self.port, timeout=30)
        host = f"127.0.0.1:{self.port}"
        sent = {"Host": host, "Origin": f"http://{host}", "Content-Type": "application/json"}
        sent |= {key.replace("_", "-"): value for key, value in headers.items()}
        link.request(
            method, path, body, {key: value for key, value in sent.items() if value is not None}
        )
        answer = link.getresponse()
        data = answer.read()
        link.close()
        return answer, data

    def status(self, *words, **headers):
        return self.answer(*words, **headers)[0].status

    def test_only_this_machine_and_this_page(self):
        self.assertEqual(self.server.server_address[0], "127.0.0.1")
        self.assertEqual(self.status("POST", "/api/read", self.asked), 200)
        for status, headers in (
            (403, {"Host": "evil.example"}),
            (403, {"Host": f"evil.example:{self.port}"}),
            (403, {"Host": f"127.0.0.1.evil.example:{self.port}"}),
            (403, {"Origin": "http://evil.example"}),
            (403, {"Origin": None}),
            (403, {"Origin": "null"}),
            (403, {"Sec_Fetch_Site": "cross-site"}),
            (415, {"Content_Type": "text/plain"}),
            (415, {"Content_Type": None}),
        ):
            self.assertEqual(
                self.status("POST", "/api/read", self.asked, **headers), status, headers
            )
        # a name that was rebound to this machine: its host is in both headers
        rebound = f"rebound.example:{self.port}"
        self.assertEqual(
            self.status("POST", "/api/read", self.asked, Host=rebound, Origin=f"http://{rebound}"),
            403,
        )
        self.assertEqual(self.status("GET", "/", Host="evil.example"), 403)

    def test_a_fixed_set_of_paths(self):
        for path in (
            "/../bin/whiteboard",
            "/page.py",
            "/api/read",
            "/page.js?x",
            "http://127.0.0.1/",
        ):
            self.assertEqual(self.status("GET", path), 404, path)
        for path in ("/", "/api/", "/api/__init__", "/api/write", "/api/read/", "/page.js"):
            self.assertEqual(self.status("POST", path, self.asked), 404, path)
        for method in ("PUT", "DELETE", "OPTIONS", "HEAD", "TRACE"):
            self.assertEqual(self.status(method, "/api/read", self.asked), 501, method)
        for path in FILES:
            answer, data = self.answer("GET", path)
            self.assertEqual((answer.status, bool(data)), (200, True))
            self.assertIn("default-src 'none'", answer.headers["Content-Security-Policy"])
            self.assertEqual(answer.headers["X-Content-Type-Options"], "nosniff")

    def test_the_page_asks_no_other_host(self):
        for path in FILES:
            text = self.answer("GET", path)[1].decode()
            self.assertNotRegex(
                text, r"(?:src|href)=\"(?!/|data:)|@import|url\(|https?://(?!www\.w3\.org)"
            )

    def test_bad_questions(self):
        for status, body in (
            (400, "[" * 90_000),
            (400, "[]"),
            (400, "{"),
            (400, "\xff"),
            (413, "x" * 500_000),
        ):
            self.assertEqual(self.status("POST", "/api/read", body), status, body[:9])
        self.assertEqual(self.status("POST", "/api/read", None, Content_Length="-1"), 411)
        self.assertEqual(self.status("POST", "/api/read", None, Content_Length="9" * 30), 413)
        said = json.loads(self.answer("POST", "/api/read", json.dumps({"sheet": "é" * 8193}))[1])
        self.assertIn("16,384", said["notes"][0]["said"])
        odd = [
            {"sheet": None, "names": 3, "patch": []},
            {"fold": "x", "opened": {}},
            {"opened": [[]] * 99},
            {},
        ]
        for asked in odd:
            for path in ("read", "look", "open", "save", "start"):
                answer, data = self.answer("POST", f"/api/{path}", json.dumps(asked))
                self.assertEqual(answer.status, 200, (path, asked))
                self.assertIsInstance(json.loads(data), dict)

    def test_looking(self):
        for bound in (0, 8, -1, "3", None, True, 2.5):
            said = json.loads(
                self.answer("POST", "/api/look", json.dumps({**desk.EXAMPLE, "bound": bound}))[1]
            )["said"]
            self.assertEqual(said, "Patches of 1 to 7 tokens can be swept.")
        found = json.loads(
            self.answer("POST", "/api/look", json.dumps({**desk.EXAMPLE, "bound": 4}))[1]
        )
        self.assertEqual(found["patch"], "do\nnop\nnop")

    def test_a_mistake_of_ours_is_a_sentence(self):
        before, Server.first = Server.first, lambda _: 1 / 0
        try:
            answer, data = self.answer("POST", "/api/start", "{}")
        finally:
            Server.first = before
        self.assertEqual(
            (answer.status, json.loads(data)["said"]),
            (500, "The whiteboard made a mistake: ZeroDivisionError."),
        )


class Command(unittest.TestCase):
    def run_it(self, *words):
        ended = subprocess.run(
            [BOARD, *map(str, words)], capture_output=True, check=False, timeout=60
        )
        return ended.returncode, ended.stdout, ended.stderr.decode()

    def test_usage(self):
        for words in (
            ["--nope"],
            ["a", "b"],
            ["--port", "x"],
            ["--port", "65536"],
            ["--port", "-1"],
        ):
            self.assertEqual(self.run_it(*words)[:2], (2, b""), words)
        self.assertIn(b"usage: bin/whiteboard", self.run_it("--help")[1])

    def test_what_cannot_be_served(self):
        status, out, errors = self.run_it("no such file")
        self.assertEqual(
            (status, out, errors),
            (3, b"", "bin/whiteboard: no such file: No such file or directory\n"),
        )
        with socket.socket() as taken:
            taken.bind(("127.0.0.1", 0))
            taken.listen()
            status, out, errors = self.run_it("--port", taken.getsockname()[1])
        self.assertEqual((status, out), (3, b""))
        self.assertIn("--port takes another", errors)

    def test_it_begins_with_a_file_and_the_names_beside_it(self):
        served, port = begun(BOARD, EXAMPLES / "block.clauses")
        self.addCleanup(end, served)
        link = HTTPConnection("127.0.0.1", port, timeout=30)
        headers = {"Origin": f"http://127.0.0.1:{port}", "Content-Type": "application/json"}
        link.request("POST", "/api/start", "{}", headers)
        found = json.loads(link.getresponse().read())
        link.close()
        self.assertEqual(found["fields"]["sheet"], (EXAMPLES / "block.clauses").read_text())
        self.assertEqual(found["fields"]["names"], (EXAMPLES / "block.names").read_text())
        self.assertEqual(
            (found["fields"]["patch"], found["file"], found["said"]), ("", "block.clauses", "")
        )


SETTLED = "return !waiting && !running && !$('look').disabled"
SAYS = "return $('answer').innerText"


@unittest.skipUnless(is_installed(), MISSING)
class Page(unittest.TestCase):
    """The page in a browser: each test begins with the example."""

    @classmethod
    def setUpClass(cls):
        cls.room = Path(tempfile.mkdtemp())
        cls.addClassCleanup(shutil.rmtree, cls.room, True)
        cls.served, cls.port = begun(BOARD)
        cls.addClassCleanup(end, cls.served)
        cls.browser = Browser(cls.room)
        cls.addClassCleanup(cls.browser.close)

    def setUp(self):
        self.browser.look()
        self.browser.go(f"http://127.0.0.1:{self.port}/")
        self.browser.wait("return $('readings').childElementCount")
        self.settled("Two readings.")

    def settled(self, says):
        """Waits for an answer to what the fields have now."""
        self.browser.wait(SETTLED, seconds=40)
        said = self.browser.run(SAYS)
        self.assertTrue(said.startswith(says), said)

    def all(self, css, what="textContent"):
        return self.browser.run(
            f"return [...document.querySelectorAll(arguments[0])].map(e => e.{what})", css
        )

    def test_the_papers_block(self):
        browser = self.browser
        browser.fill("#sheet", BLOCK)
        browser.fill("#names", NAMES)
        browser.fill("#patch", "do\nnop\nnop")
        self.settled("Two readings. They part at stmt+:align in block, 1:1 to 3:1")
        self.assertEqual(len(self.all("#readings svg")), 2)
        self.assertEqual(self.all("#readings .parts title"), ["block: stmt+:align (line 2)"] * 2)
        if os.environ.get("WHITEBOARD_SHOT"):
            browser.look(1000, 700)
            browser.run("document.activeElement.blur(); window.scrollTo(0, 0)")
            browser.shot(os.environ["WHITEBOARD_SHOT"])
            browser.look()
        browser.fill("#sheet", REPAIRED)
        self.settled("No reading of these 3 tokens as block. It would be one but for offside")
        self.assertEqual(self.all("#patch-notes li") + self.all("#readings svg"), [])
        self.assertEqual(self.all(".under .whyno"), ["(t1 n0):offside", "nop"])
        browser.fill("#patch", "do\n  nop\nnop")
        self.settled("One reading of these 3 tokens as block.")
        self.assertEqual(len(self.all("#readings svg")), 1)

    def test_a_refusal_at_its_line(self):
        self.browser.fill("#sheet", "left clause\n0 n1+:align\n1 t0 | (t1 n0):inside\n")
        self.settled("Look at the sheet, line 3.")
        self.assertIn("refused-41", self.all("#sheet-notes li")[0])
        self.assertEqual(self.all(".under .fault"), [":"])
        self.assertEqual(self.all(".gutter .fault"), ["3\n"])
        self.assertEqual(len(self.all(".under .lens")), 1)
        self.assertEqual(self.all(".under .gloss"), ["block: stmt+:align"])
        # what is said beside a line moves no mark: the letters beneath stand as those of the field
        for high, lines in zip(self.all(".under", "offsetHeight"), (4, 4, 3)):
            self.assertLessEqual(abs(high - 24 * lines - 16), 25)
        heights = "const [a, b] = document.querySelectorAll('.under .gloss, .under .fault');"
        heights += (
            "return b.getBoundingClientRect().top - a.parentElement.getBoundingClientRect().top"
        )
        self.assertAlmostEqual(self.browser.run(heights), 8 + 2 * 24 + 3, delta=3)
        # what was read before stays, dimmed
        self.assertEqual(len(self.all("#readings.stale svg")), 2)
        self.browser.click("#sheet-notes button")
        self.assertEqual(self.selected("sheet"), ":")

    def selected(self, field):
        script = "const a = $(arguments[0]); return a.value.slice(a.selectionStart, a.selectionEnd)"
        return self.browser.run(script, field)

    def test_looking_fills_the_patch(self):
        """By the keyboard alone; it can be undone."""
        self.browser.fill("#patch", "nop")
        self.settled("One reading")
        self.browser.keys(("Control", "Enter"))
        self.browser.wait("return $('patch').value === 'do\\nnop\\nnop'", seconds=40)
        self.settled("Two readings.")
        self.assertIn("told by the sweep", self.browser.run("return $('said').textContent"))
        self.browser.keys(("Control", "z"))
        self.settled("One reading")

    def test_a_word_that_is_no_name(self):
        self.browser.fill("#names", "n 0 block\nn 1 stmt\nt 0 nop\n")
        self.settled("Look at the patch, line 1.")
        self.assertEqual(self.all(".under .fault"), ["do"])
        self.browser.click(".offer")
        self.settled("Two readings.")
        self.assertTrue(self.browser.run("return editors.names.text").endswith("\nt 1 do\n"))

    def test_64_tokens(self):
        self.browser.fill("#patch", "do\n" + "\n".join(["nop"] * 63))
        self.settled("Two readings.")
        boxes = self.all("#readings .box")
        self.assertLess(len(boxes), 20)
        # the picture is as small as that of three tokens
        wide = max(map(int, self.all("#readings svg", "getAttribute('width')")))
        self.assertLess(wide, 700)
        self.browser.run(
            "const click = new MouseEvent('click', {bubbles: true});"
            "document.querySelector('#readings .fold').dispatchEvent(click)"
        )
        self.browser.wait(SETTLED)
        self.browser.wait("return document.querySelectorAll('#readings .box').length > 60")
        self.browser.fill("#patch", "\n".join(["nop"] * 65))
        self.settled("Look at the patch, line 65.")

    def test_pointing_lights_words_and_clause(self):
        for step in (1, 2):
            self.browser.run(f"light(document.querySelectorAll('.first .box')[{step}])")
            lit = self.all(".under .lit")
            self.assertEqual(lit, [["t1 n0", "do", "nop", "nop"], ["t1", "do"]][step - 1])
        self.browser.point(".second .box.node rect:last-of-type")
        self.assertEqual(self.all(".under .lit"), ["n1+:align", "do", "nop", "nop"])

    def test_a_click_goes_to_the_clause(self):
        self.browser.click(".second .box.parts text")
        self.assertEqual(self.browser.run("return document.activeElement.id"), "sheet")
        self.assertEqual(self.selected("sheet"), "n1+:align")

    def test_by_the_keyboard_from_node_to_node(self):
        self.browser.click("#patch")
        for _ in range(14):
            self.browser.keys("Tab")
            if self.browser.run("return document.activeElement.className") == "scroll":
                break
        self.browser.keys("Down", "Down", "Down", "Down")
        self.assertEqual(self.all(".under .lit"), ["n1+:align", "nop", "nop"])
        self.assertIn("block: stmt+:align", self.browser.run("return $('current').textContent"))
        self.browser.keys("Enter")
        self.assertEqual(self.selected("sheet"), "n1+:align")

    def test_the_outline(self):
        self.browser.click("label:has([value=outline])")
        rows = self.all("#readings .first .text")
        self.assertEqual(
            rows,
            [
                "block: stmt+:align",
                "stmt: do block",
                "do",
                "block: stmt+:align",
                "stmt: nop",
                "stmt: nop",
            ],
        )
        self.assertEqual(len(self.all(".rows .parts")), 2)
        self.browser.point(".first .rows li:nth-child(2)")
        self.assertEqual(self.all(".under .lit"), ["t1 n0", "do", "nop", "nop"])

    def test_markup_is_text(self):
        """What is typed is text, wherever it is shown."""
        self.browser.fill(
            "#names", 'n 0 <img src=x onerror=alert(1)>\nn 1 stmt\nt 0 nop\nt 1 <b>"&\n'
        )
        self.browser.fill("#patch", '<b>"&\nnop\nnop')
        self.settled("Two readings.")
        for view in ("outline", "tree"):
            self.browser.click(f"label:has([value={view}])")
            self.assertEqual(self.all("main img, main b, main script"), [])
            self.assertIn("<img", self.browser.run("return $('readings').textContent"))
        self.assertIn("<img", self.browser.run(SAYS))

    def test_wide_letters_and_the_ruler(self):
        """The ruler's mark is the column that the token has."""
        self.browser.fill("#names", NAMES.replace("nop", "語"))
        self.browser.fill("#patch", "do 語")
        self.settled("One reading")
        self.assertEqual(self.all(".ruler .here"), ["6"])
        self.assertIn("1:4", self.browser.run("return $('readings').textContent"))

    def test_saving_and_opening(self):
        self.browser.keys(("Control", "s"))
        self.browser.wait("return $('saves').childElementCount === 5")
        self.browser.click("#saves a[download='board.readings']")
        for _ in range(200):
            if (self.room / "board.readings").exists():
                break
            time.sleep(0.05)
        saved = (self.room / "board.readings").read_bytes()
        self.assertEqual(tokens_of(saved.split(b"\n\n")[1])[1].place, "2:1")
        self.browser.keys("Escape")
        self.assertFalse(self.browser.run("return $('save').open"))
        self.browser.fill("#patch", "")
        self.settled("The patch is empty.")
        self.browser.type("#files", str(self.room / "board.readings"))
        self.browser.wait("return $('patch').value === 'do\\nnop\\nnop'")
        self.settled("Two readings.")

    def test_a_phone(self):
        self.browser.look(390, 844)
        self.browser.wait("return document.documentElement.scrollWidth <= window.innerWidth")
        tops = self.all(".editor", "getBoundingClientRect().left")
        self.assertEqual(len(set(tops)), 1)

    def test_dark_and_print(self):
        paper = "return getComputedStyle(document.querySelector('.answer')).backgroundColor"
        light = self.browser.run(paper)
        self.browser.look(dark=True)
        self.assertNotEqual(self.browser.run(paper), light)
        self.browser.look(media="print")
        every = "return [...document.querySelectorAll(arguments[0])].every"
        gone = f"{every}(e => !e.getClientRects().length)"
        self.assertTrue(self.browser.run(gone, "header, .tools, #sheet, #names, textarea, .help"))
        self.assertFalse(self.browser.run(gone, "#readings svg"))
        self.assertFalse(self.browser.run(gone, "#answer"))


if __name__ == "__main__":
    if not is_installed():
        print(MISSING, file=sys.stderr)
    unittest.main()
