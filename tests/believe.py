#!/usr/bin/env python3
"""docs/BELIEVE.md lists just the files that the public promises rest on and the demanded laws, and bin/believe sees where it does not."""

import shutil
import subprocess
import tempfile
import unittest
from pathlib import Path

TOP = Path(__file__).resolve().parent.parent
LIST = (TOP / "docs" / "BELIEVE.md").read_text()


class Believe(unittest.TestCase):
    def believe(self, text, more=None):
        """Status and errors with this list, and with what `more` puts behind a file of crates/, or makes of it."""
        room = Path(tempfile.mkdtemp())
        self.addCleanup(shutil.rmtree, room)
        (room / "bin").mkdir()
        (room / "docs").mkdir()
        shutil.copy(TOP / "bin" / "believe", room / "bin")
        if more:
            file, lines = more
            shutil.copytree(TOP / "crates", room / "crates", ignore=shutil.ignore_patterns("must-fail", "data", "out"))
            changed = room / "crates" / file
            changed.write_text(lines(changed.read_text()) if callable(lines) else changed.read_text() + lines)
        else:
            (room / "crates").symlink_to(TOP / "crates")
        (room / "docs" / "BELIEVE.md").write_text(text)
        ended = subprocess.run([room / "bin" / "believe"], capture_output=True, text=True, check=False)
        return ended.returncode, ended.stderr

    def test_the_list_is_complete(self):
        self.assertEqual(self.believe(LIST), (0, ""))

    def test_a_file_left_out_is_told(self):
        for name in ("grammar/specs/Layout", "fields/specs/Pieces", "sheets/specs/Refusals", "check_text/specs/Check"):
            line = f"crates/{name}.antt"
            self.assertIn(line, LIST)
            status, errors = self.believe(LIST.replace(line, "crates"))
            self.assertEqual((status, errors), (1, f"believe: docs/BELIEVE.md does not list {line}\n"))

    def test_a_file_too_many_is_told(self):
        more = "crates/tables/specs/Tables.antt"
        status, errors = self.believe(LIST.replace("\n## Demanded laws", f"\n- `{more}`\n\n## Demanded laws"))
        self.assertEqual((status, errors), (1, f"believe: docs/BELIEVE.md lists {more}, on which no public promise rests\n"))

    def test_a_second_meaning_is_told(self):
        status, errors = self.believe(LIST, ("lists/specs/Putting.antt", "\nabbrev pub row_count : ℕ → ℕ\nrow_count n = n\n"))
        self.assertEqual((status, errors), (1, "believe: row_count is defined in crates/grammar/specs/Rows.antt and in crates/lists/specs/Putting.antt\n"))

    def test_a_definition_besides_is_told(self):
        status, errors = self.believe(LIST, ("grammar/specs/Rows.antt", "\nabbrev pub twice : ℕ → ℕ\ntwice n = n + n\n"))
        self.assertEqual((status, errors), (1, "believe: no public promise rests on twice in crates/grammar/specs/Rows.antt\n"))

    def test_words_of_a_comment_are_no_names(self):
        status, errors = self.believe(LIST, ("grammar/specs/Rows.antt", "\nabbrev pub Rest : ℕ → ℕ\nRest n = n\n  -- by Rest and start_of : ℕ\n"))
        self.assertEqual((status, errors), (1, "believe: no public promise rests on Rest in crates/grammar/specs/Rows.antt\n"))

    def test_a_name_of_the_kit_is_told(self):
        status, errors = self.believe(LIST, ("grammar/specs/Rows.antt", lambda text: text.replace("start_of", "drop")))
        self.assertEqual(status, 1)
        self.assertIn("drop in crates/grammar/specs/Rows.antt has the name of something of the kit's", errors)

    def test_a_lost_law_is_told(self):
        file = "call_rights/proofs/Leaks.antt"
        status, errors = self.believe(LIST, (file, lambda text: text.replace("nothing_leaks", "little_leaks")))
        self.assertEqual((status, errors), (1, f"believe: no law nothing_leaks stands in crates/{file}\n"))

    def test_a_law_about_something_else_is_told(self):
        status, errors = self.believe(LIST.replace("`call_rights/Alike`, ", ""))
        self.assertEqual(status, 1)
        self.assertIn("nothing_leaks in crates/call_rights/proofs/Leaks.antt: the statement rests besides on answering/Settled call_rights/Alike", errors)

    def test_a_public_function_left_out_is_told(self):
        status, errors = self.believe(LIST.replace("`calling::calls_text`", ""))
        self.assertEqual(status, 1)
        self.assertIn("crates/calling/specs/Calls.antt, on which no public promise rests", errors)


if __name__ == "__main__":
    unittest.main()
