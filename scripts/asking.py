"""Asks the proved programs, and tells refusals and failures apart from answers."""

import os
import re
import signal
import subprocess
import threading
import time
from pathlib import Path
from typing import NamedTuple

import words

TOP = Path(__file__).resolve().parent.parent

# how often a program that is running is looked at, in seconds
LOOK = 0.05


class Unanswered(Exception):
    """Something could not be read, written, built or run; the words say what."""


class TimeUp(Unanswered):
    """A program took longer than it may."""


class Refusal(NamedTuple):
    """A refusal: the program, its input, the number and the line."""

    program: str
    data: bytes
    number: int
    line: int

    @property
    def output(self):
        return f"answer line\nrefused-{self.number} {self.line}\n"

    def words(self):
        """What it means, a line each."""
        return words.said(self.program, f"refused-{self.number}", self.line, self.data)

    @property
    def meaning(self):
        return words.looked_for(self.number).meaning

    def fault(self):
        """The sheet, the bytes of its line, where the field at fault is there, and another line
        that it is about.
        """
        try:
            sheet, lines, span, other = words.found(self.program, self.number, self.line, self.data)
            return sheet, lines[self.line - 1].data, span, other
        except (LookupError, ValueError, TypeError, StopIteration):
            return "", b"", None, None


class Refused(Exception):
    """What is asked is refused."""

    def __init__(self, refusal):
        super().__init__(f"refused-{refusal.number}")
        self.refusal = refusal


def refusal_of(program, data, output):
    """The refusal that an output is; nothing where it is an answer."""
    found = re.match(rb"answer line\nrefused-(\d+) (\d+)\n", output)
    return Refusal(program, data, int(found[1]), int(found[2])) if found else None


class Programs:
    """The programs in target/bin, proved and built first where that is due.

    `seconds` limits each run, `turns` how many run at once; `is_over` says, while one runs, whether
    nobody waits for it any more; `progress` is told, while one runs, for how many seconds it has;
    `built` are those that need no look.
    """

    def __init__(self, name, seconds=None, turns=None, is_over=None, progress=None, built=()):
        self.name, self.seconds, self.turns = name, seconds, turns
        self.is_over, self.progress = is_over, progress
        self.built = set(built)

    def build(self, *programs):
        """Sees that programs are built, and no older than their sources."""
        for program in programs:
            if program not in self.built:
                script = TOP / "scripts" / "build.sh"
                if subprocess.run(
                    [script, self.name, program], stdin=subprocess.DEVNULL, check=False
                ).returncode:
                    raise Unanswered(f"the program {program} could not be built")
                self.built.add(program)

    def answer(self, program, *sheets, call=None):
        """A program's output for these sheets, where it does not refuse; `call` has the call
        sheet's two lines.
        """
        data = b"\n".join([*([call] if call else []), *sheets])
        self.build(program)
        output = self.run([TOP / "target" / "bin" / program], data, most=0)
        if not output.startswith(b"answer line\n"):
            raise Unanswered("the program gave no answer")
        refusal = refusal_of(program, data, output)
        if refusal:
            raise Refused(refusal)
        return output

    def run(self, command, data, is_heard=False, most=1):
        """The whole output of a command, once it has its turn; `is_heard`: what it says on standard
        error passes through; `most`: a higher exit status is no answer.
        """
        if self.turns is None:
            return self.run_now(command, data, is_heard, most)
        if not self.turns.acquire(timeout=self.seconds):
            raise Unanswered("other questions are being answered: try again")
        try:
            return self.run_now(command, data, is_heard, most)
        finally:
            self.turns.release()

    def run_now(self, command, data, is_heard=False, most=1):
        try:
            errors = None if is_heard else subprocess.PIPE
            pipes = {"stdin": subprocess.PIPE, "stdout": subprocess.PIPE, "stderr": errors}
            made = subprocess.Popen(command, **pipes, start_new_session=True)
        except OSError as error:
            raise Unanswered(f"the program could not be run: {error.strerror}") from error
        with made:
            try:
                output, errors = self.watched(made, data)
            except BaseException:
                stop(made)
                raise
        said = (errors or b"").decode("utf-8", "replace").strip()
        if made.returncode < 0:
            raise Unanswered(
                f"the program was ended by signal {-made.returncode} (does the stack have 2 MB?)"
            )
        if made.returncode > most or not output:
            raise Unanswered(f"the program gave no answer{': ' if said else ''}{said}")
        return output

    def watched(self, made, data):
        """Output and errors of a running program."""
        began = time.monotonic()
        while True:
            try:
                return made.communicate(data, timeout=LOOK)
            except subprocess.TimeoutExpired:
                # the input is taken once
                data, passed = None, time.monotonic() - began
                if self.seconds and passed > self.seconds:
                    said = f"the program took more than {self.seconds} seconds and was stopped"
                    raise TimeUp(said) from None
                if self.is_over and self.is_over():
                    raise Unanswered("nobody waits for the answer") from None
                if self.progress:
                    self.progress(passed)


def stop(made):
    """Ends a program and all that it started."""
    try:
        os.killpg(made.pid, signal.SIGKILL)
    except ProcessLookupError:
        pass


def at_most(count):
    return threading.BoundedSemaphore(count)
