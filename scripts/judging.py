"""Is there a patch that a sheet reads in two ways? The ways to tell, one after the other.

A way is a function of a question. It gives what it knows (`Known`), or nothing where it does not
stand here, or cannot tell. To add one, write it and put it into WAYS.
"""

import re
from typing import Callable, NamedTuple, Optional

from asking import TOP, Refused, TimeUp, Unanswered
from reading.answers import CLAUSES
from reading.sheets import is_clauses, tokens_of
from reading.spelling import count_of

LARGEST_BOUND = 7
TOO_LARGE = 24
NO_TOKENS = b"term line col\n"


class Known(NamedTuple):
    """What is known of a sheet. `verdict` is `clear` (at every length), `two` (a patch with two
    readings, `tokens`) or `so far` (clear up to so many tokens, `bound`); `by` says what told it,
    and `proved` what is proved of that.
    """

    verdict: str
    by: str
    proved: str
    tokens: Optional[list] = None
    bound: int = 0

    def sentence(self):
        if self.verdict == "clear":
            front = "clear at every length"
        elif self.verdict == "two":
            front = "two readings"
        else:
            front = f"clear up to {count_of(self.bound, 'token')}, not told beyond"
        return f"{front}: told by {self.by}; {self.proved}"


class Inquiry(NamedTuple):
    """A question: the sheet, the programs, the largest bound of a sweep, and how long the finder
    may look. `say` is told what is being done.
    """

    data: bytes
    programs: object
    bound: int = LARGEST_BOUND
    seconds: float = 10
    say: Callable = lambda _: None

    @property
    def is_clauses(self):
        return is_clauses(self.data)

    def word(self, output):
        """The answer's word, and what follows the answer."""
        _, answer, rest = output.split(b"\n", 2)
        return answer.split(b" ")[0].decode("ascii"), rest


def always(sheet):
    """The test that clears a sheet at every length."""
    call = b"call\nclauses-always\n" if sheet.is_clauses else b"call\nalways\n"
    sheet.say("asking whether it is clear at every length")
    word, _ = sheet.word(sheet.programs.answer("calls", sheet.data, call=call))
    proved = "proved of every patch, whatever its length"
    return Known("clear", "`always`", proved) if word == "clear" else None


def nothing(sheet):
    """The patch without tokens, which no sweep tries."""
    program, call = ("calls", CLAUSES) if sheet.is_clauses else ("checker", None)
    try:
        word, _ = sheet.word(sheet.programs.answer(program, sheet.data, NO_TOKENS, call=call))
    except Refused:
        # a sheet that is refused is so by the sweep, in its own lines
        return None
    proved = "proved of it: both trees of the patch without tokens"
    return Known("two", "the verdict on it", proved, tokens=[]) if word == "two" else None


def sweep(sheet):
    """The sweep, a bound after the other, up to the largest that is not refused."""
    known = None
    for bound in range(1, sheet.bound + 1):
        sheet.say(f"sweeping all patches of up to {count_of(bound, 'token')}")
        try:
            word, rest = sheet.word(swept(sheet, bound))
        except Refused as refused:
            if refused.refusal.number != TOO_LARGE or known is None:
                raise
            return known
        except TimeUp:
            if known is None:
                raise
            return known
        if word == "two":
            proved = "proved of it: both trees, and that no shorter patch has two"
            return Known("two", "the sweep", proved, tokens=tokens_of(rest))
        proved = f"proved of every patch of up to {count_of(bound, 'token')}, wherever they stand"
        known = Known("so far", "the sweep", proved, bound=bound)
    return known


def swept(sheet, bound):
    if sheet.is_clauses:
        return sheet.programs.answer("calls", sheet.data, call=b"call bound\nclauses %d\n" % bound)
    return sheet.programs.answer("sweeper", b"bound\n%d\n" % bound, sheet.data)


def find(sheet):
    """The finder, where bin/teplonga has it."""
    command = TOP / "bin" / "teplonga"
    help_text = sheet.programs.run([command], b"")
    if not re.search(rb"^  find\b", help_text, re.MULTILINE):
        return None
    is_limited = bool(sheet.programs.seconds)
    if is_limited and not (TOP / "target" / "bin" / "finder").exists():
        # it would be built first, which takes longer than there is time
        return None
    sheet.say("looking for a longer patch")
    words = ["find", "--seconds", str(sheet.seconds), "-"]
    try:
        output = sheet.programs.run([command, *words], sheet.data, is_heard=not is_limited)
    except Unanswered:
        return None
    word, rest = sheet.word(output)
    proved = "proved of it: both trees; that no shorter patch has two is not"
    return Known("two", "the finder", proved, tokens=tokens_of(rest)) if word == "two" else None


WAYS = [always, nothing, sweep, find]


def judged(sheet, ways=None):
    """What the ways tell, the first that settles it; else what is known so far."""
    known = None
    for way in WAYS if ways is None else ways:
        found = way(sheet)
        if found and found.verdict != "so far":
            return found
        known = found or known
    return known
