"""The cases for the calls, with the reference's answers.

A case is the letter `a` and an input of the program `calls`.  What no such
input can hold is asked of the call itself: a letter (`k` clauses, `s` show,
`m` change, `l` the refused line of a clause sheet and a token sheet), a blank,
user, rule and the lengths of the first two parts in five digits each, parted
by blanks, byte 10, and the parts; the new mark is the last part of `m`.  The
output is the whole one of the program `calls`; for `l` the line's length,
byte 10, the line and byte 10.
"""

from typing import NamedTuple

import always_cases
import calls
import clause_cases
import clauses
import column_cases
import merge_cases
import share_cases
import teplonga
import tours
import tree_cases


class Call(NamedTuple):
    """What a case asks: the names and the word of a call sheet, its values, and the sheets."""

    names: bytes
    word: bytes
    values: tuple
    sheets: tuple

    def text(self):
        """The input of the program `calls` that asks it, or None where there is none."""
        values = [b"%d" % each if isinstance(each, int) else each for each in self.values]
        head = self.names + b"\n" + b" ".join([self.word, *values]) + b"\n"
        rest = b"\n".join(self.sheets)
        called = calls.call_of(head)
        if teplonga.parted(head) is not None or called is None or called[1] != list(self.values):
            return None
        if calls.sheets_of(rest, len(self.sheets)) != list(self.sheets):
            return None
        return head + b"\n" + rest

    def parts(self):
        """The case that asks it of the call itself."""
        user, rule = [*self.values, 0, 0][:2]
        first, second, third = [*self.sheets, *self.values[2:], b""][:3]
        letter = {b"clauses": b"k", b"show": b"s", b"change": b"m", b"line": b"l"}[self.word]
        return letter + b" %05d %05d %05d %05d\n" % (user, rule, len(first), len(second)) + first + second + third

    def direct(self):
        """The output of the call itself."""
        if self.word == b"clauses":
            return clauses.clauses_output(*self.sheets)
        if self.word == b"show":
            return tours.show_output(*self.sheets, *self.values)
        if self.word == b"change":
            user, rule, lay = self.values
            return tours.change_output(*self.sheets, lay, user, rule)
        line = clauses.refused_line(*self.sheets)
        return b"%d\n" % len(line) + line + b"\n"

    def case(self):
        """The case and its output."""
        text = None if self.word == b"line" else self.text()
        return (self.parts(), self.direct()) if text is None else (b"a" + text, calls.calls_program(text))


def of_clauses(case):
    kind, sheet, second = case
    if kind == "sweep":
        return Call(b"call bound", b"clauses", (second,), (sheet,))
    if kind == "expand":
        return Call(b"call", b"expand", (), (sheet,))
    return Call(b"call", kind.encode(), (), (sheet, second))


def of_trees(case):
    call, user, rule, sheets = case
    if call == "show":
        return Call(b"call user", b"show", (user,), sheets)
    if call == "change":
        return Call(b"call user rule lay", b"change", (user, rule, sheets[2]), sheets[:2])
    return Call(b"call", call.encode(), (), sheets)


def of_shares(case):
    *numbers, sheet = case
    return Call(b"call length racks share", b"share", tuple(numbers), (sheet,))


def of_merge(case):
    return Call(b"call", b"merge", (), case)


def of_columns(case):
    return Call(b"call", b"columns", (), case)


def of_always(case):
    call, sheet = case
    return Call(b"call", call.encode(), (), (sheet,))


# the cases, part by part, each with what a case asks
PARTS = [
    (clause_cases, of_clauses),
    (tree_cases, of_trees),
    (share_cases, of_shares),
    (merge_cases, of_merge),
    (column_cases, of_columns),
    (always_cases, of_always),
]


def goes_on(call, output, answer):
    """Is it answered as it was meant to be? A refused line belongs to the answer on its two sheets."""
    if call.word == b"line":
        output = clauses.clauses_output(*call.sheets)
    return output.startswith(b"answer line\n" + (answer if isinstance(answer, bytes) else answer.encode()))


def made():
    """The cases and their outputs; where a case made by hand is not answered as it was meant to be, that is raised."""
    inputs, outputs = [], []
    for listed, asks in PARTS:
        cases = [(asks(case), *asks(case).case()) for case in listed.cases()]
        for (answer, _), (call, _, output) in zip(listed.meant(), cases):
            if answer is not None and not goes_on(call, output, answer):
                raise ValueError(f"case {call!r}\n  got   {output!r}\n  meant {answer!r}")
        inputs += [text for _, text, _ in cases]
        outputs += [output for *_, output in cases]
    return inputs, outputs
