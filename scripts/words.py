#!/usr/bin/env python3
"""Says what a refusal means: words.py PROGRAM ANSWER LINE < INPUT, as words.py checker refused-3 2.

Prints the refusal's sentence (docs/refusals.tsv), the refused line, and a mark under the field that is at fault, where
that is known. It goes by the answer and looks in the refused line for what the refusal is about; it judges nothing.
"""

import re
import sys

from reading.clauses import IllWritten, clause_of
from reading.sheets import parted
from refusals import table

# the sheets that a program's input holds, each parted from the next by an empty line; of `calls` by the call
SHEETS = {
    "checker": ["rule sheet", "token sheet"],
    "sweeper": ["bound", "rule sheet"],
}
CALLS = {
    "clauses": ["call", "clause sheet", "token sheet"],
    "clauses bound": ["call", "clause sheet"],
    "expand": ["call", "clause sheet"],
    "rows": ["call", "rule sheet", "token sheet"],
    "share": ["call", "rule sheet"],
    "merge": ["call", "report", "report"],
    "columns": ["call", "rule sheet", "range sheet"],
    "places": ["call", "rule sheet", "token sheet"],
    "always": ["call", "rule sheet"],
    "clauses-always": ["call", "clause sheet"],
    "show": ["call", "rule sheet", "token sheet", "rights sheet"],
    "change": ["call", "rule sheet", "rights sheet"],
}

NAMES = {
    "rule sheet": [b"left kind first second lay"],
    "clause sheet": [b"left clause"],
    "token sheet": [b"term line col", b"term line col width"],
    "range sheet": [b"term line low high"],
    "rights sheet": [b"user low high may"],
}

# the first word of where a refusal is looked for, and the sheets that it may be about
ABOUT = {
    "rule": ("rule sheet", "clause sheet"),
    "clause": ("clause sheet",),
    "token": ("token sheet", "range sheet"),
    "range": ("range sheet",),
    "rights": ("rights sheet",),
}

LAYS = {b"none", b"offside", b"offalign", b"single", b"align", b"indent"}

WIDEST = 100


class Line:
    """A line of a sheet: its bytes without byte 10, its fields, and where each begins."""

    def __init__(self, data, ended):
        self.data, self.ended = data, ended
        self.fields = data.split(b" ")
        self.starts = [0]
        for field in self.fields[:-1]:
            self.starts.append(self.starts[-1] + len(field) + 1)

    def field(self, i):
        """Where field i is; behind the line where it has none."""
        if i < len(self.fields):
            return self.starts[i], self.starts[i] + len(self.fields[i])
        return self.end()

    def end(self):
        """The place behind the line."""
        return len(self.data), len(self.data)

    def first(self, wrong, count):
        """The first of so many fields that is wrong, else the first one too many, else the missing byte 10."""
        for i in range(count):
            if i >= len(self.fields) or wrong(i, self.fields[i]):
                return self.field(i)
        return self.field(count)


def sheets_of(program, data):
    """The names of the sheets of an input."""
    if program in SHEETS:
        return SHEETS[program]
    if program == "finder":
        return ["clause sheet" if data.startswith(b"left clause\n") else "rule sheet"]
    names, values, *_ = data.split(b"\n", 2)
    call = values.split(b" ")[0].decode("latin-1")
    return CALLS["clauses bound" if (call, names) == ("clauses", b"call bound") else call]


def lines_of(sheet):
    *whole, rest = sheet.split(b"\n")
    return [Line(data, True) for data in whole] + [Line(rest, False)]


def is_number(field):
    return re.fullmatch(rb"[0-9]{1,5}", field) is not None


def value(field):
    return int(field) if is_number(field) else None


def over(most, least=0):
    """Is a field a number outside of these bounds?"""
    return lambda field: is_number(field) and not least <= int(field) <= most


def names_fault(sheet, line):
    """The first name that differs from those of the sheet's names that have the most in common with the line."""
    wanted = max(NAMES[sheet], key=lambda names: common(names.split(b" "), line.fields))
    names = wanted.split(b" ")
    return line.first(lambda i, field: field != names[i], len(names))


def common(names, fields):
    """How many names agree, less those that are left over on either side."""
    same = [a == b for a, b in zip(names, fields)]
    return sum(same) - abs(len(names) - len(fields)) / 10


def rule_form_fault(line):
    """Refusal 2."""
    kind = line.fields[1] if len(line.fields) > 1 else b""
    dashes = {b"E": "--", b"A": "9?", b"U": "9-", b"B": "99"}.get(kind, "??")

    def operand(field, wanted):
        is_dash = field == b"-"
        return not (is_dash or is_number(field)) or (wanted == "-" and not is_dash) or (wanted == "9" and is_dash)

    def wrong(i, field):
        if i == 0:
            return not is_number(field)
        if i == 1:
            return field not in (b"E", b"A", b"U", b"B")
        return operand(field, dashes[i - 2]) if i < 4 else field not in LAYS

    return line.first(wrong, 5)


def rule_key(line):
    """What refusal 5 compares."""
    left, kind, first, second, _ = line.fields
    if kind == b"A":
        return value(left), kind, value(first), value(first) if second == b"-" else value(second)
    return value(left), kind, value(first), value(second)


def alike(one, other):
    if one[:2] != other[:2]:
        return False
    if one[1] == b"A":
        return one[2] <= other[3] and other[2] <= one[3]
    return one == other


def twice(lines, at):
    """The number of the earlier line that refusal 5 is about."""
    key = rule_key(lines[at])
    return next(i for i in range(1, at) if alike(rule_key(lines[i]), key))


def clause_form_fault(line):
    """Refusal 41: the first place at which the line can no longer go on to be so written."""
    try:
        clause_of(0, line.data.decode("latin-1"))
    except IllWritten as error:
        return error.place
    return line.end()


def clause_deep_fault(line):
    """Refusal 42: where the seventeenth level begins."""
    depth = 0
    for at, byte in enumerate(line.data):
        depth += (byte == ord("(")) - (byte == ord(")"))
        if depth > 16:
            return at, at + 1
    return None


def token_order_fault(lines, at):
    """Refusal 15: the line field, where the line falls, else the column."""
    before, line = lines[at - 1], lines[at]
    return line.field(1 if value(line.fields[1]) < value(before.fields[1]) else 2)


def right_fault(line):
    def wrong(i, field):
        if i == 3:
            return field not in (b"see", b"change")
        return not is_number(field) or over(15 if i == 0 else 63)(field)

    span = line.first(wrong, 4)
    # a line without a fault has its range reversed
    return line.field(2) if line.ended and len(line.fields) == 4 and span == line.end() else span


def fault(number, sheet, lines, at):
    """Where the fault is in the refused line, and another line that it is about; nothing where that is not known."""
    line = lines[at]
    if number in (1, 11):
        return names_fault(sheet, line), None
    if number == 2:
        span = rule_form_fault(line)
        # a line without a fault is refused for a new mark, which is to stand in its last field
        return line.field(4) if line.ended and len(line.fields) == 5 and span == line.end() else span, None
    if number == 3:
        return line.first(lambda i, field: i != 1 and over(63)(field), 4), None
    if number == 4:
        return line.field(4), None
    if number == 44:
        return line.field(3), None
    if number == 5:
        return (0, line.field(3)[1]), twice(lines, at)
    if number == 41:
        return clause_form_fault(line), None
    if number == 42:
        return clause_deep_fault(line), None
    if number == 12:
        return line.first(lambda _, field: not is_number(field), len(lines[0].fields)), None
    if number == 13:
        bounds = [over(63)] + [over(65_535, 1)] * (3 if sheet == "range sheet" else 2)
        return line.first(lambda i, field: bounds[i](field), len(bounds)), None
    if number in (47, 48):
        return line.field(3), None
    if number == 15:
        return token_order_fault(lines, at), at - 1
    if number == 50:
        return right_fault(line) if at else names_fault(sheet, line), None
    return None, None


def shown(byte):
    return chr(byte) if 32 <= byte < 127 else f"\\x{byte:02x}"


def drawn(line, span):
    """The line as text and a mark under the span, both cut to a window where the line is long."""
    pieces = [shown(byte) for byte in line.data]
    starts = [sum(map(len, pieces[:i])) for i in range(len(pieces) + 1)]
    text = "".join(pieces)
    if span is None:
        return [text[:WIDEST]]
    low, high = starts[span[0]], max(starts[span[1]], starts[span[0]] + 1)
    cut = 0 if high <= WIDEST else max(0, low - 20)
    text, low, high = text[cut : cut + WIDEST], low - cut, min(high - cut, WIDEST)
    mark = " " * low + "^" * (high - low)
    dots = "..." if cut else ""
    return [dots + text, " " * len(dots) + mark]


def looked_for(number):
    """The refusal of a number; nothing where the table has none."""
    return next((refusal for refusal in table() if refusal.number == number), None)


def found(program, number, number_of_line, data):
    """The sheet that a refusal is about, its lines, the field at fault, and another line."""
    names = sheets_of(program, data)
    about = ABOUT[looked_for(number).where.removeprefix("each ").split(" ")[0]]
    sheet = next(name for name in names if name in about)
    lines = lines_of(parted(data, len(names))[names.index(sheet)])
    return sheet, lines, *fault(number, sheet, lines, number_of_line - 1)


def explained(program, answer, number_of_line, data):
    """The words, a line each."""
    number = int(answer.removeprefix("refused-"))
    refusal = looked_for(number)
    if refusal is None:
        return [f"{answer}: docs/refusals.tsv has no such number"]
    if number_of_line == 0:
        return [f"{answer}: {refusal.meaning}"]
    sheet, lines, span, other = found(program, number, number_of_line, data)
    at = number_of_line - 1
    words = [f"{answer}, {sheet}, line {number_of_line}: {refusal.meaning}"]
    words += ["    " + text for text in drawn(lines[at], span)]
    if not lines[at].ended and span == lines[at].end():
        words.append("    (the line is not ended by byte 10)")
    if other is not None:
        words.append(f"    line {other + 1} is {drawn(lines[other], None)[0]}")
    return words


def said(program, answer, line, data):
    """The words; where a line is not looked at rightly, the sentence alone."""
    try:
        return explained(program, answer, line, data)
    except (LookupError, ValueError, TypeError, StopIteration):
        return explained(program, answer, 0, data)


def main(program, answer, line):
    print("\n".join(said(program, answer, int(line), sys.stdin.buffer.read())))


if __name__ == "__main__":
    if len(sys.argv) != 4:
        sys.exit(__doc__)
    main(*sys.argv[1:])
