"""Reference for columns read off a photograph.

Written from document 02 alone, on top of the reference for document 01: every
choice of columns is tried.
"""

import itertools
import math
import sys
from typing import NamedTuple

import teplonga as base

RANGE_NAMES = b"term line low high"
MOST_CHOICES = 65_536


class Range(NamedTuple):
    """A token whose column is known between two ends."""

    term: int
    line: int
    low: int
    high: int


def range_of_line(line, ended):
    """"12 wants four numbers": the token a line writes, or None."""
    parts = base.fields(line)
    if not ended or len(parts) != 4:
        return None
    if not all(base.is_number(part) for part in parts):
        return None
    return Range(*map(int, parts))


def in_range(token):
    """"`low` and `high` have the bounds of a column" """
    return (
        token.term <= 63
        and 1 <= token.line <= 65_535
        and 1 <= token.low <= 65_535
        and 1 <= token.high <= 65_535
    )


def range_line_refusal(line, ended, earlier):
    """The refusal of one line in the order 14, 12, 13, 48, or None; "15 isn't given here"."""
    if len(earlier) == base.MOST_TOKENS:
        return 14
    token = range_of_line(line, ended)
    if token is None:
        return 12
    if not in_range(token):
        return 13
    if token.high < token.low:
        return 48
    return None


def choice_count(ranges):
    """"rising or not" """
    return math.prod(token.high - token.low + 1 for token in ranges)


def read_ranges(sheet):
    """("refused", number, line) or ("accepted", ranges)."""
    lines = base.sheet_lines(sheet)
    if lines[0] != (RANGE_NAMES, True):
        return base.refused(11, 1)
    ranges = []
    for number, (line, ended) in enumerate(lines[1:], start=2):
        refusal = range_line_refusal(line, ended, ranges)
        if refusal is not None:
            return base.refused(refusal, number)
        ranges.append(range_of_line(line, ended))
    if choice_count(ranges) > MOST_CHOICES:
        return base.refused(49, 0)
    return ("accepted", ranges)


def choices(ranges):
    """All choices of columns within the ends, as lists of tokens of width 1."""
    ends = [range(token.low, token.high + 1) for token in ranges]
    for columns in itertools.product(*ends):
        yield [base.Token(token.term, token.line, column) for token, column in zip(ranges, columns)]


def rises(tokens):
    """"with positions properly rising" """
    return all(base.comes_after(after, before) for before, after in zip(tokens, tokens[1:]))


def verdicts(rules, ranges):
    """The verdicts that some rising choice gives."""
    return {base.verdict(rules, tokens) for tokens in choices(ranges) if rises(tokens)}


def columns_call(rules, ranges, words):
    """(answer, line, flags of none, one, two, words after)."""
    no = (False, False, False)
    for reading in (base.read_rules(rules), read_ranges(ranges)):
        if reading[0] == "refused":
            return (base.refused_answer(reading[1]), reading[2], no, list(words))
    read = read_ranges(ranges)[1]
    needed = base.words_needed(len(read))
    if len(words) < needed:
        return (base.refused_answer(21), 0, no, list(words))
    found = verdicts(base.read_rules(rules)[1], read)
    # "the words it needed end 0, even with one choice"
    return ("given", 0, tuple(each in found for each in base.ANSWERS), [0] * needed + list(words[needed:]))


def refused_line(rules, ranges):
    """"the refused line itself, without its byte 10"; with no such line no bytes."""
    for sheet, reading in ((rules, base.read_rules(rules)), (ranges, read_ranges(ranges))):
        if reading[0] == "refused":
            return sheet.split(b"\n")[reading[2] - 1] if reading[2] else b""
    return b""


def columns_output(rules, ranges):
    """What the program `calls` writes for `columns` and these two sheets."""
    words = [0] * base.words_needed(base.MOST_TOKENS)
    answer, line, flags, _ = columns_call(rules, ranges, words)
    output = base.answer_lines(answer, line)
    if answer == "given":
        said = " ".join("yes" if flag else "no" for flag in flags)
        output += f"none one two\n{said}\n".encode()
    return output


def main():
    """Standard input: a rule sheet, an empty line, a range sheet."""
    rules, ranges = base.parted(sys.stdin.buffer.read())
    sys.stdout.buffer.write(columns_output(rules, ranges))


if __name__ == "__main__":
    main()
