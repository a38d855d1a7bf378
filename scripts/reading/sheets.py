"""The sheets as they are shown: rules and tokens. All of them are accepted sheets already."""

import re
from typing import NamedTuple, Optional


class Rule(NamedTuple):
    """A rule, and its line in the sheet."""

    line: int
    text: str
    left: int
    kind: str
    first: Optional[int]
    second: Optional[int]
    lay: str

    def covers(self, terminal):
        return self.first <= terminal <= (self.first if self.second is None else self.second)

    @property
    def span(self):
        """Where the rule stands in the sheet: its line and the characters there."""
        return self.line, 0, len(self.text)


class Token(NamedTuple):
    terminal: int
    line: int
    col: int
    width: int

    @property
    def place(self):
        return f"{self.line}:{self.col}"


def parted(data, count=2):
    """The sheets of an input, each parted from the next by an empty line; the last one takes all
    the rest. Nothing where there are fewer.
    """
    sheets = []
    for _ in range(count - 1):
        found = re.match(rb"(?:[^\n]+\n)*\n", data)
        if not found:
            return None
        sheets.append(data[: found.end() - 1])
        data = data[found.end() :]
    return [*sheets, data]


def is_clauses(sheet):
    """Is it a clause sheet? The first line tells; what is neither is taken for one."""
    return not sheet.startswith(b"left k")


def rules_of(sheet):
    lines = sheet.decode("ascii").splitlines()[1:]
    return [rule_of(number, text) for number, text in enumerate(lines, start=2)]


def rule_of(number, text):
    left, kind, first, second, lay = text.split(" ")
    number_or_none = [None if field == "-" else int(field) for field in (first, second)]
    return Rule(number, text, int(left), kind, *number_or_none, lay)


def tokens_of(sheet):
    lines = sheet.decode("ascii").splitlines()[1:]
    return [Token(*(list(map(int, text.split(" "))) + [1])[:4]) for text in lines]
