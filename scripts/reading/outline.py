"""A reading as an outline: a box a line, indented, with the place of its first token."""

from typing import NamedTuple

from .boxes import Box


class Row(NamedTuple):
    depth: int
    box: Box
    place: str

    @property
    def text(self):
        """The box in words: `block: stmt+:align`."""
        box = self.box
        text = f"{box.title}: {box.note}" if box.title and box.note else box.title or box.note
        text += f" [{box.label}]" if box.label else ""
        more = "closed" if box.kind == "closed" else "ε" if box.is_empty else box.words
        return f"{text}  {more}" if more else text


def rows_of(top, tokens):
    """The rows from the top down. A token that is all of a box, as its text says, stands in the
    box's row.
    """
    waiting, rows = [(top, 0)], []
    while waiting:
        box, depth = waiting.pop()
        rows.append(Row(depth, box, tokens[box.start].place if box.length else ""))
        if not says_its_token(box):
            waiting.extend((below, depth + 1) for below in reversed(box.below))
    return rows


def says_its_token(box):
    """Does a box's note say the one token below it?"""
    return box.is_plain and box.below[0].kind == "token" and box.below[0].differs == box.differs


def outline(tops, tokens, noun="reading"):
    """All readings as text: `>` where they part, `|` at what differs."""
    for number, top in enumerate(tops, start=1):
        rows = rows_of(top, tokens)
        wide = max(len(row.place) for row in rows)
        yield f"{noun} {number}" if len(tops) == 2 else noun
        for row in rows:
            mark = ">" if row.box.parts else "|" if row.box.differs else " "
            yield f"{mark} {row.place:>{wide}}  {'  ' * row.depth}{row.text}".rstrip()
