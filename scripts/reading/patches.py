"""A patch as text: words on lines and columns, each a terminal by its name or number; and tokens
written so.
"""

import re
from typing import NamedTuple, Optional

from .cells import cells

# text is written no farther to the right or down than so; farther places are drawn closer
MOST_COLUMN, MOST_LINE = 200, 400


class Word(NamedTuple):
    """A word at its place: the column on the grid, and the letters of the line; its terminal, or
    why it has none.
    """

    line: int
    col: int
    begin: int
    text: str
    terminal: Optional[int]
    why: str = ""

    @property
    def end(self):
        return self.begin + len(self.text)

    @property
    def width(self):
        return max(cells(self.text), 1)


class Vocabulary:
    """What words mean: names first, the longest first, then numbers, plain or as a clause writes
    them.
    """

    def __init__(self, names):
        self.numbers = {}
        for number, name in names.terminals.items():
            self.numbers.setdefault(name, []).append(number)
        # only names with blanks need a look at more than one word
        self.long = sorted((name for name in self.numbers if " " in name), key=len, reverse=True)

    def word_at(self, text, at):
        """The word that begins at a letter of a line."""
        for name in self.long:
            if text.startswith(name, at) and text[at + len(name) : at + len(name) + 1] in ("", " "):
                return name
        return re.compile(r"[^ ]+").match(text, at)[0]

    def meaning(self, word):
        """The terminal that a word is, or nothing and why."""
        if "\t" in word:
            return None, "a tab has no column: use blanks"
        known = self.numbers.get(word, [])
        if len(known) > 1:
            return None, f"the name of terminals {' and '.join(map(str, known))}"
        if known:
            return known[0], ""
        number = re.fullmatch(r"t?([0-9]{1,5})", word)
        if number and int(number[1]) <= 63:
            return int(number[1]), ""
        return None, "a terminal above 63" if number else "no terminal has this name"


def words_in(text, names):
    """All words of a patch."""
    vocabulary, words = Vocabulary(names), []
    for number, line in enumerate(text.split("\n"), start=1):
        at = 0
        while found := re.compile(r"[^ ]").search(line, at):
            at = found.start()
            word = vocabulary.word_at(line, at)
            col = cells(line[:at]) + 1
            words.append(Word(number, col, at, word, *vocabulary.meaning(word)))
            at += len(word)
    return words


def sheet_of(words):
    """The token sheet of words that all have terminals."""
    lines = [f"{word.terminal} {word.line} {word.col} {word.width}\n" for word in words]
    return "".join(["term line col width\n", *lines]).encode("ascii")


def label_of(terminal, names, vocabulary):
    """How a terminal is written: by its name, where that means it and no other."""
    name = names.terminals.get(terminal, names.terminal(terminal))
    return name if vocabulary.meaning(name)[0] == terminal else f"t{terminal}"


def text_of(tokens, names):
    """Tokens as text. Where their names have no room, or places are far, columns move: all in one
    order, and tokens that stood below one another still do, so every mark says the same.
    """
    vocabulary = Vocabulary(names)
    labels = [label_of(token.terminal, names, vocabulary) for token in tokens]
    lines, columns = places([token.line for token in tokens], MOST_LINE), columns_of(tokens, labels)
    rows = {}
    for token, label in zip(tokens, labels):
        row = rows.get(lines[token.line], "")
        rows[lines[token.line]] = row + " " * (columns[token.col] - 1 - cells(row)) + label
    return "\n".join(rows.get(number, "") for number in range(1, max(rows, default=0) + 1))


def places(values, most):
    """Each value's place: itself, or where one is past `most`, closer, with gaps of one at most."""
    ordered = sorted(set(values))
    if not ordered or ordered[-1] <= most:
        return {value: value for value in ordered}
    found, at, before = {}, 0, 0
    for value in ordered:
        at += min(value - before, 2)
        found[value], before = at, value
    return found


def columns_of(tokens, labels):
    """Where each column is written: in their order, and no word touches the next on its line."""
    before = {}
    for n, token in enumerate(tokens):
        if n and tokens[n - 1].line == token.line:
            before.setdefault(token.col, []).append(n - 1)
    wanted, found, moved = places([token.col for token in tokens], MOST_COLUMN), {}, 0
    for col in sorted(wanted):
        ends = [found[tokens[n].col] + cells(labels[n]) + 1 for n in before.get(col, [])]
        found[col] = max([wanted[col] + moved, *ends])
        moved = found[col] - wanted[col]
    return found


def ruled(text):
    """A patch as text with its lines' numbers and a ruler of columns above it."""
    lines = text.split("\n")
    gutter = len(str(len(lines)))
    wide = max(map(cells, lines))
    ruler = "1"
    for column in range(5, wide + 1, 5):
        ruler = ruler.ljust(column - 1, ".") + str(column)
    yield f"{'':{gutter}}   {ruler}"
    for number, line in enumerate(lines, start=1):
        yield f"{number:{gutter}} | {line}".rstrip()
