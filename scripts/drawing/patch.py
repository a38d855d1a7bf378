"""The patch as it stands on its lines and columns."""

from .svg import NAME, NOTE, box, line, tag, text, width

ROW, GAP, HIGH = 34, 8, 22

# a column is so wide, and a gap of empty columns no wider than so many of them
COLUMN, MOST_COLUMNS = 9, 8


class Patch:
    """Tokens on lines and columns. Equal columns stand below one another; long gaps are shortened."""

    def __init__(self, tokens, names):
        self.tokens = tokens
        self.labels = [names.terminal(token.terminal) for token in tokens]
        self.lines = sorted({token.line for token in tokens})
        self.columns = sorted({token.col for token in tokens})
        self.gutter = max([width(f"line {number}", NOTE) for number in self.lines], default=0) + 14
        self.x = self.places()
        self.wide = max([self.x[token.col] + self.size(n) for n, token in enumerate(tokens)], default=self.gutter)
        self.high = 30 + ROW * len(self.rows()) if tokens else 30

    def size(self, n):
        """How wide a token's box is."""
        return width(self.labels[n], NAME) + 12

    def places(self):
        """Where each column is: in their order, and so that no two boxes of a line meet."""
        x, at = {}, self.gutter
        before = {}
        for n, token in enumerate(self.tokens):
            if n and self.tokens[n - 1].line == token.line:
                before.setdefault(token.col, []).append(n - 1)
        for place, col in enumerate(self.columns):
            if place:
                at += COLUMN * min(col - self.columns[place - 1], MOST_COLUMNS)
            ends = [x[self.tokens[n].col] + self.size(n) + GAP for n in before.get(col, [])]
            x[col] = at = max([at, *ends])
        return x

    def rows(self):
        """The lines that are shown; None where lines are left out between two."""
        shown = []
        for number in self.lines:
            if shown and number > shown[-1] + 1:
                shown.append(None)
            shown.append(number)
        return shown

    def draw(self, left, top):
        """The elements, the panel's corner being at left, top."""
        if not self.tokens:
            return tag("g", text(left, top + 12, "no tokens", NOTE, "soft", "start"), class_="patch")
        y = {}
        parts = list(self.ruler(left, top))
        for place, number in enumerate(self.rows()):
            middle = top + 30 + ROW * place + ROW / 2
            if number is None:
                parts.append(text(left, middle, "..", NOTE, "soft", "start"))
                continue
            y[number] = middle
            parts.append(text(left, middle, f"line {number}", NOTE, "soft", "start"))
            parts.append(line([(left + self.gutter - 6, middle + HIGH / 2 + 4), (left + self.wide, middle + HIGH / 2 + 4)], "rule-line"))
        for n, token in enumerate(self.tokens):
            parts.append(self.token(n, token, left, y[token.line]))
        return tag("g", *parts, class_="patch")

    def ruler(self, left, top):
        """The columns' numbers, where there is room for them."""
        yield text(left, top + 12, "column", NOTE, "soft", "start")
        free = left + width("column", NOTE)
        for col in self.columns:
            x = left + self.x[col]
            if x >= free:
                yield text(x, top + 12, str(col), NOTE, "soft", "start")
                free = x + width(str(col), NOTE) + 4
            yield line([(x, top + 20), (x, top + 25)], "rule-line")

    def token(self, n, token, left, y):
        size = self.size(n)
        middle = left + self.x[token.col] + size / 2
        wide = f", width {token.width}" if token.width != 1 else ""
        return tag(
            "g",
            tag("title", f"token {n}: line {token.line}, column {token.col}{wide}"),
            box(middle, y, size, HIGH, "token ink-line", stroke_width=0.8),
            text(middle, y, self.labels[n]),
            class_="token-box",
            data_token=n,
            data_line=token.line,
            data_col=token.col,
        )
