"""Trees of boxes: where each box stands, and its lines; tokens in order at the bottom."""

from html import escape

from .columns import GAP, Columns
from .svg import NAME, NOTE, box as rounded, line, tag, text, width, wrapped

HIGH, RING = 22, 8

# between two levels; with room for what stands on the lines
BAR, LABELLED_BAR = 26, 32

# a note is no wider than so, and has no more lines
WIDEST, MOST_LINES = 210, 2

# below an empty box its ε, beneath a closed one that it is
BENEATH = 18

COLOURS = ("one", "two")


def note_lines(box):
    """A note in lines, shortened where it is long: the box's title says it in full."""
    if not box.note or box.is_plain:
        return []
    lines = wrapped(box.note, NOTE, max(WIDEST, width(box.title, NAME)))
    if len(lines) > MOST_LINES:
        lines = [*lines[: MOST_LINES - 1], f"{lines[MOST_LINES - 1]} …"]
    return lines


class Panel:
    """One tree: where its boxes stand. A box stands over the columns of its words, so no lines
    cross.
    """

    def __init__(self, top, tokens, colour="ink", is_numbered=False):
        self.top, self.tokens, self.colour, self.is_numbered = top, tokens, colour, is_numbered
        self.boxes = list(top.walk())
        self.notes = {id(box): note_lines(box) for box in self.boxes}
        self.depth, self.x, self.y = {id(top): 0}, {}, {}
        for box in self.boxes:
            for below in box.below:
                self.depth[id(below)] = self.depth[id(box)] + 1

    def leaves(self):
        """The boxes with nothing below them, from left to right, each with the number of tokens
        before it.
        """
        before = 0
        for box in self.boxes:
            if not box.below:
                yield box, before
                before += box.length

    def own(self, box):
        """How wide a box is, with what stands on its lines and beneath it at the bottom."""
        if box.kind == "token":
            return max(width(box.title, NAME) + 12, width(self.tokens[box.start].place, NOTE))
        beneath = max(
            width(box.words, NOTE) + 12, width(box.label, NOTE) + 4, width(self.beneath(box), NOTE)
        )
        return max(self.size(box)[0], beneath)

    @staticmethod
    def beneath(box):
        return "closed" if box.kind == "closed" else ""

    def size(self, box):
        """How wide and high a box is drawn."""
        notes = self.notes[id(box)]
        widest = max([width(box.title, NAME), *[width(each, NOTE) for each in notes]])
        return widest + 14, (HIGH if box.title else 6) + (NOTE + 4) * len(notes)

    def heights(self):
        """How high each level is; tokens stand at the bottom and are on none."""
        levels = {}
        for box in self.boxes:
            if box.kind != "token":
                depth = self.depth[id(box)]
                more = BENEATH if (box.is_empty and not box.label) or box.kind == "closed" else 0
                levels[depth] = max(levels.get(depth, 0), self.size(box)[1] + more)
        return levels

    def arrange(self, left, tops, bars, columns):
        """Sets each box's middle and top, and the height of the bar to what is below it."""
        ranges, self.bars = columns.ranges(self), bars

        def room(box):
            low, high = (left + end for end in columns.ends(*ranges[id(box)]))
            return low + self.own(box) / 2, high - self.own(box) / 2

        for box in reversed(self.boxes):
            low, high = room(box)
            middles = [self.x[id(each)] for each in box.below] or [low, high]
            # a box stays over its columns, also where what is below stands to one side
            self.x[id(box)] = min(max((middles[0] + middles[-1]) / 2, low), high)
        for box in self.boxes:
            self.y[id(box)] = tops.get(self.depth[id(box)], 0)
            if len(box.below) == 1 and box.below[0].below:
                # an only one stands straight below, where it has room
                low, high = room(box.below[0])
                if low <= self.x[id(box)] <= high:
                    self.x[id(box.below[0])] = self.x[id(box)]

    def draw(self, number, noun, bottom):
        edges = [self.edge(box, bottom) for box in self.boxes if box.kind != "token"]
        nodes = [self.node(box, bottom) for box in self.boxes]
        return tag("g", *edges, *nodes, class_=noun, data_tree=number)

    def node(self, box, bottom):
        return self.token(box, bottom) if box.kind == "token" else self.box(box)

    def colour_of(self, box):
        return self.colour if box.differs or self.colour == "ink" else "shared"

    def ring(self, box, x, y, wide, high):
        """Around a box at which the trees part."""
        look = f"line {self.colour}-line wide"
        return [rounded(x, y, wide + RING, high + RING, look)] if box.parts else []

    def data(self, box):
        """What a reader of the picture is told of a box: its words, its place in the sheet, how
        many are below it.
        """
        told = {"data_start": box.start, "data_length": box.length, "data_below": len(box.below)}
        if box.spans:
            told["data_pieces"] = " ".join(f"{at}:{begin}-{end}" for at, begin, end in box.spans)
        if box.key:
            told["data_key"] = box.key
        return told

    def row(self, box):
        """Of a box of a nonterminal, which ones it stands for; of a rule's, its kind besides."""
        lefts = [node.left for node in box.nodes if node.left is not None]
        if box.kind not in ("node", "closed") or not lefts:
            return {}
        told = {"data_left": " ".join(map(str, lefts))}
        if box.label or box.kind == "closed":
            told["data_kind"] = box.label[:1] or "C"
        return told

    def box(self, box):
        x, y, (wide, high) = self.x[id(box)], self.y[id(box)], self.size(box)
        colour, weight = self.colour_of(box), " wide" if box.differs else ""
        dashed = box.kind in ("fold", "closed") or (box.is_empty and not box.label)
        dash = {"stroke_dasharray": "5 3"} if dashed else {}
        ring = self.ring(box, x, y + high / 2, wide, high)
        fill = "token" if box.kind == "piece" else "paper"
        frame = rounded(x, y + high / 2, wide, high, f"{fill} {colour}-line{weight}", **dash)
        said, at = [], y + HIGH / 2
        if box.title:
            said, at = [text(x, at, box.title, NAME, colour)], at + HIGH / 2 + 5
        soft = colour if box.differs else "soft"
        for each in self.notes[id(box)]:
            said.append(text(x, at if box.title else at - 1, each, NOTE, soft))
            at += NOTE + 4
        return tag(
            "g",
            tag("title", escape(box.said)),
            *ring,
            frame,
            *said,
            class_=f"box {box.kind}{' parts' if box.parts else ''}",
            **self.row(box),
            **self.data(box),
            data_look="differs" if box.differs else "shared",
        )

    def edge(self, box, bottom):
        """The lines to all below a box, dots down to tokens, with the box's label on them."""
        x, low = self.x[id(box)], self.y[id(box)] + self.size(box)[1]
        weight = f"{self.colour_of(box)}-line{' wide' if box.differs else ''}"
        soft = self.colour if box.differs else "soft"
        bar = self.bars[self.depth[id(box)]]
        if box.kind == "closed":
            lines = [text(x, low + 9, "closed", NOTE, "soft")]
        elif box.kind == "fold":
            lines = [
                line([(x, low), (x, bottom - HIGH / 2)], f"{weight} dots"),
                self.folded_words(box, bottom),
            ]
        elif not box.below:
            down, at = (bar + 10, bar + 18) if box.label else (low, low + 10)
            lines = [line([(x, low), (x, down)], weight)] if box.label else []
            lines.append(text(x, at, "ε", NAME, soft))
        else:
            lines = list(self.lines(box, low, bar, bottom, weight))
        if box.label:
            lines += [
                rounded(x, bar, width(box.label, NOTE) + 4, NOTE + 3, "paper"),
                text(x, bar, box.label, NOTE, soft),
            ]
        return tag("g", *lines, class_="edge")

    def lines(self, box, low, bar, bottom, weight):
        x = self.x[id(box)]
        ends = [self.x[id(each)] for each in box.below]
        straight = all(abs(end - x) < 0.1 for end in ends)
        if not straight:
            yield line([(x, low), (x, bar)], weight)
            yield line([(min(x, *ends), bar), (max(x, *ends), bar)], weight)
        for end, each in zip(ends, box.below):
            is_token = each.kind == "token"
            down = bottom - HIGH / 2 if is_token else self.y[id(each)]
            yield line(
                [(end, low if straight else bar), (end, down)],
                f"{weight} dots" if is_token else weight,
            )

    def folded_words(self, box, bottom):
        x = self.x[id(box)]
        if not box.words:
            return text(x, bottom, "ε", NAME, "soft")
        return "".join(
            [
                rounded(x, bottom, width(box.words, NOTE) + 12, HIGH, "token rule-line"),
                text(x, bottom, box.words, NOTE, "soft"),
                text(x, bottom + 20, self.tokens[box.start].place, NOTE, "soft"),
            ]
        )

    def token(self, box, bottom):
        x, place = self.x[id(box)], self.tokens[box.start].place
        notes = [str(box.start), place] if self.is_numbered else [place]
        # a token stands for the group or the `?` around it too, so readings may part at it
        ring = self.ring(box, x, bottom, width(box.title, NAME) + 12, HIGH)
        return tag(
            "g",
            tag("title", escape(box.said)),
            *ring,
            rounded(
                x, bottom, width(box.title, NAME) + 12, HIGH, "token ink-line", stroke_width=0.8
            ),
            text(x, bottom, box.title),
            *[text(x, bottom + 20 + 14 * n, each, NOTE, "soft") for n, each in enumerate(notes)],
            class_=f"box leaf{' parts' if box.parts else ''}",
            data_token=box.start,
            **self.data(box),
        )


def colours_of(tops):
    return COLOURS if len(tops) == 2 else ("ink",)


class Scale:
    """All trees on one scale: the same levels and columns, and their tokens at one height."""

    def __init__(self, tops, tokens, noun, colours=None):
        self.noun = noun
        # tokens are told by their number where the sentences name them so
        self.is_numbered = noun == "tree"
        colours = colours or colours_of(tops)
        self.panels = [
            Panel(top, tokens, colour, self.is_numbered) for top, colour in zip(tops, colours)
        ]
        self.columns = Columns(self.panels, len(tokens))
        self.wide = self.columns.at[-1] - GAP
        self.bar = LABELLED_BAR if any(box.label for top in tops for box in top.walk()) else BAR
        self.levels = {}
        for panel in self.panels:
            for depth, high in panel.heights().items():
                self.levels[depth] = max(self.levels.get(depth, 0), high)

    def draw(self, place, left, top):
        """A tree with its corner at left, top."""
        tops, bars, at = {}, {}, top + RING
        for depth in sorted(self.levels):
            tops[depth], bars[depth] = at, at + self.levels[depth] + self.bar / 2
            at += self.levels[depth] + self.bar
        self.panels[place].arrange(left, tops, bars, self.columns)
        return self.panels[place].draw(place + 1, self.noun, at + HIGH / 2)

    def alone(self, place):
        """One tree as a picture of its own: its parts, how wide and how high it is."""
        return self.draw(place, RING, 0), self.wide + 2 * RING, self.high

    @property
    def high(self):
        return (
            RING
            + sum(high + self.bar for high in self.levels.values())
            + HIGH
            + (38 if self.is_numbered else 24)
        )
