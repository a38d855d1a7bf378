"""The whole picture: what is said, the patch, and beneath it the tree or reading, or both."""

from html import escape

from reading.boxes import Folds
from reading.sentences import plain

from .panel import Scale, colours_of
from .patch import Patch
from .svg import COLOURS, NAME, NOTE, box, css, tag, text, width, wrapped

MARGIN, BETWEEN, LEAST = 24, 48, 640

# two trees stand beside one another up to so wide a picture, else one below the other
MOST_BESIDE = 1600


def legend(left, y, noun):
    """What the colours say."""
    x = left
    for colour, said in (
        ("shared", f"in both {noun}s"),
        ("one", f"in {noun} 1 only"),
        ("two", f"in {noun} 2 only"),
    ):
        yield box(x + 9, y, 18, 14, f"paper {colour}-line{'' if colour == 'shared' else ' wide'}")
        yield text(x + 24, y, said, NOTE, "soft", "start")
        x += 40 + width(said, NOTE)
    yield box(x + 9, y, 18, 14, "paper ink-line")
    yield box(x + 9, y, 24, 20, "line ink-line wide")
    yield text(x + 28, y, "where they part", NOTE, "soft", "start")


def tops_of(answer, fold=False, opened=()):
    """The boxes of an answer as pictures show them."""
    boxes = answer.boxes()
    tops = boxes.all(chained=True)
    return Folds(boxes, opened).folded(tops) if fold and len(tops) == 2 else tops


def svg(wide, high, parts, said="", title="", style=""):
    return tag(
        "svg",
        tag("title", escape(title or said)),
        *([tag("desc", escape(said))] if title else []),
        *([tag("style", style)] if style else []),
        *parts,
        xmlns="http://www.w3.org/2000/svg",
        width=float(round(wide)),
        height=float(round(high)),
        viewBox=f"0 0 {round(wide)} {round(high)}",
        role="img",
    )


def separate(tops, tokens, noun, on_one_scale=True):
    """Each tree as a picture of its own, without a style: for a page that has it."""
    scale = Scale(tops, tokens, noun) if tops and on_one_scale else None
    for place, (top, colour) in enumerate(zip(tops, colours_of(tops))):
        said = f"{noun} {place + 1}" if len(tops) == 2 else noun
        made = scale.alone(place) if scale else Scale([top], tokens, noun, [colour]).alone(0)
        drawn, wide, high = made
        yield svg(wide, high, [drawn], said)


class Picture:
    """All parts put on one sheet."""

    def __init__(self, answer, fold=False):
        self.answer, self.sentences = answer, [plain(each) for each in answer.sentences()]
        self.tops = tops_of(answer, fold)
        self.scale = Scale(self.tops, answer.tokens, answer.noun) if self.tops else None
        self.patch = Patch(answer.tokens, answer.names)
        own = self.scale.wide if self.scale else 0
        both = len(self.tops) * (own + BETWEEN) - BETWEEN
        self.beside = both <= MOST_BESIDE
        self.wide = max(LEAST, self.patch.wide, both if self.beside else own) + 2 * MARGIN
        self.parts = list(self.draw())

    def draw(self):
        """The elements, from the top down; sets how high the picture is."""
        y = MARGIN
        for place, sentence in enumerate(self.sentences):
            size, look = (NAME + 3, "ink bold") if place == 0 else (NAME - 1, "ink")
            for part in wrapped(sentence, size, self.wide - 2 * MARGIN):
                yield text(MARGIN, y, part, size, look, "start")
                y += size + 7
        if len(self.tops) == 2:
            yield from legend(MARGIN, y + 8, self.answer.noun)
            y += 30
        yield self.patch.draw(MARGIN, y + 12)
        y += 36 + self.patch.high
        left = MARGIN
        for place in range(len(self.tops)):
            yield from self.tree(place, left, y)
            if self.beside:
                left += self.scale.wide + BETWEEN
            else:
                y += 46 + self.scale.high
        y += 22 + self.scale.high if self.scale and self.beside else 0
        self.high = y + MARGIN

    def tree(self, place, left, top):
        noun = self.answer.noun
        said = f"{noun} {place + 1}" if len(self.tops) == 2 else noun
        yield text(left, top + 6, said, NAME, f"{self.scale.panels[place].colour} bold", "start")
        yield self.scale.draw(place, left, top + 22)

    def svg(self):
        parts = [tag("rect", width="100%", height="100%", class_="paper"), *self.parts]
        return svg(self.wide, self.high, parts, " ".join(self.sentences), self.sentences[0], css())

    def html(self, title):
        """A page that holds the picture and scrolls where it is larger than the window."""
        light, dark = COLOURS["paper"]
        style = (
            f"html{{color-scheme:light dark;background:{light};font:13px sans-serif}}"
            "body{margin:0}svg{display:block}"
            "#fit{margin:10px 6px 0 24px;position:sticky;left:24px}label{position:sticky;left:48px}"
            "#fit:checked~svg{width:100%;height:auto}"
            f"@media (prefers-color-scheme:dark){{html{{background:{dark};color:#e6e8eb}}}}"
            f"@media print{{html{{background:{light}}}label,#fit{{display:none}}"
            "svg{max-width:100%;height:auto}}"
        )
        fit = (
            '<input type="checkbox" id="fit"><label for="fit">fit the picture to the window</label>'
        )
        return (
            '<!doctype html>\n<html lang="en">\n<head>\n<meta charset="utf-8">\n'
            '<meta name="viewport" content="width=device-width, initial-scale=1">\n'
            f"<title>{escape(title)}</title>\n<style>{style}</style>\n</head>\n<body>\n"
            f"{fit}\n{self.svg()}\n</body>\n</html>\n"
        )
