"""Elements of SVG as text, and how wide a text is."""

from xml.sax.saxutils import escape, quoteattr

from reading.cells import cells

FONT = "ui-monospace, 'DejaVu Sans Mono', Menlo, Consolas, 'Liberation Mono', monospace"

# the width of a letter of these fonts, in the font's size, with a little to spare
LETTER = 0.62

# the sizes of names, and of what is said beside them
NAME, NOTE = 14, 11

# light first; then a dark screen; print is light again
COLOURS = {
    "paper": ("#ffffff", "#15181c"),
    "ink": ("#1b1f24", "#e6e8eb"),
    "soft": ("#5c6570", "#a3acb8"),
    "shared": ("#8b939c", "#7c8590"),
    "rule": ("#d5d9de", "#343a42"),
    "token": ("#f1f3f5", "#23282e"),
    "one": ("#0a58b0", "#70b5ff"),
    "two": ("#b2430a", "#ffab66"),
}


def css():
    """Each colour as a fill and as a stroke; wider lines for what differs, so that print without colour shows it."""
    light = "".join(rules(name, pair[0]) for name, pair in COLOURS.items())
    dark = "".join(rules(name, pair[1]) for name, pair in COLOURS.items())
    return (
        f"text{{font-family:{FONT};white-space:pre}}"
        f"{light}.line{{fill:none;stroke-width:1.3}}.wide{{stroke-width:2.8}}.dots{{stroke-dasharray:2 4}}.bold{{font-weight:700}}"
        f"@media (prefers-color-scheme:dark){{{dark}}}@media print{{{light}}}"
    )


def rules(name, colour):
    return f".{name}{{fill:{colour}}}.{name}-line{{stroke:{colour}}}"


def width(text, size):
    """How wide a text is at most."""
    return cells(text) * LETTER * size


def number(value):
    return f"{value:.1f}".removesuffix(".0") if isinstance(value, float) else str(value)


def tag(name, *inside, **attributes):
    """An element; `data_left` is written `data-left`, `class_` is `class`."""
    told = "".join(f" {key.rstrip('_').replace('_', '-')}={quoteattr(number(value))}" for key, value in attributes.items())
    return f"<{name}{told}>{''.join(inside)}</{name}>" if inside else f"<{name}{told}/>"


def text(x, y, said, size=NAME, class_="ink", anchor="middle"):
    """A text whose middle line is at y."""
    return tag("text", escape(said), x=x, y=y + size * 0.35, font_size=size, text_anchor=anchor, class_=class_)


def line(points, class_):
    """A line along these points."""
    path = "M" + " L".join(f"{number(x)} {number(y)}" for x, y in points)
    return tag("path", d=path, class_=f"line {class_}")


def box(x, y, wide, high, class_, **attributes):
    """A box with its middle at x, y."""
    return tag("rect", x=x - wide / 2, y=y - high / 2, width=wide, height=high, rx=4, class_=class_, **attributes)


def wrapped(said, size, most):
    """A text in lines that are no wider than this."""
    lines = [""]
    for word in said.split(" "):
        longer = f"{lines[-1]} {word}".strip()
        if width(longer, size) <= most or not lines[-1]:
            lines[-1] = longer
        else:
            lines.append(word)
    return lines
