"""How many columns a text takes on a grid of letters."""

import unicodedata

# letters of these kinds stand on the letter before them
ON_ANOTHER = ("Mn", "Me", "Cf")

# first and last of the letters that take two columns: those of East Asia, and pictures
WIDE = [
    (0x1100, 0x115F),
    (0x2E80, 0x303E),
    (0x3041, 0xA4CF),
    (0xA960, 0xA97C),
    (0xAC00, 0xD7A3),
    (0xF900, 0xFAFF),
    (0xFE30, 0xFE6F),
    (0xFF01, 0xFF60),
    (0xFFE0, 0xFFE6),
    (0x1F300, 0x1F64F),
    (0x1F900, 0x1F9FF),
    (0x20000, 0x3FFFD),
]


def cell(letter):
    if unicodedata.category(letter) in ON_ANOTHER:
        return 0
    return 2 if any(first <= ord(letter) <= last for first, last in WIDE) else 1


def cells(text):
    return len(text) if text.isascii() else sum(map(cell, text))
