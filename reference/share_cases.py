"""Cases for the call `share`: (length, racks, share, rule sheet).

`meant()` has those made by hand, each with how its output is meant to go on
after the names; `cases()` yields these first, then shares of sheets that were
drawn by chance, the same on every run.
"""

import random

from check_cases import BLOCK, LIST, PLAIN, random_rules, rule_sheet, sheet_of
from sweep_cases import random_readings

ALIKE = PLAIN + " / 0 A 1 - none / 0 A 2 3 none"
NO_TERMINAL = "0 E - - none"


def case(length, racks, share, text):
    return (length, racks, share, rule_sheet(text))


def meant():
    """(how the output goes on, case)."""
    yield ("clear 0\nquotient remainder number\n1 0 -\n", case(1, 1, 0, PLAIN))
    # M = 3^2 x 3^3 = 243 for one terminal and three tokens
    yield ("two 0\nquotient remainder number\n243 0 ", case(3, 1, 0, PLAIN))
    for share in range(12):
        # 243 = 12 x 20 + 3: the first three shares have 21 numbers
        yield (None, case(3, 12, share, PLAIN))
    yield ("clear 0\nquotient remainder number\n0 0 -\n", case(3, 5, 4, NO_TERMINAL))
    # more racks than numbers
    yield ("clear 0\nquotient remainder number\n0 1 -\n", case(1, 64, 0, PLAIN))
    yield ("clear 0\nquotient remainder number\n0 1 -\n", case(1, 64, 63, PLAIN))
    # refusals, alone and in competition
    yield ("refused-23 0\n", case(0, 0, 9, PLAIN))
    yield ("refused-23 0\n", case(8, 1, 0, PLAIN))
    yield ("refused-24 0\n", case(7, 65, 70, ALIKE))
    yield ("refused-45 0\n", case(3, 0, 0, PLAIN))
    yield ("refused-45 0\n", case(3, 65, 3, PLAIN))
    yield ("refused-45 0\n", case(3, 65, 99_999, PLAIN))
    yield ("refused-46 0\n", case(3, 12, 12, PLAIN))
    yield ("refused-46 0\n", case(3, 64, 64, PLAIN))
    yield ("refused-46 0\n", case(3, 1, 1, PLAIN))
    yield ("refused-7 0\n", case(0, 0, 0, "1 A 0 - none"))
    yield ("refused-1 1\n", (3, 12, 0, b""))


def whole(length, racks, text):
    """All shares of a length."""
    for share in range(racks):
        yield case(length, racks, share, text)


def drawn(count):
    for seed in range(count):
        draw = random.Random(81_000 + seed)
        length = draw.choice((1, 2, 2, 3, 3, 3))
        terms = draw.choice(((0,), (5,), (3, 62)))
        if length == 1 or seed % 3 == 0:
            sheet = sheet_of(random_rules(draw, terms))
        else:
            sheet = random_readings(draw, length, terms)
        racks = draw.choice((1, 2, 3, 5, 12, 64))
        for share in sorted({0, racks - 1, draw.randrange(racks)}):
            yield (length, racks, share, sheet)


def cases():
    for _, each in meant():
        yield each
    yield from whole(3, 5, BLOCK)
    yield from whole(3, 7, LIST)
    yield from whole(3, 12, ALIKE)
    yield from whole(4, 12, PLAIN)
    yield from whole(2, 64, ALIKE)
    yield from drawn(120)
