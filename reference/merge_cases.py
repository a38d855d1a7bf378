"""Cases for the call `merge`: two reports.

`meant()` has those made by hand, each with how its output is meant to go on
after the names; `cases()` yields these first, then each of some reports, good
and bad, with each.
"""

import random

import shares
from share_cases import drawn

CLEAR = "clear 0\nquotient remainder number\n20 3 -\n"
LONG = "two 0\nquotient remainder number\n20 3 11\nterm line col\n0 1 1\n0 1 2\n0 2 1\n"
LATER = "two 0\nquotient remainder number\n20 3 12\nterm line col\n0 1 1\n0 1 2\n0 2 2\n"
SHORT = "two 0\nquotient remainder number\n20 3 99\nterm line col\n0 1 1\n0 1 2\n"
LARGE = "4294967296 4294967296 4294967296"
MOST = f"two 0\nquotient remainder number\n{LARGE}\nterm line col\n63 65535 65535\n"
SEVEN = SHORT.replace("\n0 1 1", 6 * "\n0 1 1")
REFUSED = "refused-5 4\n"
OTHER = "refused-46 0\n"
GOOD = [CLEAR, LONG, LATER, SHORT, MOST, SEVEN, REFUSED, OTHER]

# not as `share` prints a report
BAD = [
    "",
    "none 0\n",
    "given 0\n",
    "clear 1\nquotient remainder number\n20 3 -\n",
    CLEAR.replace("20", "020"),
    CLEAR.replace("20 3", "00 3"),
    CLEAR.replace("20 3", "4294967297 3"),
    CLEAR.replace("20 3", "18446744073709551616 3"),
    CLEAR.replace("20 3", "20  3"),
    CLEAR.replace("20 3", "20 "),
    CLEAR.replace("-", "0"),
    CLEAR.replace("-\n", "-"),
    CLEAR + "term line col\n",
    CLEAR.replace("number", "Number"),
    LONG.replace("11", "011"),
    LONG.replace("11", "-"),
    LONG.replace("11", "1x"),
    LONG.replace("col", "col width"),
    LONG.replace("0 2 1\n", "00 2 1\n"),
    LONG.replace("0 2 1\n", "64 2 1\n"),
    LONG.replace("0 2 1\n", "0 65536 1\n"),
    LONG.replace("0 2 1\n", "0 2 65536\n"),
    LONG.replace("0 2 1\n", "0 2 01\n"),
    LONG.replace("0 2 1\n", "0 2 1 1\n"),
    LONG.replace("0 2 1\n", "0 2 1"),
    LONG[: LONG.index("0 1 1")],
    SEVEN.replace("\n0 1 2", "\n0 1 2\n0 1 2"),
    SHORT + "x",
    "refused-8 0\n",
    "refused-05 4\n",
    "refused-5 04\n",
    "refused-5 4294967297\n",
    "refused-31 0\n",
    "refused-5\n",
    REFUSED + CLEAR,
]


def pair(one, two):
    return tuple(b"answer line\n" + text.encode() for text in (one, two))


def meant():
    """(how the output goes on, case)."""
    yield (CLEAR, pair(CLEAR, CLEAR))
    yield (LONG, pair(CLEAR, LONG))
    yield (LONG, pair(LONG, CLEAR))
    yield (LONG, pair(LONG, LATER))
    yield (LONG, pair(LATER, LONG))
    yield (SHORT, pair(LONG, SHORT))
    yield (SHORT, pair(SHORT, LONG))
    yield (REFUSED, pair(SHORT, REFUSED))
    yield (REFUSED, pair(REFUSED, OTHER))
    yield (OTHER, pair(OTHER, REFUSED))
    for text in BAD:
        yield ("refused-32 0\n", pair(LONG, text))
        if text.endswith("\n"):
            yield ("refused-32 0\n", pair(text, LONG))
    yield ("refused-32 0\n", (b"x\n", pair(LONG, LONG)[1]))


def shares_drawn():
    """Two reports of `share` on one rule sheet."""
    draw = random.Random(82_000)
    listed = list(drawn(12))
    for _ in range(60):
        *numbers, sheet = draw.choice(listed)
        others = draw.choice([(1, 1, 0), (2, 3, 1), (3, 12, 0), tuple(numbers), (3, 12, 12)])
        yield tuple(shares.share_output(sheet, *each) for each in (tuple(numbers), others))


def cases():
    for _, each in meant():
        yield each
    for one in GOOD:
        for two in GOOD:
            yield pair(one, two)
    yield from shares_drawn()
