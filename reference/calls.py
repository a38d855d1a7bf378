"""Reference for the program `calls`: its call sheet, its sheets, its output.

Written from the page on programs alone, on top of the references for the calls.

    python3 reference/calls.py < input
"""

import sys

import always
import clauses
import columns
import places
import rows
import shares
import teplonga as base
import tours

# the names and the word of a call; how many of its values are numbers, how many
# values there are, how many sheets follow, and what answers them
CALLS = {
    (b"call", b"clauses"): (0, 0, 2, clauses.clauses_output),
    (b"call bound", b"clauses"): (1, 1, 1, lambda bound, sheet: clauses.sweep_output(sheet, bound)),
    (b"call", b"expand"): (0, 0, 1, clauses.expand_output),
    (b"call", b"rows"): (0, 0, 2, rows.rows_output),
    (b"call length racks share", b"share"): (3, 3, 1, lambda n, racks, share, rules: shares.share_output(rules, n, racks, share)),
    (b"call", b"merge"): (0, 0, 2, shares.merge_output),
    (b"call", b"columns"): (0, 0, 2, columns.columns_output),
    (b"call", b"places"): (0, 0, 2, places.places_output),
    (b"call", b"always"): (0, 0, 1, always.always_output),
    (b"call", b"clauses-always"): (0, 0, 1, always.clauses_always_output),
    (b"call user", b"show"): (1, 1, 3, lambda user, rules, tokens, rights: tours.show_output(rules, tokens, rights, user)),
    (b"call user rule lay", b"change"): (
        2,
        3,
        2,
        lambda user, rule, lay, rules, rights: tours.change_output(rules, rights, lay, user, rule),
    ),
}


def call_of(sheet):
    """The call and its values, or None: "a line of names, a line of values"."""
    lines = base.sheet_lines(sheet)
    if len(lines) != 2 or not all(ended for _, ended in lines):
        return None
    names, (word, *values) = lines[0][0], lines[1][0].split(b" ")
    if (names, word) not in CALLS:
        return None
    call = CALLS[names, word]
    if len(values) != call[1] or not all(map(base.is_number, values[: call[0]])):
        return None
    return call, [int(value) for value in values[: call[0]]] + values[call[0] :]


def sheets_of(data, count):
    """So many sheets, or None; "the last sheet takes all the rest"."""
    sheets = []
    while len(sheets) + 1 < count:
        halves = base.parted(data)
        if halves is None:
            return None
        sheets.append(halves[0])
        data = halves[1]
    return [*sheets, data]


def calls_program(data):
    """The whole output of `calls` on this input."""
    if len(data) > base.MOST_INPUT:
        return base.answer_lines(base.refused_answer(31), 0)
    halves = base.parted(data)
    called = halves and call_of(halves[0])
    sheets = called and sheets_of(halves[1], called[0][2])
    if not sheets:
        return base.answer_lines(base.refused_answer(32), 0)
    return called[0][3](*called[1], *sheets)


if __name__ == "__main__":
    sys.stdout.buffer.write(calls_program(sys.stdin.buffer.read()))
