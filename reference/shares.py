"""Reference for the sweep divided among racks.

Written from document 02 alone, on top of the reference for document 01: all
arrangements of a length are written down one after the other and numbered.
What two reports come to is written from the page on programs.
"""

import itertools
import re

import teplonga as base

MOST_RACKS = 64


def arrangements(terminals, length):
    """All T^n x 3^(n-1) x n^n arrangements in their order, as tokens.

    "those with badly ordered positions included and skipped when met": they
    are None here.
    """
    columns = range(1, length + 1)
    first = list(itertools.product(sorted(terminals), (0,), columns))
    later = list(itertools.product(sorted(terminals), (0, 1, 2), columns))
    for cells in itertools.product(first, *[later] * (length - 1)):
        yield risen(cells)


def risen(cells):
    """The tokens of the cells (terminal, line step, column), or None."""
    tokens = []
    line = 1
    for term, step, column in cells:
        line += step
        token = base.Token(term, line, column)
        if tokens and not base.comes_after(token, tokens[-1]):
            return None
        tokens.append(token)
    return tuple(tokens)


def begins(size, racks, share):
    """The number that a share begins with.

    "For p racks give M / p and the exact remainder; the first racks, as many
    as the remainder, take one more."
    """
    quotient, remainder = divmod(size, racks)
    return sum(quotient + (1 if each < remainder else 0) for each in range(share))


def share_refusal(rules, length, racks, share, words):
    """(number, line), or None: 45 and 46 stand after 23 and 24, before 21."""
    refusal = base.sweep_refusal(rules, length, words)
    if refusal is not None and refusal[0] != 21:
        return refusal
    if not 1 <= racks <= MOST_RACKS:
        return (45, 0)
    if share >= racks:
        return (46, 0)
    return refusal


def lowest(rules, length, begin, end):
    """The lowest number from `begin` to below `end` with two trees, and its sentence."""
    grammar = base.Grammar(rules)
    listed = enumerate(arrangements(base.terminals_of(rules), length))
    for number, sentence in itertools.islice(listed, begin, end):
        if sentence is not None and grammar.count(base.START, sentence) == 2:
            return (number, sentence)
    return None


def share_call(rules, length, racks, share, words):
    """(answer, line, number, quotient, remainder, sentence, words after)."""
    refusal = share_refusal(rules, length, racks, share, words)
    if refusal is not None:
        return (base.refused_answer(refusal[0]), refusal[1], 0, 0, 0, [], list(words))
    listed = base.read_rules(rules)[1]
    size = base.sweep_size(len(base.terminals_of(listed)), length)
    quotient, remainder = divmod(size, racks)
    after = base.filled([0] * base.words_needed(length), words)
    found = lowest(listed, length, begins(size, racks, share), begins(size, racks, share + 1))
    if found is None:
        return ("clear", 0, 0, quotient, remainder, [], after)
    return ("two", 0, found[0], quotient, remainder, list(found[1]), after)


def share_output(rules, length, racks, share):
    """What the program `calls` writes for `share` and this rule sheet."""
    words = [0] * base.words_needed(7)
    answer, line, number, quotient, remainder, sentence, _ = share_call(rules, length, racks, share, words)
    output = base.answer_lines(answer, line)
    if answer in ("clear", "two"):
        told = number if answer == "two" else "-"
        output += f"quotient remainder number\n{quotient} {remainder} {told}\n".encode()
    if answer == "two":
        output += base.token_sheet(sentence)
    return output


# a number as `share` prints it
NUMBER = rb"(0|[1-9][0-9]*)"
FIRST = rb"answer line\n"
THREE = rb" 0\nquotient remainder number\n" + NUMBER + b" " + NUMBER + b" "
REFUSED = re.compile(FIRST + rb"refused-" + NUMBER + b" " + NUMBER + rb"\n")
CLEAR = re.compile(FIRST + rb"clear" + THREE + rb"-\n")
LINES = rb"((?:[0-9]+ [0-9]+ [0-9]+\n){1,7})"
TWO = re.compile(FIRST + rb"two" + THREE + NUMBER + rb"\nterm line col\n" + LINES)
TOKEN = re.compile(NUMBER + b" " + NUMBER + b" " + NUMBER + rb"\n")

REFUSALS = {*range(1, 8), *range(11, 16), *range(21, 25), *range(41, 52)}


def small(numbers):
    """No number of a report is above the limit of refusal 24."""
    return all(int(number) <= 4_294_967_296 for number in numbers)


def is_token(line):
    found = TOKEN.fullmatch(line)
    most = (63, 65_535, 65_535)
    return found is not None and all(int(n) <= m for n, m in zip(found.groups(), most))


def read_report(text):
    """What a report says: ("refused",), or ("found", tokens, number), or None if it is none."""
    found = REFUSED.fullmatch(text)
    if found:
        return ("refused",) if int(found[1]) in REFUSALS and small(found.groups()) else None
    found = CLEAR.fullmatch(text)
    if found:
        return ("found", 0, 0) if small(found.groups()) else None
    found = TWO.fullmatch(text)
    if not found or not small(found.groups()[:3]):
        return None
    lines = found[4].splitlines(keepends=True)
    return ("found", len(lines), int(found[3])) if all(map(is_token, lines)) else None


def comes_first(one, two):
    """Of two reports, is it the first that is taken?

    A refusal, else "the lowest number from the shortest reporting length".
    """
    if "refused" in (one[0], two[0]):
        return one[0] == "refused"
    if one[1] == 0 or two[1] == 0:
        return two[1] == 0
    return one[1:] <= two[1:]


def merged(one, two):
    """Of two replies of `share_call`, without their words: the one that both come to."""
    def says(reply):
        return ("refused",) if reply[0].startswith("refused") else ("found", len(reply[5]), reply[2])

    return one if comes_first(says(one), says(two)) else two


def merge_output(one, two):
    """What the program `calls` writes for `merge` and these reports."""
    reports = [read_report(one), read_report(two)]
    if None in reports:
        return base.answer_lines(base.refused_answer(32), 0)
    return one if comes_first(*reports) else two
