"""Reference for closed sections on a shared tour.

Written from the rules that docs/FORMAT.md states alone, on top of `teplonga.py`.
"""

import teplonga as base
from places import in_lent_bytes

NAMES = b"user low high may"
MOST_USER = 15
CLOSED = 4


# ------------------------------------------------------------ the rights sheet

def right_of_line(line, ended):
    """(user, range of nonterminals, may change), or None where 50 is due."""
    parts = base.fields(line)
    if not ended or len(parts) != 4 or parts[3] not in (b"see", b"change"):
        return None
    if not all(base.is_number(part) for part in parts[:3]):
        return None
    user, low, high = map(int, parts[:3])
    if user > MOST_USER or max(low, high) > 63 or high < low:
        return None
    return (user, range(low, high + 1), parts[3] == b"change")


def read_rights(sheet):
    """("refused", 50, line) or ("accepted", rights)."""
    lines = base.sheet_lines(sheet)
    if lines[0] != (NAMES, True):
        return base.refused(50, 1)
    rights = []
    for number, (line, ended) in enumerate(lines[1:], start=2):
        right = right_of_line(line, ended)
        if right is None:
            return base.refused(50, number)
        rights.append(right)
    return ("accepted", rights)


def may_see(rights, user):
    """"`see` or `change`, which includes seeing; ranges of several lines add up" """
    return {name for owner, names, _ in rights for name in names if owner == user}


def may_change(rights, user):
    return {name for owner, names, change in rights for name in names if owner == user and change}


# -------------------------------------------------------------- the trees shown

def shown_count(tree, sees, known=None):
    """The rows shown of a tree; equal subtrees are counted once."""
    if tree is None:
        return 0
    known = {} if known is None else known
    if id(tree) not in known:
        open_ones = tree.children if tree.nonterminal in sees else ()
        known[id(tree)] = 1 + sum(shown_count(child, sees, known) for child in open_ones)
    return known[id(tree)]


def shown_rows(tree, start, sees):
    """"a node outside the user's ranges is one row of kind 4 [..] and nothing beneath it" """
    length = len(tree.word)
    place = (start if length else 0, length)
    if tree.nonterminal not in sees:
        return [(tree.nonterminal, CLOSED, *place)]
    rows = [(tree.nonterminal, base.KIND_NUMBERS[tree.kind], *place)]
    for child in tree.children:
        rows += shown_rows(child, start, sees)
        start += len(child.word)
    return rows


def in_memory(tree, sees, size):
    made = b"" if tree is None else b"".join(map(bytes, shown_rows(tree, 0, sees)))
    return made + bytes(size - len(made))


def show_call(rules, tokens, rights, user, words, first, second):
    """(answer, line, count 1, count 2, words after, first after, second after).

    "50 after the token sheet"
    """
    lent = (list(words), bytes(first), bytes(second))
    refusal = base.sheets_refusal(rules, tokens)
    reading = read_rights(rights)
    if refusal is None and reading[0] == "refused":
        refusal = reading[1:]
    if refusal is None:
        refusal = base.sentence_refusal(rules, tokens, words)
    if refusal is not None:
        return (base.refused_answer(refusal[0]), refusal[1], 0, 0, *lent)
    answer, _, after = base.verdict_call(rules, tokens, words)
    trees = base.two_trees(base.read_rules(rules)[1], base.read_tokens(tokens)[1])
    sees = may_see(reading[1], user)
    counts = [shown_count(tree, sees) for tree in trees]
    sizes = [len(first), len(second)]
    if any(count > size // 4 for count, size in zip(counts, sizes)):
        return (base.refused_answer(22), 0, 0, 0, after, *map(bytes, sizes))
    made = [in_memory(tree, sees, size) for tree, size in zip(trees, sizes)]
    return (answer, 0, *counts, after, *made)


def show_output(rules, tokens, rights, user):
    """What the program `calls` writes for `show` and these three sheets."""
    words = [0] * base.words_needed(base.MOST_TOKENS)
    lent = bytes(4 * base.TREE_PLACES)
    reply = show_call(rules, tokens, rights, user, words, lent, lent)
    answer, line, count1, count2, _, first, second = reply
    output = base.answer_lines(answer, line)
    if answer in ("one", "two"):
        output += b"tree left kind start length\n"
        output += row_lines(1, first, count1) + row_lines(2, second, count2)
    return output


def row_lines(number, memory, count):
    """Tree lines; "kind 4, letter C" """
    lines = b""
    for place in range(0, 4 * count, 4):
        left, kind, start, length = memory[place : place + 4]
        lines += f"{number} {left} {'EAUBC'[kind]} {start} {length}\n".encode()
    return lines


# ------------------------------------------------------------ changing a mark

def with_mark(rules, rule, lay):
    """The sheet with these bytes as the mark of that rule; "only that field differs" """
    lines = rules.split(b"\n")
    lines[rule] = b" ".join(base.fields(lines[rule])[:4] + [lay])
    return b"\n".join(lines)


def change_refusal(rules, rights, user, rule, lay):
    """(number, line), or None: the rule sheet, 50, 51, the mark, then all checks afresh."""
    read, granted = base.read_rules(rules), read_rights(rights)
    for reading in (read, granted):
        if reading[0] == "refused":
            return reading[1:]
    if not 1 <= rule <= len(read[1]):
        return (51, 0)
    if read[1][rule - 1].left not in may_change(granted[1], user):
        return (51, 0)
    if lay not in [each.encode() for each in base.ALL_LAYS]:
        return (2, rule + 1)
    again = base.read_rules(with_mark(rules, rule, lay))
    return again[1:] if again[0] == "refused" else None


def change_call(rules, rights, user, rule, lay, lent):
    """(answer, line, number of bytes, the lent bytes after)."""
    refusal = change_refusal(rules, rights, user, rule, lay)
    if refusal is not None:
        return (base.refused_answer(refusal[0]), refusal[1], 0, bytes(lent))
    entries = [(byte,) for byte in with_mark(rules, rule, lay)]
    fits, count, made = in_lent_bytes(entries, lent)
    if not fits:
        return (base.refused_answer(22), 0, 0, made)
    return ("given", 0, count, made)


def change_output(rules, rights, lay, user, rule):
    """What the program `calls` writes for `change`."""
    lent = bytes(base.MOST_INPUT + 16)
    answer, line, count, made = change_call(rules, rights, user, rule, lay, lent)
    return base.answer_lines(answer, line) + made[:count]
