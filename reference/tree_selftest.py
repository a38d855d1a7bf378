"""Self test of the reference for the calls about one sentence's trees.

Each is read a second time, from the list of all valid trees of a sentence.
"""

import random
import time
from collections import Counter

import places
import rows
import selftest
import teplonga as base
import tours
from selftest import CHECKED, same


def sentences(wanted):
    """(rules, sheets, tokens, all trees by nonterminal, begin and end) of small sheets by chance."""
    seed = given = 0
    while given < wanted:
        seed += 1
        draw = random.Random(seed)
        rules = selftest.random_rules(draw)
        sheet = selftest.sheet_of(rules)
        # A looping sheet may have infinitely many trees; `selftest.py` looks at its low ones.
        reading = base.read_rules(sheet)
        if reading[0] == "refused" or base.cyclic(reading[1]):
            continue
        listed = selftest.random_sentences(draw, rules)
        for tokens, table in listed or []:
            given += 1
            yield rules, (sheet, selftest.token_sheet(*tokens)), tokens, table


# -------------------------------------------------------------- rows

def rows_of_sentence(rules, sheets, tokens, table):
    trees = selftest.first_and_second(rules, table.get((0, 0, len(tokens)), set()))
    counts = [0 if tree is None else len(selftest.second_rows(tree)) // 4 for tree in trees]
    words = [9] * (base.words_needed(len(tokens)) + 1)
    answer, line, first, second, after = rows.rows_call(*sheets, words)
    same("row counts", (answer, line, after), base.verdict_call(*sheets, words))
    same("row counts", [first, second], counts)
    short = words[: base.words_needed(len(tokens)) - 1]
    same("row counts", rows.rows_call(*sheets, short), ("refused-21", 0, 0, 0, short))
    return answer


def later_call(sheets, words):
    """"with words enough and just that many rows, is never refused 22, and
    with one fewer in either memory it is, if that count wasn't 0" """
    _, _, first, second, _ = rows.rows_call(*sheets, words)
    lent = [bytes(4 * first), bytes(4 * second)]
    same("later call", base.trees_call(*sheets, words, *lent)[0] != "refused-22", True)
    for place, count in enumerate((first, second)):
        if count != 0:
            fewer = list(lent)
            fewer[place] = bytes(4 * (count - 1))
            same("later call", base.trees_call(*sheets, words, *fewer)[0], "refused-22")


def told():
    for count, wanted in ((0, 0), (2**32 - 1, 2**32 - 1), (2**32, "more"), (2**64, "more")):
        same("told", rows.told(count), wanted)


# ----------------------------------------------------------- places

def nodes(tree, begin=0):
    """(nonterminal, start, length) of each node; an empty word has start 0."""
    length = selftest.length_of(tree)
    yield (tree[1], begin if length else 0, length)
    if tree[0] in ("unary", "binary"):
        for child in tree[2:]:
            yield from nodes(child, begin)
            begin += selftest.length_of(child)


def places_of_sentence(rules, sheets, tokens, table):
    """"A place is listed exactly if some whole valid tree of the sentence contains that
    nonterminal over that word and it has two or more choices there." """
    whole = table.get((0, 0, len(tokens)), set())
    contained = {node for tree in whole for node in nodes(tree)}
    several = []
    for nonterminal, start, length in contained:
        there = table[nonterminal, start, start + length]
        if len({selftest.top_choice(rules, tree) for tree in there}) >= 2:
            several.append((nonterminal, start, length))
    several.sort(key=lambda place: (-place[2], place[1], place[0]))
    words = [9] * base.words_needed(len(tokens))
    answer, line, after = base.verdict_call(*sheets, words)
    same("no place", len(several) == 0, answer != "two")
    made = b"".join(map(bytes, several))
    for spare in (0, 2, 7):
        got = places.places_call(*sheets, words, b"\x05" * (len(made) + spare))
        same("places", got, (answer, line, len(several), after, made + bytes(spare)))
    if several:
        got = places.places_call(*sheets, words, b"\x05" * (len(made) - 1))
        same("places", got, ("refused-22", 0, 0, after, bytes(len(made) - 1)))
    short, lent = words[:-1], b"\x05" * 9
    same("places", places.places_call(*sheets, short, lent), ("refused-21", 0, 0, short, lent))


# ------------------------------------------------ a shared tour

def covered(rows, sees):
    """Rows in walking order with those beneath closed ones left out: a row's tree is the
    least run of rows after it that closes all its children."""
    shown, place = b"", 0
    while place < len(rows):
        name, kind, start, length = rows[place : place + 4]
        if name in sees:
            shown += rows[place : place + 4]
            place += 4
            continue
        shown += bytes([name, 4, start, length])
        waiting = 1
        while waiting:
            waiting += (0, 0, 1, 2)[rows[place + 1]] - 1
            place += 4
    return shown


def show_of_sentence(draw, rules, sheets, tokens, table):
    trees = selftest.first_and_second(rules, table.get((0, 0, len(tokens)), set()))
    sees = {name for name in range(8) if draw.random() < 0.6}
    lines = [f"3 {name} {name} {draw.choice(('see', 'change'))}" for name in sees] + ["4 0 63 change"]
    draw.shuffle(lines)
    rights = b"".join(line.encode() + b"\n" for line in ("user low high may", *lines))
    shown = [b"" if tree is None else covered(selftest.second_rows(tree), sees) for tree in trees]
    words = [9] * base.words_needed(len(tokens))
    answer, _, after = base.verdict_call(*sheets, words)
    lent = [b"\x05" * (len(rows) + spare) for rows, spare in zip(shown, (0, 3))]
    got = tours.show_call(*sheets, rights, 3, words, *lent)
    same("show", got[:5], (answer, 0, len(shown[0]) // 4, len(shown[1]) // 4, after))
    same("show", got[5:], (shown[0], shown[1] + bytes(3)))
    everything = tours.show_call(*sheets, rights, 4, words, bytes(400), bytes(400))
    same("all open", everything, base.trees_call(*sheets, words, bytes(400), bytes(400)))
    for place, rows in enumerate(shown):
        if rows:
            fewer = list(lent)
            fewer[place] = bytes(len(rows) - 1)
            same("show", tours.show_call(*sheets, rights, 3, words, *fewer)[0], "refused-22")


def change_of_sheet(draw, rules, sheets, tokens):
    """Stricter marks: in the place of `none` they never lead to more trees."""
    rights = b"user low high may\n3 0 63 change\n"
    place = draw.randrange(len(rules))
    lay = draw.choice(base.ALL_LAYS).encode()
    room = b"\x05" * (len(sheets[0]) + 8)
    answer, line, count, made = tours.change_call(sheets[0], rights, 3, place + 1, lay, room)
    kinds = {"U": "none offside offalign single", "B": "none align indent"}
    allowed = kinds.get(base.read_rules(sheets[0])[1][place].kind, "none").encode().split()
    if lay not in allowed:
        same("change", (answer, line, count, made), ("refused-4", place + 2, 0, room))
        return
    lines = sheets[0].split(b"\n")
    was = lines[place + 1].rsplit(b" ", 1)
    lines[place + 1] = was[0] + b" " + lay
    wanted = b"\n".join(lines)
    same("change", (answer, line, made), ("given", 0, wanted + bytes(len(room) - len(wanted))))
    if was[1] == b"none":
        before = base.verdict_call(*sheets, [0] * base.words_needed(len(tokens)))[0]
        later = base.verdict_call(made[:count], sheets[1], [0] * base.words_needed(len(tokens)))[0]
        same("stricter", (before, later) in (("none", "one"), ("none", "two"), ("one", "two")), False)


def main():
    begun = time.time()
    told()
    seen = Counter()
    for rules, sheets, tokens, table in sentences(1_500):
        seen[rows_of_sentence(rules, sheets, tokens, table)] += 1
        later_call(sheets, [0] * base.words_needed(len(tokens)))
        places_of_sentence(rules, sheets, tokens, table)
        draw = random.Random(len(CHECKED) + sum(CHECKED.values()))
        show_of_sentence(draw, rules, sheets, tokens, table)
        change_of_sheet(draw, rules, sheets, tokens)
    for topic, count in CHECKED.items():
        print(f"{topic}: {count}")
    print("sentences:", ", ".join(f"{name} {count}" for name, count in seen.items()))
    print(f"all {sum(CHECKED.values())} checks pass, {time.time() - begun:.0f} s")


if __name__ == "__main__":
    main()
