"""Reference for the list of places: all of them at one go.

Written from the rules that docs/FORMAT.md states and from the paper's definitions
4.2 and 4.4, on top of `teplonga.py`.
"""

import sys

import teplonga as base

MOST_PLACES = 16_384


def parts_below(grammar, nonterminal, word, start):
    """(nonterminal, word, start) of each child of each choice: one step of 4.2.

    A choice has valid trees on both sides, so each child is reached.
    """
    for choice in grammar.choices(nonterminal, word):
        at = start
        for child, part in grammar.parts(choice, word):
            yield child, part, at if part else 0
            at += len(part)


def reached(grammar, sentence):
    """All (nonterminal, start, length) that the start reaches; an empty word
    has start 0."""
    if base.START not in grammar.derivable(sentence):
        return set()
    found = {(base.START, 0, len(sentence))}
    waiting = [(base.START, sentence, 0)]
    while waiting:
        for child, part, start in parts_below(grammar, *waiting.pop()):
            place = (child, start, len(part))
            if place not in found:
                found.add(place)
                waiting.append((child, part, start))
    return found


def all_places(grammar, sentence):
    """"longest word first, then by start, then by nonterminal"; those with two
    or more choices."""
    listed = []
    for nonterminal, start, length in reached(grammar, sentence):
        word = sentence[start : start + length]
        if len(grammar.choices(nonterminal, word)) >= 2:
            listed.append((-length, start, nonterminal))
    return [(nonterminal, start, -length) for length, start, nonterminal in sorted(listed)]


def in_lent_bytes(entries, lent):
    """The rule for lists: (fits, number of entries, the lent bytes after)."""
    made = b"".join(bytes(entry) for entry in entries)
    if len(made) > len(lent):
        return (False, 0, bytes(len(lent)))
    return (True, len(entries), made + bytes(len(lent) - len(made)))


def places_call(rules, tokens, words, lent):
    """(answer, line, number of entries, words after, lent bytes after)."""
    answer, line, after = base.verdict_call(rules, tokens, words)
    if answer not in base.ANSWERS:
        return (answer, line, 0, after, bytes(lent))
    grammar = base.Grammar(base.read_rules(rules)[1])
    entries = all_places(grammar, tuple(base.read_tokens(tokens)[1]))
    fits, count, made = in_lent_bytes(entries, lent)
    if not fits:
        return (base.refused_answer(22), 0, 0, after, made)
    return (answer, 0, count, after, made)


def places_output(rules, tokens):
    """What the program `calls` writes for `places` and these two sheets."""
    words = [0] * base.words_needed(base.MOST_TOKENS)
    lent = bytes(3 * MOST_PLACES)
    answer, line, count, _, made = places_call(rules, tokens, words, lent)
    output = base.answer_lines(answer, line)
    if answer == "two":
        output += b"left start length\n"
        for place in range(0, 3 * count, 3):
            output += b"%d %d %d\n" % tuple(made[place : place + 3])
    return output


def main():
    """Standard input: a rule sheet, an empty line, a token sheet."""
    rules, tokens = base.parted(sys.stdin.buffer.read())
    sys.stdout.buffer.write(places_output(rules, tokens))


if __name__ == "__main__":
    main()
