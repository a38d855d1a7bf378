"""Sweeps as far as seven tokens, without trying each candidate.

`teplonga.first_ambiguous` tries all candidates one by one, which takes it hours
at a bound of 7.  Here a candidate grows token by token, in the
candidates' order, and is given up as soon as it cannot have two trees however it goes
on: where not even two trees are left if every mark that looks at a token not
yet there holds, and every terminal may stand there.  Each valid tree of a
sentence that goes on so is one of those trees, so nothing is lost.

    python3 reference/far.py     compares this with the candidates one by one,
                                 on all inputs of `sweep_cases.py` (half a minute)
"""

import sys
from contextlib import contextmanager

import teplonga


class HalfKnown(teplonga.Grammar):
    """A grammar at words of which the first tokens are known, and the others are None.

    At most one A rule of a nonterminal stands at a token (refusal 5), so all of
    them count as one choice at a token that is not known.
    """

    def work_out_anew(self, word):
        found = set()
        splits = self.splits(word, found)
        grown = True
        while grown:
            before = len(found)
            found.update(rule.left for rule in self.rules if ways(rule, word, found, splits))
            grown = len(found) > before
        choices = {}
        for place, rule in enumerate(self.rules):
            of_left = choices.setdefault(rule.left, [])
            if rule.kind == "A" and any(self.rules[other].kind == "A" for other, _ in of_left):
                continue
            of_left += [(place, left_length) for left_length in ways(rule, word, found, splits)]
        return (found, choices)


def ways(rule, word, found, splits):
    """As `teplonga.ways`, where a token that is not known stands in nobody's way."""
    if rule.kind == "A" and word == (None,):
        return [0]
    if rule.kind == "U":
        stands = rule.first in found and may_keep(rule.lay, word)
        return [0] if stands else []
    if rule.kind == "B":
        return [
            left_length
            for left_length, left, right, of_left, of_right in splits
            if rule.first in of_left and rule.second in of_right and may_pair(rule.lay, left, right)
        ]
    return teplonga.ways(rule, word, found, splits)


def may_keep(lay, word):
    """May the mark of a U rule hold? It compares each token with the first alone."""
    known = tuple(token for token in word if token is not None)
    return teplonga.mark_of_one(lay, known)


def may_pair(lay, left, right):
    """May the mark of a B rule hold? Where the right word's first token is known, so is the left word."""
    if not left or not right or right[0] is None:
        return True
    return teplonga.mark_of_two(lay, left, right[:1])


def next_tokens(prefix, terminals, length):
    """The tokens that may come next in a candidate of this length, in order."""
    line_before = prefix[-1].line if prefix else 1
    for term in terminals:
        for step in (0, 1, 2) if prefix else (0,):
            for col in range(1, length + 1):
                token = teplonga.Token(term, line_before + step, col)
                if not prefix or teplonga.comes_after(token, prefix[-1]):
                    yield token


def first_from(grammar, prefix, terminals, length):
    """The first candidate that begins so and has two trees, or None."""
    word = prefix + (None,) * (length - len(prefix))
    if grammar.count(teplonga.START, word) < 2:
        return None
    if len(prefix) == length:
        return prefix
    for token in next_tokens(prefix, terminals, length):
        found = first_from(grammar, prefix + (token,), terminals, length)
        if found is not None:
            return found
    return None


def first_ambiguous(rules, bound):
    """The first candidate that has two trees, or None."""
    grammar = HalfKnown(rules)
    terminals = teplonga.terminals_of(rules)
    for length in range(1, bound + 1):
        found = first_from(grammar, (), terminals, length) if terminals else None
        if found is not None:
            return found
        grammar.forget()
    return None


@contextmanager
def put(module, **parts):
    """Other functions in the place of a module's own, for a while."""
    old = {name: getattr(module, name) for name in parts}
    for name, part in parts.items():
        setattr(module, name, part)
    try:
        yield
    finally:
        for name, part in old.items():
            setattr(module, name, part)


def sweep_program(data):
    """The whole output of `sweep` on this input."""
    with put(teplonga, first_ambiguous=first_ambiguous):
        return teplonga.sweep_program(data)


def check_program(data):
    """The whole output of `check` on this input; the span sheet, which it does not show, is not worked out."""
    with put(teplonga, span_words=lambda grammar, tokens: []):
        return teplonga.check_program(data)


def main():
    import sweep_cases

    count = 0
    for data in sweep_cases.cases():
        if sweep_program(data) != teplonga.sweep_program(data):
            print(f"another answer to {data!r}")
            return 1
        count += 1
    print(f"{count} sweeps, the same answers")
    return 0


if __name__ == "__main__":
    sys.exit(main())
