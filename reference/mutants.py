"""Mutants of the reference, and whether the vectors tell them from it.

    python3 reference/mutants.py     a line a mutant; status 1 where one lives (some minutes)

A mutant is the reference with one mistake put in, of the kind that a limit, a
shift or a short cut of other code may have.  It dies by the first input of the
vectors (`crates/checks`) to which it writes another output than they hold.  The
cases that a mutant is meant to die by are tried first, then all.
"""

import sys
from pathlib import Path

import far
import far_cases
import teplonga
from far import put

CHECKED = Path(__file__).resolve().parent.parent / "crates" / "checks"


# ------------------------------------------------------------------ the vectors

def vectors(letter):
    """Each input of a program, `check` or `sweep` by its letter, with its output."""
    data = (CHECKED / "stdin").read_bytes()
    cases, at = [], 0
    while at < len(data):
        length = int(data[at : at + 5])
        cases.append(data[at + 6 : at + 6 + length])
        at += 6 + length
    asked = [case for case in cases if case[:1] in (b"c", b"w")]
    tried = sum(case[:1] == b"t" for case in cases)
    names = b"answer line\n"
    texts = (CHECKED / "stdout").read_bytes().split(names)[1 : len(asked) + 1]
    # behind the last of them stand the numbers of candidates tried, a line each
    texts[-1] = b"".join(texts[-1].splitlines(keepends=True)[:-tried])
    outputs = [names + text for text in texts]
    return {case[1:]: output for case, output in zip(asked, outputs) if case[:1] == letter}


# ------------------------------------------------------------- mistakes of `check`

def marks_past(lay, most):
    """A mark of a U rule holds of each word of more tokens."""
    old = teplonga.mark_of_one
    return {"mark_of_one": lambda name, word: (name == lay and len(word) > most) or old(name, word)}


def marks_to(lay, most):
    """A mark of a U rule looks at no more tokens."""
    old = teplonga.mark_of_one
    return {"mark_of_one": lambda name, word: old(name, word[:most] if name == lay else word)}


def marks_of_lefts_past(lay, most):
    """A mark of a B rule holds wherever the left word has more tokens."""
    old = teplonga.mark_of_two
    return {"mark_of_two": lambda name, left, right: (name == lay and len(left) > most) or old(name, left, right)}


def marks_of_rights_past(lay, most):
    old = teplonga.mark_of_two
    return {"mark_of_two": lambda name, left, right: (name == lay and len(right) > most) or old(name, left, right)}


def indent_after_first():
    """Indent looks at the line of the left word's first token."""
    old = teplonga.mark_of_two
    return {"mark_of_two": lambda name, left, right: old(name, left[:1], right)}


def lefts_to(most):
    """No longer left word is tried."""
    old = teplonga.ways
    return {"ways": lambda rule, *more: [length for length in old(rule, *more) if length <= most]}


def rules_to(most):
    """Later rules are read, and not used."""
    old = teplonga.Grammar.__init__
    return {"Grammar": type("Grammar", (teplonga.Grammar,), {"__init__": lambda self, rules: old(self, list(rules)[:most])})}


def names_below(most):
    """A rule of a greater nonterminal stands nowhere."""
    old = teplonga.ways
    return {"ways": lambda rule, *more: old(rule, *more) if rule.left < most else []}


def twice_among(part):
    """Refusal 5 looks at a part of the earlier rules only."""
    old = teplonga.rule_line_refusal

    def refusal(line, ended, earlier):
        number = old(line, ended, earlier)
        if number != 5:
            return number
        rule = teplonga.rule_of_line(line, ended)
        return 5 if any(teplonga.clashes(rule, other) for other in part(earlier)) else None

    return {"rule_line_refusal": refusal}


def cycles_below(most):
    """Refusal 8 looks for cycles of lesser nonterminals only."""
    old = teplonga.edges
    return {"edges": lambda rules: {edge for edge in old(rules) if max(edge) < most}}


def edges_of_units_only():
    """Empty words are forgotten where refusal 8 is judged."""
    return {"nullable": lambda rules: set()}


def second_from_behind():
    """The second tree takes the last choice."""

    class Grammar(teplonga.Grammar):
        def second_tree_anew(self, nonterminal, word):
            choices = self.choices(nonterminal, word)
            return self.topped(choices[-1], word) if len(choices) >= 2 else super().second_tree_anew(nonterminal, word)

    return {"Grammar": Grammar}


def second_below_first():
    """The second tree changes the lowest node before the highest."""

    class Grammar(teplonga.Grammar):
        def second_tree_anew(self, nonterminal, word):
            choices = self.choices(nonterminal, word)
            for place, part in enumerate(parts := self.parts(choices[0], word) if choices else []):
                changed = self.second_tree(*part)
                if changed is not None:
                    children = [self.first_tree(*other) for other in parts]
                    children[place] = changed
                    return self.node(choices[0], word, children)
            return self.topped(choices[1], word) if len(choices) >= 2 else None

    return {"Grammar": Grammar}


def short_rows(bits):
    """Starts and lengths keep their last bits only."""
    old = teplonga.tree_rows
    cut = 2**bits - 1
    return {"tree_rows": lambda tree: [(left, kind, start & cut, length & cut) for left, kind, start, length in old(tree)]}


def starts_of_empty_words():
    """An empty word has the start at which it stands."""
    old = teplonga.tree_rows

    def rows(tree):
        after, listed = 0, []
        for left, kind, start, length in old(tree):
            listed.append((left, kind, start if length else after, length))
            after = start + 1 if kind == 1 else after
        return listed

    return {"tree_rows": rows}


def of_the_whole_sentence():
    """A verdict by any nonterminal, the start or not."""

    class Grammar(teplonga.Grammar):
        def count(self, nonterminal, word):
            own = super().count(nonterminal, word)
            others = (super(Grammar, self).count(rule.left, word) for rule in self.rules)
            return max(own, *others) if nonterminal == 0 and own else own

    return {"Grammar": Grammar}


CHECKS = [
    ("offside ignored past 24 tokens", lambda: marks_past("offside", 24), far_cases.unary_marks),
    ("offalign ignored past 24 tokens", lambda: marks_past("offalign", 24), far_cases.unary_marks),
    ("single ignored past 24 tokens", lambda: marks_past("single", 24), far_cases.unary_marks),
    ("offside ignored past 63 tokens", lambda: marks_past("offside", 63), far_cases.unary_marks),
    ("offalign ignored past 63 tokens", lambda: marks_past("offalign", 63), far_cases.unary_marks),
    ("single ignored past 63 tokens", lambda: marks_past("single", 63), far_cases.unary_marks),
    ("offside looks at 32 tokens", lambda: marks_to("offside", 32), far_cases.unary_marks),
    ("offalign looks at 32 tokens", lambda: marks_to("offalign", 32), far_cases.unary_marks),
    ("single looks at 32 tokens", lambda: marks_to("single", 32), far_cases.unary_marks),
    ("align true past 16 tokens on the left", lambda: marks_of_lefts_past("align", 16), far_cases.binary_marks),
    ("indent true past 16 tokens on the left", lambda: marks_of_lefts_past("indent", 16), far_cases.binary_marks),
    ("align true past 32 tokens on the left", lambda: marks_of_lefts_past("align", 32), far_cases.binary_marks),
    ("indent true past 62 tokens on the left", lambda: marks_of_lefts_past("indent", 62), far_cases.binary_marks),
    ("align true past 16 tokens on the right", lambda: marks_of_rights_past("align", 16), far_cases.binary_marks),
    ("indent true past 16 tokens on the right", lambda: marks_of_rights_past("indent", 16), far_cases.binary_marks),
    ("indent looks at the first token's line", indent_after_first, far_cases.binary_marks),
    ("left words of up to 32 tokens", lambda: lefts_to(32), far_cases.far_choices),
    ("left words of up to 62 tokens", lambda: lefts_to(62), far_cases.far_choices),
    ("refusal 5 looks at the last 100 rules", lambda: twice_among(lambda rules: rules[-100:]), far_cases.long_sheets),
    ("refusal 5 looks at the first 100 rules", lambda: twice_among(lambda rules: rules[:100]), far_cases.long_sheets),
    ("refusal 5 looks at the first 126 rules", lambda: twice_among(lambda rules: rules[:126]), far_cases.long_sheets),
    ("refusal 5 looks at the rule before", lambda: twice_among(lambda rules: rules[-1:]), far_cases.long_sheets),
    ("the first 100 rules count", lambda: rules_to(100), far_cases.long_sheets),
    ("the first 127 rules count", lambda: rules_to(127), far_cases.long_sheets),
    ("nonterminals below 32 count", lambda: names_below(32), far_cases.long_sheets),
    ("nonterminals below 63 count", lambda: names_below(63), far_cases.long_sheets),
    ("cycles among nonterminals below 32", lambda: cycles_below(32), far_cases.long_sheets),
    ("cycles without empty words", edges_of_units_only, None),
    ("the second tree takes the last choice", second_from_behind, far_cases.far_choices),
    ("the second tree changes the lowest node", second_below_first, None),
    ("rows with starts and lengths of five bits", lambda: short_rows(5), far_cases.unary_marks),
    ("rows with starts and lengths of six bits", lambda: short_rows(6), far_cases.unary_marks),
    ("empty words start where they stand", starts_of_empty_words, None),
    ("the verdict goes by any nonterminal", of_the_whole_sentence, None),
    ("127 rules at most", lambda: {"MOST_RULES": 127}, None),
    ("129 rules at most", lambda: {"MOST_RULES": 129}, None),
    ("63 tokens at most", lambda: {"MOST_TOKENS": 63}, None),
    ("65 tokens at most", lambda: {"MOST_TOKENS": 65}, None),
    ("4,095 rows at most", lambda: {"TREE_PLACES": 4_095}, None),
    ("4,097 rows at most", lambda: {"TREE_PLACES": 4_097}, None),
    ("16,383 bytes at most", lambda: {"MOST_INPUT": 16_383}, None),
]


# ------------------------------------------------------------- mistakes of `sweep`

def lengths_to(most):
    """No longer sentence is tried."""
    old = far.first_ambiguous
    return {"first_ambiguous": lambda rules, bound: old(rules, min(bound, most))}


def nexts(keeps):
    """Some tokens are not tried: keeps(token, prefix, terminals, length) says which are."""
    old = far.next_tokens

    def tokens(prefix, terminals, length):
        return (token for token in old(prefix, terminals, length) if keeps(token, prefix, terminals, length))

    return {"next_tokens": tokens}


def ordered(key):
    """Tokens in another order."""
    old = far.next_tokens
    return {"next_tokens": lambda *more: sorted(old(*more), key=key)}


def replaced(below):
    """A terminal is not tried where a lesser one has all its lefts, looking at nonterminals below a number only."""
    old = far.first_from

    def lefts(rules, term):
        leaves = [rule for rule in rules if rule.kind == "A" and term in teplonga.terminals_covered(rule)]
        return {rule.left for rule in leaves if rule.left < below}

    def first(grammar, prefix, terminals, length):
        tried = []
        for term in terminals:
            if not any(lefts(grammar.rules, term) <= lefts(grammar.rules, lesser) for lesser in tried):
                tried.append(term)
        return old(grammar, prefix, tried, length)

    return {"first_from": first}


def shortest_only():
    """The sweep ends at the first length that may have a tree."""

    def first(rules, bound):
        grammar = far.HalfKnown(rules)
        terminals = teplonga.terminals_of(rules)
        for length in range(1, bound + 1):
            if terminals and grammar.count(teplonga.START, (None,) * length) > 0:
                return far.first_from(grammar, (), terminals, length)
            grammar.forget()
        return None

    return {"first_ambiguous": first}


def line(token, prefix):
    """How many lines past the token before."""
    return token.line - (prefix[-1].line if prefix else 1)


SWEEPS = [
    ("a sweep that stops after length 5", lambda: lengths_to(5), far_cases.long_findings),
    ("a sweep that stops after length 6", lambda: lengths_to(6), far_cases.long_findings),
    ("a sweep that tries length 1 only", lambda: lengths_to(1), None),
    ("a sweep that stops at the first length that has a tree", shortest_only, None),
    ("terminals replaced by nonterminals below 32", lambda: replaced(32), far_cases.high_lefts),
    ("terminals replaced by nonterminals below 63", lambda: replaced(63), far_cases.high_lefts),
    ("one column fewer", lambda: nexts(lambda token, _, __, length: token.col < max(length, 2)), far_cases.stairs_found),
    ("one column fewer from six tokens on", lambda: nexts(lambda token, _, __, length: token.col < length or length < 6), far_cases.stairs_found),
    ("one column fewer at seven tokens", lambda: nexts(lambda token, _, __, length: token.col < 7), far_cases.stairs_found),
    ("no line step from five tokens on", lambda: nexts(lambda token, prefix, _, length: length < 5 or line(token, prefix) == 0), far_cases.long_findings),
    ("the first token in column 1", lambda: nexts(lambda token, prefix, *_: bool(prefix) or token.col == 1), None),
    ("the greatest terminal is not tried", lambda: nexts(lambda token, _, terminals, __: token.term < terminals[-1] or len(terminals) == 1), far_cases.several_terminals),
    ("the greatest of seven terminals is not tried", lambda: nexts(lambda token, _, terminals, __: token.term < terminals[-1] or len(terminals) < 5), None),
    ("columns before line steps", lambda: ordered(lambda token: (token.term, token.col, token.line)), None),
    ("line steps before terminals", lambda: ordered(lambda token: (token.line, token.term, token.col)), None),
    ("greater terminals first", lambda: ordered(lambda token: (-token.term, token.line, token.col)), None),
]


def answer(mutated, program, text):
    """What the mutant writes; nothing where it gets lost."""
    try:
        with mutated:
            return program(text)
    except RecursionError:
        return b""


def is_told(mutated, program, meant, held):
    """Does some input tell the mutant apart?"""
    first = [text for _, text in meant()] if meant else []
    others = (text for text in held if text not in first)
    return any(answer(mutated, program, text) != held[text] for text in [*first, *others])


class Mutated:
    """The parts of a mutant in the place of the module's, as often as it is entered."""

    def __init__(self, module, parts):
        self.module, self.parts = module, parts

    def __enter__(self):
        self.inside = put(self.module, **self.parts)
        self.inside.__enter__()

    def __exit__(self, *error):
        self.inside.__exit__(*error)


def main():
    lives = 0
    for letter, module, program, mutants in (
        (b"c", teplonga, far.check_program, CHECKS),
        (b"w", far, far.sweep_program, SWEEPS),
    ):
        held = vectors(letter)
        for name, make, meant in mutants:
            told = is_told(Mutated(module, make()), program, meant, held)
            lives += not told
            print(f"{'dead' if told else 'LIVES'}: {name}", flush=True)
    print(f"{len(CHECKS) + len(SWEEPS)} mutants, {lives} live")
    return int(lives > 0)


if __name__ == "__main__":
    sys.exit(main())
