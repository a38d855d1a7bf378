"""Names for symbols, and pieces of sheets and patches spelled by them."""

import re

from .clauses import SYMBOL
from .sheets import Rule

# a list of words is shown up to so many of them
MOST_WORDS = 6


class BadNames(ValueError):
    """A line of a file of names that is none."""

    def __init__(self, line, text):
        super().__init__(
            f"line {line} is not `n NUMBER NAME` or `t NUMBER NAME`, with a number up to 63: {text}"
        )
        self.line = line


class Names:
    """Names for nonterminals and terminals; where there are none, numbers, as the sheet has them:
    of a clause sheet (`sheet`) with `n` or `t` before them.
    """

    def __init__(self, text="", sheet=None, in_clauses=False):
        self.sheet, self.in_clauses = sheet, in_clauses or sheet is not None
        self.nonterminals, self.terminals = {}, {}
        for number, line in enumerate(text.split("\n"), start=1):
            if line.strip() and not line.startswith("#"):
                self.take(number, line)

    def take(self, number, line):
        found = re.fullmatch(r"([nt]) ([0-9]{1,5}) (\S.*?)\s*", line)
        if not found or int(found[2]) > 63:
            raise BadNames(number, line)
        named = self.nonterminals if found[1] == "n" else self.terminals
        named[int(found[2])] = found[3]

    def as_in_clauses(self):
        """The same names; numbers as a clause has them."""
        made = Names(in_clauses=True)
        made.nonterminals, made.terminals = self.nonterminals, self.terminals
        return made

    def nonterminal(self, number):
        return self.nonterminals.get(number) or (f"n{number}" if self.in_clauses else str(number))

    def terminal(self, number):
        return self.terminals.get(number) or (f"t{number}" if self.in_clauses else str(number))

    # ---- rules

    def rule(self, rule):
        """A rule in full: as the sheet has it and, where symbols have names, by these."""
        told = f"line {rule.line}, `{rule.text}`"
        spelled = self.spelled_rule(rule)
        return told if spelled is None else f"{told} ({spelled})"

    def spelled_rule(self, rule):
        """A rule by names, if there are any for it."""
        below = [each for each in (rule.first, rule.second) if each is not None]
        table = self.terminals if rule.kind == "A" else self.nonterminals
        if rule.left not in self.nonterminals and not any(each in table for each in below):
            return None
        name = self.terminal if rule.kind == "A" else self.nonterminal
        joined = " to " if rule.kind == "A" else " "
        right = joined.join(map(name, below)) or "the empty word"
        mark = "" if rule.lay == "none" else f", {rule.lay}"
        return f"{self.nonterminal(rule.left)} is {right}{mark}"

    # ---- pieces of clauses

    def quoted(self, number):
        """A terminal within a clause: in quotes where its name could mean something else."""
        name = self.terminal(number)
        plain = re.fullmatch(r"\w+", name) and name not in self.nonterminals.values()
        return name if plain else f"'{name}'"

    def symbol(self, found):
        number = int(found[2])
        return self.nonterminal(number) if found[1] == "n" else self.quoted(number)

    def spelled(self, piece):
        """A piece of a clause, or a rule, by names."""
        if isinstance(piece, Rule):
            return self.spelled_rule(piece) or piece.text
        return SYMBOL.sub(self.symbol, self.sheet.text(piece))

    def words(self, tokens):
        """Tokens by their names; of many the first and the last, and where that is."""
        names = [self.terminal(token.terminal) for token in tokens]
        if len(names) > MOST_WORDS:
            return " ".join([*names[: MOST_WORDS - 3], "…", names[-1], tokens[-1].place])
        return " ".join(names)


def count_of(number, thing):
    return f"{number or 'no'} {thing}{'' if number == 1 else 's'}"
