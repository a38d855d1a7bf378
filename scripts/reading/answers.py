"""Questions about a sheet and a token sheet, and their answers as trees or readings."""

from typing import NamedTuple, Optional

from .boxes import ReadingBoxes, TreeBoxes
from .clauses import Disagreement, Sheet
from .nodes import Parting, Readings, Trees, parting
from .sentences import reading_sentences, tree_sentences
from .sheets import parted, rules_of, tokens_of
from .spelling import Names


class Answer(NamedTuple):
    """The verdict, the trees or readings, and where two of them part; `noun` says which they are,
    `rules` is the rule sheet that they follow.
    """

    verdict: str
    line: str
    tokens: list
    readings: list
    parting: Optional[Parting]
    names: Names
    noun: str
    rules: bytes

    def sentences(self):
        return list(reading_sentences(self) if self.noun == "reading" else tree_sentences(self))

    def boxes(self):
        return ReadingBoxes(self) if self.noun == "reading" else TreeBoxes(self)


def rows_of(output):
    """The answer's word and line, and the rows of each tree."""
    names, answer, *rest = output.decode("ascii").splitlines()
    assert names == "answer line"
    rows = {"1": [], "2": []}
    for text in rest[1:]:
        tree, left, kind, start, length = text.split(" ")
        rows[tree].append((int(left), kind, int(start), int(length)))
    return answer, [listed for listed in rows.values() if listed]


def expansion(programs, sheet):
    """The rule sheet that a clause sheet stands for, as the proved call gives it."""
    return programs.answer("calls", sheet, call=b"call\nexpand\n").split(b"\n", 2)[2]


class Question(NamedTuple):
    """A sheet, of clauses or of rules, and a token sheet; for a user besides, and a rights sheet;
    `is_expanded`: a clause sheet is asked about by the rules of its expansion.
    """

    is_clauses: bool
    sheet: bytes
    tokens: bytes
    rights: bytes = b""
    user: Optional[int] = None
    is_expanded: bool = False

    def ask(self, programs, rules):
        """What the proved program answers; `rules` is the rule sheet."""
        if self.user is not None:
            return programs.answer(
                "calls", rules, self.tokens, self.rights, call=show_call(self.user)
            )
        if self.is_clauses:
            return programs.answer("calls", self.sheet, self.tokens, call=CLAUSES)
        return programs.answer("checker", self.sheet, self.tokens)


CLAUSES, MOST_BYTES = b"call\nclauses\n", 16_384


def show_call(user):
    return b"call user\nshow %d\n" % user


def question_of(programs, data, clauses, user=None):
    """The question that an input is. One that is too long or lacks a sheet is refused, by the
    program itself.
    """
    sheets = parted(data, 2 if user is None else 3)
    if sheets is None or len(data) > MOST_BYTES:
        data = data[: MOST_BYTES + 1]
        call = CLAUSES if clauses and user is None else None if user is None else show_call(user)
        programs.answer("calls" if call else "checker", data, call=call)
        raise Disagreement(
            "the input has too few sheets or too many bytes, and the program does not refuse it"
        )
    return Question(clauses, *sheets, user=user)


def read(programs, question, names=""):
    """How a token sheet can be read. A clause sheet's expansion is compared with the proved one
    before anything.
    """
    rules = expansion(programs, question.sheet) if question.is_clauses else question.sheet
    return answer_of(question.ask(programs, rules), question, rules, names)


def answer_of(output, question, rules, names):
    """The answer in an output of `check`, `clauses` or `show`."""
    in_words = question.is_clauses and not question.is_expanded
    sheet = Sheet(question.sheet.decode("ascii")).agree(rules) if in_words else None
    answer, rows = rows_of(output)
    tokens = tokens_of(question.tokens)
    maker = Readings(sheet) if in_words else Trees(rules_of(rules), tokens)
    made = [maker.made(listed) for listed in rows]
    found = parting(*made) if len(made) == 2 else None
    noun = "reading" if in_words else "tree"
    return Answer(
        answer.split(" ")[0], answer, tokens, made, found, Names(names, sheet), noun, rules
    )
