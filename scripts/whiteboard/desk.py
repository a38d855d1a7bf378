"""What the page asks: its fields in, what it is to show out. Nothing here knows of HTTP."""

import json
import re

from asking import Refused, Unanswered
from drawing.picture import Picture, separate, tops_of
from judging import Inquiry, judged
from reading.answers import Question, read
from reading.boxes import Folds
from reading.clauses import SYMBOL, Disagreement
from reading.outline import rows_of
from reading.patches import sheet_of, text_of, words_in
from reading.sentences import Code
from reading.sheets import is_clauses, rule_of
from reading.spelling import BadNames, Names, count_of
from reading.why import Asked, why

from .files import FIELDS, MOST_BYTES, file, fit, is_short

LONGEST_MARK, MOST_NOTES = 120, 100

# the refusal of a clause line that is not so written
CLAUSE_FORM = 41

EXAMPLE = {
    "sheet": "left clause\n0 n1+:align\n1 t0 | t1 n0\n",
    "names": "n 0 block\nn 1 stmt\nt 0 nop\nt 1 do\n",
    "patch": "do\nnop\nnop\n",
}


def clause_hint(line, first, last):
    """What a clause line lacks at the place where it can no longer go on."""
    if first == 0:
        return "a line is a nonterminal from 0 to 63, a blank and a clause"
    if re.fullmatch(rb"[nt][0-9]+", line[first:last]):
        return "this number is above 63"
    if line[first - 1 : first] in (b" ", b"("):
        return "here an item is missing: n4, t2 or a group in ( )"
    if first == len(line):
        return "a group is not closed: here ) is missing"
    if line[first:last] == b")":
        return "no group is open here"
    if line[first:last] in (b":", b"?", b"+", b"*"):
        return (
            "no suffix that may stand here: ? + * +:align *:align behind an item, "
            ":offside :offalign :single behind a group"
        )
    return "the clause cannot go on like this: a blank and an item may follow, or ` | `"


class Fault(Exception):
    """Something in a field, so that nothing is asked: the field, the line (0: none), the letters,
    and the words.
    """

    def __init__(self, field, line, span, said):
        super().__init__(said)
        self.note = {"field": field, "line": line, "from": span[0], "to": span[1], "said": said}


def nothing(notes):
    """What is shown where nothing is read."""
    sentences = [note_sentence(notes)] if notes else []
    shown = {"notes": notes, "words": [], "sentences": sentences, "verdict": "", "readings": []}
    return {**shown, "why": None, "glosses": {}}


def shown_word(word):
    told = {"line": word.line, "from": word.begin, "to": word.end, "text": word.text}
    return {**told, "known": word.terminal is not None, "place": f"{word.line}:{word.col}"}


def shown_parts(parts):
    """The parts of a sentence; what stands in backticks is a piece of a sheet too."""
    made = []
    for part in parts:
        if isinstance(part, Code):
            made.append({"text": part, "code": True})
            continue
        pieces = re.split(r"`([^`]*)`", part)
        told = [{"text": text, "code": bool(n % 2)} for n, text in enumerate(pieces)]
        made += [each for each in told if each["text"]]
    return made


def shown_row(row):
    box = row.box
    told = {
        name: getattr(box, name)
        for name in ("kind", "start", "length", "differs", "parts", "said", "key")
    }
    return {**told, "depth": row.depth, "place": row.place, "text": row.text, "pieces": box.spans}


class Desk:
    """The fields of the page, looked at."""

    def __init__(self, fields, programs):
        self.text, self.programs = {}, programs
        for name in FIELDS:
            text = fit(str(fields.get(name, "")))
            if not is_short(text):
                raise Fault(name, 0, (0, 0), f"more than {MOST_BYTES:,} bytes")
            self.text[name] = text

    def names(self):
        try:
            return Names(self.text["names"])
        except BadNames as error:
            length = len(self.text["names"].split("\n")[error.line - 1])
            said = "not `n NUMBER NAME` or `t NUMBER NAME`, with a number up to 63"
            raise Fault("names", error.line, (0, length), said) from error

    def sheet(self):
        """The sheet's bytes. Empty lines at its end are no part of it; one within it would part the
        input.
        """
        lines = self.text["sheet"].rstrip("\n").split("\n")
        if lines == [""]:
            raise Fault("sheet", 1, (0, 0), "write a sheet here: its first line is `left clause`")
        if "" in lines:
            raise Fault(
                "sheet",
                lines.index("") + 1,
                (0, 0),
                "this line is empty, and no line of a sheet is",
            )
        return ("\n".join(lines) + "\n").encode("utf-8")

    def words(self):
        return words_in(self.text["patch"], self.names())

    def question(self, words):
        sheet = self.sheet()
        return Question(is_clauses(sheet), sheet, sheet_of(words))

    # ---- reading

    def shown(self, fold, opened=()):
        """All that the page shows of its fields."""
        made = nothing([])
        try:
            words = self.words()
            made["words"] = [shown_word(word) for word in words]
            made["glosses"] = self.glosses()
            unknown = [word for word in words if word.terminal is None]
            made["notes"] = [unknown_note(word) for word in unknown[:MOST_NOTES]]
            if unknown and self.free() is not None:
                made["notes"][0]["offer"] = f"t {self.free()} {unknown[0].text}"
            # a sheet is looked at although words of the patch have no terminals
            question = self.question([] if unknown else words)
            answer = read(self.programs, question, self.text["names"])
            if not unknown:
                made.update(self.answered(answer, question, fold, opened))
        except Fault as fault:
            made["notes"].append(fault.note)
        except Refused as refused:
            made["notes"].append(self.note(refused.refusal))
        except (Unanswered, Disagreement) as error:
            made["notes"].append(Fault("answer", 0, (0, 0), f"No answer: {error}.").note)
        if not made["verdict"]:
            made["sentences"] = [note_sentence(made["notes"])]
        return made

    def answered(self, answer, question, fold, opened):
        sentences, reason = [*answer.sentences()], None
        if answer.noun == "tree":
            first, *rest = sentences[0]
            sentences[0] = [first[0].upper() + first[1:], *rest, "."]
        if answer.verdict == "none" and not answer.tokens:
            sentences = [
                ["The patch is empty."],
                ["Write words into it, or look for two readings."],
            ]
        elif answer.verdict == "none":
            found = why(Asked(self.programs, question.tokens, answer))
            sentences.append(found.sentence)
            reason = {"tokens": found.tokens, "pieces": [found.span] if found.span else []}
        return {
            "verdict": answer.verdict,
            "sentences": [shown_parts(each) for each in sentences],
            "readings": list(readings(answer, fold, opened)),
            "why": reason,
            "noun": answer.noun,
        }

    def glosses(self):
        """The lines of the sheet by names, where there are any, by their numbers."""
        lines, names = self.text["sheet"].split("\n"), self.names()
        if not (names.nonterminals or names.terminals):
            return {}
        clauses = is_clauses(self.text["sheet"].encode("utf-8"))
        told = [(n, by_names(n, line, clauses, names)) for n, line in enumerate(lines[1:], start=2)]
        return {n: text for n, text in told if text}

    def free(self):
        """The lowest terminal of the sheet that has no name."""
        written = {int(number) for number in re.findall(r"\bt([0-9]{1,5})\b", self.text["sheet"])}
        return min(written - set(self.names().terminals), default=None)

    def note(self, refusal):
        """A refusal at its line: in the sheet, or at the word that the refused token is."""
        said = f"{refusal.meaning} (refused-{refusal.number})"
        if refusal.line == 0:
            return Fault("sheet", 0, (0, 0), said).note
        sheet, line, span, other = refusal.fault()
        if sheet == "token sheet":
            word = self.words()[refusal.line - 2]
            return Fault("patch", word.line, (word.begin, word.end), said).note
        if other is not None:
            said += f"; the earlier one is line {other + 1}"
        span = span or (0, len(line))
        if refusal.number == CLAUSE_FORM:
            said = f"{clause_hint(line, *span)} (refused-{refusal.number})"
        # the program counts bytes, the page letters
        first, last = (len(line[:at].decode("utf-8", "ignore")) for at in span)
        return Fault("sheet", refusal.line, (first, max(last, first + 1)), said).note

    # ---- looking for two readings

    def found(self, bound, seconds):
        """What is known of the sheet: a sentence, and for two readings the patch as text."""
        try:
            sheet = self.sheet()
            self.names()
            known = judged(Inquiry(sheet, self.programs, bound=bound, seconds=seconds))
        except Fault as fault:
            return {"said": f"Nothing was looked for: {fault}."}
        except Refused as refused:
            return {"said": f"Nothing was looked for: {refused.refusal.meaning}."}
        except (Unanswered, Disagreement) as error:
            return {"said": f"No answer: {error}."}
        said = known.sentence()
        said = f"{said[0].upper()}{said[1:]}."
        if known.verdict != "two":
            return {"said": said, "verdict": known.verdict}
        names = Names(self.text["names"], in_clauses=is_clauses(sheet))
        count = count_of(len(known.tokens), "token")
        return {
            "said": f"{said} It has {count}.",
            "patch": text_of(known.tokens, names),
            "verdict": "two",
        }

    # ---- files

    def files(self, name):
        """The fields as files: those that bin/check, bin/teplonga and bin/draw read, and one with
        all of them.
        """
        state = json.dumps(self.text, ensure_ascii=False, indent=1) + "\n"
        made = [file(f"{name}.whiteboard", state, "all three fields in one file, for this page")]
        if self.text["names"].strip():
            made.append(file(f"{name}.names", ended(self.text["names"]), "the names"))
        try:
            sheet, words = self.sheet(), self.words()
        except Fault as fault:
            return {"files": made, "said": f"The sheet and the patch cannot be saved yet: {fault}."}
        clauses = is_clauses(sheet)
        suffix = "clauses" if clauses else "rules"
        made.append(
            file(f"{name}.{suffix}", sheet.decode("utf-8"), "the sheet, for bin/teplonga judge")
        )
        unknown = [word.text for word in words if word.terminal is None]
        if unknown:
            word = unknown[0][:LONGEST_MARK]
            said = f"The word {word} is no terminal, so the patch is in the first file alone."
            return {"files": made, "said": said}
        both = (sheet + b"\n" + sheet_of(words)).decode("utf-8")
        read_by = (
            "bin/teplonga readings and bin/draw --clauses" if clauses else "bin/check and bin/draw"
        )
        made.append(
            file(
                f"{name}.{'readings' if clauses else 'check'}",
                both,
                f"sheet and patch, for {read_by}",
            )
        )
        return {"files": [*made, *self.picture(name, words)], "said": ""}

    def picture(self, name, words):
        """The picture as bin/draw makes it, where there is an answer."""
        try:
            answer = read(self.programs, self.question(words), self.text["names"])
        except (Refused, Unanswered, Disagreement):
            return []
        return [file(f"{name}.svg", Picture(answer).svg() + "\n", "the picture")]


def ended(text):
    return text.rstrip("\n") + "\n"


def readings(answer, fold, opened):
    """Each reading as a picture and as rows of an outline."""
    boxes = answer.boxes()
    pictures = tops_of(answer, fold, opened)
    outlines = boxes.all()
    if fold and len(outlines) == 2:
        outlines = Folds(boxes, opened).folded(outlines)
    # one that is opened alone leaves the other as small as it was
    drawn = separate(pictures, answer.tokens, answer.noun, on_one_scale=not opened)
    for top, svg in zip(outlines, drawn):
        yield {"svg": svg, "rows": [shown_row(row) for row in rows_of(top, answer.tokens)]}


def by_names(number, line, clauses, names):
    """A line of a sheet by names; nothing where it is none."""
    try:
        if not clauses:
            return names.spelled_rule(rule_of(number, line))
        left, clause = re.fullmatch(r"([0-9]{1,5}) (.+)", line).groups()
        in_clauses = names.as_in_clauses()
        return f"{in_clauses.nonterminal(int(left))}: {SYMBOL.sub(in_clauses.symbol, clause)}"
    except (AttributeError, ValueError):
        return None


def unknown_note(word):
    return Fault(
        "patch", word.line, (word.begin, word.end), f"{word.text[:LONGEST_MARK]}: {word.why}"
    ).note


PLACES = {"sheet": "the sheet", "names": "the names", "patch": "the patch"}


def note_sentence(notes):
    """One sentence for all notes: where to look, each field once."""
    for note in notes:
        if note["field"] not in PLACES:
            return shown_parts([note["said"]])
    first = {note["field"]: note for note in reversed(notes)}
    listed = [(PLACES[name], first[name]["line"]) for name in FIELDS if name in first]
    places = [place + (f", line {line}" if line else "") for place, line in listed]
    return shown_parts([f"Look at {', and at '.join(places)}."])
