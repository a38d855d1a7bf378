"""The fields of the page as texts and as files."""

import json
import re

from reading.patches import text_of
from reading.sheets import is_clauses, tokens_of
from reading.spelling import BadNames, Names

MOST_BYTES = 16_384
FIELDS = ("sheet", "names", "patch")

# what no picture or file can hold: control characters but line ends and tabs, and halves of
# characters
UNFIT = re.compile(r"[\x00-\x08\x0b-\x1f\x7f-\x9f\ud800-\udfff\ufffe\uffff]")


def fit(text):
    """A text as a field can have it."""
    return UNFIT.sub("\ufffd", text.replace("\r\n", "\n"))


def is_short(text):
    return len(text.encode("utf-8", "replace")) <= MOST_BYTES


def file(name, text, about):
    return {"name": name, "text": text, "about": about}


TOKEN_SHEET = re.compile(
    r"term line col\n([0-9]{1,5}( [0-9]{1,5}){2}\n)*"
    r"|term line col width\n([0-9]{1,5}( [0-9]{1,5}){3}\n)*"
)


def opened_state(text):
    """The fields of a file that has all of them; nothing where it is none."""
    try:
        found = json.loads(text)
    except (ValueError, RecursionError):
        return None
    if not isinstance(found, dict) or not all(isinstance(found.get(name), str) for name in FIELDS):
        return None
    return {name: fit(found[name]) for name in FIELDS}


def opened(texts, names=""):
    """The fields from the texts of files: all of them, names, a sheet, or a sheet with a token
    sheet behind an empty line. Tokens are written by the names among the files, or by these. What
    could not be taken is said.
    """
    fields, tokens, said = {}, None, ""
    for text in map(fit, texts):
        first = next((line for line in text.split("\n") if line and not line.startswith("#")), "")
        state = opened_state(text) if first.startswith("{") else None
        if state:
            fields.update(state)
        elif re.match(r"[nt] [0-9]", first):
            fields["names"] = text
        elif first.startswith("term "):
            tokens = text
        else:
            # a bound before a rule sheet is no part of it
            text = re.sub(r"\Abound\n[^\n]*\n\n", "", text)
            sheet, parted, rest = text.partition("\n\n")
            fields["sheet"], tokens = (sheet + "\n", rest) if parted else (text, tokens)
    if tokens is not None:
        if TOKEN_SHEET.fullmatch(tokens):
            by_names = names_or_none(fields.get("names", names), fields.get("sheet", "left clause"))
            fields["patch"] = text_of(tokens_of(tokens.encode("ascii")), by_names)
        else:
            said = "The token sheet is not so written and was left out."
    return fields, said


def names_or_none(text, sheet):
    in_clauses = is_clauses(sheet.encode("utf-8"))
    try:
        return Names(text, in_clauses=in_clauses)
    except BadNames:
        return Names(in_clauses=in_clauses)
