"""An answer that is the search which `rt` makes by itself is not written."""

import re

ANSWER = re.compile(
    r"(?:\A|(?<=\n\n))(?:-- [^\n]*\n)*pub (?P<name>[^\s:()]+) : goal\.[^\n]*\n"
    r"(?P=name)(?: [^\s=]+)* =\s+search rules\n(?:\n|\Z)"
)


def needless(text):
    """The names of the answers in a function's proof that say what is tried anyway."""
    return [found["name"] for found in ANSWER.finditer(text)]


def without(text):
    """The answers without those."""
    return ANSWER.sub("", text).rstrip("\n") + "\n"
