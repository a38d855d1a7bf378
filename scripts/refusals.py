#!/usr/bin/env python3
"""The refusals' one home is docs/refusals.tsv: number, name, where, line, meaning, in the order of checking.

    scripts/refusals.py            compare all that follows from it; exit status 1 where something differs
    scripts/refusals.py --write    write what follows from it

What follows: the blocks between the lines that hold BEGIN and END, in the files of BLOCKS. The
definitions' numbers (crates/sheets/specs/Refusals.antt) are compared, never written.
"""

import re
import sys
import textwrap
from pathlib import Path
from typing import NamedTuple

TOP = Path(__file__).resolve().parent.parent
TABLE = TOP / "docs" / "refusals.tsv"
DEFINITIONS = TOP / "crates" / "sheets" / "specs" / "Refusals.antt"
BEGIN = "made by scripts/refusals.py from docs/refusals.tsv"
END = "end of what scripts/refusals.py makes"


class Refusal(NamedTuple):
    """A line of the table."""

    number: int
    name: str
    where: str
    line: str
    meaning: str


def table():
    """All refusals, in the order of checking."""
    names, *lines = TABLE.read_text().splitlines()
    if names.split("\t") != list(Refusal._fields):
        raise SystemExit(f"{TABLE}: the names are not {' '.join(Refusal._fields)}")
    fields = [line.split("\t") for line in lines]
    return [Refusal(int(number), *rest) for number, *rest in fields]


def camel(name):
    """RULE_NAMES as RuleNames."""
    return "".join(part.capitalize() for part in name.split("_"))


def markdown(refusals):
    """The table of docs/FORMAT.md."""
    yield "| where | number | line | what it means |"
    yield "|---|---|---|---|"
    where = None
    for refusal in refusals:
        shown = "" if refusal.where == where else refusal.where
        where = refusal.where
        yield f"| {shown} | {refusal.number} | {refusal.line} | {refusal.meaning} |"


def wrapped(text, width):
    return textwrap.wrap(text, width, break_on_hyphens=False)


def of_calls(refusals):
    """The refusals that a call can answer: all but those of a program's input."""
    return [refusal for refusal in refusals if refusal.where != "a program's input"]


def header(refusals):
    """The codes in include/teplonga.h."""
    for refusal in of_calls(refusals):
        said = f"{refusal.number}, {refusal.where}: {refusal.meaning}"
        first, *more = wrapped(said, 92)
        yield f"    /* {first}" + "".join(f"\n     * {line}" for line in more) + " */"
        yield f"    TEPLONGA_{refusal.name} = {100 + refusal.number},"


def rust(refusals):
    """The names in rust/src/refusal.rs."""
    named = [(camel(refusal.name), refusal) for refusal in of_calls(refusals)]
    yield "/// Why a call is refused, in the order in which calls look."
    yield "#[derive(Clone, Copy, Debug, PartialEq, Eq, Hash)]"
    yield "#[non_exhaustive]"
    yield "pub enum Refusal {"
    for name, refusal in named:
        said = f"{refusal.number}, {refusal.where}: {refusal.meaning}."
        yield from (f"    /// {line}" for line in wrapped(said, 76))
        yield f"    {name} = {refusal.number},"
    yield "}"
    yield ""
    yield "impl Refusal {"
    yield "    /// All refusals, in the order in which calls look."
    yield f"    pub const ALL: [Refusal; {len(named)}] = ["
    for name, _ in named:
        yield f"        Refusal::{name},"
    yield "    ];"
    yield ""
    yield "    /// What the refusal means, in words."
    yield "    #[must_use]"
    yield "    pub const fn meaning(self) -> &'static str {"
    yield "        match self {"
    for name, refusal in named:
        arm = f'            Refusal::{name} => "{refusal.meaning}",'
        wide = f'            Refusal::{name} => {{\n                "{refusal.meaning}"\n            }}'
        yield arm if len(arm) <= 100 else wide
    yield "        }"
    yield "    }"
    yield "}"


# file: what makes its block
BLOCKS = {
    "docs/FORMAT.md": markdown,
    "include/teplonga.h": header,
    "rust/src/refusal.rs": rust,
}


def written(text, lines):
    """The text with these lines in its block."""
    pattern = re.compile(rf"^([^\n]*{re.escape(BEGIN)}[^\n]*\n).*?^([^\n]*{re.escape(END)}[^\n]*\n)", re.M | re.S)
    block = "".join(f"{line}\n" for line in lines)
    text, count = pattern.subn(lambda found: found[1] + block + found[2], text)
    if count != 1:
        raise SystemExit(f"{count} blocks in place of one")
    return text


def misnumbered(refusals):
    """What the definitions number otherwise. The programs' own, 31 and 32, are not among them."""
    defined = dict(re.findall(r"^number_of Fault\.(\w+) = (\d+)$", DEFINITIONS.read_text(), re.M))
    for refusal in refusals:
        number = defined.get(camel(refusal.name))
        if number != (None if refusal.number in (31, 32) else str(refusal.number)):
            yield f"{refusal.name} is {refusal.number}, and in the definitions {number}"


def main(args):
    refusals = table()
    wrong = list(misnumbered(refusals))
    for name, make in BLOCKS.items():
        path = TOP / name
        old = path.read_text()
        new = written(old, make(refusals))
        if args == ["--write"]:
            path.write_text(new)
        elif old != new:
            wrong.append(f"{name} does not follow {TABLE.relative_to(TOP)}: run scripts/refusals.py --write")
    for sentence in wrong:
        print(f"refusals: {sentence}", file=sys.stderr)
    return bool(wrong)


if __name__ == "__main__":
    if sys.argv[1:] not in ([], ["--write"]):
        sys.exit(__doc__)
    sys.exit(main(sys.argv[1:]))
