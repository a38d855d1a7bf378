#!/usr/bin/env python3
"""The call `readings` of bin/teplonga: readings of a patch in the words of the clauses, as
outlines.
"""

import argparse
import sys

import commands
from asking import Programs
from reading.answers import question_of, read
from reading.boxes import Folds
from reading.outline import outline
from reading.sentences import plain

COMMAND = "bin/teplonga"
ABOUT = """A clause sheet, an empty line and a token sheet: none, one or two, and each reading as an
outline, a node a line, with line and column of its first token: the nonterminal and the alternative
that it takes, the items in order, a repeat as a list. `>` stands where two readings part, `|` at
what differs."""
EXITS = """Exit status: 0 an answer, 1 a refusal, 2 bad usage, 3 no answer: something could not be
read, written, built or run, or the script's expansion is not the proved one."""


def options(args):
    parser = argparse.ArgumentParser(prog=f"{COMMAND} readings", description=ABOUT, epilog=EXITS)
    add = parser.add_argument
    add(
        "files",
        nargs="*",
        metavar="FILE",
        default=["-"],
        help="without one, or for -, standard input",
    )
    add("--names", metavar="NAMES", help=commands.NAMES_HELP)
    add("--fold", action="store_true", help="fold up what both readings share")
    add("--user", metavar="NUMBER", type=int, choices=range(100_000), help=commands.USER_HELP)
    add("-v", action="store_true", help="say on standard error what a refusal means")
    return parser.parse_args(args)


def told(programs, given, file):
    """All that is written of a file."""
    names = commands.read_names(given.names)
    question = question_of(programs, commands.read(file), True, given.user)
    answer = read(programs, question, names)
    yield "answer line"
    yield answer.line
    if answer.readings:
        boxes = answer.boxes()
        tops = boxes.all()
        for sentence in answer.sentences()[1:]:
            yield plain(sentence)
        tops = Folds(boxes).folded(tops) if given.fold and len(tops) == 2 else tops
        yield from outline(tops, answer.tokens)


def main(args):
    given, programs, worst = options(args), Programs(COMMAND), 0
    is_told = given.v or sys.stderr.isatty()

    def refused(refusal):
        commands.write(None, refusal.output)
        if is_told:
            commands.in_words(refusal)

    for file in given.files:
        if len(given.files) > 1:
            print(f"==> {file} <==", file=sys.stderr)

        def act(file=file):
            commands.write(None, "\n".join(told(programs, given, file)) + "\n")
            return 0

        worst = max(worst, commands.ended(COMMAND, act, refused, given.names))
    return worst


if __name__ == "__main__":
    sys.exit(main(sys.argv[1:]))
