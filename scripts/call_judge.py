#!/usr/bin/env python3
"""The call `judge` of bin/teplonga: is there a patch that a sheet reads in two ways?"""

import argparse
import sys

import commands
from asking import Programs, Unanswered
from drawing.picture import Picture
from judging import Inquiry, judged
from reading.answers import Question, read
from reading.outline import outline
from reading.patches import ruled, sheet_of, text_of, words_in
from reading.sentences import plain
from reading.sheets import is_clauses
from reading.spelling import Names

COMMAND = "bin/teplonga"
ABOUT = """A rule sheet or a clause sheet, told by its first line: is there a patch that can be read
in two ways? Asks `always`, then the sweep at the largest bound that is not refused, then the finder,
and says in a sentence what is known, what told it and what of it is proved. For two readings the patch follows, on its lines and columns, and both
readings."""
EXITS = """Exit status: 0 clear at every length, 4 two readings, 5 not told beyond some length, 1 a
refusal, 2 bad usage, 3 no answer."""
STATUS = {"clear": 0, "two": 4, "so far": 5}

# what takes longer is told of on a terminal, in seconds
LONG = 1


class Progress:
    """A line on standard error that tells what is being done, where that is a terminal and it takes
    long.
    """

    def __init__(self, out=sys.stderr):
        self.out, self.doing, self.is_shown = out, "", False

    def say(self, doing):
        self.doing = doing

    def passed(self, seconds):
        if seconds > LONG and self.out.isatty():
            self.is_shown = True
            self.write(f"{COMMAND}: {self.doing}: {seconds:.0f} s")

    def done(self):
        if self.is_shown:
            self.write("")
            self.is_shown = False

    def write(self, text):
        self.out.write(f"\r\x1b[K{text}")
        self.out.flush()


def options(args):
    parser = argparse.ArgumentParser(prog=f"{COMMAND} judge", description=ABOUT, epilog=EXITS)
    add = parser.add_argument
    add("file", nargs="?", metavar="FILE", default="-", help="without it, or for -, standard input")
    add("--names", metavar="NAMES", help=commands.NAMES_HELP)
    add(
        "--draw",
        metavar="OUT",
        help="draw both readings into this file (SVG, or a page where it ends in .html)",
    )
    add("--seconds", metavar="S", type=float, default=10, help="how long the finder may look (10)")
    add(
        "-v",
        action="store_true",
        help="accepted as by the other calls; what a refusal means is always said",
    )
    return parser.parse_args(args)


def patch_of(programs, data, tokens, names):
    """A found patch as text, and its answer: read once more as it is written, so it is proved of
    the text itself.
    """
    by_names = Names(names, in_clauses=is_clauses(data))
    text = text_of(tokens, by_names)
    question = Question(is_clauses(data), data, sheet_of(words_in(text, by_names)))
    answer = read(programs, question, names)
    if answer.verdict != "two":
        raise Unanswered(
            f"the patch was found to have two readings, and as text has {answer.verdict}"
        )
    return text, answer


def found(given, programs, data, names, known):
    """What is written of a patch with two readings; it is drawn where that is asked for."""
    text, answer = patch_of(programs, data, known.tokens, names)
    yield ""
    yield from ruled(text) if known.tokens else ["(no tokens)"]
    yield ""
    yield from (plain(each) for each in answer.sentences()[1:])
    yield from outline(answer.boxes().all(), answer.tokens, answer.noun)
    if given.draw:
        picture = Picture(answer)
        is_page = given.draw.endswith(".html")
        commands.write(given.draw, picture.html(given.file) if is_page else picture.svg() + "\n")


def judge(given, progress):
    names, data = commands.read_names(given.names), commands.read(given.file)
    Names(names)
    programs = Programs(COMMAND, progress=progress.passed)
    try:
        known = judged(Inquiry(data, programs, seconds=given.seconds, say=progress.say))
    finally:
        progress.done()
    lines = [known.sentence()]
    if known.verdict == "two":
        lines += found(given, programs, data, names, known)
    elif given.draw:
        commands.said(COMMAND, f"no patch with two readings, so nothing is drawn into {given.draw}")
    commands.write(None, "\n".join(lines) + "\n")
    return STATUS[known.verdict]


def main(args):
    given, progress = options(args), Progress()
    return commands.ended(COMMAND, lambda: judge(given, progress), commands.in_words, given.names)


if __name__ == "__main__":
    sys.exit(main(sys.argv[1:]))
