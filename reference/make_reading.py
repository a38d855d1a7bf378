"""Writes the cases for the readers and what the reference makes of them.

    make_reading.py INPUT OUTPUT           write the two files
    make_reading.py --check INPUT OUTPUT   compare with them; status 1 if not the same

INPUT: each case is a header of 12 bytes (length of the rule sheet in five
digits, a blank, length of the token sheet in five digits, byte 10), then the
two sheets.  The next case follows at once.

OUTPUT, for each case: what becomes of the rule sheet, what becomes of the
token sheet, and the refused line of a call with both.
"""

import sys
from pathlib import Path

import teplonga
from make_checks import kept
from reading_cases import cases


def framed(rules, tokens):
    return b"%05d %05d\n" % (len(rules), len(tokens)) + rules + tokens


def reading_lines(name, reading, line_of):
    """`NAME refused-N LINE`, or `NAME accepted COUNT` and a line for each."""
    if reading[0] == "refused":
        return f"{name} refused-{reading[1]} {reading[2]}\n".encode()
    lines = [f"{name} accepted {len(reading[1])}".encode()]
    lines += [line_of(each) for each in reading[1]]
    return b"".join(line + b"\n" for line in lines)


def wide_line(token):
    """A token with its width, without byte 10."""
    return b"%s %d" % (teplonga.token_line(token), token.width)


def expected(rules, tokens):
    refused = teplonga.refused_line(rules, tokens)
    return (
        reading_lines("rules", teplonga.read_rules(rules), teplonga.rule_line)
        + reading_lines("tokens", teplonga.read_tokens(tokens), wide_line)
        + b"line %d\n" % len(refused)
        + refused
        + b"\n"
    )


def all_input():
    return b"".join(framed(rules, tokens) for rules, tokens in cases())


def all_output():
    return b"".join(expected(rules, tokens) for rules, tokens in cases())


def main(arguments):
    check = "--check" in arguments
    paths = [Path(each) for each in arguments if each != "--check"]
    if len(paths) != 2:
        print("usage: make_reading.py [--check] INPUT OUTPUT", file=sys.stderr)
        return 2
    return kept(paths, (all_input(), all_output()), check)


if __name__ == "__main__":
    sys.exit(main(sys.argv[1:]))
