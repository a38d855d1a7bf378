"""Reference for row counts: room for the trees beforehand.

Written from the rules that docs/FORMAT.md states alone, on top of `teplonga.py`.
"""

import sys

import teplonga as base

MOST_TOLD = 4_294_967_295


def told(count):
    """"Counts are exact up to 4,294,967,295 and `more` above." """
    return count if count <= MOST_TOLD else "more"


def rows_call(rules, tokens, words):
    """(answer, line, rows of the first tree, of the second, words after).

    "say how many rows each tree has, 0 for one that the verdict lacks"; a
    refused call has none.
    """
    answer, line, after = base.verdict_call(rules, tokens, words)
    if answer not in base.ANSWERS:
        return (answer, line, 0, 0, after)
    listed = base.read_rules(rules)[1]
    trees = base.two_trees(listed, base.read_tokens(tokens)[1])
    first, second = [told(base.row_count(tree)) for tree in trees]
    return (answer, line, first, second, after)


def rows_output(rules, tokens):
    """What the program `calls` writes for `rows` and these two sheets."""
    words = [0] * base.words_needed(base.MOST_TOKENS)
    answer, line, first, second, _ = rows_call(rules, tokens, words)
    output = base.answer_lines(answer, line)
    if answer in base.ANSWERS:
        output += f"first second\n{first} {second}\n".encode()
    return output


def main():
    """Standard input: a rule sheet, an empty line, a token sheet."""
    rules, tokens = base.parted(sys.stdin.buffer.read())
    sys.stdout.buffer.write(rows_output(rules, tokens))


if __name__ == "__main__":
    main()
