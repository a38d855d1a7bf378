"""Answers of the reference, a line for each line of standard input.

`verdict RULES TOKENS N` and `sweep RULES K N`: sheets in base 16, or `-` for
none, and N lent words, each of which is 7.
"""

import os
import sys

HERE = os.path.dirname(os.path.abspath(__file__))
sys.path.insert(0, os.path.join(HERE, "..", "..", "reference"))
sys.dont_write_bytecode = True

import teplonga  # noqa: E402


def sheet(text):
    return b"" if text == "-" else bytes.fromhex(text)


def answer(call, rules, other, lent):
    words = [7] * int(lent)
    if call == "verdict":
        said, line, after = teplonga.verdict_call(sheet(rules), sheet(other), words)
        sentence = []
    else:
        said, line, sentence, count, after = teplonga.sweep_call(sheet(rules), int(other), words)
    tokens = ["/".join(str(part) for part in token) for token in sentence]
    if call == "sweep" and said in ("clear", "two"):
        tokens += ["tried", str(count)]
    return " ".join([said, str(line), *tokens, "words", *(f"{word:x}" for word in after)])


def main():
    for line in sys.stdin.read().splitlines():
        print(answer(*line.split(" ")))


main()
