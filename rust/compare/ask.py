"""Questions, each with the answer of the reference in the line after it.

    ask.py COUNT SEED    questions drawn by chance, and then, for each answer of
                         `required.txt` that none of them got, one that gets it
    ask.py -             the questions of standard input

What questions look like is told in `questions.py`. An answer holds all that the
call answers and every lent word and byte after it.
"""

import functools
import itertools
import os
import sys

HERE = os.path.dirname(os.path.abspath(__file__))
sys.path.insert(0, os.path.join(HERE, "..", "..", "reference"))
sys.dont_write_bytecode = True

import always  # noqa: E402
import clauses  # noqa: E402
import columns  # noqa: E402
import places  # noqa: E402
import questions  # noqa: E402
import rows  # noqa: E402
import shares  # noqa: E402
import teplonga  # noqa: E402
import tours  # noqa: E402
from questions import hexed  # noqa: E402

# Questions that are drawn for one answer, at most.
TRIES = 50_000


def bytes_of(text):
    return b"" if text == "-" else bytes.fromhex(text)


# ----------------------------------------------------------------- lent memory

def lent_words(salt, count):
    """What the lent words hold before a call."""
    return [(salt + place + 1) * 0x9E3779B97F4A7C15 % (1 << 64) for place in range(count)]


def lent_bytes(salt, count):
    return bytes(word >> 56 for word in lent_words(salt, count))


# --------------------------------------------------------------------- answers

def shown_words(words):
    return " ".join(["words", *(f"{word:x}" for word in words)])


def verdict(calls, rules, tokens, words, salt):
    answer, line, after = calls.verdict_call(
        bytes_of(rules), bytes_of(tokens), lent_words(int(salt), int(words))
    )
    return f"{answer} {line} {shown_words(after)}"


def trees(calls, rules, tokens, words, first, second, salt):
    salt = int(salt)
    answer, line, count1, count2, after, first, second = calls.trees_call(
        bytes_of(rules),
        bytes_of(tokens),
        lent_words(salt, int(words)),
        lent_bytes(salt + 1, int(first)),
        lent_bytes(salt + 2, int(second)),
    )
    memory = f"first {hexed(first)} second {hexed(second)}"
    return f"{answer} {line} rows {count1} {count2} {memory} {shown_words(after)}"


def counts(rules, tokens, words, salt):
    answer, line, first, second, after = rows.rows_call(
        bytes_of(rules), bytes_of(tokens), lent_words(int(salt), int(words))
    )
    return f"{answer} {line} counts {first} {second} {shown_words(after)}"


def listed(rules, tokens, words, size, salt):
    salt = int(salt)
    answer, line, count, after, made = places.places_call(
        bytes_of(rules), bytes_of(tokens), lent_words(salt, int(words)), lent_bytes(salt + 1, int(size))
    )
    return f"{answer} {line} places {count} list {hexed(made)} {shown_words(after)}"


def shown_runs(words):
    """Words, those that are the same together: `3*0` for three zeros."""
    runs = [(len(list(run)), word) for word, run in itertools.groupby(words)]
    shown = (f"{word:x}" if count == 1 else f"{count}*{word:x}" for count, word in runs)
    return " ".join(["words", *shown])


def at_every_length(reader, sheet, words, size, salt):
    salt = int(salt)
    answer, line, count, after, made = always.call_on(
        reader(bytes_of(sheet)), lent_words(salt, int(words)), lent_bytes(salt + 1, int(size))
    )
    return f"{answer} {line} entries {count} list {hexed(made)} {shown_runs(after)}"


def line(calls, rules, tokens):
    """The refused line; before it, what a verdict without lent words answers."""
    rules, tokens = bytes_of(rules), bytes_of(tokens)
    answer, number, _ = calls.verdict_call(rules, tokens, [])
    sheet, offset, length = calls.refused_place(rules, tokens)
    text = calls.refused_line(rules, tokens)
    return f"{answer} {number} {'tokens' if sheet == 'tokens' else 'rules'} {offset} {length} {hexed(text)}"


def sweep(calls, rules, bound, words, salt):
    answer, line, sentence, tried, after = calls.sweep_call(
        bytes_of(rules), int(bound), lent_words(int(salt), int(words))
    )
    places = ["/".join(map(str, place)) for place in teplonga.token_places(sentence)]
    found = " ".join([str(len(sentence)), *places])
    return f"{answer} {line} sentence {found} tried {tried} {shown_words(after)}"


def expand(sheet, size, salt):
    answer, line, count, made = clauses.expand_call(bytes_of(sheet), lent_bytes(int(salt), int(size)))
    return f"{answer} {line} bytes {count} sheet {hexed(made)}"


def reported(answer, line, number, quotient, remainder, sentence):
    found = " ".join("/".join(map(str, token[:3])) for token in sentence) or "-"
    return f"{answer} {line} numbers {number} {quotient} {remainder} found {found}"


def share(rules, length, racks, index, words, salt):
    *reply, after = shares.share_call(
        bytes_of(rules), int(length), int(racks), int(index), lent_words(int(salt), int(words))
    )
    return f"{reported(*reply)} {shown_words(after)}"


def merge(rules, *numbers):
    words = [0] * teplonga.words_needed(7)
    one, two = (
        shares.share_call(bytes_of(rules), *map(int, each), words)[:-1]
        for each in (numbers[:3], numbers[3:])
    )
    return reported(*shares.merged(one, two))


def chosen(rules, ranges, words, salt):
    """With the refused line, which has a call of its own."""
    rules, ranges = bytes_of(rules), bytes_of(ranges)
    answer, line, flags, after = columns.columns_call(rules, ranges, lent_words(int(salt), int(words)))
    text = hexed(columns.refused_line(rules, ranges))
    return f"{answer} {line} flags {' '.join(str(int(flag)) for flag in flags)} line {text} {shown_words(after)}"


def show(rules, tokens, rights, user, words, first, second, salt):
    salt = int(salt)
    answer, line, count1, count2, after, first, second = tours.show_call(
        bytes_of(rules),
        bytes_of(tokens),
        bytes_of(rights),
        int(user),
        lent_words(salt, int(words)),
        lent_bytes(salt + 1, int(first)),
        lent_bytes(salt + 2, int(second)),
    )
    memory = f"first {hexed(first)} second {hexed(second)}"
    return f"{answer} {line} rows {count1} {count2} {memory} {shown_words(after)}"


def change(rules, rights, lay, user, rule, size, salt):
    answer, line, count, made = tours.change_call(
        bytes_of(rules), bytes_of(rights), int(user), int(rule), bytes_of(lay), lent_bytes(int(salt), int(size))
    )
    return f"{answer} {line} bytes {count} sheet {hexed(made)}"


# Those of `BOTH` are asked of rule sheets and, with `clause-` before them, of
# clause sheets.
BOTH = {"verdict": verdict, "trees": trees, "line": line, "sweep": sweep}
CALLS = {
    **{name: functools.partial(call, teplonga) for name, call in BOTH.items()},
    **{f"clause-{name}": functools.partial(call, clauses) for name, call in BOTH.items()},
    "rows": counts,
    "places": listed,
    "always": functools.partial(at_every_length, teplonga.read_rules),
    "clause-always": functools.partial(at_every_length, clauses.read_clauses),
    "expand": expand,
    "share": share,
    "merge": merge,
    "columns": chosen,
    "show": show,
    "change": change,
}


def answer(question):
    call, *arguments = question.split(" ")
    return CALLS[call](*arguments)


def kind(question, reply):
    """The call and the word of its answer."""
    return (question.split(" ", 1)[0], reply.split(" ", 1)[0])


def required():
    """The answers that each call is to give at least once."""
    with open(os.path.join(HERE, "required.txt"), encoding="ascii") as file:
        lines = [line.split() for line in file if not line.startswith("#")]
    return [(call, word) for call, *words in lines for word in words]


def asked_for(wanted, seed):
    """A question of this call that gets this answer, and the answer."""
    for question in questions.of_call(wanted[0], f"{seed} {wanted}", TRIES):
        reply = answer(question)
        if kind(question, reply) == wanted:
            return question, reply
    sys.exit(f"no question was drawn that gets {' '.join(wanted)}")


def drawn(count, seed):
    """The drawn questions with their answers, then those for answers not met."""
    met = set()
    for question in questions.questions(count, seed):
        reply = answer(question)
        met.add(kind(question, reply))
        yield question, reply
    for wanted in required():
        if wanted not in met:
            yield asked_for(wanted, seed)


def main():
    if sys.argv[1:] == ["-"]:
        asked = ((question, answer(question)) for question in sys.stdin.read().splitlines())
    elif len(sys.argv) == 3:
        asked = drawn(int(sys.argv[1]), int(sys.argv[2]))
    else:
        sys.exit(__doc__)
    for question, reply in asked:
        print(question, reply, sep="\n")


main()
