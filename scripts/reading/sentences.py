"""What is said of an answer. A sentence is a list of parts; pieces of a sheet or a patch are marked
as such.
"""

from .spelling import count_of


class Code(str):
    """A part of a sentence that is a piece of a sheet or a patch."""


def plain(parts):
    """A sentence as text."""
    return "".join(parts)


# ---- of trees

COUNTS = {"none": "no tree", "one": "one tree", "two": "two trees"}


def word_of(node):
    """A node's word, by its tokens."""
    if node.length == 0:
        return "the empty word"
    if node.length == 1:
        return f"token {node.start}"
    return f"tokens {node.start} to {node.start + node.length - 1}"


def rule_taken(node, names):
    """What a tree takes where the trees part: the rule in full and the left word's length."""
    if node.taken is None:
        return "a closed node"
    told = names.rule(node.taken)
    if node.taken.kind != "B":
        return told
    length = node.below[0].length
    return f"{told}, with {length} token{'' if length == 1 else 's'} on the left"


def tree_sentences(answer):
    count, names = count_of(len(answer.tokens), "token"), answer.names
    yield [
        f"{COUNTS[answer.verdict]} of nonterminal ",
        Code(names.nonterminal(0)),
        f" over {count}",
    ]
    found = answer.parting
    if found:
        node = found.first
        yield [
            "They part at nonterminal ",
            Code(names.nonterminal(node.left)),
            f" over {word_of(node)}.",
        ]
        for number, each in enumerate(found[:2], start=1):
            yield [f"Tree {number} takes {rule_taken(each, names)}."]


# ---- of readings


def splits_of(nodes, tokens, names):
    """What two nodes give to each of their items; what is the same at the front and at the end is
    left out.
    """
    below = [list(node.below) for node in nodes]
    front = same_at_front(below)
    end = same_at_front([each[front:][::-1] for each in below])
    for each in below:
        shown = [tokens[node.start :][: node.length] for node in each[front : len(each) - end]]
        told = [f"[{names.words(word) or 'nothing'}]" for word in shown]
        yield " ".join(["…"] * bool(front) + told + ["…"] * bool(end)) or "[nothing]"


def same_at_front(lists):
    """How many nodes two lists begin with alike, short of a whole list."""
    same = 0
    while (
        all(len(each) > same + 1 for each in lists)
        and len({each[same].like for each in lists}) == 1
    ):
        same += 1
    return same


def over(node, tokens):
    """Where a node's word stands."""
    if not node.length:
        return "over nothing"
    first, last = tokens[node.start], tokens[node.start + node.length - 1]
    return first.place + (f" to {last.place}" if node.length > 1 else "")


def what_of(node, within, names):
    """A node by its piece, and the nonterminal that it stands in."""
    name = Code(names.nonterminal(within.left))
    return [name] if node is within else [Code(names.spelled(node.piece)), " in ", name]


def reading_sentences(answer):
    tokens, names, found = answer.tokens, answer.names, answer.parting
    if answer.verdict != "two":
        what = ("nothing", "this token", f"these {len(tokens)} tokens")[min(len(tokens), 2)]
        count = "No" if answer.verdict == "none" else "One"
        yield [f"{count} reading of {what} as ", Code(names.nonterminal(0)), "."]
        return
    yield ["Two readings."]
    if found is None:
        yield ["Where they part is closed."]
        return
    ways = [[Code(way)] for way in splits_of(found[:2], tokens, names)]
    if found.first.taken is not found.second.taken:
        taken = [Code(names.spelled(node.taken)) for node in found[:2]]
        ways = [[each, " for ", *way] for each, way in zip(taken, ways)]
    where = [*what_of(found.first, found.within, names), f", {over(found.first, tokens)}"]
    yield ["They part at ", *where, ": the first takes ", *ways[0], ", the second ", *ways[1], "."]
