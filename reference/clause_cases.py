"""Cases for clause sheets: (kind, clause sheet, second) triples.

Kinds: `clauses`, second is a token sheet; `sweep`, second is a bound; `expand`
and `line`, the refused line, second is a token sheet.  `cases()` yields them in
a fixed order; what is drawn by chance is seeded and the same on every run.
`meant()` has the cases made by hand with the answer that they are meant to get.
"""

import random

NAMES = b"left clause\n"
TOKENS = b"term line col\n"


def sheet(*lines):
    return NAMES + b"".join(line + b"\n" for line in lines)


def tokens(*lines):
    return TOKENS + b"".join(line + b"\n" for line in lines)


def in_row(*terminals):
    """Tokens on one line, one column after the other."""
    return tokens(*[b"%d 1 %d" % (terminal, place + 1) for place, terminal in enumerate(terminals)])


NOTHING = tokens()
ONE = in_row(0)


# ----------------------------------------------------------- the paper's block

# block -> ||stmt||+, stmt -> nop | do block, and with the offside rule.
BLOCK = sheet(b"0 n1+:align", b"1 t0 | t1 n0")
OFFSIDE = sheet(b"0 n1+:align", b"1 t0 | (t1 n0):offside")
W1 = tokens(b"1 1 1", b"0 1 4", b"0 2 4")
W2 = tokens(b"1 1 1", b"0 1 4", b"0 2 1")
W3 = tokens(b"1 1 1", b"0 2 1", b"0 3 1")


def worked():
    yield b"one", ("clauses", BLOCK, W1)
    yield b"one", ("clauses", BLOCK, W2)
    yield b"two", ("clauses", BLOCK, W3)
    yield b"clear", ("sweep", BLOCK, 2)
    yield b"two", ("sweep", BLOCK, 3)
    yield b"one", ("clauses", OFFSIDE, W1)
    yield b"none", ("clauses", OFFSIDE, W3)
    yield b"clear", ("sweep", OFFSIDE, 4)
    yield b"given", ("expand", BLOCK, b"")
    yield b"given", ("expand", OFFSIDE, b"")


# ------------------------------------------------------------------ expansions

SOUND = (
    # each thing alone
    b"0 n1", b"0 t0", b"0 (t0)", b"0 t0?", b"0 t0+", b"0 t0*", b"0 t0+:align", b"0 t0*:align",
    b"0 (t0):offside", b"0 (t0):offalign", b"0 (t0):single", b"0 (t0)?", b"0 (t0)+", b"0 (t0)*",
    b"0 (t0)+:align", b"0 (t0)*:align", b"0 n1?", b"0 n1+", b"0 n1*", b"0 n1+:align",
    # sequences and what binds
    b"0 t0 t1", b"0 t0 t1 t2", b"0 t0 t1 t2 t3", b"0 t0 :align: t1", b"0 t0 :indent: t1",
    b"0 t0 :align: t1 t2", b"0 t0 t1 :align: t2", b"0 t0 :indent: t1 :align: t2 t3", b"0 n1 n2 n3 n4",
    b"0 t0? t1+ t2*", b"0 n1+ :align: n2", b"0 n1+:align :align: n2", b"0 (t0 t1) (t2 t3)+ t4",
    # alternatives
    b"0 t0 | t1", b"0 n1 | n2 | n3", b"0 t0 t1 | t2 t3 t4 | t5", b"0 t0 | t0 | t0", b"0 n1 | n1",
    # groups in groups
    b"0 ((t0))", b"0 (((t0))?)+", b"0 (t0 | (t1 | t2) t3):single | t4", b"0 ((t0 t1):offside (t2)*)+:align",
    b"0 (t0 :indent: n3? t1*) n0", b"0 (t0 | t1)? (t2 | t3)? (t4 | t5)?", b"0 ((((t0):single):offside):offalign)",
    # numbers
    b"0 n63", b"0 n62", b"0 n5 n7 n6", b"00 t00", b"00000 t00063 n00007", b"0 n004 | t007", b"0 t63",
)

SEVERAL = (
    (b"0 t0", b"0 t1"),
    (b"0 t0 n1", b"1 t1", b"0 t2", b"1 t3"),
    (b"5 t0", b"3 t1", b"0 n3 n5", b"5 t2 | t3"),
    (b"0 n9", b"9 t0+", b"20 n9 n21", b"0 t1"),
    (b"0 n1", b"1 n2", b"2 t0"),
    (b"0 n1+:align", b"1 t0 | (t1 n0):offside"),
    (b"63 t0", b"0 t1"),
    (b"0 t0",) * 20,
)


def expansions():
    for line in SOUND:
        yield None, ("expand", sheet(line), b"")
        yield None, ("clauses", sheet(line), ONE)
        yield None, ("clauses", sheet(line), in_row(0, 1, 2))
    for lines in SEVERAL:
        yield None, ("expand", sheet(*lines), b"")
        yield None, ("clauses", sheet(*lines), in_row(0, 1))
        yield None, ("sweep", sheet(*lines), 2)


# ------------------------------------------------------------------- refusal 1

def names():
    for text in (
        b"", b"\n", b"left clause", b"left clause \n", b" left clause\n", b"left  clause\n", b"left clause\r\n",
        b"left kind first second lay\n", b"Left clause\n", b"left clauses\n", b"\nleft clause\n0 t0\n",
    ):
        yield b"refused-1 1", ("clauses", text, ONE)
        yield b"refused-1 1", ("expand", text, b"")
        yield b"refused-1 1", ("sweep", text, 3)


# ------------------------------------------------------------------ refusal 41

ILL = (
    # the line
    b"", b" ", b"0", b"0 ", b" t0", b" 0 t0", b"0  t0", b"0\tt0", b"64 t0", b"99999 t0", b"000000 t0", b"-1 t0", b"a t0", b"0t0",
    b"0 t0 ", b"0 t0\r", b"0,t0",
    # items
    b"0 n", b"0 t", b"0 x1", b"0 N1", b"0 n64", b"0 t64", b"0 n99999", b"0 n000001", b"0 n1x", b"0 1", b"0 n-1", b"0 n 1", b"0 t0t1",
    b"0 n1n2", b"0 n+", b"0 nn1",
    # after an item
    b"0 n1??", b"0 n1?+", b"0 n1++", b"0 n1**", b"0 n1*?", b"0 (n1)+:offside", b"0 (n1):offside?", b"0 (n1):offside:single",
    b"0 n1:offside", b"0 t1:single", b"0 t0:offalign", b"0 t0?:single", b"0 n1:align", b"0 (n1):align", b"0 (n1):indent", b"0 (n1):none",
    b"0 (n1):Offside", b"0 (n1):off", b"0 (n1):", b"0 n1+:", b"0 n1+:alig", b"0 n1+:align:", b"0 n1+:align+", b"0 n1+:indent", b"0 n1?:align",
    b"0 ?", b"0 +", b"0 n1 ?", b"0 n1 +:align", b"0 (t0) :offside", b"0 n1+ :align",
    # between items
    b"0 t0  t1", b"0 t0 :align:", b"0 :align: t0", b"0 t0 :align: :align: t1", b"0 t0 :align:  t1", b"0 t0  :align: t1", b"0 t0:align: t1",
    b"0 t0 :align:t1", b"0 t0 :Align: t1", b"0 t0 :offside: t1", b"0 t0 :none: t1", b"0 t0 :indent t1", b"0 t0 :indent: | t1",
    b"0 t0 | :align: t1",
    # alternatives
    b"0 |", b"0 | t0", b"0 t0 |", b"0 t0 | ", b"0 t0| t1", b"0 t0 |t1", b"0 t0|t1", b"0 t0 || t1", b"0 t0 | | t1", b"0 t0  | t1", b"0 t0 |  t1",
    # groups
    b"0 ()", b"0 (", b"0 )", b"0 (t0", b"0 t0)", b"0 (t0))", b"0 ((t0)", b"0 )t0(", b"0 ( t0)", b"0 (t0 )", b"0 ( t0 )", b"0 (t0 | )",
    b"0 ( | t0)", b"0 (|)", b"0 (t0)(t1)", b"0 t0(t1)", b"0 (t0)t1", b"0 (t0 | t1", b"0 (t0 | t1))", b"0 (())", b"0 (()t0)", b"0 [t0]",
    b"0 (t0?", b"0 (t0)?)", b"0 (t0 :align: )", b"0 ?(t0)",
    # other bytes
    b"0 t0\x00", b"0 \xfft0", b"0 t\xb2", b"0 n\xd9\xa1", b"0 t0 \x01 t1",
)


def ill_written():
    for line in ILL:
        yield b"refused-41 2", ("clauses", sheet(line), ONE)
        yield b"refused-41 2", ("line", sheet(line), ONE)
        yield b"refused-41 4", ("expand", sheet(b"0 t0", b"1 t1", line, b"2 t2"), b"")
    for end in (b"0 t0", b"0", b"x", b" "):
        yield b"refused-41 2", ("clauses", NAMES + end, ONE)
        yield b"refused-41 3", ("line", sheet(b"0 t0") + end, ONE)
    yield b"refused-41 3", ("clauses", sheet(b"0 t0") + b"\n", ONE)
    yield b"refused-41 2", ("expand", NAMES + b"\n0 t0\n", b"")


# ------------------------------------------------------------------ refusal 42

def nested(levels, inside=b"t0", suffix=b""):
    return b"0 " + b"(" * levels + inside + (b")" + suffix) * levels


def deep():
    yield b"given", ("expand", sheet(nested(16)), b"")
    yield b"one", ("clauses", sheet(nested(16)), ONE)
    yield b"refused-42 2", ("clauses", sheet(nested(17)), ONE)
    yield b"refused-42 2", ("expand", sheet(nested(17)), b"")
    yield b"refused-42 2", ("line", sheet(nested(17)), ONE)
    yield b"refused-42 2", ("sweep", sheet(nested(17)), 3)
    yield b"given", ("expand", sheet(nested(16, b"t0", b":single")), b"")
    yield b"refused-42 2", ("expand", sheet(nested(17, b"t0", b":single")), b"")
    yield b"refused-42 2", ("expand", sheet(nested(17, b"t0", b"?")), b"")
    yield b"refused-42 2", ("clauses", sheet(nested(18)), ONE)
    yield b"refused-42 2", ("clauses", sheet(nested(100)), ONE)
    yield b"refused-42 2", ("clauses", sheet(nested(5000)), ONE)
    yield b"refused-41 2", ("clauses", sheet(b"0 " + b"(" * 9000), ONE)
    yield b"refused-41 2", ("clauses", sheet(b"0 " + b")" * 9000), ONE)
    # seventeen open in all, but never at once
    yield b"given", ("expand", sheet(b"0 " + b" ".join([b"(n1)"] * 17)), b"")
    yield b"given", ("expand", sheet(nested(15, b"(n1) (n2)")), b"")
    yield b"refused-42 2", ("expand", sheet(nested(15, b"((n1)) (n2)")), b"")
    yield b"refused-42 2", ("expand", sheet(nested(15, b"(n2) ((n1))")), b"")
    yield b"refused-42 2", ("expand", sheet(b"0 t0 | " + nested(17)[2:] + b" t0"), b"")
    # 41 and 42 in one line: 41
    yield b"refused-41 2", ("clauses", sheet(nested(17, b"")), ONE)
    yield b"refused-41 2", ("clauses", sheet(nested(17) + b")"), ONE)
    yield b"refused-41 2", ("clauses", sheet(nested(17) + b" "), ONE)
    yield b"refused-41 2", ("clauses", sheet(nested(17, b"t64")), ONE)
    yield b"refused-41 2", ("clauses", sheet(nested(17)[:-1]), ONE)
    yield b"refused-41 2", ("clauses", NAMES + nested(17), ONE)
    yield b"refused-41 2", ("clauses", sheet(b"64" + nested(17)[1:]), ONE)
    # in two lines: the first of them
    yield b"refused-42 2", ("clauses", sheet(nested(17), b"0 t64"), ONE)
    yield b"refused-41 2", ("clauses", sheet(b"0 t64", nested(17)), ONE)
    yield b"refused-42 3", ("line", sheet(b"0 t0", nested(17), b"x"), ONE)


# ------------------------------------------------------------------ refusal 43

def many():
    # a line of one `n` item has one new nonterminal and two rules
    yield b"given", ("expand", sheet(*[b"0 n0 n0"] * 63), b"")
    yield b"refused-43 0", ("expand", sheet(*[b"0 n0 n0"] * 64), b"")
    yield b"refused-43 0", ("clauses", sheet(*[b"0 n1"] * 63), ONE)
    yield b"given", ("expand", sheet(*[b"0 n1"] * 62), b"")
    yield b"refused-43 0", ("expand", sheet(b"63 n0"), b"")
    yield b"refused-43 0", ("expand", sheet(b"0 n63"), b"")
    yield b"given", ("expand", sheet(b"0 n62"), b"")
    yield b"refused-43 0", ("expand", sheet(b"0 n62 | n62"), b"")
    yield b"refused-43 0", ("expand", sheet(b"0 t0", b"62 n0"), b"")
    # a row of terminals: an alternative, and a rest and a terminal each
    yield b"given", ("expand", sheet(b"0 " + b" ".join([b"t0"] * 32)), b"")
    yield b"refused-43 0", ("expand", sheet(b"0 " + b" ".join([b"t0"] * 33)), b"")
    yield b"given", ("expand", sheet(b"0 " + b" ".join([b"n0"] * 64)), b"")
    yield b"refused-43 0", ("expand", sheet(b"0 " + b" ".join([b"n0"] * 65)), b"")
    yield b"given", ("expand", sheet(b"0 " + b" | ".join([b"t0"] * 31)), b"")
    yield b"refused-43 0", ("expand", sheet(b"0 " + b" | ".join([b"t0"] * 32)), b"")
    yield b"given", ("expand", sheet(b"0 " + b" ".join([b"t0+"] * 16)), b"")
    yield b"refused-43 0", ("expand", sheet(b"0 " + b" ".join([b"t0+"] * 17)), b"")
    yield b"given", ("expand", sheet(b"0 " + b" ".join([b"n0?"] * 32)), b"")
    yield b"refused-43 0", ("expand", sheet(b"0 " + b" ".join([b"n0?"] * 33)), b"")
    yield b"refused-43 0", ("clauses", sheet(*[b"0 n1 n2 n3"] * 700), ONE)
    yield b"refused-43 0", ("line", sheet(b"0 n63"), ONE)


# ------------------------------------------------------- refusals at one another

def ends():
    yield b"refused-7 0", ("clauses", NAMES, ONE)
    yield b"refused-7 0", ("expand", sheet(b"1 t0"), b"")
    yield b"refused-7 0", ("clauses", sheet(b"1 n1"), ONE)
    yield b"none", ("clauses", sheet(b"0 n0"), ONE)
    yield b"given", ("expand", sheet(b"0 (t0?)*"), b"")
    yield b"given", ("expand", sheet(b"0 t0", b"1 n2", b"2 n1 | t0"), b"")
    yield b"clear", ("sweep", sheet(b"0 t0? n0 t0*"), 2)
    yield b"none 0", ("line", sheet(b"0 n0"), ONE)
    yield b"given", ("expand", sheet(b"0 t0 n0?"), b"")


def competing():
    # the names, then line by line, then 43, 7
    yield b"refused-1 1", ("clauses", b"left clauses\n0 t64\n", ONE)
    yield b"refused-41 2", ("clauses", sheet(b"0 x", *[b"0 n0 n0"] * 64), ONE)
    yield b"refused-41 66", ("clauses", sheet(*[b"0 n0 n0"] * 64, b"0 x"), ONE)
    yield b"refused-42 66", ("clauses", sheet(*[b"0 n0 n0"] * 64, nested(17)), ONE)
    yield b"refused-43 0", ("clauses", sheet(b"1 n63"), ONE)
    yield b"refused-43 0", ("clauses", sheet(b"1 n1 n63"), ONE)
    yield b"refused-43 0", ("clauses", sheet(b"0 n0", b"63 t0"), ONE)
    yield b"refused-7 0", ("clauses", sheet(b"2 n1", b"1 n2"), ONE)
    # the clause sheet before the token sheet
    yield b"refused-41 2", ("clauses", sheet(b"0 x"), b"")
    yield b"refused-11 1", ("clauses", sheet(b"0 n0"), b"term\n")
    yield b"refused-11 1", ("clauses", sheet(b"0 t0"), b"term line\n")
    yield b"refused-12 2", ("clauses", sheet(b"0 t0"), TOKENS + b"0 1\n")
    yield b"refused-13 2", ("clauses", sheet(b"0 t0"), TOKENS + b"64 1 1\n")
    yield b"refused-15 3", ("clauses", sheet(b"0 t0"), TOKENS + b"0 1 1\n0 1 1\n")
    for kind in ("clauses", "line"):
        yield None, (kind, sheet(b"0 x"), TOKENS + b"x\n")
        yield None, (kind, sheet(b"0 t0"), TOKENS + b"0 1 1\nxyz\n")
        yield None, (kind, sheet(b"0 t0"), TOKENS + b"0 1 1\n0 1 1")
        yield None, (kind, sheet(b"0 t0"), b"")
        yield None, (kind, b"left", b"")
        yield None, (kind, sheet(b"1 t0"), TOKENS + b"x\n")
        yield None, (kind, sheet(b"0 t0"), ONE)
    # the sweep's own
    yield b"refused-41 2", ("sweep", sheet(b"0 x"), 0)
    yield b"refused-23 0", ("sweep", sheet(b"0 t0"), 0)
    yield b"refused-23 0", ("sweep", sheet(b"0 t0"), 8)
    yield b"refused-24 0", ("sweep", sheet(b"0 t0 | t1 | t2 | t3 | t4 | t5 | t6 | t7"), 5)
    yield b"clear", ("sweep", sheet(b"0 t0"), 4)
    yield b"two", ("sweep", sheet(b"0 t0 | t0"), 1)


def meant():
    for part in (worked, names, ill_written, deep, many, ends, competing):
        for answer, case in part():
            if answer is not None:
                yield answer, case


# ------------------------------------------------------------ drawn by chance

def some_item(chance, depth):
    pick = chance.random()
    if depth > 0 and pick < 0.3:
        text = b"(" + some_alternatives(chance, depth - 1) + b")"
        after = (b"", b"", b"?", b"+", b"*", b"+:align", b"*:align", b":offside", b":offalign", b":single")
    elif pick < 0.7:
        text, after = b"t%d" % chance.randrange(3), (b"", b"", b"", b"?", b"+", b"*", b"+:align", b"*:align")
    else:
        text, after = b"n%d" % chance.randrange(3), (b"", b"", b"", b"?", b"+", b"*", b"+:align")
    return text + chance.choice(after)


def some_sequence(chance, depth):
    text = some_item(chance, depth)
    for _ in range(chance.choice((0, 0, 1, 1, 2))):
        text += chance.choice((b" ", b" ", b" :align: ", b" :indent: ")) + some_item(chance, depth)
    return text


def some_alternatives(chance, depth):
    return b" | ".join(some_sequence(chance, depth) for _ in range(chance.choice((1, 1, 2, 3))))


def some_sheet(chance):
    lines = [b"%d %s" % (left, some_alternatives(chance, 2)) for left in range(chance.choice((1, 2, 3)))]
    return sheet(*lines)


def some_tokens(chance, most=4):
    line, col, found = 1, 1, []
    for _ in range(chance.randrange(most + 1)):
        if chance.random() < 0.5:
            line, col = line + chance.choice((1, 1, 2)), chance.randrange(1, 4)
        else:
            col += 1
        found.append(b"%d %d %d" % (chance.randrange(3), line, col))
        col += 1
    return tokens(*found)


def damaged(chance, text):
    """One byte changed, dropped, put in, or two parts exchanged."""
    place = chance.randrange(len(text) + 1)
    one = chance.choice((b" ", b"|", b"(", b")", b"?", b"+", b"*", b":", b"n", b"t", b"0", b"9", b"\n", b"align"))
    pick = chance.randrange(3)
    if pick == 0:
        return text[:place] + one + text[place:]
    if pick == 1:
        return text[:place] + text[place + 1 :]
    return text[:place] + one + text[place + 1 :]


def by_chance(count=250, seed=2):
    chance = random.Random(seed)
    for _ in range(count):
        clauses = some_sheet(chance)
        yield None, ("clauses", clauses, some_tokens(chance))
        yield None, ("sweep", clauses, chance.choice((1, 2)))
        yield None, ("expand", clauses, b"")
        broken = damaged(chance, clauses)
        yield None, ("expand", broken, b"")
        yield None, ("line", broken, some_tokens(chance, 2))


def cases():
    for _, case in meant():
        yield case
    for part in (expansions, competing, by_chance):
        for answer, case in part():
            if answer is None:
                yield case
