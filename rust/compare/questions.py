"""Questions to the library and to the reference, drawn by chance.

A question is a line of text: a call, its sheets in base 16 (`-` for no bytes),
its bound, and the sizes of the memory that it is lent. The salt at the end says
what lies in that memory before the call.

    verdict RULES TOKENS WORDS SALT
    trees RULES TOKENS WORDS FIRST SECOND SALT
    line RULES TOKENS
    sweep RULES BOUND WORDS SALT
    rows RULES TOKENS WORDS SALT
    places RULES TOKENS WORDS LIST SALT
    always RULES WORDS LIST SALT
    expand CLAUSES SHEET SALT
    share RULES LENGTH RACKS INDEX WORDS SALT
    merge RULES LENGTH RACKS INDEX LENGTH RACKS INDEX
    columns RULES RANGES WORDS SALT
    show RULES TOKENS RIGHTS USER WORDS FIRST SECOND SALT
    change RULES RIGHTS LAY USER RULE SHEET SALT

The first four and `always` have `clause-` before their name where the sheet is
a clause sheet.
"""

import random

import always
import always_cases
import clauses
import places
import sheets
import teplonga
from teplonga import MOST_TOKENS, START, Rule, words_needed


def hexed(data):
    return data.hex() or "-"


def salt(chance):
    return str(chance.randrange(1 << 32))


# ----------------------------------------------------------------- both sheets

def sound(chance, least, most):
    rules = sheets.sound_rules(chance)
    tokens = sheets.sentence(chance, rules, least, most)
    written = (sheets.rule_sheet(rules), sheets.token_sheet(chance, tokens))
    if chance.random() < 0.25:
        return tuple(sheets.padded(chance, sheet) for sheet in written)
    return written


def short(chance):
    """Up to ten tokens, drawn anew a few times until a wanted answer comes."""
    wanted = chance.choice(["none", "one", "two", "two"])
    for _ in range(8):
        least = chance.choice([0, 1, 2, 3, 4])
        rules, tokens = sound(chance, least, least + chance.choice([0, 1, 2, 4, 6]))
        reading = teplonga.read_tokens(tokens)
        if reading[0] == "refused":
            break
        if teplonga.verdict(teplonga.read_rules(rules)[1], reading[1]) == wanted:
            break
    return (rules, tokens)


def rules_damaged(chance):
    rules, tokens = sound(chance, 0, 4)
    return (sheets.damaged(chance, rules), tokens)


def tokens_damaged(chance):
    rules, tokens = sound(chance, 2, 6)
    return (rules, sheets.damaged(chance, tokens))


def both_damaged(chance):
    rules, tokens = sound(chance, 0, 4)
    return (sheets.damaged(chance, rules), sheets.damaged(chance, tokens))


def without_trees(chance):
    """A sheet without the start or with a cycle, beside any tokens."""
    rules = sheets.refused_rules(chance)
    return (sheets.rule_sheet(rules), sheets.token_sheet(chance, sheets.sentence(chance, rules, 0, 4)))


def loose(chance):
    """Rules drawn without asking whether they are accepted."""
    rules = sheets.few_rules(chance)
    return (sheets.rule_sheet(rules), sheets.token_sheet(chance, sheets.sentence(chance, rules, 0, 4)))


def much(chance):
    """About 128 rules, sound or damaged, and a few tokens."""
    count = chance.choice([100, 127, 128, 128, 129, 129, 130])
    rules = sheets.many_rules(chance, count)
    sheet = sheets.rule_sheet(rules)
    if chance.random() < 0.2:
        sheet = sheets.damaged(chance, sheet)
    return (sheet, sheets.token_sheet(chance, sheets.sentence(chance, rules, 0, 5)))


def junked(chance):
    rules, tokens = sound(chance, 0, 4)
    return chance.choice([(sheets.junk(chance), tokens), (rules, sheets.junk(chance))])


def long_tokens(chance, rules, count):
    return sheets.token_sheet(chance, sheets.placed(chance, sheets.any_terminals(chance, rules, count)))


def past_64(chance):
    """65 tokens or more, or 63 or 64 that are damaged enough to be refused."""
    rules = sheets.sound_rules(chance)
    if chance.random() < 0.5:
        tokens = long_tokens(chance, rules, chance.choice([65, 65, 66, 70]))
    else:
        tokens = sheets.damaged(chance, long_tokens(chance, rules, chance.choice([63, 64])))
        if teplonga.read_tokens(tokens)[0] == "accepted":
            tokens = tokens[:-1]
    return (sheets.rule_sheet(rules), tokens)


# Each with how often it is drawn; those of `short` are accepted, most others
# are refused.
UNSOUND = {
    rules_damaged: 14,
    tokens_damaged: 14,
    both_damaged: 3,
    without_trees: 3,
    loose: 3,
    much: 2,
    junked: 2,
    past_64: 2,
}
PAIRS = {short: 60, **UNSOUND}


def drawn(chance, weights):
    """What one of these makes."""
    return chance.choices(list(weights), list(weights.values()))[0](chance)


# ----------------------------------------------------------------- lent memory

def lent_words(chance, needed):
    """Enough, more, one short, fewer or none."""
    way = chance.random()
    if way < 0.45:
        return needed
    if way < 0.8:
        return needed + chance.randint(1, 40)
    if way < 0.9:
        return max(needed - 1, 0)
    return chance.choice([0, 1, 2, chance.randint(0, needed)])


def words_of_pair(chance, tokens):
    reading = teplonga.read_tokens(tokens)
    count = len(reading[1]) if reading[0] == "accepted" else chance.randint(0, 6)
    return lent_words(chance, words_needed(count))


def rows_of_pair(rules, tokens):
    """The row counts of both trees, 0 where there is none."""
    readings = (teplonga.read_rules(rules), teplonga.read_tokens(tokens))
    if any(reading[0] == "refused" for reading in readings):
        return (0, 0)
    trees = teplonga.two_trees(readings[0][1], readings[1][1])
    return tuple(teplonga.row_count(tree) for tree in trees)


def lent_bytes(chance, rows):
    """About so many rows: just enough, more, one byte short, fewer or none."""
    enough = 4 * min(rows, 5_000)
    way = chance.random()
    if way < 0.35:
        return enough + chance.randint(0, 3)
    if way < 0.8:
        return enough + chance.randint(1, 60)
    if way < 0.9:
        return max(enough - 1, 0)
    return chance.choice([0, 3, chance.randint(0, enough)])


# -------------------------------------------------------------------- the calls

def verdict(chance, rules, tokens):
    words = words_of_pair(chance, tokens)
    return f"verdict {hexed(rules)} {hexed(tokens)} {words} {salt(chance)}"


def trees(chance, rules, tokens):
    words = words_of_pair(chance, tokens)
    first, second = (lent_bytes(chance, rows) for rows in rows_of_pair(rules, tokens))
    return f"trees {hexed(rules)} {hexed(tokens)} {words} {first} {second} {salt(chance)}"


def line(rules, tokens):
    return f"line {hexed(rules)} {hexed(tokens)}"


def rows(chance, rules, tokens):
    words = words_of_pair(chance, tokens)
    return f"rows {hexed(rules)} {hexed(tokens)} {words} {salt(chance)}"


def list_of_pair(rules, tokens):
    """How many places there are."""
    readings = (teplonga.read_rules(rules), teplonga.read_tokens(tokens))
    if any(reading[0] == "refused" for reading in readings):
        return 0
    return len(places.all_places(teplonga.Grammar(readings[0][1]), tuple(readings[1][1])))


def all_places(chance, rules, tokens):
    words, count = words_of_pair(chance, tokens), list_of_pair(rules, tokens)
    size = chance.choice([3 * count, 3 * count + 2, 3 * count + 40, max(3 * count - 1, 0), chance.randint(0, 3 * count)])
    return f"places {hexed(rules)} {hexed(tokens)} {words} {size} {salt(chance)}"


def sweep(chance, rules, bound):
    words = lent_words(chance, words_needed(min(bound, 9)))
    return f"sweep {hexed(rules)} {bound} {words} {salt(chance)}"


# ------------------------------------------------------------------- the sweeps

def position_count(length):
    """The positions of candidates of this length: columns from 1 to it."""
    ways = [1] * length
    for _ in range(length - 1):
        total = sum(ways)
        ways = [sum(ways[:col]) + 2 * total for col in range(length)]
    return sum(ways)


POSITIONS = {length: position_count(length) for length in range(1, 8)}


def candidate_count(terminals, bound):
    return sum(terminals**length * POSITIONS[length] for length in range(1, bound + 1))


def ends_within(rules, bound, most):
    """Does the reference's search end after at most so many candidates?"""
    grammar, left = teplonga.Grammar(rules), most
    terminals = teplonga.terminals_of(rules)
    for length in range(1, bound + 1):
        for candidate in teplonga.candidates(terminals, length):
            if left == 0:
                return False
            if grammar.count(START, candidate) == 2:
                return True
            left -= 1
    return True


def bearable(rules, bound, most):
    """This bound, or the greatest one with so few candidates."""
    if bound > 7 or ends_within(rules, bound, most):
        return bound
    terminals = len(teplonga.terminals_of(rules))
    return max(k for k in range(1, 8) if k == 1 or candidate_count(terminals, k) <= most)


def small_sweep(chance):
    """Half of them are drawn anew a few times until their bound is bearable,
    which it mostly is where a sentence is found early."""
    most = chance.choice([100, 400, 400, 1_000])
    wanted = chance.random() < 0.5
    for _ in range(8):
        rules = sheets.sound_rules(chance)
        asked = chance.randint(1, 7)
        bound = bearable(rules, asked, most)
        if not wanted or bound == asked:
            break
    return sweep(chance, sheets.rule_sheet(rules), bound)


def late_sweep(chance):
    """Sentences of up to five tokens, which take the reference some time."""
    rules = sheets.late_rules(chance)
    return sweep(chance, sheets.rule_sheet(rules), bearable(rules, chance.randint(2, 6), 5_000))


def refused_sweep(chance):
    rules, _ = chance.choice([rules_damaged, rules_damaged, without_trees, much])(chance)
    reading = teplonga.read_rules(rules)
    bound = chance.randint(0, 9)
    if reading[0] == "accepted":
        bound = bearable(reading[1], bound, 100)
    return sweep(chance, rules, bound)


def bound_off(chance):
    rules = sheets.rule_sheet(sheets.sound_rules(chance))
    bound = chance.choice([0, 8, 9, 10, 99, 256, (1 << 32) + 1, (1 << 64) - 1])
    return sweep(chance, rules, bound)


def about_the_limit(chance):
    """Many terminals, the least of which has two trees at once."""
    terminals = sorted(chance.sample(range(64), chance.choice([1, 2, 3, 7, 8, 28, 29, 64])))
    rules = [Rule(START, "A", terminal, None, "none") for terminal in terminals]
    rules += [Rule(START, "U", 9, None, "single"), Rule(9, "A", terminals[0], None, "none")]
    chance.shuffle(rules)
    return sweep(chance, sheets.rule_sheet(rules), chance.randint(1, 7))


SWEEPS = {small_sweep: 70, refused_sweep: 20, bound_off: 5, about_the_limit: 5}


# --------------------------------------------------------------- clause sheets

def nested(chance):
    """Groups within groups, to sixteen levels or deeper, and a few tokens."""
    depth = chance.choice([16, 17, 18])
    sheet = f"left clause\n0 {'(' * depth}t0{')' * depth}\n".encode()
    return sheet, long_tokens(chance, [Rule(START, "A", 0, None, "none")], chance.randint(0, 3))


def clause_pair(chance):
    """A clause sheet and a token sheet; one of them is damaged now and then."""
    if chance.random() < 0.02:
        return nested(chance)
    for _ in range(4):
        sheet = sheets.clause_sheet(chance)
        reading = clauses.read_clauses(sheet)
        if reading[0] == "accepted":
            break
    rules = reading[1] if reading[0] == "accepted" else sheets.sound_rules(chance)
    tokens = sheets.token_sheet(chance, sheets.sentence(chance, rules, 0, 5))
    way = chance.random()
    if way < 0.2:
        return sheets.clauses_damaged(chance, sheet), tokens
    if way < 0.3:
        return sheet, sheets.damaged(chance, tokens)
    if way < 0.35:
        return sheet, drawn(chance, {tokens_damaged: 3, past_64: 1})[1]
    return sheet, tokens


def of_clauses(chance):
    """One of the calls that both kinds of sheet have."""
    sheet, tokens = clause_pair(chance)
    way, words = chance.random(), words_of_pair(chance, tokens)
    if way < 0.15:
        return f"clause-line {hexed(sheet)} {hexed(tokens)}"
    if way < 0.55:
        return f"clause-verdict {hexed(sheet)} {hexed(tokens)} {words} {salt(chance)}"
    reading, rows = clauses.read_clauses(sheet), (0, 0)
    if reading[0] == "accepted":
        rows = rows_of_pair(sheets.rule_sheet(reading[1]), tokens)
    first, second = (lent_bytes(chance, count) for count in rows)
    return f"clause-trees {hexed(sheet)} {hexed(tokens)} {words} {first} {second} {salt(chance)}"


def of_many_terminals(chance):
    """A clause sheet with more terminals than a long sweep takes."""
    count = chance.randint(8, 24)
    sheet = f"left clause\n0 {' | '.join(f't{terminal}' for terminal in range(count))}\n".encode()
    bound = chance.randint(5, 7)
    return f"clause-sweep {hexed(sheet)} {bound} {words_needed(bound)} {salt(chance)}"


def of_a_clause_sweep(chance):
    if chance.random() < 0.05:
        return of_many_terminals(chance)
    sheet, _ = clause_pair(chance)
    reading, bound = clauses.read_clauses(sheet), chance.randint(0, 8)
    if reading[0] == "accepted":
        bound = bearable(reading[1], bound, 100)
    words = lent_words(chance, words_needed(min(bound, 9)))
    return f"clause-sweep {hexed(sheet)} {bound} {words} {salt(chance)}"


def of_an_expansion(chance):
    sheet, _ = clause_pair(chance)
    if chance.random() < 0.2:
        sheet = sheets.clauses_damaged(chance, sheet)
    reading, size = clauses.read_clauses(sheet), 40
    if reading[0] == "accepted":
        size = len(clauses.rule_sheet(reading[1]))
    size = chance.choice([size, size + 1, size + 90, size - 1, chance.randint(0, size)])
    return f"expand {hexed(sheet)} {size} {salt(chance)}"


# ------------------------------------------------------------- at every length

# The reference takes its time on sheets of more rules.
MOST_DOUBTED = 9


def at_every_length(chance, call, sheet, reading):
    """Words enough, more, one short or few; bytes about those of the list."""
    words = always.NEEDED + chance.choice([0, 0, 0, 0, 1, 5])
    if chance.random() < 0.1:
        words = chance.choice([0, 1, 20, 20, always.NEEDED - 1])
    size = 4 * len(always.answer_on(reading)[2]) if reading[0] == "accepted" else 0
    size = chance.choice([size, size + 3, size + 40, max(size - 1, 0), chance.randint(0, size)])
    return f"{call} {hexed(sheet)} {words} {size} {salt(chance)}"


def is_heavy(reading):
    return reading[0] == "accepted" and len(reading[1]) > MOST_DOUBTED


def of_always(chance):
    sheet = always_cases.drawn_rules(chance)
    if chance.random() < 0.3:
        other = drawn(chance, UNSOUND)[0]
        sheet = sheet if is_heavy(teplonga.read_rules(other)) else other
    return at_every_length(chance, "always", sheet, teplonga.read_rules(sheet))


def of_clause_always(chance):
    sheet = nested(chance)[0]
    if chance.random() < 0.95:
        sheet, _ = clause_pair(chance)
    while is_heavy(clauses.read_clauses(sheet)):
        sheet, _ = clause_pair(chance)
    return at_every_length(chance, "clause-always", sheet, clauses.read_clauses(sheet))


# ------------------------------------------------------------ shares and columns

def of_a_share(chance):
    """Shares of few arrangements, and refusals."""
    rules = sheets.rule_sheet(sheets.sound_rules(chance))
    if chance.random() < 0.15:
        rules = drawn(chance, UNSOUND)[0]
    reading = teplonga.read_rules(rules)
    count = len(teplonga.terminals_of(reading[1])) if reading[0] == "accepted" else 1
    length = next((n for n in (3, 2, 1) if count**n * 3 ** (n - 1) * n**n <= 600), 1)
    if chance.random() < 0.1:
        length = chance.choice([0, 8, 99, (1 << 64) - 1] + ([7, 7, 7] if count > 4 else []))
    racks = chance.choice([1, 2, 3, 5, 12, 64, 64, 0, 65])
    index = chance.choice([0, racks - 1 if racks else 0, racks, chance.randint(0, 70)])
    words = lent_words(chance, words_needed(min(length, 9)))
    return f"share {hexed(rules)} {length} {racks} {index} {words} {salt(chance)}"


def of_a_merge(chance):
    """Two shares of one rule sheet, most of them of the same length."""
    _, rules, *one = of_a_share(chance).split()[:5]
    two = [*one[:2], str(chance.randint(0, 12))]
    if chance.random() < 0.4:
        two = [chance.choice(["1", "2", "9"]), *two[1:]]
    return " ".join(["merge", rules, *(one + two if chance.random() < 0.5 else two + one)])


def of_columns(chance):
    """A token sheet's tokens with ends about their columns; some ends are damaged."""
    rules, tokens = sound(chance, 0, 5)
    reading = teplonga.read_tokens(tokens)
    lines = []
    for token in reading[1] if reading[0] == "accepted" else []:
        low = max(1, token.col - chance.choice([0, 0, 1, 2]))
        high = min(65_535, token.col + chance.choice([0, 0, 0, 1, 2]))
        if chance.random() < 0.02:
            low, high = high, low
        if chance.random() < 0.01:
            high = min(65_535, low + chance.choice([300, 65_534]))
        lines.append(f"{token.term} {token.line} {low} {high}\n")
    sheet = ("term line low high\n" + "".join(lines)).encode()
    if chance.random() < 0.2:
        sheet = sheets.damaged(chance, sheet)
    if chance.random() < 0.02:
        sheet = ("term line low high\n" + "0 1 1 1\n" * chance.choice([65, 66])).encode()
    if chance.random() < 0.1:
        rules = drawn(chance, UNSOUND)[0]
    words = lent_words(chance, words_needed(len(lines)))
    return f"columns {hexed(rules)} {hexed(sheet)} {words} {salt(chance)}"


# ----------------------------------------------------------------- shared tours

def rights_sheet(chance):
    """A few lines of users 4 and 5; some are damaged."""
    lines = []
    for _ in range(chance.choice([0, 1, 1, 2, 3])):
        low, high = sorted(chance.choice([0, 1, 2, 3, 9, 63]) for _ in range(2))
        lines.append(f"{chance.choice([4, 5, 5, 5])} {low} {high} {chance.choice(['see', 'change'])}\n")
    sheet = ("user low high may\n" + "".join(lines)).encode()
    return sheets.damaged(chance, sheet) if chance.random() < 0.15 else sheet


def of_a_tour(chance):
    rules, tokens = drawn(chance, PAIRS)
    words, rights = words_of_pair(chance, tokens), rights_sheet(chance)
    user = chance.choice([5, 5, 5, 5, 0, 16, (1 << 64) - 1])
    first, second = (lent_bytes(chance, rows) for rows in rows_of_pair(rules, tokens))
    return f"show {hexed(rules)} {hexed(tokens)} {hexed(rights)} {user} {words} {first} {second} {salt(chance)}"


def of_a_change(chance):
    rules, _ = drawn(chance, {short: 400, **UNSOUND})
    rights = rights_sheet(chance) if chance.random() < 0.4 else b"user low high may\n5 0 63 change\n"
    rule = chance.choice([1, 1, 2, 3, 0, len(rules.splitlines()) - 1, len(rules.splitlines())])
    lay = chance.choice(["none", "align", "indent", "offside", "offalign", "single", "", "foo", "none ", "a\nb"])
    size = chance.choice([len(rules) + 8, len(rules) + 40, max(len(rules) - 8, 0), chance.randint(0, len(rules))])
    user = chance.choice([5, 5, 5, 4, 16])
    return f"change {hexed(rules)} {hexed(rights)} {hexed(lay.encode())} {user} {max(rule, 0)} {size} {salt(chance)}"


# --------------------------------------------------------------- what is drawn

def long_sentence(chance):
    """11 to 24 tokens."""
    return call(chance, sound(chance, 11, 24))


def full_sentence(chance):
    """63 or 64 tokens under few rules; the reference takes a second."""
    while True:
        rules = sheets.varied(chance, chance.choice(sheets.ENDLESS))
        sheet = sheets.rule_sheet(rules)
        if sheets.accepted(sheet):
            count = chance.choice([MOST_TOKENS - 1, MOST_TOKENS])
            terminals = [chance.choice(teplonga.terminals_of(rules)) for _ in range(count)]
            return call(chance, (sheet, sheets.token_sheet(chance, sheets.placed(chance, terminals))))


def call(chance, both):
    """A call on one sentence."""
    return chance.choice([verdict, trees])(chance, *both)


def of_a_verdict(chance):
    return verdict(chance, *drawn(chance, PAIRS))


def of_trees(chance):
    return trees(chance, *drawn(chance, PAIRS))


def of_counts(chance):
    return rows(chance, *drawn(chance, PAIRS))


def of_places(chance):
    return all_places(chance, *drawn(chance, PAIRS))


def of_a_line(chance):
    return line(*drawn(chance, {short: 5, **UNSOUND}))


def of_a_sweep(chance):
    return drawn(chance, SWEEPS)


# In thousandths; few questions are costly.
QUESTIONS = {
    of_a_verdict: 110,
    of_trees: 160,
    of_counts: 100,
    of_places: 100,
    of_a_line: 60,
    of_a_sweep: 110,
    of_clauses: 110,
    of_a_clause_sweep: 24,
    of_an_expansion: 30,
    of_a_share: 30,
    of_a_merge: 20,
    of_columns: 40,
    of_a_tour: 50,
    of_a_change: 40,
    of_always: 6,
    of_clause_always: 4,
    late_sweep: 15,
    long_sentence: 30,
    full_sentence: 1,
}


def questions(count, seed):
    """So many questions, the same ones for the same seed."""
    chance = random.Random(seed)
    for _ in range(count):
        yield drawn(chance, QUESTIONS)


# Where the calls come up.
DRAWN_BY = {
    "verdict": of_a_verdict,
    "trees": of_trees,
    "rows": of_counts,
    "places": of_places,
    "line": of_a_line,
    "sweep": of_a_sweep,
    "clause-verdict": of_clauses,
    "clause-trees": of_clauses,
    "clause-line": of_clauses,
    "clause-sweep": of_a_clause_sweep,
    "expand": of_an_expansion,
    "share": of_a_share,
    "merge": of_a_merge,
    "columns": of_columns,
    "show": of_a_tour,
    "change": of_a_change,
    "always": of_always,
    "clause-always": of_clause_always,
}


def of_call(call, seed, count):
    """So many questions, those of this call among them."""
    chance = random.Random(seed)
    drawn_questions = (DRAWN_BY[call](chance) for _ in range(count))
    return (question for question in drawn_questions if question.startswith(f"{call} "))
