"""Cases for the readers of the two sheets: (rule sheet, token sheet) pairs.

`cases()` yields them in a fixed order; the damage at the end is seeded and
the same on every run.  The functions with `refused` or `accepted` in their
name say what is meant to become of their sheets; the self test asks the
reference whether it is so.
"""

import random
import re

RULE_NAMES = b"left kind first second lay"
TOKEN_NAMES = b"term line col"
WIDE_NAMES = b"term line col width"


def sheet(names, lines):
    return b"".join(line + b"\n" for line in [names, *lines])


def rules(*lines):
    return sheet(RULE_NAMES, lines)


def tokens(*lines):
    return sheet(TOKEN_NAMES, lines)


def wide_tokens(*lines):
    return sheet(WIDE_NAMES, lines)


def padded(text, digits):
    """Each number with zeros before it, to so many digits."""
    return re.sub(rb"[0-9]+", lambda number: number[0].rjust(digits, b"0"), text)


# Short accepted sheets, to go with a sheet under trial.
RULES = rules(b"0 B 0 0 none", b"0 A 0 - none")
TOKENS = tokens(b"0 1 1", b"0 1 2")

# Accepted sheets of all kinds, which also get damaged.
ALL_KINDS = rules(
    b"0 U 1 - offside",
    b"1 B 2 3 align",
    b"1 U 2 - single",
    b"2 A 10 - none",
    b"3 B 4 2 indent",
    b"3 E - - none",
    b"4 U 2 - offalign",
    b"63 A 63 - none",
)
SPREAD = tokens(
    b"0 1 1", b"63 1 2", b"10 2 1", b"9 65535 1", b"10 65535 65534", b"1 65535 65535"
)


def many_rules(count):
    lines = [b"%d A %d - none" % (n // 64, n % 64) for n in range(count)]
    return rules(*lines)


def many_tokens(count):
    return tokens(*[b"%d 1 %d" % (n % 64, n + 1) for n in range(count)])


# --------------------------------------------------------- the line of names

def refused_names(names):
    """First lines that are not the names, so ended: refusals 1 and 11."""
    yield b""
    yield b"\n"
    yield names
    yield names + b" \n"
    yield b" " + names + b"\n"
    yield names + b"\r\n"
    yield names.replace(b" ", b"  ", 1) + b"\n"
    yield b"\n" + names + b"\n"


# --------------------------------------------------------------- rule sheets

def refused_rule_form():
    """Refusal 2 in its kinds."""
    good = b"0 A 0 - none"
    # Not ended.
    yield rules(good)[:-1]
    yield rules(good, b"1 A 0 - none")[:-1]
    yield rules(good) + b" "
    # One byte 10 too many at the end; an empty line first, and inside.
    yield rules(good) + b"\n"
    yield rules(b"", good)
    yield rules(good, b"", b"1 A 0 - none")
    for line in (
        # Parting.
        b"1  A 0 - none",
        b"1 A 0 - none ",
        b" 1 A 0 - none",
        b"1 A 0 - none\r",
        b"1 A 0 - none\0",
        b"1\tA 0 - none",
        b"1 A 0 none",
        b"1 A 0 - - none",
        b"    ",
        # Unknown words.
        b"1 a 0 - none",
        b"1 C 0 - none",
        b"1 A 0 - None",
        b"1 U 2 - off",
        b"1 A 0 - \xff",
        # `-` where a number belongs, and the reverse.
        b"- A 0 - none",
        b"1 A - - none",
        b"1 U - - none",
        b"1 B - 2 none",
        b"1 B 2 - none",
        b"1 E 0 - none",
        b"1 E - 0 none",
        b"1 U 2 2 none",
        b"1 E - 3 none",
        b"1 A - 3 none",
        b"1 A 0 000003 none",
        b"1 A 0 - - none",
        b"1 A 0 x none",
        # Digits.
        b"000001 A 0 - none",
        b"1 A 000000 - none",
        b"1 U 000002 - none",
        b"1 B 2 000002 none",
        b"1 A 100000 - none",
        b"1 A 0000000000000000000001 - none",
        b"1 A -1 - none",
        b"1 A \xb2 - none",
        # 2 before 3, 4 and 5.
        b"1 E 64 - none",
        b"64 A 000000 - align",
        b"0 A 0 - none ",
    ):
        yield rules(good, line)


def refused_rule_values():
    """Refusals 3, 4, 5, and which comes first."""
    good = b"0 A 0 - none"
    for line in (
        b"64 A 0 - none",
        b"99 A 0 - none",
        b"1 A 64 - none",
        b"1 U 99 - none",
        b"1 B 64 2 none",
        b"1 B 2 64 none",
        b"100 A 0 - none",
        b"0064 A 0 - none",
        b"1 A 00064 - none",
        b"1 B 2 99999 none",
        b"1 E - - single",
        b"1 A 0 - offside",
        b"1 U 2 - align",
        b"1 B 2 2 offside",
        b"1 B 2 2 single",
        # 3 before 4, 4 before 5, 5 alone.
        b"64 A 0 - offside",
        b"1 B 2 99 single",
        b"0 A 0 - align",
        b"0 A 0 - none",
        # 5 by the value.
        b"00 A 000 - none",
        b"00000 A 0 - none",
        # Ranges: 3, 44, 5, and their order: 3, 4, 44, 5.
        b"1 A 0 64 none",
        b"1 A 64 64 none",
        b"1 A 5 4 none",
        b"1 A 63 0 none",
        b"1 A 65 64 none",
        b"1 A 5 4 align",
        b"0 A 1 0 none",
        b"0 A 0 0 none",
        b"0 A 0 63 none",
    ):
        yield rules(good, line)
    # 5 under the same lay and under another one.
    yield rules(b"0 U 1 - none", b"2 A 5 - none", b"0 U 1 - offside")
    yield rules(b"0 B 1 2 none", b"2 A 5 - none", b"0 B 1 2 indent")
    yield rules(b"0 E - - none", b"2 A 5 - none", b"0 E - - none")
    # 5 for ranges of one left: in, over, at either end, and one terminal in a range.
    for line in (b"1 A 11 12 none", b"1 A 9 14 none", b"1 A 13 20 none", b"1 A 0 10 none", b"1 A 12 - none"):
        yield rules(good, b"1 A 10 13 none", line)
    yield rules(good, b"1 A 12 - none", b"1 A 010 00013 none")
    # The line counts before the number.
    yield rules(good, b"1 A 0 - align", b"2 A 0 - none", b"3 A 0")
    yield rules(good, good, b"64 A 0 - none", b"", b"1 E - - single")


def refused_rule_count():
    """Refusal 6: a 129th rule, whatever its line holds."""
    full = many_rules(128)
    yield many_rules(129)
    yield full + b"\n"
    yield full + b"x"
    yield full + b"64 A 0 - align\n"
    yield full + b"0 A 0 - none\n\n"
    # A fault in an earlier line comes first, in the 128th rule too.
    yield many_rules(129).replace(b"0 A 3 - none", b"0 A 000003 - none")
    yield many_rules(129).replace(b"1 A 63 - none", b"0 A 63 - none")


def refused_rule_end():
    """Refusal 7."""
    yield rules()
    yield rules(b"1 B 0 0 none", b"2 E - - none")
    yield rules(b"1 U 1 - none")
    # A refusal in a line comes before 7.
    yield rules(b"1 U 1 - none", b"0 U 0 - align")
    yield rules(b"0 U 0 - none", b"0 U 0 - single")


def looping_rule_sheets():
    """Rules that loop, which are no fault."""
    # U rules.
    yield rules(b"0 U 0 - none")
    yield rules(b"0 U 0 - single", b"0 A 0 - none")
    yield rules(b"0 U 1 - none", b"1 U 0 - offside")
    yield rules(*[b"%d U %d - none" % (n, (n + 1) % 64) for n in range(64)])
    # B rules with a nullable side: left, right, both; through other rules.
    yield rules(b"0 B 1 0 none", b"1 E - - none")
    yield rules(b"0 B 0 1 none", b"1 E - - none")
    yield rules(b"0 B 0 0 none", b"0 E - - none")
    yield rules(b"0 B 1 0 align", b"1 B 2 2 indent", b"2 U 3 - single", b"3 E - - none")
    yield rules(b"0 B 1 2 none", b"1 E - - none", b"2 U 0 - none")
    # Not to be reached from the start.
    yield rules(b"0 A 0 - none", b"5 U 5 - none")
    yield rules(b"0 A 0 - none", b"62 B 63 61 none", b"61 E - - none", b"63 U 62 - none")


def refused_rule_sheets():
    for start in refused_names(RULE_NAMES):
        yield start + (b"0 E - - none\n" if start.endswith(b"\n") else b"")
    yield TOKENS
    yield from refused_rule_form()
    yield from refused_rule_values()
    yield from refused_rule_count()
    yield from refused_rule_end()


def accepted_rule_sheets():
    """Near misses of refusals."""
    yield from looping_rule_sheets()
    yield many_rules(128)
    yield rules(b"0 E - - none", b"63 A 63 - none", b"1 B 63 63 indent")
    # Ranges: one terminal, all of them, ranges that touch, shared by two lefts.
    yield rules(b"0 A 63 63 none", b"1 A 0 63 none", b"2 A 0 63 none")
    yield rules(b"0 A 5 9 none", b"0 A 10 20 none", b"0 A 4 - none", b"0 A 0 003 none", b"1 A 9 10 none")
    # Padded numbers.
    yield rules(b"00000 U 01 - none", b"001 B 0002 00063 none", b"00063 A 00063 - none")
    yield padded(ALL_KINDS, 5)
    # Not the same: sides changed, another left, another kind.
    yield rules(b"0 B 1 2 align", b"2 A 5 - none", b"0 B 2 1 align")
    yield rules(b"0 E - - none", b"1 E - - none")
    yield rules(b"0 U 1 - none", b"2 A 5 - none", b"0 A 1 - none")
    # Not cyclic: what would have to be nullable is not.
    yield rules(b"0 B 0 0 none")
    yield rules(b"0 B 0 1 none", b"1 A 0 - none")
    yield rules(b"0 B 1 0 none", b"0 E - - none", b"1 A 0 - none")
    yield rules(b"0 B 1 0 none", b"1 U 2 - none", b"2 A 0 - none", b"3 E - - none")
    yield rules(b"0 B 0 1 none", b"1 B 1 1 none", b"2 E - - none")
    # Not cyclic: edges, but no chain that returns.
    yield rules(b"0 B 1 1 none", b"1 A 0 - none", b"1 E - - none")
    yield rules(b"0 U 1 - none", b"0 U 2 - none", b"1 U 3 - none", b"2 U 3 - none")
    yield rules(*[b"%d U %d - none" % (n, n + 1) for n in range(63)])


# -------------------------------------------------------------- token sheets

def refused_token_form():
    """Refusal 12 in its kinds."""
    yield tokens(b"0 1 1")[:-1]
    yield tokens(b"0 1 1") + b"0"
    yield tokens(b"0 1 1") + b"\n"
    yield tokens(b"")
    yield tokens(b"0 1 1", b"", b"0 1 2")
    for line in (
        b"0  2 1",
        b"0 2 1 ",
        b" 0 2 1",
        b"0 2 1\r",
        b"0 2 1\0",
        b"0 2\t1",
        b"0 2",
        b"0 2 1 1",
        b"- 2 1",
        b"0 - 1",
        b"0 2 -",
        b"a 2 1",
        b"0 2 \xb2",
        b"000000 2 1",
        b"0 000002 1",
        b"0 2 000001",
        b"0 100000 1",
        b"0 2 100000",
        # 12 before 13.
        b"64 000002 1",
        b"0 0 000007",
    ):
        yield tokens(b"0 1 1", line)


def refused_token_values():
    """Refusals 13 and 15, and which comes first."""
    for line in (
        b"64 6 1",
        b"99 6 1",
        b"0064 6 1",
        b"99999 6 1",
        b"0 65536 1",
        b"0 99999 1",
        b"0 6 65536",
        b"0 6 99999",
        b"0 0 7",
        b"0 6 0",
        b"0 00000 7",
        b"0 6 00000",
        b"0 5 5",
        b"0 5 4",
        b"0 4 9",
        b"0 5 05",
        # 13 before 15; 12 before 15.
        b"64 5 5",
        b"0 5 0",
        b"0 5 000005",
    ):
        yield tokens(b"0 5 5", line)
    # The line counts before the number.
    yield tokens(b"0 1 1", b"0 1 1", b"0 1 2", b"0 000001 1")
    yield tokens(b"0 1 3", b"64 1 4", b"", b"0 1 2")
    # 15 looks at the token just before.
    yield tokens(b"0 1 1", b"0 3 1", b"0 2 1")


def refused_token_count():
    """Refusal 14: a 65th token, whatever its line holds."""
    full = many_tokens(64)
    yield many_tokens(65)
    yield full + b"\n"
    yield full + b"0"
    yield full + b"64 0 0\n"
    yield full + b"0 1 1\n\n"
    yield many_tokens(65).replace(b"3 1 4\n", b"3 1 000004\n", 1)
    yield many_tokens(65).replace(b"63 1 64\n", b"63 1 63\n", 1)


def refused_wide_sheets():
    """Names with `width`: four numbers, refusal 47, and 15 by column plus width."""
    yield wide_tokens(b"0 1 1 9", b"0 1 9 1")
    yield wide_tokens(b"0 1 1 255", b"0 1 255 1")
    yield wide_tokens(b"0 1 65282 255")
    yield wide_tokens(b"0 1 65535 2")
    for width in (b"0", b"256", b"00000", b"00256", b"99999"):
        yield wide_tokens(b"0 1 1 " + width)
    for line in (b"0 1 1", b"0 1 1 1 1", b"0 1 1 ", b"0 1 1 000001", b"0 1 1 100000", b"0 1 1 -"):
        yield wide_tokens(line)
    # 12, 13, 47, 15 in competition.
    yield wide_tokens(b"0 0 1 000256")
    yield wide_tokens(b"64 1 1 0")
    yield wide_tokens(b"0 0 1 256")
    yield wide_tokens(b"0 1 65536 255")
    yield wide_tokens(b"0 1 2 1", b"0 1 1 0")
    yield wide_tokens(b"0 1 2 1", b"0 1 2 1")
    # A width is taken into account at the line just before alone.
    yield wide_tokens(b"0 1 1 9", b"0 2 1 1", b"0 1 20 1")
    yield tokens(b"0 1 1 1")
    yield WIDE_NAMES
    yield WIDE_NAMES + b" \n"
    yield many_wide(64) + b"0"
    yield many_wide(65)


def many_wide(count):
    return wide_tokens(*[b"%d 1 %d 255" % (n % 64, 255 * n + 1) for n in range(count)])


def refused_token_sheets():
    yield from refused_wide_sheets()
    for start in refused_names(TOKEN_NAMES):
        yield start + (b"0 1 1\n" if start.endswith(b"\n") else b"")
    yield RULES
    yield from refused_token_form()
    yield from refused_token_values()
    yield from refused_token_count()


def accepted_token_sheets():
    """Near misses of refusals."""
    yield tokens()
    yield many_tokens(64)
    yield SPREAD
    yield tokens(b"63 2 1")
    yield tokens(b"00063 00002 01", b"00 02 00002", b"000 65535 65535")
    yield padded(SPREAD, 3)
    yield tokens(b"0 65535 65535")
    yield tokens(b"0 5 5", b"0 5 6", b"0 6 1")
    yield tokens(b"1 1 1", b"1 2 1", b"1 2 2", b"0 9 1")
    yield wide_tokens()
    yield many_wide(64)
    yield wide_tokens(b"0 1 1 1", b"0 1 2 255", b"3 1 257 1")
    yield wide_tokens(b"0 1 1 9", b"0 2 1 9")
    yield wide_tokens(b"0 1 65281 255", b"0 2 65535 1")
    yield wide_tokens(b"00 001 00001 00002", b"0 1 3 0255")


# --------------------------------------------------------------------- pairs

def both_refused_pairs():
    """Both sheets refused, in a line and in none."""
    yield b"", b""
    yield rules(b"0 A 0"), tokens(b"0 0 1")
    yield rules(b"1 A 0 - none"), tokens(b"0 000001 1")
    yield rules(b"0 U 0 - none"), b"wrong names\n"
    yield b"\n", tokens(b"x")
    yield rules(b"0 A 0 - none", b"\xff\xfe\r"), tokens(b"0 1 1", b"0 1 1")


def accepted_pairs():
    yield RULES, TOKENS
    yield ALL_KINDS, SPREAD


def partnered(under_trial, accepted, otherwise):
    """Each sheet under trial with an accepted one, as long as these last."""
    partners = list(accepted)
    for place, one in enumerate(under_trial):
        yield one, partners[place] if place < len(partners) else otherwise


def damaged(draw, text):
    """One byte deleted, inserted, replaced, or one of its bits flipped."""
    telling = b"0123456789 -\n\r\0EAUBxyz"
    place = int(draw.random() * len(text))
    byte = bytes([telling[int(draw.random() * len(telling))]])
    deed = int(draw.random() * 4)
    if deed == 0:
        return text[:place] + text[place + 1 :]
    if deed == 1:
        return text[:place] + byte + text[place:]
    if deed == 2:
        return text[:place] + byte + text[place + 1 :]
    flipped = bytes([text[place] ^ (1 << int(draw.random() * 8))])
    return text[:place] + flipped + text[place + 1 :]


def damaged_pairs():
    for seed in range(60):
        draw = random.Random(seed)
        if seed % 3 == 0:
            yield ALL_KINDS, damaged(draw, SPREAD)
        elif seed % 3 == 1:
            yield damaged(draw, ALL_KINDS), SPREAD
        else:
            yield damaged(draw, ALL_KINDS), damaged(draw, SPREAD)


def cases():
    yield from accepted_pairs()
    yield from both_refused_pairs()
    yield from partnered(refused_rule_sheets(), accepted_token_sheets(), TOKENS)
    for token_sheet, rule_sheet in partnered(
        refused_token_sheets(), accepted_rule_sheets(), RULES
    ):
        yield rule_sheet, token_sheet
    yield from damaged_pairs()
