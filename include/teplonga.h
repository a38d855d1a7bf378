/*
 * Teplonga's calls for C and C++, on x86-64 Linux.
 *
 * Link: `bin/library` proves the library and makes target/lib/libteplonga.a and libteplonga.so, and
 * `bin/install` installs them. A program needs one of them and nothing else:
 *
 *     cc program.c $(pkg-config --cflags --libs teplonga)
 *     cc -I include program.c target/lib/libteplonga.a
 *
 * Lent memory: sheets and memory are a pointer and a number of places. A pointer is never NULL, not
 * even with no places, and what is lent to a call to be written is lent to it once and overlaps
 * nothing else of that call. Nothing more is asked: any bytes, any lengths and any bound are
 * answered. A call reads and writes within what it is lent, and keeps none of it.
 *
 * Calls are reentrant: they have no state of their own and may run in any threads at once, each on
 * its own lent memory. They allocate nothing, take no lock, set no errno and make no system call.
 *
 * Stack: a changed mark and the refused line need 20 KB, a sweep, a share and the test at every
 * length 60 KB, the verdict 110 KB, places 190 KB, columns 200 KB, trees, row counts and trees shown
 * 300 KB, whatever they are asked. A call on a clause sheet needs what it needs on a rule sheet, but
 * 40 KB at least, and so does an expansion: its readers call each other, most deeply in groups within
 * groups. TEPLONGA_STACK bytes are enough for any call.
 *
 * Time, as measured with an older kit: a verdict takes less than a millisecond on the largest sheets,
 * its trees some milliseconds. Columns of 64 tokens with 65,536 choices take a tenth of a second where
 * what may and what must hold settles them; where each choice has to be looked at, nearly as long as
 * that many verdicts. The worst sweep known takes about a second; no bound is claimed, and it cannot
 * be interrupted, so run it in a thread or a process that may be given up.
 */
#ifndef TEPLONGA_H
#define TEPLONGA_H

#include <stddef.h>
#include <stdint.h>

#ifdef __cplusplus
extern "C" {
#endif

/* The version of this header, that of the Rust crate too. */
#define TEPLONGA_VERSION "0.1.0"

/* The bytes of stack that are enough for any call. */
#define TEPLONGA_STACK 524288

/*
 * Each call but teplonga_merge and those for a refused line answers one number: the answer's code
 * in its upper 32 bits and the refused line's number in its lower 32 bits. The line counts from 1
 * in its sheet; it is 0 where there is no such line, and 4,294,967,295 also stands for all later
 * lines.
 */
#define TEPLONGA_CODE(answer) ((uint64_t)(answer) >> 32)
#define TEPLONGA_LINE(answer) ((uint64_t)(answer) & 0xFFFFFFFFu)

/*
 * The codes: none, one, two, clear, given, unknown, and 100 + N for refused-N. docs/FORMAT.md has the refusals in
 * the order in which they are looked for, which is also the order here.
 */
enum {
    TEPLONGA_NONE = 0,
    TEPLONGA_ONE = 1,
    TEPLONGA_TWO = 2,
    TEPLONGA_CLEAR = 3,
    TEPLONGA_GIVEN = 4,
    TEPLONGA_UNKNOWN = 5,
    /* made by scripts/refusals.py from docs/refusals.tsv */
    /* 1, rule sheet, line 1: the names are not `left kind first second lay` (of a clause sheet
     * `left clause`), ended by byte 10 */
    TEPLONGA_RULE_NAMES = 101,
    /* 6, each rule line: a 129th rule */
    TEPLONGA_RULE_MANY = 106,
    /* 2, each rule line: not five fields parted by one blank each and ended by byte 10, a kind or
     * lay unknown, `-` where a number belongs or the reverse, or a number not of one to five
     * digits */
    TEPLONGA_RULE_FORM = 102,
    /* 3, each rule line: a number above 63 */
    TEPLONGA_RULE_RANGE = 103,
    /* 4, each rule line: a lay that the kind does not allow */
    TEPLONGA_RULE_LAY = 104,
    /* 44, each rule line: an A rule whose second terminal is below its first */
    TEPLONGA_RULE_REVERSED = 144,
    /* 5, each rule line: an earlier rule has the same left, kind, first and second, under any lay;
     * for an A rule: an earlier A rule of the same left shares a terminal */
    TEPLONGA_RULE_TWICE = 105,
    /* 41, each clause line: not a number of 0 to 63, a blank and an expression as docs/FORMAT.md
     * has it, ended by byte 10, depth aside */
    TEPLONGA_CLAUSE_FORM = 141,
    /* 42, each clause line: groups nested deeper than sixteen levels */
    TEPLONGA_CLAUSE_DEEP = 142,
    /* 43, clause sheet, end: the expansion has a nonterminal past 63 or more than 128 rules */
    TEPLONGA_CLAUSE_MANY = 143,
    /* 7, rule sheet, end: no rule has left 0 */
    TEPLONGA_NO_START = 107,
    /* 11, token sheet, line 1: the names are neither `term line col` nor `term line col width` (of
     * a range sheet not `term line low high`), ended by byte 10 */
    TEPLONGA_TOKEN_NAMES = 111,
    /* 14, each token line: a 65th token */
    TEPLONGA_TOKEN_MANY = 114,
    /* 12, each token line: not three numbers (with `width`, and in a range sheet, four) parted by
     * one blank each and ended by byte 10, or a number not of one to five digits */
    TEPLONGA_TOKEN_FORM = 112,
    /* 13, each token line: a terminal above 63, or a line, column or end of a column that is 0 or
     * above 65,535 */
    TEPLONGA_TOKEN_RANGE = 113,
    /* 47, each token line: a width that is 0 or above 255, or column plus width above 65,536 */
    TEPLONGA_TOKEN_WIDTH = 147,
    /* 15, each token line: not after the token before: an earlier line, or the same line and a
     * column before that token's column plus width */
    TEPLONGA_TOKEN_ORDER = 115,
    /* 48, range line, after 13: the upper end of the column is below the lower one */
    TEPLONGA_RANGE_ENDS = 148,
    /* 49, range sheet, end: the ends allow more than 65,536 choices of columns, rising or not */
    TEPLONGA_MANY_CHOICES = 149,
    /* 50, each rights line: the names are not `user low high may`, or a line is not three numbers
     * of one to five digits and `see` or `change`, parted by one blank each and ended by byte 10;
     * a user above 15; a range above 63 or reversed */
    TEPLONGA_RIGHTS = 150,
    /* 51, change: the user may not change that rule, or there is no such rule */
    TEPLONGA_NO_RIGHT = 151,
    /* 23, sweep, a share: the bound, or the length of a share, is not 1 to 7 */
    TEPLONGA_BAD_BOUND = 123,
    /* 24, sweep, a share: the sweep is too large: `T^k * 3^(k-1) * k^k` is above 4,294,967,296 */
    TEPLONGA_MANY_CANDIDATES = 124,
    /* 45, a share: the number of racks is not 1 to 64 */
    TEPLONGA_BAD_RACKS = 145,
    /* 46, a share: the share is not below the number of racks */
    TEPLONGA_BAD_SHARE = 146,
    /* 21, lent words: fewer words are lent than the span sheet needs (for a sweep or a share: with
     * as many tokens as the bound or the length; for the test at every length: than 73,728) */
    TEPLONGA_FEW_WORDS = 121,
    /* 22, lent tree rows: a tree of the answer has more rows than its memory has whole places of
     * four bytes (`check` lends 4,096), or a list does not fit into the bytes lent for it */
    TEPLONGA_FEW_ROWS = 122,
    /* end of what scripts/refusals.py makes */
    TEPLONGA_REFUSED = 100
};

/* The most rules of a rule sheet, the most tokens of a token sheet, the largest bound of a sweep. */
#define TEPLONGA_MOST_RULES 128
#define TEPLONGA_MOST_TOKENS 64
#define TEPLONGA_MOST_BOUND 7

/* The words that the span sheet of n tokens needs: 1 + n(n+1)/2 pairs. */
#define TEPLONGA_WORDS(n) (2 + (size_t)(n) * ((size_t)(n) + 1))

/*
 * The bytes of a tree row: nonterminal, kind (0 E, 1 A, 2 U, 3 B; 4 C, a closed node, of teplonga_show
 * alone), start, length.
 */
#define TEPLONGA_ROW 4

/* The bytes of a place in a list: nonterminal, start, length. */
#define TEPLONGA_PLACE 3

/* The words that the test at every length needs, whatever the sheet. */
#define TEPLONGA_ALWAYS_WORDS 73728

/* The bytes of an entry of its list: nonterminal, two rules by their places from 1, why. */
#define TEPLONGA_DOUBT 4

/* No list has more entries. */
#define TEPLONGA_MOST_DOUBTS 16384

/* Why: two rules may read one word, one rule may part a word at two places, two have the empty word. */
#define TEPLONGA_TWO_RULES 0
#define TEPLONGA_TWO_CUTS 1
#define TEPLONGA_TWO_EMPTY 2

/* The places of `counts`: the row counts of the first and the second tree. */
#define TEPLONGA_COUNTS 2

/* What stands in `counts` for more rows than 4,294,967,295. */
#define TEPLONGA_MORE ((uint64_t)1 << 32)

/*
 * The places of `found`: the sentence's length, then terminal, line and column of seven tokens, each
 * of width 1, then how many candidates were tried.
 */
#define TEPLONGA_FOUND 23

/* The place of that number in `found`. */
#define TEPLONGA_TRIED 22

/*
 * The verdict: none, one or two valid trees of nonterminal 0, or refused 1 to 7, 44, 11 to 15, 47 or 21.
 *
 * An accepted call leaves the span sheet filled in `words`. A refused one changes no word. Words
 * past the span sheet never change.
 */
uint64_t teplonga_verdict(const uint8_t *rules, size_t rules_length,
                          const uint8_t *tokens, size_t tokens_length,
                          uint64_t *words, size_t words_length);

/*
 * The verdict and the trees: none, one or two, or refused 1 to 7, 44, 11 to 15, 47, 21 or 22.
 *
 * The rows of the first tree stand at the front of `first`, those of the second at the front of
 * `second`, in walking order; all bytes after the rows are 0. On `none` both memories are 0, on
 * `one` the second is. `words` are as after the verdict.
 *
 * Every refusal but 22 changes neither words nor tree memories. 22 leaves the span sheet filled and
 * both tree memories 0.
 *
 * `counts` gets each tree's row count, 0 for a tree not written, on a refusal too; places past
 * these two never change, and fewer than two are left as they were.
 */
uint64_t teplonga_trees(const uint8_t *rules, size_t rules_length,
                        const uint8_t *tokens, size_t tokens_length,
                        uint64_t *words, size_t words_length,
                        uint8_t *first, size_t first_length,
                        uint8_t *second, size_t second_length,
                        uint64_t *counts, size_t counts_length);

/*
 * The verdict and how many rows each tree has: none, one or two, or refused 1 to 7, 44, 11 to 15, 47
 * or 21. No tree is built, and `words` are as after the verdict.
 *
 * `counts` gets the row count of each tree, 0 for one that the verdict lacks and on a refusal;
 * TEPLONGA_MORE stands for more than 4,294,967,295 rows. Places past these two never change, and
 * fewer than two are left as they were. Where neither is TEPLONGA_MORE, memories of just that many
 * rows are enough for teplonga_trees of the same sheets, and one row fewer is refused 22.
 */
uint64_t teplonga_rows(const uint8_t *rules, size_t rules_length,
                       const uint8_t *tokens, size_t tokens_length,
                       uint64_t *words, size_t words_length,
                       uint64_t *counts, size_t counts_length);

/*
 * Which verdicts some choice of columns gives: given, or refused 1 to 7, 44, 11 to 14, 48, 49 or 21.
 * `ranges` is a range sheet: tokens whose columns are known between two ends.
 *
 * `found` gets three words, for none, one and two: 1 if some choice of columns within the ends, with
 * positions properly rising, gives that verdict, else 0; all are 0 on a refusal. Words past these
 * never change, and fewer than three are left as they were. The words of the span sheet end 0; a
 * refusal changes no word.
 */
uint64_t teplonga_columns(const uint8_t *rules, size_t rules_length,
                          const uint8_t *ranges, size_t ranges_length,
                          uint64_t *words, size_t words_length,
                          uint64_t *found, size_t found_length);

/*
 * The verdict and all places at which the readings of the sentence part: none, one or two, or
 * refused 1 to 7, 44, 11 to 15, 47, 21 or 22.
 *
 * A place is three bytes: nonterminal, start, length; an empty word has start 0. The places stand
 * at the front of `list`, longest word first, then by start, then by nonterminal, and all bytes
 * after them are 0; on `none` and `one` there are none. `words` are as after the verdict. Every
 * refusal but 22 changes neither words nor `list`. 22 says that the list does not fit: it leaves the
 * span sheet filled and all of `list` 0.
 *
 * `count` gets the number of places, 0 on a refusal; words past it never change.
 */
uint64_t teplonga_places(const uint8_t *rules, size_t rules_length,
                         const uint8_t *tokens, size_t tokens_length,
                         uint64_t *words, size_t words_length,
                         uint8_t *list, size_t list_length,
                         uint64_t *count, size_t count_length);

/*
 * The sweep: two, where a sentence of 1 to `bound` tokens has two trees, or clear, or refused 1 to
 * 7, 44, 23, 24 or 21.
 *
 * An accepted call leaves the words of the span sheet for `bound` tokens 0. A refused one changes
 * no word. Words past the span sheet never change.
 *
 * `found` gets the first candidate that has two trees: its length, then its tokens, and 0 in the
 * places past it; on `clear` or a refusal those 22 places are 0. Place 22 gets how many candidates
 * were tried: all of 1 to `bound` tokens and of the lengths that nonterminal 0 can have when all
 * marks are ignored, or those up to and with the found one; 0 on a refusal. Places past these 23
 * never change, and fewer than 23 are left as they were.
 */
uint64_t teplonga_sweep(const uint8_t *rules, size_t rules_length,
                        size_t bound,
                        uint64_t *words, size_t words_length,
                        uint64_t *found, size_t found_length);

/*
 * The test at every length: clear, where no sequence of tokens, whatever its length, terminals, lines,
 * columns and widths, has two trees; unknown, where the test cannot tell; or refused 1 to 7, 44, 21 or
 * 22.
 *
 * An entry is four bytes: a nonterminal, two of its rules by their places from 1, and why it may have
 * two trees, one of TEPLONGA_TWO_RULES, TEPLONGA_TWO_CUTS, where both rules are the same, and
 * TEPLONGA_TWO_EMPTY. The entries stand at the front of `list` by nonterminal, first rule, second rule
 * and why, and all bytes after them are 0; on `clear` there are none. It needs TEPLONGA_ALWAYS_WORDS
 * words, and leaves them 0; words past them never change. Every refusal but 22 changes neither words
 * nor `list`. 22 says that the list does not fit: it leaves those words and all of `list` 0.
 *
 * `count` gets the number of entries, 0 on a refusal; words past it never change.
 */
uint64_t teplonga_always(const uint8_t *rules, size_t rules_length,
                         uint64_t *words, size_t words_length,
                         uint8_t *list, size_t list_length,
                         uint64_t *count, size_t count_length);

/*
 * The verdict and the trees as a user may see them: none, one or two, or refused 1 to 7, 44, 11 to 15,
 * 47, 50, 21 or 22.
 *
 * The rights sheet says which nonterminals the user may see. A node outside them is one row of kind
 * 4 with its nonterminal, start and length, and nothing beneath it. 22 and `counts` go by the rows
 * shown; for `two` both memories are filled, even where they are alike. All else is as with
 * teplonga_trees. A user above 15 may see nothing.
 */
uint64_t teplonga_show(const uint8_t *rules, size_t rules_length,
                       const uint8_t *tokens, size_t tokens_length,
                       const uint8_t *rights, size_t rights_length,
                       size_t user,
                       uint64_t *words, size_t words_length,
                       uint8_t *first, size_t first_length,
                       uint8_t *second, size_t second_length,
                       uint64_t *counts, size_t counts_length);

/*
 * The rule sheet with another mark in the rule at a place, counted from 1: given, or refused 1 to 7,
 * 44, 50, 51, then 2 or 4 in that rule's line, or 22.
 *
 * `lay` are the bytes of the new mark. The changed sheet stands at the front of `bytes`, and all bytes
 * after it are 0; only that mark differs from `rules`. Every refusal but 22 changes no byte. 22 says
 * that the sheet does not fit, and leaves all of `bytes` 0.
 *
 * `count` gets the number of the sheet's bytes, 0 on a refusal; words past it never change.
 */
uint64_t teplonga_change(const uint8_t *rules, size_t rules_length,
                         const uint8_t *rights, size_t rights_length,
                         size_t user,
                         size_t rule,
                         const uint8_t *lay, size_t lay_length,
                         uint8_t *bytes, size_t bytes_length,
                         uint64_t *count, size_t count_length);
/* The most racks among which a sweep is divided. */
#define TEPLONGA_MOST_RACKS 64

/*
 * One share of a sweep that is divided among racks: two, where an arrangement of `length` tokens
 * with a number in share `index` of `racks` rises and has two trees, or clear, or refused 1 to 7, 44,
 * 23, 24 (both of `length`), 45, 46 or 21.
 *
 * All T^n * 3^(n-1) * n^n arrangements of n tokens are numbered from 0 in the sweep's order, those
 * whose positions do not rise too. The shares are runs of these numbers, share 0 first.
 *
 * `numbers` gets the lowest number in the share that has two trees, the quotient of all numbers by
 * the racks, and the remainder: the first shares, as many as that, have one number more. On `clear`
 * the number is 0, on a refusal all three are; places past these never change, and fewer than 3 are
 * left as they were. `words` and `found` are as after a sweep, with `length` for the bound.
 */
uint64_t teplonga_share(const uint8_t *rules, size_t rules_length,
                        size_t length, size_t racks, size_t index,
                        uint64_t *words, size_t words_length,
                        uint64_t *numbers, size_t numbers_length,
                        uint64_t *found, size_t found_length);

/*
 * Which of two reports of shares is the merged one: 0 the first, 1 the second. A report is what
 * teplonga_share answered, its lowest number (`numbers[0]`) and the length of its sentence
 * (`found[0]`): first `one`, `number` and `length`, then `two`, `other` and `size`.
 *
 * It is the first that is a refusal, else the one with the lower number of the shorter length, else
 * the first. Merged one by one in any order, the reports of all shares of the lengths 1 to k, with
 * any number of racks for each length, come to the answer of teplonga_sweep with the bound k.
 */
uint64_t teplonga_merge(uint64_t one, uint64_t number, size_t length,
                        uint64_t two, uint64_t other, size_t size);

/* A part of a sheet: bytes of the sheet itself, not a copy of them. */
typedef struct teplonga_part {
    const uint8_t *at;
    size_t length;
} teplonga_part;

/*
 * The refused line itself, without its byte 10, as a part of the sheet that holds it; with no such
 * line, the first zero bytes of the rule sheet. It is the line of the sheets' refusals, those of
 * the verdict and the trees but 21 and 22.
 *
 * `line` gets that part. Before the call it holds some part already, such as { rules, 0 }.
 */
void teplonga_refused_line(const uint8_t *rules, size_t rules_length,
                           const uint8_t *tokens, size_t tokens_length,
                           teplonga_part *line);

/* The same of a rule sheet and a range sheet: the line of the refusals of teplonga_columns but 21. */
void teplonga_columns_refused_line(const uint8_t *rules, size_t rules_length,
                                   const uint8_t *ranges, size_t ranges_length,
                                   teplonga_part *line);

/*
 * Clause sheets. The verdict, the trees, the sweep, the test at every length and the refused line take
 * a clause sheet where the calls above take a rule sheet, and promise the same of the rules that it expands to; where
 * those are refused 1 to 7 or 44 these are refused 1, 41 to 43 or 7.
 */
uint64_t teplonga_clause_verdict(const uint8_t *clauses, size_t clauses_length,
                                 const uint8_t *tokens, size_t tokens_length,
                                 uint64_t *words, size_t words_length);

uint64_t teplonga_clause_trees(const uint8_t *clauses, size_t clauses_length,
                               const uint8_t *tokens, size_t tokens_length,
                               uint64_t *words, size_t words_length,
                               uint8_t *first, size_t first_length,
                               uint8_t *second, size_t second_length,
                               uint64_t *counts, size_t counts_length);

uint64_t teplonga_clause_sweep(const uint8_t *clauses, size_t clauses_length,
                               size_t bound,
                               uint64_t *words, size_t words_length,
                               uint64_t *found, size_t found_length);

/* The rules of the entries are those of the expansion. */
uint64_t teplonga_clause_always(const uint8_t *clauses, size_t clauses_length,
                                uint64_t *words, size_t words_length,
                                uint8_t *list, size_t list_length,
                                uint64_t *count, size_t count_length);

void teplonga_clause_refused_line(const uint8_t *clauses, size_t clauses_length,
                                  const uint8_t *tokens, size_t tokens_length,
                                  teplonga_part *line);

/* The most bytes of an expanded rule sheet. */
#define TEPLONGA_MOST_EXPANDED 4096

/*
 * The rule sheet that a clause sheet expands to: given, or refused 1, 41 to 43, 7 or 22.
 *
 * Its bytes stand at the front of `sheet`, and all bytes after them are 0. Every refusal but 22
 * changes no byte. 22 says that it does not fit; it leaves all of `sheet` 0.
 *
 * `count` gets the number of bytes, 0 on a refusal; words past it never change.
 */
uint64_t teplonga_expand(const uint8_t *clauses, size_t clauses_length,
                         uint8_t *sheet, size_t sheet_length,
                         uint64_t *count, size_t count_length);

#ifdef __cplusplus
}
#endif

#endif
