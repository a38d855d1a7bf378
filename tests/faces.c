/*
 * Calls every C function of include/teplonga.h and checks answers and memory against the worked example and
 * patches. Lent memory stands between pages that may not be touched, at the end of its room and at the front, so a
 * read or write outside of it ends the test. Prints one line and ends with status 0, or says what is wrong.
 *
 *     cc -I include tests/faces.c target/lib/libteplonga.a -pthread
 */
#define _GNU_SOURCE
#include <pthread.h>
#include <stdio.h>
#include <stdlib.h>
#include <string.h>
#include <sys/mman.h>
#include <unistd.h>

#include "teplonga.h"

_Static_assert(TEPLONGA_WORDS(0) == 2, "the empty word has a pair");
_Static_assert(TEPLONGA_WORDS(3) == 14, "three tokens have seven pairs");
_Static_assert(TEPLONGA_WORDS(TEPLONGA_MOST_TOKENS) == 4162, "64 tokens");
_Static_assert(sizeof(teplonga_part) == 2 * sizeof(size_t), "a pointer and a length");

static unsigned checks;

#define CHECK(what)                                                         \
    do {                                                                    \
        __atomic_add_fetch(&checks, 1, __ATOMIC_RELAXED);                   \
        if (!(what)) {                                                      \
            fprintf(stderr, "faces.c:%d: not so: %s\n", __LINE__, #what);   \
            exit(1);                                                        \
        }                                                                   \
    } while (0)

/* ---------------------------------------------------------------- lent memory */

/* Where memory stands in its room: at the end, or at the front. */
enum side { AT_END, AT_FRONT };

static enum side side = AT_END;

/* Bytes with a page before and behind that may not be touched; at the end as near to it as alignment lets. */
static void *room(size_t bytes, size_t alignment)
{
    size_t page = (size_t)sysconf(_SC_PAGESIZE);
    size_t whole = (bytes + page - 1) / page * page + (bytes == 0 ? page : 0);
    char *all = mmap(NULL, whole + 2 * page, PROT_NONE, MAP_PRIVATE | MAP_ANONYMOUS, -1, 0);

    if (all == MAP_FAILED || mprotect(all + page, whole, PROT_READ | PROT_WRITE) != 0) {
        perror("mmap");
        exit(2);
    }
    if (side == AT_FRONT)
        return all + page;
    return all + page + (whole - bytes) / alignment * alignment;
}

static uint64_t *words(size_t count, uint64_t value)
{
    uint64_t *made = room(count * sizeof *made, sizeof *made);

    for (size_t i = 0; i < count; i++)
        made[i] = value;
    return made;
}

static uint8_t *bytes(size_t count, uint8_t value)
{
    return memset(room(count, 1), value, count);
}

struct sheet {
    const uint8_t *at;
    size_t length;
};

/* A sheet, a copy of this text. */
static struct sheet sheet(const char *text)
{
    size_t length = strlen(text);

    return (struct sheet){ memcpy(room(length, 1), text, length), length };
}

static int all_words(const uint64_t *at, size_t count, uint64_t value)
{
    for (size_t i = 0; i < count; i++)
        if (at[i] != value)
            return 0;
    return 1;
}

static int all_bytes(const uint8_t *at, size_t count, uint8_t value)
{
    for (size_t i = 0; i < count; i++)
        if (at[i] != value)
            return 0;
    return 1;
}

static uint64_t coded(uint64_t code, uint64_t line)
{
    return code << 32 | line;
}

#define RULE_NAMES "left kind first second lay\n"
#define TOKEN_NAMES "term line col\n"
#define PLAIN RULE_NAMES "0 B 0 0 none\n0 A 0 - none\n"
#define THREE TOKEN_NAMES "0 1 1\n0 1 2\n0 1 3\n"

/* The worked example: the rows of both trees and the span sheet. */
static const uint8_t FIRST[20] = { 0, 3, 0, 3, 0, 1, 0, 1, 0, 3, 1, 2, 0, 1, 1, 1, 0, 1, 2, 1 };
static const uint8_t SECOND[20] = { 0, 3, 0, 3, 0, 3, 0, 2, 0, 1, 0, 1, 0, 1, 1, 1, 0, 1, 2, 1 };
static const uint64_t SPANS[14] = { 0, 0, 1, 0, 1, 0, 1, 0, 1, 0, 1, 0, 1, 1 };

/* -------------------------------------------------------------------- verdict */

static uint64_t verdict(const char *rules, const char *tokens, uint64_t *lent, size_t count)
{
    struct sheet r = sheet(rules), t = sheet(tokens);

    return teplonga_verdict(r.at, r.length, t.at, t.length, lent, count);
}

/* A refused verdict changes no word. */
static void refused(uint64_t code, uint64_t line, const char *rules, const char *tokens)
{
    uint64_t *lent = words(20, 7);

    CHECK(verdict(rules, tokens, lent, 20) == coded(code, line));
    CHECK(all_words(lent, 20, 7));
}

static void verdicts(void)
{
    uint64_t *lent = words(16, 7);

    CHECK(verdict(PLAIN, THREE, lent, 16) == coded(TEPLONGA_TWO, 0));
    CHECK(memcmp(lent, SPANS, sizeof SPANS) == 0 && all_words(lent + 14, 2, 7));
    CHECK(verdict(PLAIN, TOKEN_NAMES "0 1 1\n0 1 2\n", words(8, 0), 8) == coded(TEPLONGA_ONE, 0));
    CHECK(verdict(PLAIN, TOKEN_NAMES, words(2, 0), 2) == coded(TEPLONGA_NONE, 0));
    CHECK(verdict(RULE_NAMES "0 B 1 1 none\n1 A 0 - none\n1 E - - none\n", TOKEN_NAMES "0 1 1\n", words(4, 0), 4) == coded(TEPLONGA_TWO, 0));
    lent = words(13, 7);
    CHECK(verdict(PLAIN, THREE, lent, 13) == coded(TEPLONGA_FEW_WORDS, 0));
    CHECK(all_words(lent, 13, 7));
    CHECK(verdict(PLAIN, THREE, words(0, 0), 0) == coded(TEPLONGA_FEW_WORDS, 0));
    CHECK(TEPLONGA_CODE(coded(TEPLONGA_RULE_FORM, 9)) == TEPLONGA_REFUSED + 2);
    CHECK(TEPLONGA_LINE(coded(TEPLONGA_RULE_FORM, 9)) == 9);
}

static void refusals(void)
{
    char *many = calloc(1, 4000);

    refused(TEPLONGA_RULE_NAMES, 1, "", THREE);
    refused(TEPLONGA_RULE_FORM, 2, RULE_NAMES "0 A 0 none\n", THREE);
    refused(TEPLONGA_RULE_FORM, 3, RULE_NAMES "0 A 0 - none\n0 B 0 0 none", THREE);
    refused(TEPLONGA_RULE_RANGE, 2, RULE_NAMES "0 A 00064 - none\n", THREE);
    refused(TEPLONGA_RULE_LAY, 2, RULE_NAMES "0 A 0 - align\n", THREE);
    refused(TEPLONGA_RULE_REVERSED, 2, RULE_NAMES "0 A 5 4 none\n", THREE);
    refused(TEPLONGA_RULE_TWICE, 3, RULE_NAMES "0 A 0 9 none\n0 A 9 - none\n", THREE);
    refused(TEPLONGA_NO_START, 0, RULE_NAMES, THREE);
    refused(TEPLONGA_TOKEN_NAMES, 1, PLAIN, "term line col width");
    refused(TEPLONGA_TOKEN_FORM, 2, PLAIN, TOKEN_NAMES "0 1 1 1\n");
    refused(TEPLONGA_TOKEN_RANGE, 2, PLAIN, TOKEN_NAMES "0 0 1\n");
    refused(TEPLONGA_TOKEN_WIDTH, 2, PLAIN, "term line col width\n0 1 1 256\n");
    refused(TEPLONGA_TOKEN_ORDER, 3, PLAIN, "term line col width\n0 1 1 2\n0 1 2 1\n");
    strcpy(many, RULE_NAMES);
    for (int i = 0; i < 129; i++)
        sprintf(many + strlen(many), "%d A %d - none\n", i / 64, i % 64);
    refused(TEPLONGA_RULE_MANY, 130, many, THREE);
    strcpy(many, TOKEN_NAMES);
    for (int i = 0; i < 65; i++)
        sprintf(many + strlen(many), "0 %d 1\n", i + 1);
    refused(TEPLONGA_TOKEN_MANY, 66, PLAIN, many);
    free(many);
}

/* ---------------------------------------------------------------------- trees */

struct trees {
    uint64_t *words;
    uint8_t *first, *second;
    uint64_t *counts;
};

/* A call for the trees with so many words, bytes and places for counts, all of them 7 before it. */
static uint64_t trees(const char *rules, const char *tokens, size_t n, size_t one, size_t two, size_t counts, struct trees *lent)
{
    struct sheet r = sheet(rules), t = sheet(tokens);

    *lent = (struct trees){ words(n, 7), bytes(one, 7), bytes(two, 7), words(counts, 7) };
    return teplonga_trees(r.at, r.length, t.at, t.length, lent->words, n, lent->first, one, lent->second, two, lent->counts, counts);
}

static void both_trees(void)
{
    struct trees lent;

    CHECK(trees(PLAIN, THREE, 15, 23, 20, 3, &lent) == coded(TEPLONGA_TWO, 0));
    CHECK(memcmp(lent.words, SPANS, sizeof SPANS) == 0 && lent.words[14] == 7);
    CHECK(memcmp(lent.first, FIRST, 20) == 0 && all_bytes(lent.first + 20, 3, 0));
    CHECK(memcmp(lent.second, SECOND, 20) == 0);
    CHECK(lent.counts[0] == 5 && lent.counts[1] == 5 && lent.counts[2] == 7);
    /* fewer than two places for counts are left as they were */
    CHECK(trees(PLAIN, THREE, 14, 20, 20, 1, &lent) == coded(TEPLONGA_TWO, 0));
    CHECK(memcmp(lent.first, FIRST, 20) == 0 && lent.counts[0] == 7);
}

static void other_trees(void)
{
    struct trees lent;

    CHECK(trees(PLAIN, TOKEN_NAMES "0 1 1\n", 4, 8, 5, 2, &lent) == coded(TEPLONGA_ONE, 0));
    CHECK(memcmp(lent.first, "\0\1\0\1\0\0\0\0", 8) == 0 && all_bytes(lent.second, 5, 0));
    CHECK(lent.counts[0] == 1 && lent.counts[1] == 0);
    CHECK(trees(PLAIN, TOKEN_NAMES, 2, 6, 9, 2, &lent) == coded(TEPLONGA_NONE, 0));
    CHECK(all_bytes(lent.first, 6, 0) && all_bytes(lent.second, 9, 0) && all_words(lent.counts, 2, 0));
    /* 22: either tree does not fit */
    for (int which = 0; which < 2; which++) {
        CHECK(trees(PLAIN, THREE, 14, which ? 19 : 40, which ? 40 : 19, 2, &lent) == coded(TEPLONGA_FEW_ROWS, 0));
        CHECK(memcmp(lent.words, SPANS, sizeof SPANS) == 0 && all_words(lent.counts, 2, 0));
        CHECK(all_bytes(lent.first, which ? 19 : 40, 0) && all_bytes(lent.second, which ? 40 : 19, 0));
    }
    /* every other refusal changes nothing but the counts */
    CHECK(trees(PLAIN, THREE, 13, 20, 20, 2, &lent) == coded(TEPLONGA_FEW_WORDS, 0));
    CHECK(all_words(lent.words, 13, 7) && all_bytes(lent.first, 20, 7) && all_bytes(lent.second, 20, 7));
    CHECK(all_words(lent.counts, 2, 0));
    CHECK(trees(RULE_NAMES "0 A 64 - none\n", THREE, 14, 20, 20, 2, &lent) == coded(TEPLONGA_RULE_RANGE, 2));
    CHECK(all_words(lent.words, 14, 7) && all_bytes(lent.first, 20, 7) && all_bytes(lent.second, 20, 7));
    CHECK(trees(PLAIN, THREE, 0, 0, 0, 0, &lent) == coded(TEPLONGA_FEW_WORDS, 0));
}

/* Rules that loop: the first tree is the lowest, the second goes round once. */
static void looping_trees(void)
{
    struct trees lent;

    CHECK(trees(RULE_NAMES "0 U 0 - none\n0 A 0 - none\n", TOKEN_NAMES "0 1 1\n", 4, 8, 8, 2, &lent) == coded(TEPLONGA_TWO, 0));
    CHECK(memcmp(lent.first, "\0\1\0\1\0\0\0\0", 8) == 0 && memcmp(lent.second, "\0\2\0\1\0\1\0\1", 8) == 0);
    CHECK(lent.counts[0] == 1 && lent.counts[1] == 2 && lent.words[2] == 1 && lent.words[3] == 1);
    CHECK(trees(RULE_NAMES "0 U 0 - none\n", TOKEN_NAMES "0 1 1\n", 4, 8, 8, 2, &lent) == coded(TEPLONGA_NONE, 0));
    CHECK(trees(RULE_NAMES "0 A 0 - none\n1 U 1 - none\n", TOKEN_NAMES "0 1 1\n", 4, 8, 8, 2, &lent) == coded(TEPLONGA_ONE, 0));
}

/* ----------------------------------------------------------------------- rows */

static uint64_t rows(const char *rules, const char *tokens, size_t n, size_t places, uint64_t **lent, uint64_t **counts)
{
    struct sheet r = sheet(rules), t = sheet(tokens);

    *lent = words(n, 7);
    *counts = words(places, 7);
    return teplonga_rows(r.at, r.length, t.at, t.length, *lent, n, *counts, places);
}

static void row_counts(void)
{
    uint64_t *lent, *counts;
    char *doubling = calloc(1, 2000);

    CHECK(rows(PLAIN, THREE, 15, 3, &lent, &counts) == coded(TEPLONGA_TWO, 0));
    CHECK(memcmp(lent, SPANS, sizeof SPANS) == 0 && lent[14] == 7);
    CHECK(counts[0] == 5 && counts[1] == 5 && counts[2] == 7);
    CHECK(rows(PLAIN, TOKEN_NAMES "0 1 1\n", 4, 2, &lent, &counts) == coded(TEPLONGA_ONE, 0));
    CHECK(counts[0] == 1 && counts[1] == 0);
    CHECK(rows(PLAIN, TOKEN_NAMES, 2, 2, &lent, &counts) == coded(TEPLONGA_NONE, 0));
    CHECK(all_words(counts, 2, 0));
    CHECK(rows(PLAIN, THREE, 13, 2, &lent, &counts) == coded(TEPLONGA_FEW_WORDS, 0));
    CHECK(all_words(lent, 13, 7) && all_words(counts, 2, 0));
    CHECK(rows(PLAIN, THREE, 14, 1, &lent, &counts) == coded(TEPLONGA_TWO, 0));
    CHECK(counts[0] == 7);
    /* an empty word of 2^32 - 1 rows, then of 2^33 - 1 */
    for (int depth = 32; depth < 34; depth++) {
        strcpy(doubling, RULE_NAMES);
        for (int i = 0; i < depth - 1; i++)
            sprintf(doubling + strlen(doubling), "%d B %d %d none\n", i, i + 1, i + 1);
        sprintf(doubling + strlen(doubling), "%d E - - none\n", depth - 1);
        CHECK(rows(doubling, TOKEN_NAMES, 2, 2, &lent, &counts) == coded(TEPLONGA_ONE, 0));
        CHECK(counts[0] == (depth == 32 ? 4294967295u : TEPLONGA_MORE) && counts[1] == 0);
    }
    free(doubling);
}

/* -------------------------------------------------------------------- columns */

#define RANGE_NAMES "term line low high\n"
#define ALIGNED RULE_NAMES "0 B 1 1 align\n1 A 0 - none\n"

static uint64_t columns(const char *rules, const char *ranges, size_t n, size_t places, uint64_t **lent, uint64_t **found)
{
    struct sheet r = sheet(rules), t = sheet(ranges);

    *lent = words(n, 7);
    *found = words(places, 7);
    return teplonga_columns(r.at, r.length, t.at, t.length, *lent, n, *found, places);
}

static void chosen_columns(void)
{
    uint64_t *lent, *found;

    CHECK(columns(ALIGNED, RANGE_NAMES "0 1 1 1\n0 2 1 2\n", 9, 4, &lent, &found) == coded(TEPLONGA_GIVEN, 0));
    CHECK(found[0] == 1 && found[1] == 1 && found[2] == 0 && found[3] == 7);
    CHECK(all_words(lent, 8, 0) && lent[8] == 7);
    CHECK(columns(PLAIN, RANGE_NAMES "0 1 1 3\n0 1 1 3\n0 1 1 3\n", 14, 3, &lent, &found) == coded(TEPLONGA_GIVEN, 0));
    CHECK(found[0] == 0 && found[1] == 0 && found[2] == 1 && all_words(lent, 14, 0));
    /* lines that fall: no choice rises */
    CHECK(columns(PLAIN, RANGE_NAMES "0 2 1 1\n0 1 1 1\n", 8, 3, &lent, &found) == coded(TEPLONGA_GIVEN, 0));
    CHECK(all_words(found, 3, 0) && all_words(lent, 8, 0));
    CHECK(columns(PLAIN, RANGE_NAMES, 2, 2, &lent, &found) == coded(TEPLONGA_GIVEN, 0));
    CHECK(all_words(found, 2, 7) && all_words(lent, 2, 0));
    CHECK(columns(PLAIN, THREE, 14, 3, &lent, &found) == coded(TEPLONGA_TOKEN_NAMES, 1));
    CHECK(columns(PLAIN, RANGE_NAMES "0 1 2 1\n", 4, 3, &lent, &found) == coded(TEPLONGA_RANGE_ENDS, 2));
    CHECK(columns(PLAIN, RANGE_NAMES "0 1 1 256\n0 2 1 257\n", 8, 3, &lent, &found) == coded(TEPLONGA_MANY_CHOICES, 0));
    CHECK(all_words(lent, 8, 7) && all_words(found, 3, 0));
    CHECK(columns(ALIGNED, RANGE_NAMES "0 1 1 1\n0 2 1 2\n", 7, 3, &lent, &found) == coded(TEPLONGA_FEW_WORDS, 0));
    CHECK(all_words(lent, 7, 7) && all_words(found, 3, 0));
}

/* A call for a refused line. */
typedef void line_call(const uint8_t *, size_t, const uint8_t *, size_t, teplonga_part *);

/* The refused line is this part of the first sheet (or of the second). */
static void line_is(line_call *call, const char *first, const char *second, int in_second, size_t start, size_t length)
{
    struct sheet a = sheet(first), b = sheet(second);
    teplonga_part line = { a.at, 0 };

    call(a.at, a.length, b.at, b.length, &line);
    CHECK(line.at == (in_second ? b.at : a.at) + start);
    CHECK(line.length == length);
}

static void columns_refused_lines(void)
{
    line_is(teplonga_columns_refused_line, PLAIN "0 A 0 - none\n", RANGE_NAMES "0 1 2 1\n", 0, 53, 12);
    line_is(teplonga_columns_refused_line, PLAIN, RANGE_NAMES "0 1 1 1\n0 1 2 1\n", 1, 27, 7);
    line_is(teplonga_columns_refused_line, PLAIN, THREE, 1, 0, 13);
    /* 49 has line 0 */
    line_is(teplonga_columns_refused_line, PLAIN, RANGE_NAMES "0 1 1 256\n0 2 1 257\n", 0, 0, 0);
    line_is(teplonga_columns_refused_line, PLAIN, RANGE_NAMES "0 1 1 2\n", 0, 0, 0);
}

/* --------------------------------------------------------------------- places */

static uint64_t places(const char *rules, const char *tokens, size_t n, size_t size, uint64_t **lent, uint8_t **list, uint64_t **count)
{
    struct sheet r = sheet(rules), t = sheet(tokens);

    *lent = words(n, 7);
    *list = bytes(size, 7);
    *count = words(2, 7);
    return teplonga_places(r.at, r.length, t.at, t.length, *lent, n, *list, size, *count, 2);
}

static void all_places(void)
{
    uint64_t *lent, *count;
    uint8_t *list;

    CHECK(places(PLAIN, THREE, 14, 2 * TEPLONGA_PLACE, &lent, &list, &count) == coded(TEPLONGA_TWO, 0));
    CHECK(memcmp(list, "\0\0\3\0\0\0", 6) == 0 && count[0] == 1 && count[1] == 7);
    CHECK(memcmp(lent, SPANS, sizeof SPANS) == 0);
    CHECK(places(PLAIN, TOKEN_NAMES "0 1 1\n", 4, 3, &lent, &list, &count) == coded(TEPLONGA_ONE, 0));
    CHECK(all_bytes(list, 3, 0) && count[0] == 0);
    CHECK(places(PLAIN, THREE, 14, 2, &lent, &list, &count) == coded(TEPLONGA_FEW_ROWS, 0));
    CHECK(all_bytes(list, 2, 0) && count[0] == 0 && memcmp(lent, SPANS, sizeof SPANS) == 0);
    CHECK(places(PLAIN, THREE, 13, 3, &lent, &list, &count) == coded(TEPLONGA_FEW_WORDS, 0));
    CHECK(all_bytes(list, 3, 7) && all_words(lent, 13, 7) && count[0] == 0);
}

/* ------------------------------------------------------------ at every length */

typedef uint64_t always_call(const uint8_t *, size_t, uint64_t *, size_t, uint8_t *, size_t, uint64_t *, size_t);

/* What is lent holds 7 before the call. */
struct always {
    uint64_t *words, *count;
    uint8_t *list;
};

static uint64_t always(always_call *call, const char *given, size_t n, size_t size, struct always *lent)
{
    struct sheet r = sheet(given);

    lent->words = words(n, 7);
    lent->list = bytes(size, 7);
    lent->count = words(2, 7);
    return call(r.at, r.length, lent->words, n, lent->list, size, lent->count, 2);
}

#define NEEDED TEPLONGA_ALWAYS_WORDS
#define CHAIN RULE_NAMES "0 B 1 0 none\n0 U 1 - none\n1 A 0 - none\n"

static void every_length(void)
{
    struct always lent;

    CHECK(always(teplonga_always, CHAIN, NEEDED + 1, 5, &lent) == coded(TEPLONGA_CLEAR, 0));
    CHECK(all_words(lent.words, NEEDED, 0) && lent.words[NEEDED] == 7);
    CHECK(all_bytes(lent.list, 5, 0) && lent.count[0] == 0 && lent.count[1] == 7);
    CHECK(always(teplonga_always, PLAIN, NEEDED + 1, 5, &lent) == coded(TEPLONGA_UNKNOWN, 0));
    CHECK(all_words(lent.words, NEEDED, 0) && lent.words[NEEDED] == 7);
    CHECK(memcmp(lent.list, "\0\1\1\1\0", 5) == 0 && lent.list[3] == TEPLONGA_TWO_CUTS);
    CHECK(lent.count[0] == 1 && lent.count[1] == 7);
    CHECK(always(teplonga_always, PLAIN, NEEDED, TEPLONGA_DOUBT - 1, &lent) == coded(TEPLONGA_FEW_ROWS, 0));
    CHECK(all_words(lent.words, NEEDED, 0) && all_bytes(lent.list, 3, 0) && lent.count[0] == 0);
    CHECK(always(teplonga_always, PLAIN, NEEDED - 1, 4, &lent) == coded(TEPLONGA_FEW_WORDS, 0));
    CHECK(all_words(lent.words, NEEDED - 1, 7) && all_bytes(lent.list, 4, 7) && lent.count[0] == 0);
    CHECK(always(teplonga_always, RULE_NAMES "0 A 64 - none\n", NEEDED, 4, &lent) == coded(TEPLONGA_RULE_RANGE, 2));
    CHECK(all_words(lent.words, NEEDED, 7) && all_bytes(lent.list, 4, 7) && lent.count[0] == 0);
    CHECK(always(teplonga_clause_always, "left clause\n0 t0+ t1\n", NEEDED, 4, &lent) == coded(TEPLONGA_CLEAR, 0));
    CHECK(always(teplonga_clause_always, "left clause\n0 t0 | t0\n", NEEDED, 4, &lent) == coded(TEPLONGA_UNKNOWN, 0));
    CHECK(memcmp(lent.list, "\0\1\2\0", 4) == 0 && lent.list[3] == TEPLONGA_TWO_RULES && lent.count[0] == 1);
    CHECK(always(teplonga_clause_always, "left clause\n0 \n", NEEDED, 4, &lent) == coded(TEPLONGA_CLAUSE_FORM, 2));
    CHECK(all_words(lent.words, NEEDED, 7) && all_bytes(lent.list, 4, 7) && lent.count[0] == 0);
}

/* -------------------------------------------------------------------- clauses */

#define CLAUSES "left clause\n0 t0 | n0 n0\n"
#define EXPANDED RULE_NAMES "0 U 1 - none\n0 U 3 - none\n1 U 2 - none\n2 A 0 - none\n3 B 0 0 none\n"

static uint64_t expanded(const char *clauses, size_t size, uint8_t **out, uint64_t **count)
{
    struct sheet c = sheet(clauses);

    *out = bytes(size, 7);
    *count = words(2, 7);
    return teplonga_expand(c.at, c.length, *out, size, *count, 2);
}

/* Each call on the clause sheet answers as the call on the rule sheet that it expands to. */
static void clauses(void)
{
    struct sheet c = sheet(CLAUSES), r = sheet(EXPANDED), t = sheet(THREE), bad = sheet("left clause\n0 t0\n0 n0 \n");
    uint64_t *one = words(15, 7), *two = words(15, 7), *found = words(23, 7), *other = words(23, 7), *count;
    uint8_t *first = bytes(64, 7), *second = bytes(64, 7), *third = bytes(64, 7), *fourth = bytes(64, 7), *out;
    size_t long_enough = sizeof EXPANDED - 1;
    teplonga_part line = { bad.at, 0 };

    CHECK(teplonga_clause_verdict(c.at, c.length, t.at, t.length, one, 15) == coded(TEPLONGA_TWO, 0));
    CHECK(teplonga_verdict(r.at, r.length, t.at, t.length, two, 15) == coded(TEPLONGA_TWO, 0));
    CHECK(memcmp(one, two, 15 * sizeof *one) == 0 && one[14] == 7);
    CHECK(teplonga_clause_trees(c.at, c.length, t.at, t.length, one, 15, first, 64, second, 64, found, 3) == coded(TEPLONGA_TWO, 0));
    CHECK(teplonga_trees(r.at, r.length, t.at, t.length, two, 15, third, 64, fourth, 64, other, 3) == coded(TEPLONGA_TWO, 0));
    CHECK(memcmp(first, third, 64) == 0 && memcmp(second, fourth, 64) == 0 && memcmp(found, other, 23 * sizeof *found) == 0);
    CHECK(teplonga_clause_sweep(c.at, c.length, 3, one, 15, found, 23) == coded(TEPLONGA_TWO, 0));
    CHECK(teplonga_sweep(r.at, r.length, 3, two, 15, other, 23) == coded(TEPLONGA_TWO, 0));
    CHECK(memcmp(found, other, 23 * sizeof *found) == 0 && memcmp(one, two, 15 * sizeof *one) == 0);
    CHECK(expanded(CLAUSES, long_enough + 1, &out, &count) == coded(TEPLONGA_GIVEN, 0));
    CHECK(memcmp(out, EXPANDED, long_enough) == 0 && out[long_enough] == 0 && count[0] == long_enough && count[1] == 7);
    CHECK(expanded(CLAUSES, long_enough - 1, &out, &count) == coded(TEPLONGA_FEW_ROWS, 0));
    CHECK(all_bytes(out, long_enough - 1, 0) && count[0] == 0);
    CHECK(expanded("left clause\n0 t64\n", 9, &out, &count) == coded(TEPLONGA_CLAUSE_FORM, 2));
    CHECK(all_bytes(out, 9, 7) && count[0] == 0);
    teplonga_clause_refused_line(bad.at, bad.length, t.at, t.length, &line);
    CHECK(line.at == bad.at + 17 && line.length == 5);
    teplonga_clause_refused_line(c.at, c.length, t.at, t.length, &line);
    CHECK(line.at == c.at && line.length == 0);
}

/* ---------------------------------------------------------------- shared tour */

#define RIGHTS "user low high may\n"
#define NESTED RULE_NAMES "0 B 1 2 none\n1 U 3 - none\n2 A 0 - none\n3 A 0 - none\n"
#define TWO TOKEN_NAMES "0 1 1\n0 1 2\n"

/* A call for the trees shown to user 5, lent as many words as two or three tokens need. */
static uint64_t show(const char *rules, const char *tokens, const char *rights, size_t n, size_t one, size_t two, struct trees *lent)
{
    struct sheet r = sheet(rules), t = sheet(tokens), g = sheet(rights);

    *lent = (struct trees){ words(n, 7), bytes(one, 7), bytes(two, 7), words(3, 7) };
    return teplonga_show(r.at, r.length, t.at, t.length, g.at, g.length, 5, lent->words, n, lent->first, one, lent->second, two, lent->counts, 3);
}

static void shown(void)
{
    static const uint8_t open[16] = { 0, 3, 0, 2, 1, 2, 0, 1, 3, 1, 0, 1, 2, 1, 1, 1 };
    static const uint8_t closed[12] = { 0, 3, 0, 2, 1, 4, 0, 1, 2, 1, 1, 1 };
    struct trees lent;

    CHECK(show(NESTED, TWO, RIGHTS "5 0 63 see\n", 8, 17, 2, &lent) == coded(TEPLONGA_ONE, 0));
    CHECK(memcmp(lent.first, open, 16) == 0 && lent.first[16] == 0 && all_bytes(lent.second, 2, 0));
    CHECK(lent.counts[0] == 4 && lent.counts[1] == 0 && lent.counts[2] == 7);
    CHECK(show(NESTED, TWO, RIGHTS "5 0 0 see\n5 2 3 change\n4 1 1 see\n", 8, 12, 0, &lent) == coded(TEPLONGA_ONE, 0));
    CHECK(memcmp(lent.first, closed, 12) == 0 && lent.counts[0] == 3);
    /* 22 goes by the rows shown */
    CHECK(show(NESTED, TWO, RIGHTS "5 0 0 see\n5 2 3 see\n", 8, 11, 4, &lent) == coded(TEPLONGA_FEW_ROWS, 0));
    CHECK(all_bytes(lent.first, 11, 0) && all_bytes(lent.second, 4, 0) && all_words(lent.counts, 2, 0));
    /* both trees, even where they are shown alike */
    CHECK(show(PLAIN, THREE, RIGHTS, 14, 4, 4, &lent) == coded(TEPLONGA_TWO, 0));
    CHECK(memcmp(lent.first, "\0\4\0\3", 4) == 0 && memcmp(lent.second, "\0\4\0\3", 4) == 0);
    CHECK(memcmp(lent.words, SPANS, sizeof SPANS) == 0);
    CHECK(show(PLAIN, THREE, RIGHTS "16 0 0 see\n", 14, 4, 4, &lent) == coded(TEPLONGA_RIGHTS, 2));
    CHECK(all_words(lent.words, 14, 7) && all_bytes(lent.first, 4, 7) && all_bytes(lent.second, 4, 7) && all_words(lent.counts, 2, 0));
}

/* A change by user 5 with so many bytes, all of them 7 before it, and two words for their number. */
static uint64_t change(const char *rights, size_t rule, const char *lay, size_t n, uint8_t **lent, uint64_t **count)
{
    struct sheet r = sheet(PLAIN), g = sheet(rights), l = sheet(lay);

    *lent = bytes(n, 7);
    *count = words(2, 7);
    return teplonga_change(r.at, r.length, g.at, g.length, 5, rule, l.at, l.length, *lent, n, *count, 2);
}

static void changed(void)
{
    static const char made[] = RULE_NAMES "0 B 0 0 align\n0 A 0 - none\n";
    size_t length = sizeof made - 1;
    uint8_t *lent;
    uint64_t *count;

    CHECK(change(RIGHTS "5 0 0 change\n", 1, "align", length + 3, &lent, &count) == coded(TEPLONGA_GIVEN, 0));
    CHECK(memcmp(lent, made, length) == 0 && all_bytes(lent + length, 3, 0) && count[0] == length && count[1] == 7);
    CHECK(change(RIGHTS "5 0 0 change\n", 1, "align", length - 1, &lent, &count) == coded(TEPLONGA_FEW_ROWS, 0));
    CHECK(all_bytes(lent, length - 1, 0) && count[0] == 0);
    CHECK(change(RIGHTS "5 0 0 change\n", 2, "align", 9, &lent, &count) == coded(TEPLONGA_RULE_LAY, 3));
    CHECK(change(RIGHTS "5 0 0 change\n", 2, "", 9, &lent, &count) == coded(TEPLONGA_RULE_FORM, 3));
    CHECK(change(RIGHTS "5 0 0 see\n", 1, "", 9, &lent, &count) == coded(TEPLONGA_NO_RIGHT, 0));
    CHECK(change(RIGHTS "5 0 0 change\n", 3, "", 9, &lent, &count) == coded(TEPLONGA_NO_RIGHT, 0));
    CHECK(change("", 3, "", 9, &lent, &count) == coded(TEPLONGA_RIGHTS, 1));
    CHECK(all_bytes(lent, 9, 7) && count[0] == 0);
}

/* ---------------------------------------------------------------------- sweep */

static uint64_t sweep(const char *rules, size_t bound, size_t n, size_t places, uint64_t **lent, uint64_t **found)
{
    struct sheet r = sheet(rules);

    *lent = words(n, 7);
    *found = words(places, 7);
    return teplonga_sweep(r.at, r.length, bound, *lent, n, *found, places);
}

static void found(const char *rules, const uint64_t *tokens, uint64_t tried)
{
    uint64_t *lent, *answer;

    CHECK(sweep(rules, 3, 16, 25, &lent, &answer) == coded(TEPLONGA_TWO, 0));
    CHECK(all_words(lent, 14, 0) && all_words(lent + 14, 2, 7));
    CHECK(answer[0] == 3 && memcmp(answer + 1, tokens, 9 * sizeof *tokens) == 0);
    CHECK(all_words(answer + 10, 12, 0) && answer[TEPLONGA_TRIED] == tried && all_words(answer + 23, 2, 7));
}

/* Not found: the sentence's places 0, so many candidates tried, and the words as they are to be. */
static void not_found(uint64_t answer_wanted, const char *rules, size_t bound, size_t n, size_t zeros, uint64_t tried)
{
    uint64_t *lent, *answer;

    CHECK(sweep(rules, bound, n, TEPLONGA_FOUND, &lent, &answer) == answer_wanted);
    CHECK(all_words(lent, zeros, 0) && all_words(lent + zeros, n - zeros, 7));
    CHECK(all_words(answer, 22, 0) && answer[TEPLONGA_TRIED] == tried);
}

static void sweeps(void)
{
    uint64_t *lent, *answer;
    char *many = calloc(1, 2000);

    found(PLAIN, (uint64_t[]){ 0, 1, 1, 0, 1, 2, 0, 1, 3 }, 11);
    found(RULE_NAMES "0 B 0 0 align\n0 A 0 - none\n", (uint64_t[]){ 0, 1, 1, 0, 2, 1, 0, 3, 1 }, 26);
    found(RULE_NAMES "0 B 0 0 indent\n0 A 0 - none\n", (uint64_t[]){ 0, 1, 1, 0, 2, 2, 0, 3, 3 }, 35);
    not_found(coded(TEPLONGA_CLEAR, 0), PLAIN, 2, 9, 8, 10);
    /* lengths 1 and 3 are passed over */
    not_found(coded(TEPLONGA_CLEAR, 0), RULE_NAMES "0 B 1 1 none\n1 A 0 - none\n", 3, 14, 14, 9);
    not_found(coded(TEPLONGA_FEW_WORDS, 0), PLAIN, 3, 13, 0, 0);
    not_found(coded(TEPLONGA_BAD_BOUND, 0), PLAIN, 0, 60, 0, 0);
    not_found(coded(TEPLONGA_BAD_BOUND, 0), PLAIN, TEPLONGA_MOST_BOUND + 1, 60, 0, 0);
    not_found(coded(TEPLONGA_BAD_BOUND, 0), PLAIN, (size_t)-1, 60, 0, 0);
    not_found(coded(TEPLONGA_RULE_TWICE, 4), PLAIN "0 A 0 - none\n", 9, 60, 0, 0);
    /* T = 7 is taken at 5 tokens, T = 8 is not */
    strcpy(many, RULE_NAMES "0 U 1 - none\n1 A 0 - none\n0 A 0 6 none\n");
    CHECK(sweep(many, 5, 32, TEPLONGA_FOUND, &lent, &answer) == coded(TEPLONGA_TWO, 0));
    CHECK(answer[0] == 1 && answer[1] == 0 && answer[2] == 1 && answer[3] == 1 && answer[TEPLONGA_TRIED] == 1);
    strcpy(many, RULE_NAMES "0 U 1 - none\n1 A 0 - none\n0 A 0 7 none\n");
    not_found(coded(TEPLONGA_MANY_CANDIDATES, 0), many, 5, 32, 0, 0);
    /* fewer than 23 places are left as they were */
    CHECK(sweep(PLAIN, 3, 14, 22, &lent, &answer) == coded(TEPLONGA_TWO, 0));
    CHECK(all_words(answer, 22, 7));
    free(many);
}

/* ---------------------------------------------------------------------- shares */

static uint64_t share(const char *rules, size_t length, size_t racks, size_t index, size_t n, uint64_t **lent, uint64_t **numbers, uint64_t **found)
{
    struct sheet r = sheet(rules);

    *lent = words(n, 7);
    *numbers = words(4, 7);
    *found = words(23, 7);
    return teplonga_share(r.at, r.length, length, racks, index, *lent, n, *numbers, 4, *found, 23);
}

/* Refused: three numbers and all places 0, and no word changed. */
static void no_share(uint64_t answer_wanted, const char *rules, size_t length, size_t racks, size_t index, size_t n)
{
    uint64_t *lent, *numbers, *answer;

    CHECK(share(rules, length, racks, index, n, &lent, &numbers, &answer) == answer_wanted);
    CHECK(all_words(lent, n, 7) && all_words(numbers, 3, 0) && numbers[3] == 7);
    CHECK(all_words(answer, 22, 0) && answer[22] == 7);
}

static void shares(void)
{
    uint64_t *lent, *numbers, *answer;

    /* 243 arrangements: 12 * 20 + 3; the sweep's sentence has the number 11 */
    CHECK(share(PLAIN, 3, 12, 0, 16, &lent, &numbers, &answer) == coded(TEPLONGA_TWO, 0));
    CHECK(numbers[0] == 11 && numbers[1] == 20 && numbers[2] == 3 && numbers[3] == 7);
    CHECK(all_words(lent, 14, 0) && all_words(lent + 14, 2, 7));
    CHECK(answer[0] == 3 && answer[6] == 2 && answer[9] == 3 && all_words(answer + 10, 12, 0) && answer[22] == 7);
    CHECK(share(PLAIN, 1, 64, 63, 4, &lent, &numbers, &answer) == coded(TEPLONGA_CLEAR, 0));
    CHECK(numbers[0] == 0 && numbers[1] == 0 && numbers[2] == 1 && all_words(answer, 22, 0) && all_words(lent, 4, 0));
    no_share(coded(TEPLONGA_BAD_BOUND, 0), PLAIN, 0, 0, 9, 60);
    no_share(coded(TEPLONGA_BAD_BOUND, 0), PLAIN, (size_t)-1, 1, 0, 60);
    no_share(coded(TEPLONGA_BAD_RACKS, 0), PLAIN, 3, 0, 0, 60);
    no_share(coded(TEPLONGA_BAD_RACKS, 0), PLAIN, 3, TEPLONGA_MOST_RACKS + 1, 70, 0);
    no_share(coded(TEPLONGA_BAD_SHARE, 0), PLAIN, 3, 12, 12, 0);
    no_share(coded(TEPLONGA_BAD_SHARE, 0), PLAIN, 3, TEPLONGA_MOST_RACKS, (size_t)-1, 60);
    no_share(coded(TEPLONGA_FEW_WORDS, 0), PLAIN, 3, 12, 11, 13);
    no_share(coded(TEPLONGA_RULE_TWICE, 4), PLAIN "0 A 0 - none\n", 3, 12, 0, 60);
}

static void merges(void)
{
    const uint64_t two = coded(TEPLONGA_TWO, 0), clear = coded(TEPLONGA_CLEAR, 0);
    const uint64_t refused = coded(TEPLONGA_RULE_TWICE, 4), other = coded(TEPLONGA_BAD_SHARE, 0);

    CHECK(teplonga_merge(clear, 0, 0, clear, 0, 0) == 0);
    CHECK(teplonga_merge(clear, 0, 0, two, 11, 3) == 1);
    CHECK(teplonga_merge(two, 11, 3, clear, 0, 0) == 0);
    CHECK(teplonga_merge(two, 12, 3, two, 11, 3) == 1);
    CHECK(teplonga_merge(two, 11, 3, two, 12, 3) == 0);
    CHECK(teplonga_merge(two, 11, 3, two, 11, 3) == 0);
    CHECK(teplonga_merge(two, 11, 3, two, 99, 2) == 1);
    CHECK(teplonga_merge(two, 99, 2, two, 11, 3) == 0);
    CHECK(teplonga_merge(two, 11, 3, refused, 0, 0) == 1);
    CHECK(teplonga_merge(refused, 0, 0, two, 11, 3) == 0);
    CHECK(teplonga_merge(refused, 0, 0, other, 0, 0) == 0);
    CHECK(teplonga_merge(other, 0, 0, refused, 0, 0) == 0);
}

/* --------------------------------------------------------------- refused line */

static void refused_lines(void)
{
    line_is(teplonga_refused_line, PLAIN "0 A 0 - none\n", THREE, 0, 53, 12);
    line_is(teplonga_refused_line, RULE_NAMES "0 A 0 - none\n0 X", THREE, 0, 40, 3);
    line_is(teplonga_refused_line, PLAIN, TOKEN_NAMES "0 1 1\n0 1 1\n", 1, 20, 5);
    line_is(teplonga_refused_line, PLAIN, "x\n", 1, 0, 1);
    line_is(teplonga_refused_line, RULE_NAMES "1 U 1 - none\n", TOKEN_NAMES "x\n", 0, 0, 0);
    line_is(teplonga_refused_line, RULE_NAMES "0 U 0 - none\n", TOKEN_NAMES "x\n", 1, 14, 1);
    line_is(teplonga_refused_line, PLAIN, THREE, 0, 0, 0);
    line_is(teplonga_refused_line, "", "", 0, 0, 0);
}

/* -------------------------------------------------------------- threads, stack */

/* Calls on memory of its own, again and again. */
static void *again(void *ignored)
{
    (void)ignored;
    for (int i = 0; i < 200; i++) {
        uint64_t lent[14], answer[TEPLONGA_FOUND];
        uint8_t first[20], second[20];
        uint64_t counts[TEPLONGA_COUNTS];
        CHECK(teplonga_trees((const uint8_t *)PLAIN, strlen(PLAIN), (const uint8_t *)THREE, strlen(THREE), lent, 14,
                             first, 20, second, 20, counts, TEPLONGA_COUNTS) == coded(TEPLONGA_TWO, 0));
        CHECK(memcmp(first, FIRST, 20) == 0 && memcmp(second, SECOND, 20) == 0);
        CHECK(teplonga_sweep((const uint8_t *)PLAIN, strlen(PLAIN), 3, lent, 14, answer, TEPLONGA_FOUND) == coded(TEPLONGA_TWO, 0));
    }
    return NULL;
}

static void threads(void)
{
    pthread_t four[4];

    for (int i = 0; i < 4; i++)
        CHECK(pthread_create(&four[i], NULL, again, NULL) == 0);
    for (int i = 0; i < 4; i++)
        CHECK(pthread_join(four[i], NULL) == 0);
}

/* A large sheet that loops, a long sentence and a long sweep, for the stack; their memory is not on it. */
static char big_rules[4000], big_tokens[2000], big_ranges[2000], big_sweep[400];
static uint64_t big_words[TEPLONGA_ALWAYS_WORDS], big_found[TEPLONGA_FOUND], big_counts[TEPLONGA_COUNTS], big_numbers[3];
/* Groups in groups and a long sequence in the innermost: the readers of clauses call each other most deeply.
   It has as many nonterminals as there may be. */
static char big_clauses[400];
static const uint8_t big_rights[] = RIGHTS "5 0 63 change\n", big_lay[] = "single";
static uint8_t big_first[16384], big_second[16384], big_list[49152];

static void make_big(void)
{
    strcpy(big_rules, RULE_NAMES);
    for (int i = 0; i < 61; i++)
        sprintf(big_rules + strlen(big_rules), "%d U %d - offside\n", i, i + 1);
    strcat(big_rules, "61 B 62 0 none\n61 A 0 - none\n62 A 0 - none\n61 B 0 62 none\n63 U 63 - none\n");
    strcpy(big_tokens, TOKEN_NAMES);
    for (int i = 0; i < TEPLONGA_MOST_TOKENS; i++)
        sprintf(big_tokens + strlen(big_tokens), "0 %d %d\n", i + 1, i + 1);
    strcpy(big_ranges, RANGE_NAMES);
    for (int i = 0; i < TEPLONGA_MOST_TOKENS; i++)
        sprintf(big_ranges + strlen(big_ranges), "0 %d %d %d\n", i + 1, i + 1, i == 63 ? i + 300 : i + 1);
    strcpy(big_clauses, "left clause\n0 ");
    for (int i = 0; i < 15; i++)
        strcat(big_clauses, "(n0 ");
    strcat(big_clauses, "(n0");
    for (int i = 0; i < 31; i++)
        strcat(big_clauses, " n0");
    for (int i = 0; i < 16; i++)
        strcat(big_clauses, ")");
    strcat(big_clauses, "\n");
    strcpy(big_sweep, RULE_NAMES "0 B 1 2 none\n0 B 3 2 none\n1 B 5 6 align\n3 B 5 6 indent\n2 B 5 4 none\n4 B 5 5 none\n5 A 0 - none\n6 A 0 - none\n");
}

static void *big_calls(void *which)
{
    const uint8_t *rules = (const uint8_t *)big_rules, *tokens = (const uint8_t *)big_tokens;
    size_t r = strlen(big_rules), t = strlen(big_tokens);
    teplonga_part line = { rules, 0 };

    switch (*(int *)which) {
    case 0:
        teplonga_verdict(rules, r, tokens, t, big_words, 4162);
        break;
    case 1:
        teplonga_trees(rules, r, tokens, t, big_words, 4162, big_first, 16384, big_second, 16384, big_counts, 2);
        break;
    case 2:
        teplonga_sweep((const uint8_t *)big_sweep, strlen(big_sweep), 5, big_words, 4162, big_found, TEPLONGA_FOUND);
        break;
    case 3:
        teplonga_rows(rules, r, tokens, t, big_words, 4162, big_counts, 2);
        break;
    case 4:
        teplonga_places(rules, r, tokens, t, big_words, 4162, big_list, sizeof big_list, big_counts, 1);
        break;
    case 5:
        teplonga_clause_trees((const uint8_t *)big_clauses, strlen(big_clauses), tokens, t, big_words, 4162, big_first, 16384, big_second, 16384, big_counts, 2);
        break;
    case 6:
        teplonga_expand((const uint8_t *)big_clauses, strlen(big_clauses), big_first, 16384, big_counts, 1);
        break;
    case 7:
        teplonga_columns(rules, r, (const uint8_t *)big_ranges, strlen(big_ranges), big_words, 4162, big_counts, 2);
        break;
    case 8:
        teplonga_show(rules, r, tokens, t, big_rights, sizeof big_rights - 1, 5, big_words, 4162, big_first, 16384, big_second, 16384, big_counts, 2);
        break;
    case 9:
        teplonga_change(rules, r, big_rights, sizeof big_rights - 1, 5, 1, big_lay, sizeof big_lay - 1, big_first, 16384, big_counts, 1);
        break;
    case 10:
        teplonga_share((const uint8_t *)big_sweep, strlen(big_sweep), 5, 12, 7, big_words, 4162, big_numbers, 3, big_found, TEPLONGA_FOUND);
        break;
    case 11:
        teplonga_always(rules, r, big_words, TEPLONGA_ALWAYS_WORDS, big_list, sizeof big_list, big_counts, 1);
        break;
    case 12:
        teplonga_clause_always((const uint8_t *)big_clauses, strlen(big_clauses), big_words, TEPLONGA_ALWAYS_WORDS, big_list, sizeof big_list, big_counts, 1);
        break;
    default:
        teplonga_refused_line(rules, r, tokens, t, &line);
    }
    return NULL;
}

/* How much stack a call takes: a thread's stack is painted before, and looked at after. */
static size_t stack_of(int which)
{
    size_t size = 4 << 20, used = 0;
    uint8_t *stack = room(size, 4096);
    pthread_attr_t attributes;
    pthread_t thread;

    memset(stack, 0xA5, size);
    CHECK(pthread_attr_init(&attributes) == 0 && pthread_attr_setstack(&attributes, stack, size) == 0);
    CHECK(pthread_create(&thread, &attributes, big_calls, &which) == 0 && pthread_join(thread, NULL) == 0);
    while (used < size && stack[used] == 0xA5)
        used++;
    return size - used;
}

/* A call, and the kilobytes of stack that the header says are enough for it. */
static const struct {
    const char *name;
    size_t most;
} stated[] = {
    { "verdict", 110 },      { "trees", 300 },   { "sweep", 60 },  { "rows", 300 },  { "places", 190 },
    { "clause_trees", 300 }, { "expand", 40 },   { "columns", 200 }, { "show", 300 }, { "change", 20 },
    { "share", 60 },         { "always", 60 },   { "clause_always", 60 }, { "refused_line", 20 },
};

static void stacks(void)
{
    make_big();
    for (int which = 0; which < 14; which++) {
        size_t used = stack_of(which);
        printf("%s: %zu bytes of stack\n", stated[which].name, used);
        CHECK(used <= stated[which].most * 1024 && used <= TEPLONGA_STACK);
    }
}

int main(int count, char **arguments)
{
    for (int i = 0; i < 2; i++) {
        side = i ? AT_FRONT : AT_END;
        verdicts();
        refusals();
        both_trees();
        other_trees();
        looping_trees();
        row_counts();
        chosen_columns();
        columns_refused_lines();
        all_places();
        every_length();
        clauses();
        shown();
        changed();
        sweeps();
        shares();
        merges();
        refused_lines();
    }
    threads();
    if (count > 1 && strcmp(arguments[1], "--stack") == 0)
        stacks();
    printf("%u checks of the C functions, version " TEPLONGA_VERSION "\n", checks);
    return 0;
}
