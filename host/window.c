/* A C host: builds windows, reads them back, damages them, runs orders on them, and says where an answer is not the one that
 * docs/REFERENCE.md gives. It prints one line and ends with 0 where every answer was right. */
#include <stdio.h>
#include <string.h>

#include "spelunzone.h"

#define POOL_WORDS SZ_POOL_WORDS(SZ_MOST_NODES)
#define LENT_WORDS (POOL_WORDS + 18) /* more words than the greatest pool has */
#define MARK_WORDS 512
#define OUT_WORDS (MARK_WORDS + 64)
#define LIST 4096
#define ORDERS 200
#define SPARE 0x5a5a5a5a5a5a5a5aULL

/* The macros at the sizes of docs/REFERENCE.md. */
_Static_assert(SZ_POOL_WORDS(1) == 12 && SZ_POOL_WORDS(1023) == 6144, "the words of a pool");
_Static_assert(SZ_VALUE_WORDS(0) == 0 && SZ_VALUE_WORDS(1) == 2 && SZ_VALUE_WORDS(128) == 2 && SZ_VALUE_WORDS(129) == 4, "the words of marks");
_Static_assert(SZ_ALWAYS_MARKS(1) == 127 && SZ_ALWAYS_MARKS(2) == 127 && SZ_ALWAYS_MARKS(3) == 128 && SZ_ALWAYS_MARKS(15) == 326, "the floor");
_Static_assert(SZ_ALWAYS_MARKS(1023) == 16958 && SZ_BUILD_MARKS(1023) == 32768 && SZ_EVER_MARKS(1023) == 65024, "the largest pool");

static uint64_t pool[LENT_WORDS], before[LENT_WORDS], marks[MARK_WORDS], out[OUT_WORDS], orders[3 * ORDERS];
static unsigned char list[LIST];
static uint64_t listed, state = 1;
static unsigned asked, wrong;

static uint64_t drawn(void) {
    state = state * 6364136223846793005ULL + 1442695040888963407ULL;
    return state ^ state >> 29;
}

/* Holds an answer to the code and the value that it is to have. */
static void holds(const char *what, sz_answer got, uint64_t code, uint64_t value) {
    asked++;
    if (got.code == code && got.value == value)
        return;
    wrong++;
    fprintf(stderr, "%s: %llu %llu, not %llu %llu\n", what, (unsigned long long)got.code, (unsigned long long)got.value,
            (unsigned long long)code, (unsigned long long)value);
}

/* Holds some words to those that are to stand there. */
static void same(const char *what, const uint64_t *got, const uint64_t *want, size_t count) {
    asked++;
    if (memcmp(got, want, count * sizeof *got) == 0)
        return;
    wrong++;
    fprintf(stderr, "%s: other words\n", what);
}

static void is(const char *what, uint64_t got, uint64_t want) {
    same(what, &got, &want, 1);
}

static void spoil(uint64_t *words, size_t count) {
    for (size_t i = 0; i < count; i++)
        words[i] = SPARE;
}

/* Words that were spoiled before a call and that it is not to write. */
static void untouched(const char *what, const uint64_t *words, size_t count) {
    asked++;
    for (size_t i = 0; i < count; i++)
        if (words[i] != SPARE) {
            wrong++;
            fprintf(stderr, "%s: word %zu was written\n", what, i);
            return;
        }
}

/* A refusal leaves every word as it was. */
static void refused(const char *what, sz_answer got, uint64_t code) {
    holds(what, got, code, 0);
    same(what, pool, before, LENT_WORDS);
}

/* The same of the output, which was spoiled before. */
static void refused_whole(const char *what, sz_answer got, uint64_t code) {
    refused(what, got, code);
    untouched(what, out, OUT_WORDS);
}

static void order(size_t i, uint64_t number, uint64_t second, uint64_t third) {
    orders[3 * i] = number;
    orders[3 * i + 1] = second;
    orders[3 * i + 2] = third;
}

static uint64_t words_for(uint64_t length) {
    return (length + 127) / 128 * 2;
}

/* Built, sound, and read back, into as many words as are needed or into more: the marks, zeros after them, and later words as they were. */
static void round_trip(uint64_t nodes, uint64_t length, int longer) {
    size_t words = SZ_POOL_WORDS(nodes), count = words_for(length);
    spoil(pool, LENT_WORDS);
    holds("build", sz_build(pool, words, marks, MARK_WORDS, length), SZ_DONE, length);
    untouched("the words after the pool", pool + words, LENT_WORDS - words);
    holds("check", sz_check(pool, words), SZ_DONE, length);
    spoil(out, OUT_WORDS);
    memcpy(before, pool, sizeof pool);
    if (count > 0)
        refused_whole("values, too short", sz_values(pool, words, out, count - 1), SZ_SHORT_OUTPUT);
    holds("values", sz_values(pool, words, out, longer ? OUT_WORDS : count), SZ_DONE, count);
    for (uint64_t i = 0; i < count; i++) {
        uint64_t left = length > 64 * i ? length - 64 * i : 0;
        uint64_t kept = left >= 64 ? ~0ULL : (1ULL << left) - 1;
        is("a word of values", out[i], marks[i] & kept);
    }
    untouched("the words after values", out + count, OUT_WORDS - count);
    same("values: the pool", pool, before, LENT_WORDS);
}

/* The shapes of the reference cases: 64 bits, 65 bits, and five leaves. */
static void shapes(void) {
    size_t words = SZ_POOL_WORDS(9);
    sz_build(pool, words, marks, MARK_WORDS, 64);
    is("64 bits: the root", pool[words - 6], 0);
    is("64 bits: one leaf", pool[0], 1);
    is("64 bits: free", pool[words - 3], 8);
    spoil(pool, LENT_WORDS);
    memcpy(before, pool, sizeof pool);
    refused("65 bits in two nodes", sz_build(pool, SZ_POOL_WORDS(2), marks, MARK_WORDS, 65), SZ_FULL);
    holds("65 bits in three nodes", sz_build(pool, SZ_POOL_WORDS(3), marks, MARK_WORDS, 65), SZ_DONE, 65);
    sz_build(pool, words, marks, MARK_WORDS, 300);
    /* D with E is 5, B with C is 6, A with those is 7, and 8 is the root */
    const uint64_t root[] = {8, 300, 9, 0, 9, 0};
    same("five leaves: the trailer", pool + words - 6, root, 6);
    is("five leaves: left of the root", pool[8 * 6 + 1], 7);
    is("five leaves: right of the root", pool[8 * 6 + 2], 5);
    is("five leaves: the root leans left", pool[8 * 6 + 5], 1);
    is("five leaves: A", pool[7 * 6 + 1], 0);
    is("five leaves: B with C", pool[7 * 6 + 2], 6);
}

/* Each damage by itself is found. Only a leaf's marks may be others and the pool still be sound, where no count tells of them. */
static void damages(void) {
    size_t words = SZ_POOL_WORDS(9);
    spoil(pool, LENT_WORDS);
    spoil(out, OUT_WORDS);
    sz_build(pool, words, marks, MARK_WORDS, 300);
    order(0, SZ_INSERT, 0, 1);
    order(1, SZ_REMOVE, 0, 0);
    order(2, SZ_RANK, 300, 1);
    for (size_t at = 0; at < words; at++) {
        uint64_t kept = pool[at];
        int a_mark = at < words - 6 && pool[at / 6 * 6] == 1 && at % 6 == 1;
        pool[at] = a_mark ? ~kept : kept + (1ULL << 40);
        memcpy(before, pool, sizeof pool);
        if (sz_check(pool, words).code != SZ_DONE || !a_mark) {
            refused("check, a word changed", sz_check(pool, words), SZ_NOT_SOUND);
            refused_whole("values, a word changed", sz_values(pool, words, out, OUT_WORDS), SZ_NOT_SOUND);
            refused_whole("run, a word changed", sz_run(pool, words, orders, 9, out, 6), SZ_NOT_SOUND);
            refused_whole("run, a word changed, and more output", sz_run(pool, words, orders, 9, out, OUT_WORDS), SZ_NOT_SOUND);
        }
        pool[at] = kept;
    }
    holds("the damage mended", sz_check(pool, words), SZ_DONE, 300);
    /* a node that stands twice, and a cycle */
    pool[5 * 6 + 1] = pool[5 * 6 + 2];
    memcpy(before, pool, sizeof pool);
    refused("a node twice", sz_check(pool, words), SZ_NOT_SOUND);
    refused_whole("run, a node twice", sz_run(pool, words, orders, 9, out, OUT_WORDS), SZ_NOT_SOUND);
    pool[5 * 6 + 1] = 8;
    memcpy(before, pool, sizeof pool);
    refused("a cycle", sz_check(pool, words), SZ_NOT_SOUND);
    refused_whole("values, a cycle", sz_values(pool, words, out, OUT_WORDS), SZ_NOT_SOUND);
    refused_whole("run, a cycle", sz_run(pool, words, orders, 9, out, OUT_WORDS), SZ_NOT_SOUND);
}

/* A pool that stands, lent with words too many behind it: with a number that no pool has it is of a wrong size, and with one that a greater pool
 * has it is damaged, as its trailer is not at the end. No word is changed. */
static void lent_too_many(uint64_t nodes, uint64_t length) {
    size_t words = SZ_POOL_WORDS(nodes);
    spoil(pool, LENT_WORDS);
    spoil(out, OUT_WORDS);
    sz_build(pool, words, marks, MARK_WORDS, length);
    memcpy(before, pool, sizeof pool);
    for (size_t more = words + 1; more <= words + 18; more++) {
        uint64_t code = more % 6 != 0 || more > POOL_WORDS ? SZ_WRONG_SIZE : SZ_NOT_SOUND;
        refused("check, too many words", sz_check(pool, more), code);
        refused_whole("values, too many words", sz_values(pool, more, out, OUT_WORDS), code);
        refused_whole("run, too many words", sz_run(pool, more, orders, 9, out, OUT_WORDS), code);
        if (code == SZ_WRONG_SIZE)
            refused("build, too many words", sz_build(pool, more, marks, MARK_WORDS, length), SZ_WRONG_SIZE);
    }
    holds("check, as many words as it has", sz_check(pool, words), SZ_DONE, length);
}

static void sizes(void) {
    spoil(pool, LENT_WORDS);
    spoil(out, OUT_WORDS);
    memcpy(before, pool, sizeof pool);
    for (size_t words = 0; words <= LENT_WORDS; words++)
        if (words < 12 || words % 6 != 0 || words > POOL_WORDS) {
            refused("check, wrong size", sz_check(pool, words), SZ_WRONG_SIZE);
            refused("build, wrong size", sz_build(pool, words, marks, MARK_WORDS, 1), SZ_WRONG_SIZE);
            refused_whole("values, wrong size", sz_values(pool, words, out, OUT_WORDS), SZ_WRONG_SIZE);
            refused_whole("run, wrong size", sz_run(pool, words, orders, 3, out, OUT_WORDS), SZ_WRONG_SIZE);
        }
    refused("marks that are not given", sz_build(pool, POOL_WORDS, marks, 2, 129), SZ_TOO_LONG);
    refused("a length of all ones", sz_build(pool, POOL_WORDS, marks, MARK_WORDS, ~0ULL), SZ_TOO_LONG);
    refused("size before length", sz_build(pool, 13, marks, 0, 1), SZ_WRONG_SIZE);
    refused("length before room", sz_build(pool, 12, marks, 1, 65), SZ_TOO_LONG);
    refused("no room", sz_build(pool, 12, marks, 2, 65), SZ_FULL);
}

/* ---- a run, beside a plain list of marks */

static sz_answer answer(uint64_t code, uint64_t value) {
    sz_answer a = {code, value};
    return a;
}

static sz_answer list_insert(uint64_t at, uint64_t mark) {
    if (at > listed)
        return answer(SZ_OUT_OF_RANGE, 0);
    memmove(list + at + 1, list + at, listed - at);
    list[at] = (unsigned char)mark;
    listed++;
    return answer(SZ_DONE, 0);
}

static sz_answer list_mark(uint64_t at, int taken) {
    if (at >= listed)
        return answer(SZ_OUT_OF_RANGE, 0);
    uint64_t mark = list[at];
    if (taken) {
        listed--;
        memmove(list + at, list + at + 1, listed - at);
    }
    return answer(SZ_DONE, mark);
}

static sz_answer list_rank(uint64_t place, uint64_t mark) {
    uint64_t count = 0;
    if (place > listed)
        return answer(SZ_OUT_OF_RANGE, 0);
    for (uint64_t i = 0; i < place; i++)
        count += list[i] == mark;
    return answer(SZ_DONE, count);
}

static sz_answer list_select(uint64_t k, uint64_t mark) {
    uint64_t count = 0;
    if (k == 0)
        return answer(SZ_NO_ZEROTH, 0);
    for (uint64_t i = 0; i < listed; i++) {
        count += list[i] == mark;
        if (count == k)
            return answer(SZ_DONE, i);
    }
    return answer(SZ_TOO_FEW, 0);
}

static sz_answer list_quiet(void) {
    uint64_t most = 0, quiet = 0;
    int struck = 0;
    for (uint64_t i = 0; i < listed; i++) {
        quiet++;
        if (list[i]) {
            if (struck && quiet - 1 > most)
                most = quiet - 1;
            struck = 1;
            quiet = 0;
        }
    }
    return answer(SZ_DONE, most);
}

/* What the list answers to an order, and becomes. */
static sz_answer list_answer(const uint64_t *order) {
    uint64_t second = order[1], third = order[2];
    switch (order[0]) {
    case SZ_INSERT:
        return third > 1 ? answer(SZ_MALFORMED, 0) : list_insert(second, third);
    case SZ_REMOVE:
        return third > 0 ? answer(SZ_MALFORMED, 0) : list_mark(second, 1);
    case SZ_ACCESS:
        return third > 0 ? answer(SZ_MALFORMED, 0) : list_mark(second, 0);
    case SZ_RANK:
        return third > 1 ? answer(SZ_MALFORMED, 0) : list_rank(second, third);
    case SZ_SELECT:
        return third > 1 ? answer(SZ_MALFORMED, 0) : list_select(second, third);
    case SZ_QUIET:
        return second > 0 || third > 0 ? answer(SZ_MALFORMED, 0) : list_quiet();
    default:
        return answer(SZ_MALFORMED, 0);
    }
}

static void answered(const char *what, size_t i, uint64_t code, uint64_t value) {
    holds(what, answer(out[2 * i], out[2 * i + 1]), code, value);
}

/* Serves so many of the orders, with words of output too many. */
static void run(const char *what, size_t words, size_t count) {
    spoil(out, OUT_WORDS);
    holds(what, sz_run(pool, words, orders, 3 * count, out, OUT_WORDS), SZ_DONE, count);
    untouched("the words after the answers", out + 2 * count, OUT_WORDS - 2 * count);
    untouched("the words after the pool", pool + words, LENT_WORDS - words);
}

/* Serves so many of the orders, each answered as the list answers it. */
static void run_beside_the_list(size_t words, size_t count) {
    run("run", words, count);
    for (size_t i = 0; i < count; i++) {
        sz_answer want = list_answer(orders + 3 * i);
        answered("an order", i, want.code, want.value);
    }
    holds("check after run", sz_check(pool, words), SZ_DONE, listed);
}

static void read_beside_the_list(size_t words) {
    holds("values after run", sz_values(pool, words, out, OUT_WORDS), SZ_DONE, words_for(listed));
    for (uint64_t i = 0; i < listed; i++)
        is("a mark after run", out[i / 64] >> i % 64 & 1, list[i]);
}

/* Each kind of order once, on five marks and none, and what is no order. */
static void each_order(void) {
    size_t words = SZ_POOL_WORDS(3);
    spoil(pool, LENT_WORDS);
    sz_build(pool, words, marks, 0, 0);
    for (size_t i = 0; i < 5; i++)
        order(i, SZ_INSERT, i, i % 3 == 0);
    run("inserts", words, 5);
    for (size_t i = 0; i < 5; i++)
        answered("insert", i, SZ_DONE, 0);
    /* 1 0 0 1 0 */
    order(0, SZ_QUIET, 0, 0);
    order(1, SZ_ACCESS, 3, 0);
    order(2, SZ_RANK, 5, 0);
    order(3, SZ_SELECT, 2, 1);
    order(4, SZ_REMOVE, 3, 0);
    order(5, SZ_SELECT, 2, 1);
    order(6, SZ_SELECT, 0, 1);
    order(7, SZ_ACCESS, 4, 0);
    order(8, SZ_INSERT, 5, 1);
    order(9, SZ_INSERT, 4, 2);
    order(10, SZ_REMOVE, 0, 1);
    order(11, SZ_QUIET, 0, 1);
    order(12, 0, 0, 0);
    order(13, 7, 0, 0);
    order(14, SZ_RANK, 4, 1);
    const uint64_t want[] = {0, 2, 0, 1, 0, 3, 0, 3, 0, 1, 3, 0, 2, 0, 1, 0, 1, 0, 5, 0, 5, 0, 5, 0, 5, 0, 5, 0, 0, 1};
    run("each order", words, 15);
    same("the answers", out, want, 30);
    holds("check after each order", sz_check(pool, words), SZ_DONE, 4);
}

/* A leaf of 127 marks and no node free: an insert is answered Full and changes nothing, and what comes after it is served. */
static void full(void) {
    size_t words = SZ_POOL_WORDS(2);
    spoil(pool, LENT_WORDS);
    sz_build(pool, words, marks, 0, 0);
    for (size_t i = 0; i < 127; i++)
        order(i, SZ_INSERT, i, 1);
    run("127 inserts", words, 127);
    memcpy(before, pool, sizeof pool);
    order(0, SZ_INSERT, 64, 0);
    order(1, SZ_INSERT, 128, 0);
    order(2, SZ_RANK, 127, 1);
    run("full", words, 3);
    answered("full", 0, SZ_FULL, 0);
    answered("out of range before full", 1, SZ_OUT_OF_RANGE, 0);
    answered("the rank after full", 2, SZ_DONE, 127);
    same("full: the pool", pool, before, LENT_WORDS);
    order(0, SZ_REMOVE, 64, 0);
    order(1, SZ_INSERT, 64, 0);
    run("room again", words, 2);
    answered("a remove makes room", 0, SZ_DONE, 1);
    answered("an insert takes it", 1, SZ_DONE, 0);
    holds("check after full", sz_check(pool, words), SZ_DONE, 127);
}

/* The tests of a run, in their sequence. */
static void run_refusals(void) {
    size_t words = SZ_POOL_WORDS(9);
    spoil(pool, LENT_WORDS);
    sz_build(pool, words, marks, MARK_WORDS, 300);
    order(0, SZ_INSERT, 0, 1);
    order(1, SZ_REMOVE, 0, 0);
    spoil(out, OUT_WORDS);
    memcpy(before, pool, sizeof pool);
    refused("run, a word too few", sz_run(pool, words - 1, orders, 4, out, 0), SZ_WRONG_SIZE);
    refused("run, part of an order", sz_run(pool, words, orders, 4, out, 1), SZ_PART_ORDER);
    refused("run, part of an order", sz_run(pool, words, orders, 5, out, 4), SZ_PART_ORDER);
    refused("run, too short", sz_run(pool, words, orders, 6, out, 3), SZ_SHORT_OUTPUT);
    holds("run, no order", sz_run(pool, words, orders, 0, out, 0), SZ_DONE, 0);
    same("run, no order: the pool", pool, before, LENT_WORDS);
    pool[words - 1] = 1;
    memcpy(before, pool, sizeof pool);
    refused("run, part and damaged", sz_run(pool, words, orders, 5, out, 4), SZ_PART_ORDER);
    refused("run, short and damaged", sz_run(pool, words, orders, 6, out, 3), SZ_SHORT_OUTPUT);
    refused("run, damaged", sz_run(pool, words, orders, 6, out, 4), SZ_NOT_SOUND);
    refused("run, no order and damaged", sz_run(pool, words, orders, 0, out, 0), SZ_NOT_SOUND);
    untouched("run, refused: the output", out, OUT_WORDS);
}

/* Many orders of every kind, and some that are none: the window grows at first and shrinks then. */
static void many_orders(void) {
    spoil(pool, LENT_WORDS);
    sz_build(pool, POOL_WORDS, marks, 0, 0);
    listed = 0;
    for (unsigned turn = 0; turn < 60; turn++) {
        for (size_t i = 0; i < ORDERS; i++) {
            uint64_t number = drawn() % 2 ? drawn() % 8 : turn < 30 ? SZ_INSERT : SZ_REMOVE;
            int bare = number == SZ_REMOVE || number == SZ_ACCESS || number == SZ_QUIET;
            order(i, number, number == SZ_QUIET ? 0 : drawn() % (listed + 2), drawn() % 16 == 0 ? 2 : bare ? 0 : drawn() % 2);
        }
        run_beside_the_list(POOL_WORDS, ORDERS);
        if (turn % 10 == 9)
            read_beside_the_list(POOL_WORDS);
    }
}

int main(void) {
    for (size_t i = 0; i < MARK_WORDS; i++)
        marks[i] = drawn();
    for (int longer = 0; longer < 2; longer++) {
        for (uint64_t length = 0; length <= 700; length++)
            round_trip(length <= 64 ? 1 : 2 * ((length + 63) / 64) - 1, length, longer);
        round_trip(SZ_MOST_NODES, 15000, longer);
        round_trip(SZ_MOST_NODES, 64 * MARK_WORDS, longer);
    }
    shapes();
    damages();
    sizes();
    lent_too_many(9, 300);
    lent_too_many(1, 0);
    lent_too_many(SZ_MOST_NODES - 1, 15000);
    lent_too_many(SZ_MOST_NODES, 15000);
    each_order();
    full();
    run_refusals();
    many_orders();
    printf("%u answers asked from C, %u wrong\n", asked, wrong);
    return wrong != 0;
}
