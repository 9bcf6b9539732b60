/* Goes where chance seldom leads: every refusal of every call, every rule of a well-formed pool broken, pools of every size, and edits that split,
 * join, borrow and turn on either side. Every answer is held to a plain array of marks, and every pool to its layout read by itself (model.c). It
 * prints one line and ends with 0 where every answer was right. */
#include <stdio.h>
#include <stdlib.h>
#include <string.h>

#include "model.h"

#define POOL_WORDS SZ_POOL_WORDS(MOST_NODES)
#define AFTER 18 /* words after a pool that are looked at, too */
#define LENT_WORDS (POOL_WORDS + AFTER)
#define MARK_WORDS 512
#define OUT_WORDS 1040 /* more than any window here has */
#define LIST 500
#define SPARE 0x5a

static uint64_t pool[LENT_WORDS], before[LENT_WORDS], marks[MARK_WORDS], out[OUT_WORDS], out_before[OUT_WORDS], orders[3 * LIST];
static size_t pool_words, listed;
static model_list list;
static model_reading reading;
static unsigned long asked, damaged;
static uint64_t state = 1;

static uint64_t drawn(void) {
    state = state * 6364136223846793005ULL + 1442695040888963407ULL;
    return state ^ state >> 29;
}

static void holds(int is, const char *what) {
    asked++;
    if (is)
        return;
    printf("directed: not as the model has it: %s\n", what);
    exit(1);
}

static void answered(const char *what, sz_answer got, uint64_t code, uint64_t value) {
    asked++;
    if (got.code == code && got.value == value)
        return;
    printf("directed: %s: %llu %llu, not %llu %llu\n", what, (unsigned long long)got.code, (unsigned long long)got.value,
           (unsigned long long)code, (unsigned long long)value);
    exit(1);
}

/* The words of the pool, and some after them: all that is looked at for a change. */
static size_t kept_bytes(void) {
    return (pool_words + AFTER) * sizeof *pool;
}

static void kept(void) {
    memcpy(before, pool, kept_bytes());
    memset(out, SPARE, sizeof out);
}

/* A refusal: the code, and no word of the pool or the output changed. */
static void refused(const char *what, sz_answer got, uint64_t code) {
    answered(what, got, code, 0);
    holds(memcmp(pool, before, kept_bytes()) == 0, what);
    holds(memcmp(out, out_before, sizeof out) == 0, what);
}

/* The pool read by its layout holds the model's marks. */
static void stands(void) {
    holds(model_read(pool, pool_words, &reading), "the pool is well-formed");
    holds(reading.list.length == list.length && memcmp(reading.list.marks, list.marks, list.length) == 0, "the marks");
}

/* Check and values tell the model's marks. */
static void looked_at(void) {
    uint64_t count = SZ_VALUE_WORDS(list.length);
    stands();
    kept();
    answered("check", sz_check(pool, pool_words), SZ_DONE, list.length);
    if (count > 0)
        refused("values, too short", sz_values(pool, pool_words, out, count - 1), SZ_SHORT_OUTPUT);
    answered("values", sz_values(pool, pool_words, out, OUT_WORDS), SZ_DONE, count);
    for (uint64_t i = 0; i < count; i++)
        holds(out[i] == model_word(&list, 64 * i), "a word of values");
    holds(memcmp(out + count, out_before, (OUT_WORDS - count) * sizeof *out) == 0, "values: the words after");
    holds(memcmp(pool, before, kept_bytes()) == 0, "values: the pool");
}

/* A window of the first of the marks, in a pool of so many nodes. */
static void build(uint64_t nodes, uint64_t length) {
    pool_words = SZ_POOL_WORDS(nodes);
    memset(pool, SPARE, kept_bytes());
    answered("build", sz_build(pool, pool_words, marks, MARK_WORDS, length), SZ_DONE, length);
    list.length = length;
    for (uint64_t i = 0; i < length; i++)
        list.marks[i] = marks[i / 64] >> i % 64 & 1;
}

/* Serves some of the orders that were given, each answered as the model answers it. Full is told to the model. */
static void served(size_t first, size_t count, int full) {
    answered("run", sz_run(pool, pool_words, orders + 3 * first, 3 * count, out, 2 * count), SZ_DONE, count);
    for (size_t i = 0; i < count; i++) {
        sz_answer want = model_answer(&list, orders + 3 * (first + i), full), got = {out[2 * i], out[2 * i + 1]};
        answered("an order", got, want.code, want.value);
    }
}

/* Serves the orders that were given, as one list where none of them can be Full, else one by one. */
static void serve(void) {
    if (pool[pool_words - 3] >= 2 * listed)
        served(0, listed, 0);
    else
        for (size_t i = 0; i < listed; i++) {
            const uint64_t *order = orders + 3 * i;
            int insert = order[0] == SZ_INSERT && order[1] <= list.length && order[2] < 2;
            holds(!insert || model_read(pool, pool_words, &reading), "the pool is well-formed");
            served(i, 1, insert && model_full(&reading, order[1]));
        }
    listed = 0;
}

/* Gives an order; a list that is long enough is served. */
static void order(uint64_t number, uint64_t second, uint64_t third) {
    orders[3 * listed] = number, orders[3 * listed + 1] = second, orders[3 * listed + 2] = third;
    if (++listed == LIST)
        serve();
}

/* Marks by chance, of which every second is a strike, or every fourth, or every eighth. */
static void fill(unsigned halvings) {
    for (size_t i = 0; i < MARK_WORDS; i++) {
        marks[i] = drawn();
        for (unsigned j = 0; j < halvings; j++)
            marks[i] &= drawn();
    }
}

/* Every order with every argument that may matter, right or wrong. */
static void arguments(void) {
    const uint64_t length = list.length;
    const uint64_t places[] = {0, 1, 2, length / 2, length - 1, length, length + 1, 63, 64, 127, 128, 1ULL << 32, 1ULL << 63, ~0ULL};
    const uint64_t thirds[] = {0, 1, 2, 1ULL << 32, ~0ULL};
    const uint64_t numbers[] = {0, 1, 2, 3, 4, 5, 6, 7, 1ULL << 32, (1ULL << 32) + 1, ~0ULL};
    for (size_t n = 0; n < sizeof numbers / sizeof *numbers; n++)
        for (size_t p = 0; p < sizeof places / sizeof *places; p++)
            for (size_t t = 0; t < sizeof thirds / sizeof *thirds; t++)
                order(numbers[n], places[p], thirds[t]);
    serve();
    looked_at();
}

/* Every question at every place. */
static void questions(uint64_t step) {
    for (uint64_t i = 0; i <= list.length + 1; i += step) {
        order(SZ_ACCESS, i, 0);
        for (uint64_t mark = 0; mark < 2; mark++) {
            order(SZ_RANK, i, mark);
            order(SZ_SELECT, i, mark);
        }
    }
    order(SZ_QUIET, 0, 0);
    serve();
}

/* The refusals of every call, in the sequence of their tests: each call is wrong in everything that is tested later, too. */
static void refusals(void) {
    static const size_t sizes[] = {0, 1, 5, 6, 7, 11, 13, 17, 6143, 6145, 6149, 6150, 6156};
    pool_words = POOL_WORDS;
    memset(pool, 0xff, sizeof pool);
    kept();
    for (size_t i = 0; i < sizeof sizes / sizeof *sizes; i++) {
        refused("check, size", sz_check(pool, sizes[i]), SZ_WRONG_SIZE);
        refused("build, size", sz_build(pool, sizes[i], marks, 1, 65), SZ_WRONG_SIZE);
        refused("values, size", sz_values(pool, sizes[i], out, 0), SZ_WRONG_SIZE);
        refused("run, size", sz_run(pool, sizes[i], orders, 1, out, 0), SZ_WRONG_SIZE);
    }
    pool_words = SZ_POOL_WORDS(3);
    refused("build, too long", sz_build(pool, pool_words, marks, 2, 129), SZ_TOO_LONG);
    refused("build, too long by far", sz_build(pool, pool_words, marks, 2, ~0ULL), SZ_TOO_LONG);
    refused("build, no words", sz_build(pool, pool_words, marks, 0, 1), SZ_TOO_LONG);
    refused("build, Full", sz_build(pool, pool_words, marks, 3, 129), SZ_FULL);
    refused("run, part of an order", sz_run(pool, pool_words, orders, 4, out, 0), SZ_PART_ORDER);
    refused("run, part of an order", sz_run(pool, pool_words, orders, 5, out, 0), SZ_PART_ORDER);
    refused("run, short output", sz_run(pool, pool_words, orders, 6, out, 3), SZ_SHORT_OUTPUT);
    refused("run, not sound", sz_run(pool, pool_words, orders, 0, out, 0), SZ_NOT_SOUND);
    refused("values, not sound", sz_values(pool, pool_words, out, 0), SZ_NOT_SOUND);
    refused("check, not sound", sz_check(pool, pool_words), SZ_NOT_SOUND);
}

/* A pool whose words may be anything: the calls say of it what the layout says. */
static void judged(void) {
    int sound = model_read(pool, pool_words, &reading);
    damaged += !sound;
    kept();
    if (sound) {
        list = reading.list;
        looked_at();
        return;
    }
    refused("check of damaged words", sz_check(pool, pool_words), SZ_NOT_SOUND);
    if (damaged % 16 == 0) {
        refused("values of damaged words", sz_values(pool, pool_words, out, OUT_WORDS), SZ_NOT_SOUND);
        refused("run on damaged words", sz_run(pool, pool_words, orders, 0, out, OUT_WORDS), SZ_NOT_SOUND);
    }
}

/* Each word of a pool changed by itself, to each value that a rule may be broken by. */
static void damages(void) {
    const uint64_t nodes = pool_words / 6 - 1;
    for (size_t at = 0; at < pool_words; at++) {
        uint64_t right = pool[at];
        for (uint64_t value = 0; value < nodes + 3; value++)
            pool[at] = value, judged();
        for (unsigned bit = 0; bit < 64; bit++)
            pool[at] = right ^ 1ULL << bit, judged();
        pool[at] = right + 1, judged();
        pool[at] = right - 1, judged();
        pool[at] = ~right, judged();
        pool[at] = right;
    }
}

static void free_node(uint64_t n, uint64_t next) {
    const uint64_t words[] = {0, next, 0, 0, 0, 0};
    memcpy(pool + 6 * n, words, sizeof words);
}

static void leaf(uint64_t n, uint64_t low, uint64_t high) {
    const uint64_t words[] = {1, low, high, 0, 0, 0};
    memcpy(pool + 6 * n, words, sizeof words);
}

static void fork_node(uint64_t n, uint64_t left, uint64_t right, uint64_t total, uint64_t ones, uint64_t balance) {
    const uint64_t words[] = {2, left, right, total, ones, balance};
    memcpy(pool + 6 * n, words, sizeof words);
}

static void trailer(uint64_t root, uint64_t length, uint64_t first, uint64_t count) {
    const uint64_t words[] = {root, length, first, count, pool_words / 6 - 1, 0};
    memcpy(pool + pool_words - 6, words, sizeof words);
}

/* A tree that leans to one side, a leaf beside each fork, with balances that are claimed: deeper than any sound one, too. No node is free, or
 * more are than there are. */
static void combs(void) {
    for (uint64_t forks = 1; forks <= 16; forks++)
        for (uint64_t balance = 0; balance < 5; balance++)
            for (uint64_t first = 0; first < 5; first++)
                for (int left = 0; left < 2; left++) {
                    uint64_t nodes = 2 * forks + 1;
                    pool_words = SZ_POOL_WORDS(nodes);
                    for (uint64_t i = 0; i < forks; i++) {
                        uint64_t down = i + 1 < forks ? i + 1 : forks, marks_below = 33 * (forks - i);
                        fork_node(i, left ? down : forks + 1 + i, left ? forks + 1 + i : down, left ? marks_below : 33, 0, i == 0 ? first : balance);
                    }
                    for (uint64_t i = forks; i < nodes; i++)
                        leaf(i, 0, 0);
                    trailer(0, 33 * (forks + 1), nodes, 0);
                    judged();
                    trailer(0, 33 * (forks + 1), nodes, nodes + 1);
                    judged();
                }
}

/* Free chains that end too early, too late or never, and chains with other nodes in them. */
static void chains(void) {
    const uint64_t nodes = 6;
    pool_words = SZ_POOL_WORDS(nodes);
    for (uint64_t first = 0; first < nodes + 2; first++)
        for (uint64_t last = 0; last < nodes + 2; last++)
            for (uint64_t count = 0; count < nodes + 3; count++) {
                leaf(0, 5, 0);
                for (uint64_t i = 1; i < nodes; i++)
                    free_node(i, i + 1 < nodes ? i + 1 : last);
                trailer(0, 3, first, count);
                judged();
                trailer(0, 3, first, count - nodes);
                judged();
            }
}

/* Pools of every size, with lengths on both sides of each step. */
static void sizes(void) {
    for (uint64_t nodes = 1; nodes <= MOST_NODES; nodes++) {
        uint64_t most = 64 * ((nodes + 1) / 2);
        const uint64_t lengths[] = {0, 1, 63, 64, most / 2, most / 3 + 1, most - 64, most - 1, most};
        for (size_t i = 0; i < sizeof lengths / sizeof *lengths; i++)
            if (lengths[i] <= most) {
                build(nodes, lengths[i]);
                looked_at();
            }
    }
}

enum { FRONT, BACK, MIDDLE, ANYWHERE, SECOND, WAYS };

static uint64_t place(int way, uint64_t length) {
    return way == FRONT ? 0 : way == BACK ? length : way == MIDDLE ? length / 2 : way == SECOND ? length < 40 ? length : 40 : drawn() % (length + 1);
}

/* Inserts at places of one kind until the window holds so many marks or as many were tried, then removes at those of another until it is empty. */
static void grown_and_shrunk(uint64_t nodes, uint64_t length, int in, int taken_out, uint64_t most) {
    build(nodes, length);
    for (uint64_t i = 0; list.length + listed < most && i < most; i++) {
        order(SZ_INSERT, place(in, list.length), drawn() & 1);
        if (i % 61 == 0)
            serve(), stands();
    }
    serve();
    looked_at();
    questions(1 + list.length / 50);
    for (uint64_t i = 0; list.length > 0; i++) {
        uint64_t at = place(taken_out, list.length - 1);
        order(SZ_REMOVE, at, 0);
        if (i % 7 == 0 || list.length < 200)
            serve();
        if (i % 61 == 0)
            stands();
        if (listed > list.length / 2)
            serve();
    }
    looked_at();
}

static void edits(void) {
    static const uint64_t nodes[] = {1, 2, 3, 5, 8, 15, 40, 127};
    for (size_t i = 0; i < sizeof nodes / sizeof *nodes; i++)
        for (int in = 0; in < WAYS; in++)
            for (int taken_out = 0; taken_out < WAYS; taken_out++) {
                uint64_t most = SZ_EVER_MARKS(nodes[i]);
                fill((unsigned)(in + taken_out) % 3);
                grown_and_shrunk(nodes[i], most / 3, in, taken_out, nodes[i] < 10 ? most + 3 : most * 2 / 3);
            }
}

/* Quiet stretches within a word, over words, over leaves, before the first strike and after the last. */
static void quiets(void) {
    for (uint64_t strikes = 0; strikes < 5; strikes++)
        for (unsigned turn = 0; turn < 60; turn++) {
            uint64_t length = 1 + drawn() % 700;
            memset(marks, 0, sizeof marks);
            for (uint64_t i = 0; i < strikes; i++) {
                uint64_t at = drawn() % length;
                marks[at / 64] |= 1ULL << at % 64;
            }
            build(23, length);
            for (unsigned i = 0; i < turn; i++)
                order(SZ_INSERT, length / 2, 0);
            order(SZ_QUIET, 0, 0);
            for (uint64_t k = 0; k < 7; k++)
                order(SZ_SELECT, k, 1);
            serve();
        }
    memset(marks, 0xff, sizeof marks);
    build(23, 700);
    questions(1);
}

int main(void) {
    memset(out_before, SPARE, sizeof out_before);
    fill(0);
    refusals();
    for (uint64_t nodes = 1; nodes < 20; nodes += 2) {
        build(nodes, 64 * ((nodes + 1) / 2) - 31);
        answered("run, no orders", sz_run(pool, pool_words, orders, 0, out, 0), SZ_DONE, 0);
        arguments();
        questions(1);
    }
    for (uint64_t nodes = 1; nodes < 14; nodes += 3) {
        build(nodes, nodes < 3 ? 40 : 64 * (nodes / 2) - 20);
        damages();
    }
    combs();
    chains();
    sizes();
    edits();
    quiets();
    printf("directed: %lu answers asked, %lu damaged pools, 0 wrong\n", asked, damaged);
    return 0;
}
