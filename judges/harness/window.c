/* A harness for libFuzzer: bytes are read as a pool's size, marks and orders, or as a pool and what damages it, and every answer and every word
 * that may not change is held to the model's. Each lent slice ends where a page begins that may not be touched, and has spare words before it. */
#define _GNU_SOURCE
#include <stdio.h>
#include <stdlib.h>
#include <string.h>
#include <sys/mman.h>

#include "model.h"

#define POOL_WORDS (6 * (MOST_NODES + 1))
#define OUT_WORDS 1024
#define LIST 64
#define MOST_ORDERS 1200 /* of an input */
#define MARGIN 8
#define SPARE 0x5a5a5a5a5a5a5a5aULL
#define PAGE 4096

void blocks_watched(void);

/* What happens in a window, by its height, as counters that libFuzzer looks at. */
enum { SPLIT, JOINED, FULL, ROOT_MOVED, SOUND_AFTER_ALL, EVENTS };
__attribute__((section("__libfuzzer_extra_counters"))) static uint8_t events[EVENTS][16];

static const uint8_t *data, *data_end;
static unsigned long all_orders, all_full, all_damaged;

/* The next byte of the input, 0 after its end. */
static uint64_t byte(void) {
    return data < data_end ? *data++ : 0;
}

static uint64_t two_bytes(void) {
    uint64_t low = byte();
    return low | byte() << 8;
}

static void holds(int is, const char *what) {
    if (is)
        return;
    fprintf(stderr, "not as the model has it: %s\n", what);
    abort();
}

/* Memory that is lent: the words end where a page begins that may not be touched. */
typedef struct {
    uint64_t *end;
} region;

static region pool_region, order_region, out_region;

static region made(size_t most) {
    size_t bytes = ((most + MARGIN) * sizeof(uint64_t) + PAGE - 1) / PAGE * PAGE;
    char *start = mmap(NULL, bytes + PAGE, PROT_READ | PROT_WRITE, MAP_PRIVATE | MAP_ANONYMOUS, -1, 0);
    if (start == MAP_FAILED || mprotect(start + bytes, PAGE, PROT_NONE) != 0)
        abort();
    region done = {(uint64_t *)(start + bytes)};
    return done;
}

static uint64_t *lent(region from, size_t words) {
    uint64_t *start = from.end - words;
    for (size_t i = 1; i <= MARGIN; i++)
        start[-(ptrdiff_t)i] = SPARE;
    return start;
}

static void margin_stays(const uint64_t *start) {
    for (size_t i = 1; i <= MARGIN; i++)
        holds(start[-(ptrdiff_t)i] == SPARE, "the words before a slice");
}

static void counted(void) {
    fprintf(stderr, "%lu orders held to the model's answers, %lu Full, %lu damaged pools\n", all_orders, all_full, all_damaged);
}

int LLVMFuzzerInitialize(int *count, char ***words) {
    (void)count, (void)words;
    pool_region = made(POOL_WORDS);
    order_region = made(3 * LIST);
    out_region = made(OUT_WORDS);
    blocks_watched();
    atexit(counted);
    return 0;
}

/* The window under test. */
static uint64_t *pool, before[POOL_WORDS];
static size_t pool_words;
static model_list list;
static model_reading reading;

static void answered(const char *what, sz_answer got, uint64_t code, uint64_t value) {
    if (got.code == code && got.value == value)
        return;
    fprintf(stderr, "%s: %llu %llu, not %llu %llu\n", what, (unsigned long long)got.code, (unsigned long long)got.value,
            (unsigned long long)code, (unsigned long long)value);
    abort();
}

static void pool_stays(const char *what) {
    holds(memcmp(pool, before, pool_words * sizeof *pool) == 0, what);
    margin_stays(pool);
}

static void pool_kept(void) {
    memcpy(before, pool, pool_words * sizeof *pool);
}

static uint64_t value_words(uint64_t length) {
    return (length + 127) / 128 * 2;
}

static void same_list(const model_list *one, const model_list *other) {
    holds(one->length == other->length && memcmp(one->marks, other->marks, one->length) == 0, "the marks read off the pool");
}

/* The window as a whole: check, values and the pool read by the layout. */
static void looked_at(void) {
    uint64_t count = value_words(list.length), *out = lent(out_region, count);
    pool_kept();
    answered("check", sz_check(pool, pool_words), SZ_DONE, list.length);
    answered("values", sz_values(pool, pool_words, out, count), SZ_DONE, count);
    for (uint64_t i = 0; i < count; i++)
        holds(out[i] == model_word(&list, 64 * i), "a word of values");
    if (count > 0) {
        out = lent(out_region, count - 1);
        answered("values, too short", sz_values(pool, pool_words, out, count - 1), SZ_SHORT_OUTPUT, 0);
    }
    margin_stays(out);
    pool_stays("the pool after check and values");
    holds(model_read(pool, pool_words, &reading), "the pool is well-formed");
    same_list(&list, &reading.list);
}

/* A pool of some nodes with some marks in it; 0 where it was refused. */
static int built(void) {
    static uint64_t words[OUT_WORDS];
    uint64_t first = byte(), nodes = 1 + (first < 112 ? first % 16 : first < 224 ? first % 64 : two_bytes() % MOST_NODES);
    uint64_t leaves = (nodes + 1) / 2, length = two_bytes() % (64 * leaves + 2), state = byte() * 0x9e3779b97f4a7c15ULL;
    uint64_t count = (length + 63) / 64;
    for (uint64_t i = 0; i < count; i++) {
        state = state * 6364136223846793005ULL + 1442695040888963407ULL;
        words[i] = state ^ state >> 29;
    }
    pool_words = SZ_POOL_WORDS(nodes);
    pool = lent(pool_region, pool_words);
    memset(pool, 0x5a, pool_words * sizeof *pool);
    pool_kept();
    if (2 * (count == 0 ? 1 : count) - 1 > nodes) {
        answered("build", sz_build(pool, pool_words, words, count, length), SZ_FULL, 0);
        pool_stays("the pool after a refused build");
        return 0;
    }
    answered("build", sz_build(pool, pool_words, words, count, length), SZ_DONE, length);
    list.length = length;
    for (uint64_t i = 0; i < length; i++)
        list.marks[i] = words[i / 64] >> i % 64 & 1;
    return 1;
}

static void order_read(uint64_t *order, uint64_t first, uint64_t place) {
    order[0] = first % 8;
    order[1] = order[0] == SZ_QUIET && first < 224 ? 0 : place % (list.length + 3);
    order[2] = order[0] == SZ_INSERT || order[0] == SZ_RANK || order[0] == SZ_SELECT ? first / 8 % 2 : 0;
    if (first >= 248)
        order[2] = 2;
}

/* Serves the orders of a list, each answered as the model answers it. Full is told to the model only where the list is of one order. */
static void served(const uint64_t *orders, size_t count, int full) {
    uint64_t *lent_orders = lent(order_region, 3 * count), *out = lent(out_region, 2 * count);
    uint64_t free_before = pool[pool_words - 3], root_before = pool[pool_words - 6];
    memcpy(lent_orders, orders, 3 * count * sizeof *orders);
    pool_kept();
    answered("run", sz_run(pool, pool_words, lent_orders, 3 * count, out, 2 * count), SZ_DONE, count);
    int edited = 0;
    for (size_t i = 0; i < count; i++) {
        sz_answer want = model_answer(&list, orders + 3 * i, full), got = {out[2 * i], out[2 * i + 1]};
        answered("an order", got, want.code, want.value);
        edited |= want.code == SZ_DONE && (orders[3 * i] == SZ_INSERT || orders[3 * i] == SZ_REMOVE);
    }
    holds(memcmp(lent_orders, orders, 3 * count * sizeof *orders) == 0, "the orders after a run");
    margin_stays(pool), margin_stays(lent_orders), margin_stays(out);
    if (!edited)
        pool_stays("the pool after refusals and questions");
    uint64_t height = reading.height < 15 ? reading.height : 15;
    events[SPLIT][height] += pool[pool_words - 3] < free_before;
    events[JOINED][height] += pool[pool_words - 3] > free_before;
    events[ROOT_MOVED][height] += pool[pool_words - 6] != root_before;
    events[FULL][height] += full;
    all_orders += count, all_full += full;
}

/* Serves some orders as one list where no insert of them can be Full, else one by one. */
static void serve(const uint64_t *orders, size_t count) {
    if (pool[pool_words - 3] >= 2 * count) {
        served(orders, count, 0);
        return;
    }
    for (size_t i = 0; i < count; i++) {
        const uint64_t *order = orders + 3 * i;
        int full = 0;
        if (order[0] == SZ_INSERT && order[1] <= list.length && order[2] < 2) {
            holds(model_read(pool, pool_words, &reading), "the pool is well-formed");
            full = model_full(&reading, order[1]);
        }
        served(order, 1, full);
    }
}

/* Orders until the input ends. One byte tells the order, two the place, and one how many times it is given, in one list. */
static void orders_served(void) {
    uint64_t orders[3 * LIST];
    unsigned long start = all_orders;
    looked_at();
    for (unsigned turn = 0; data < data_end && all_orders - start < MOST_ORDERS; turn++) {
        uint64_t first = byte(), place = two_bytes(), times = 1 + byte() % LIST;
        for (uint64_t i = 0; i < times; i++)
            order_read(orders + 3 * i, first, place);
        serve(orders, times);
        if (turn % (list.length < 2000 ? 8 : 64) == 7)
            looked_at();
    }
    looked_at();
}

/* Holds the calls on any words to what the layout says of them. */
static void judged(void) {
    static const uint64_t orders[] = {SZ_INSERT, 0, 1, SZ_REMOVE, 0, 0};
    uint64_t *lent_orders = lent(order_region, 6), *out = lent(out_region, 4);
    memcpy(lent_orders, orders, sizeof orders);
    pool_kept();
    if (model_read(pool, pool_words, &reading)) {
        events[SOUND_AFTER_ALL][reading.height & 15]++;
        list = reading.list;
        looked_at();
        serve(orders, 2);
        looked_at();
        return;
    }
    all_damaged++;
    for (size_t i = 0; i < 4; i++)
        out[i] = SPARE;
    answered("check of damaged words", sz_check(pool, pool_words), SZ_NOT_SOUND, 0);
    answered("values of damaged words", sz_values(pool, pool_words, out, 4), SZ_NOT_SOUND, 0);
    answered("run on damaged words", sz_run(pool, pool_words, lent_orders, 6, out, 4), SZ_NOT_SOUND, 0);
    answered("part of an order on damaged words", sz_run(pool, pool_words, lent_orders + 1, 5, out, 4), SZ_PART_ORDER, 0);
    answered("short output on damaged words", sz_run(pool, pool_words, lent_orders, 6, out + 1, 3), SZ_SHORT_OUTPUT, 0);
    for (size_t i = 0; i < 4; i++)
        holds(out[i] == SPARE, "the output after a refusal");
    margin_stays(lent_orders), margin_stays(out);
    pool_stays("the pool after refusals");
}

/* One damage: a word set, a bit turned over, a word moved, words or nodes exchanged. */
static void damaged(void) {
    uint64_t how = byte(), at = two_bytes() % pool_words, value = byte(), other = (at + value) % pool_words, kept = pool[at];
    uint64_t node = at / 6 * 6, other_node = (node + 6 * value) % pool_words / 6 * 6;
    switch (how % 6) {
    case 0:
        pool[at] = value;
        break;
    case 1:
        pool[at] ^= 1ULL << value % 64;
        break;
    case 2:
        pool[at] = pool[other];
        break;
    case 3:
        pool[at] = pool[other], pool[other] = kept;
        break;
    case 4:
        for (size_t i = 0; i < 6; i++)
            kept = pool[node + i], pool[node + i] = pool[other_node + i], pool[other_node + i] = kept;
        break;
    default:
        pool[at] += value - 128;
    }
}

static void damages(void) {
    uint64_t grown = byte() % LIST, orders[3 * LIST];
    for (uint64_t i = 0; i < grown; i++)
        order_read(orders + 3 * i, SZ_INSERT, list.length / 2);
    serve(orders, grown);
    for (unsigned turn = 0; data < data_end && turn < 16; turn++) {
        damaged();
        judged();
    }
}

/* A pool of up to eight nodes, every word told by the input. */
static void any_words(void) {
    uint64_t nodes = 1 + byte() % 8;
    pool_words = SZ_POOL_WORDS(nodes);
    pool = lent(pool_region, pool_words);
    for (size_t i = 0; i < pool_words; i++) {
        uint64_t told = byte();
        pool[i] = told < 200 ? told : told < 240 ? 0 : told < 250 ? nodes : ~0ULL << (told - 250);
    }
    pool[pool_words - 2] = nodes;
    judged();
}

int LLVMFuzzerTestOneInput(const uint8_t *input, size_t size) {
    data = input, data_end = input + size;
    uint64_t mode = byte() % 4;
    reading.height = 0;
    if (mode == 3) {
        any_words();
        return 0;
    }
    if (!built())
        return 0;
    if (mode == 2)
        damages();
    else
        orders_served();
    return 0;
}
