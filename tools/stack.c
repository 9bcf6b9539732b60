/* How much stack each call uses: it is made in a thread whose stack below the caller's frame was painted before, and the
 * paint that is gone afterwards is counted. What an empty call uses is taken off. For x86-64. */
#define _POSIX_C_SOURCE 200112L
#include <pthread.h>
#include <stdio.h>
#include <stdlib.h>
#include <string.h>

#include "spelunzone.h"

#define STACK (1 << 20)
#define PAINT 0xa5
#define NODES 1023
#define POOL SZ_POOL_WORDS(NODES)
#define ORDERS 2000
#define LEVELS 12

static unsigned char *stack;
static uint64_t pool[POOL], marks[512], out[2 * ORDERS], orders[3 * ORDERS], state = 1;

static uint64_t drawn(void) {
    state = state * 6364136223846793005ULL + 1442695040888963407ULL;
    return state >> 33;
}

static void need(sz_answer answer) {
    if (answer.code != SZ_DONE)
        exit(1);
}

static void *nothing(void *unused) { return unused; }

static void *check(void *unused) {
    need(sz_check(pool, POOL));
    return unused;
}

static void *build(void *unused) {
    need(sz_build(pool, POOL, marks, 512, 32768));
    return unused;
}

static void *values(void *unused) {
    need(sz_values(pool, POOL, out, 2 * ORDERS));
    return unused;
}

static void *run(void *unused) {
    need(sz_run(pool, POOL, orders, 3 * ORDERS, out, 2 * ORDERS));
    return unused;
}

static void *(*called)(void *);
static size_t deepest;

static void *painted(void *unused) {
    unsigned char *top;
    __asm__ volatile("mov %%rsp, %0" : "=r"(top));
    for (volatile unsigned char *at = stack; at < top; at++)
        *at = PAINT;
    called(unused);
    const unsigned char *left = stack;
    while (left < top && *left == PAINT)
        left++;
    deepest = (size_t)(top - left);
    return unused;
}

static size_t used(void *(*call)(void *)) {
    pthread_attr_t attributes;
    pthread_t thread;
    called = call;
    if (pthread_attr_init(&attributes) || pthread_attr_setstack(&attributes, stack, STACK) ||
        pthread_create(&thread, &attributes, painted, NULL) || pthread_join(thread, NULL))
        exit(1);
    return deepest;
}

/* The most over some turns, less what an empty call uses. */
static size_t most(void *(*call)(void *), int turns, void (*before)(void)) {
    size_t best = 0, empty = used(nothing);
    while (turns-- > 0) {
        before();
        size_t here = used(call);
        best = here > best ? here : best;
    }
    return best - empty;
}

static uint64_t number, length;

/* The thinnest balanced tree of a height, its left sides the higher ones, of leaves of 64 marks: as deep as a pool has room for. */
static uint64_t next;

static uint64_t thin(int height, uint64_t *strikes, uint64_t *total) {
    const uint64_t top = next++;
    uint64_t *const node = pool + 6 * top;
    memset(node, 0, 48);
    if (height <= 0) {
        node[0] = 1;
        node[1] = marks[top % 512];
        *strikes = (uint64_t)__builtin_popcountll(node[1]);
        *total = 64;
        return top;
    }
    uint64_t right_strikes, right_total;
    node[0] = 2;
    node[1] = thin(height - 1, node + 4, node + 3);
    node[2] = thin(height - 2, &right_strikes, &right_total);
    node[5] = height == 1 ? 2 : 1;
    *strikes = node[4] + right_strikes;
    *total = node[3] + right_total;
    return top;
}

static void deep(void) {
    uint64_t strikes, *const trailer = pool + 6 * NODES;
    next = 0;
    memset(pool, 0, sizeof pool);
    trailer[0] = thin(LEVELS, &strikes, &length);
    trailer[1] = length;
    trailer[2] = next;
    trailer[3] = NODES - next;
    trailer[4] = NODES;
    for (uint64_t n = next; n < NODES; n++)
        pool[6 * n + 1] = n + 1;
    need(sz_check(pool, POOL));
}

/* A list of one order, its places among so many. */
static void listed(uint64_t places) {
    for (size_t i = 0; i < ORDERS; i++) {
        orders[3 * i] = number;
        orders[3 * i + 1] = number == SZ_QUIET ? 0 : drawn() % places + 1;
        orders[3 * i + 2] = number == SZ_INSERT || number == SZ_RANK || number == SZ_SELECT ? drawn() % 2 : 0;
    }
}

static void steady(void) { listed(length - ORDERS); }

/* Only the left end grows or shrinks, so that the tree is turned often. */
static void lopsided(void) { listed(64); }

static void ordered(const char *name, uint64_t order) {
    void (*const lists[])(void) = {steady, lopsided};
    size_t best = 0;
    number = order;
    for (int list = 0; list < 2; list++) {
        deep();
        const size_t here = most(run, order == SZ_QUIET ? 2 : 6, lists[list]);
        best = here > best ? here : best;
    }
    printf("  run, %-8s %6zu bytes\n", name, best);
}

int main(void) {
    if (posix_memalign((void **)&stack, 4096, STACK))
        return 1;
    for (size_t i = 0; i < 512; i++)
        marks[i] = drawn() << 32 ^ drawn();
    printf("  check         %6zu bytes\n", most(check, 1, deep));
    printf("  build         %6zu bytes\n", most(build, 1, deep));
    printf("  values        %6zu bytes\n", most(values, 1, deep));
    ordered("insert", SZ_INSERT);
    ordered("remove", SZ_REMOVE);
    ordered("access", SZ_ACCESS);
    ordered("rank", SZ_RANK);
    ordered("select", SZ_SELECT);
    ordered("quiet", SZ_QUIET);
    return 0;
}
