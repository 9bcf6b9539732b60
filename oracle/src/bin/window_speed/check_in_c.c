/* Whether a pool is well-formed, written in C for speed alone: ./bench times it beside sz_check, which is proved, and holds the two verdicts
 * to each other before. docs/REFERENCE.md has the rules.
 *
 * The tree is visited by recursion. Marks and strikes of a subtree are claimed from above, and its height is handed back; the root's strikes
 * are counted along the right edge first. A bitmap tells the nodes that were met. Then the free chain is followed to its end, so that no node
 * can stand in it twice, and none of it in the tree, since it is of another kind.
 */
#include "spelunzone.h"

enum { FREE = 0, LEAF = 1, FORK = 2 };
enum { NOT_LAST_LEAST = 33, LEAF_MOST = 127, MOST_HEIGHT = 12, WORD_BITS = 64, MET_WORDS = 16 };

/* handed back in place of a height where something is wrong */
enum { WRONG = -1 };

typedef struct {
    const uint64_t *words;
    uint64_t nodes;
    uint64_t met[MET_WORDS];
} visited;

/* The six words of node n, NULL where there is no such node. */
static inline const uint64_t *node_at(const visited *pool, uint64_t n) {
    return n < pool->nodes ? pool->words + SZ_NODE_WORDS * n : NULL;
}

/* By hand, since gcc's own calls a function where the processor need not have an instruction for it; where it has one, this is that. */
static inline uint64_t ones_of(uint64_t word) {
    word -= word >> 1 & UINT64_C(0x5555555555555555);
    word = (word & UINT64_C(0x3333333333333333)) + (word >> 2 & UINT64_C(0x3333333333333333));
    return ((word + (word >> 4)) & UINT64_C(0x0f0f0f0f0f0f0f0f)) * UINT64_C(0x0101010101010101) >> 56;
}

static inline uint64_t ones_in(const uint64_t *leaf) {
    return ones_of(leaf[1]) + ones_of(leaf[2]);
}

static inline int leaf_fits(const uint64_t *leaf, uint64_t total, uint64_t ones, uint64_t least) {
    if ((leaf[3] | leaf[4] | leaf[5]) != 0 || total < least || total > LEAF_MOST) return 0;
    uint64_t past = total < WORD_BITS ? leaf[1] >> total | leaf[2] : leaf[2] >> (total - WORD_BITS);
    return past == 0 && ones_in(leaf) == ones;
}

/* The height of the tree at n, which is to have so many marks and strikes, its last leaf at least so many marks. */
static int visit(visited *pool, uint64_t n, uint64_t total, uint64_t ones, uint64_t least) {
    const uint64_t *node = node_at(pool, n);
    if (node == NULL) return WRONG;
    uint64_t bit = UINT64_C(1) << n % WORD_BITS;
    if (pool->met[n / WORD_BITS] & bit) return WRONG;
    pool->met[n / WORD_BITS] |= bit;
    if (node[0] == LEAF) return leaf_fits(node, total, ones, least) ? 0 : WRONG;
    if (node[0] != FORK || node[3] > total || node[4] > ones) return WRONG;
    int left = visit(pool, node[1], node[3], node[4], NOT_LAST_LEAST);
    if (left == WRONG) return WRONG;
    int right = visit(pool, node[2], total - node[3], ones - node[4], least);
    if (right == WRONG) return WRONG;
    int balance = right - left;
    if (balance < -1 || balance > 1 || node[5] != (uint64_t)(balance + 2)) return WRONG;
    return 1 + (balance > 0 ? right : left);
}

/* The strikes that the right edge tells of a tree; whether it tells the truth is for the visit to find out. */
static uint64_t ones_by_the_edge(const visited *pool, uint64_t root) {
    uint64_t ones = 0, n = root;
    for (int height = MOST_HEIGHT; height >= 0; height--) {
        const uint64_t *node = node_at(pool, n);
        if (node == NULL) break;
        if (node[0] != FORK) return ones + ones_in(node);
        ones += node[4];
        n = node[2];
    }
    return 0;
}

/* Whether the chain has so many free nodes, and then ends. */
static int chain_fits(const visited *pool, uint64_t first, uint64_t count) {
    uint64_t n = first;
    for (; count > 0; count--) {
        const uint64_t *node = node_at(pool, n);
        if (node == NULL || (node[0] | node[2] | node[3] | node[4] | node[5]) != FREE) return 0;
        n = node[1];
    }
    return n == pool->nodes;
}

/* The code that sz_check gives. */
uint64_t check_in_c(const uint64_t *words, size_t count) {
    if (count < SZ_POOL_WORDS(1) || count > SZ_POOL_WORDS(SZ_MOST_NODES) || count % SZ_NODE_WORDS != 0) return SZ_WRONG_SIZE;
    visited pool = {.words = words, .nodes = count / SZ_NODE_WORDS - 1};
    const uint64_t *trailer = words + SZ_NODE_WORDS * pool.nodes;
    uint64_t root = trailer[0], marks = trailer[1], first_free = trailer[2], free_nodes = trailer[3];
    if (trailer[4] != pool.nodes || trailer[5] != 0 || root >= pool.nodes) return SZ_NOT_SOUND;
    uint64_t least = words[SZ_NODE_WORDS * root] == FORK;
    if (visit(&pool, root, marks, ones_by_the_edge(&pool, root), least) == WRONG) return SZ_NOT_SOUND;
    uint64_t met = 0;
    for (int at = 0; at < MET_WORDS; at++) met += ones_of(pool.met[at]);
    return met + free_nodes == pool.nodes && chain_fits(&pool, first_free, free_nodes) ? SZ_DONE : SZ_NOT_SOUND;
}
