/* spelunzone.h: a window of marks for a C host. Version 0.1.0.
 *
 * A window is a list of marks, the oldest first: 1, a strike, where the trigger fired, and 0 where it was quiet. It stands in a pool, an
 * array of 64-bit words that the host lends for the time of a call. The library has no heap and no state of its own. A pool is plain
 * words: it may be copied, stored and moved, and is the same window there.
 *
 * Every call takes arbitrary words, tests them itself in the sequence that it names below, and ends. It answers a code and a value. Look
 * at the code first: where it is not SZ_DONE the call was refused, the value is 0 and says nothing, and no word that was lent has changed.
 *
 * How large a pool. SZ_POOL_WORDS(n) words are a pool of n nodes, 1 to SZ_MOST_NODES. SZ_ALWAYS_MARKS(n) is how many marks it takes
 * whatever edits come: while it holds fewer, no insert is answered SZ_FULL. SZ_BUILD_MARKS(n) is how many a build puts into it at most.
 * docs/REFERENCE.md has a table.
 *
 * What a call costs. Check, values and run test the whole pool first, some microseconds for 1,023 nodes; an order of a run then walks one
 * path of the tree, some tens of nanoseconds (docs/PERFORMANCE.md has the figures and the machine). So a list of many orders costs far
 * less than as many calls.
 *
 * SZ_NOT_SOUND means that the pool's words are not those that the library left: they were written over, cut off or hit. The window is
 * not to be had from them. Build it anew from marks that were kept elsewhere, or from none, and count the loss.
 *
 * Pointers   are aligned as uint64_t is (8 bytes), and not null also where their count is 0. Slices that are written must not overlap other
 *            slices of the same call.
 * Stack      less than 4 KiB below the caller for each call (measured; docs/FLIGHT.md). Recursion is at most 12 levels deep.
 * Reentrancy No static data: calls on pools that do not overlap may be made at the same time. A pool must not change during a call on it
 *            but by that call.
 * Needs      nothing: it calls no function but its own.
 */
#ifndef SPELUNZONE_H
#define SPELUNZONE_H

#include <stddef.h>
#include <stdint.h>

#ifdef __cplusplus
extern "C" {
#endif

#define SZ_VERSION "0.1.0"
#define SZ_VERSION_MAJOR 0
#define SZ_VERSION_MINOR 1
#define SZ_VERSION_PATCH 0

/* The codes. All but SZ_DONE are refusals: the value beside them is 0, and nothing was changed. */
enum {
    SZ_DONE = 0,         /* done; the value is the call's or the order's */
    SZ_OUT_OF_RANGE = 1, /* an order: there is no such place */
    SZ_NO_ZEROTH = 2,    /* a select: k is 0, and k counts from 1 */
    SZ_TOO_FEW = 3,      /* a select: there are fewer than k such marks */
    SZ_FULL = 4,         /* an insert: its leaf holds 127 marks and fewer than two nodes are free; build: more leaves than nodes for them.
                            The mark was not taken, and none was dropped for it: count it as lost, or lend a larger pool */
    SZ_MALFORMED = 5,    /* an order: no such number, a bit that is neither 0 nor 1, or a word that is to be 0 */
    SZ_WRONG_SIZE = 6,   /* a call: no pool has so many words */
    SZ_NOT_SOUND = 7,    /* a call: the pool's words are damaged */
    SZ_SHORT_OUTPUT = 8, /* a call: the output has too few words */
    SZ_PART_ORDER = 9,   /* run: the orders are not three words each */
    SZ_TOO_LONG = 10,    /* build: the length is more than 64 for each word */
    SZ_LEAF_LACKS = 11   /* no call and no order gives it: it is the Rust's runtime error, and the number is kept for it */
};

/* The orders of a run, three words each: the number, and then */
enum {
    SZ_INSERT = 1, /* where, at most the length, and the mark, 0 or 1; the marks from there on move up by one */
    SZ_REMOVE = 2, /* where, below the length, and 0; tells the mark that was taken out */
    SZ_ACCESS = 3, /* where, below the length, and 0; tells the mark */
    SZ_RANK = 4,   /* a place, at most the length, and a mark; tells how many such stand before it */
    SZ_SELECT = 5, /* k, from 1, and a mark; tells where the k-th such stands */
    SZ_QUIET = 6   /* 0, and 0; tells the longest quiet between two strikes */
};

/* The words of a node, of an order, and of an order's answer; and the most nodes of a pool. */
#define SZ_NODE_WORDS 6
#define SZ_ORDER_WORDS 3
#define SZ_ANSWER_WORDS 2
#define SZ_MOST_NODES 1023

/* The words of a pool of n nodes. */
#define SZ_POOL_WORDS(n) (SZ_NODE_WORDS * ((size_t)(n) + 1))

/* The words that sz_values writes for so many marks: two for each 128 begun. */
#define SZ_VALUE_WORDS(marks) (((size_t)(marks) + 127) / 128 * 2)

/* The leaves that n nodes have room for; the marks below which no insert is answered SZ_FULL, whatever edits come; the most that a build
 * puts in; and the most that there can ever be. */
#define SZ_LEAVES(n) (((size_t)(n) + 1) / 2)
#define SZ_ALWAYS_MARKS(n) (SZ_LEAVES(n) == 1 ? (size_t)127 : 33 * SZ_LEAVES(n) + 62)
#define SZ_BUILD_MARKS(n) (64 * SZ_LEAVES(n))
#define SZ_EVER_MARKS(n) (127 * SZ_LEAVES(n))

/* A code, 0 where the call was done, and a value, 0 where it was refused. */
typedef struct {
    uint64_t code, value;
} sz_answer;

/* sz_check tells whether the pool is well-formed, and how many marks it holds.
 *
 * pool, pool_words   the pool; it is only read.
 *
 * Its tests, in sequence: SZ_WRONG_SIZE, SZ_NOT_SOUND. Done: how many marks the window has. */
sz_answer sz_check(const uint64_t *pool, size_t pool_words);

/* sz_build makes a window of some marks, whatever the pool held before.
 *
 * pool, pool_words   the pool; every word of it is written over.
 * words, word_count  the marks, 64 to a word, the lowest bit of the first word first.
 * length             how many of them; the bits after them are not looked at. With 0 the window is empty.
 *
 * Its tests, in sequence: SZ_WRONG_SIZE, SZ_TOO_LONG, SZ_FULL. Done: the length. */
sz_answer sz_build(uint64_t *pool, size_t pool_words, const uint64_t *words, size_t word_count, uint64_t length);

/* sz_run serves orders one after the other.
 *
 * pool, pool_words     the pool; it is tested once, and the orders that are done edit it.
 * orders, order_words  the orders, SZ_ORDER_WORDS each.
 * out, out_words       receives SZ_ANSWER_WORDS for each order, its code and its value, in the same sequence; words after them stay.
 *
 * Its tests, in sequence: SZ_WRONG_SIZE, SZ_PART_ORDER, SZ_SHORT_OUTPUT, SZ_NOT_SOUND. Done: how many orders were served. That says
 * nothing of the orders: each has its own code in out, from SZ_DONE to SZ_MALFORMED. One that is refused changes no word of the pool, and
 * the next is served. */
sz_answer sz_run(uint64_t *pool, size_t pool_words, const uint64_t *orders, size_t order_words, uint64_t *out, size_t out_words);

/* sz_values writes the marks out, as sz_build takes them.
 *
 * pool, pool_words  the pool; it is only read.
 * out, out_words    receives SZ_VALUE_WORDS of the marks held; bits after the last mark are 0, and words after them stay.
 *
 * Its tests, in sequence: SZ_WRONG_SIZE, SZ_NOT_SOUND, SZ_SHORT_OUTPUT. Done: how many words were written. */
sz_answer sz_values(const uint64_t *pool, size_t pool_words, uint64_t *out, size_t out_words);

#ifdef __cplusplus
}
#endif

#endif
