/* A window as a plain array of marks, and a pool's words read as docs/REFERENCE.md lays them out. Neither knows the library's code. */
#ifndef MODEL_H
#define MODEL_H

#include "spelunzone.h"

#define MOST_NODES 1023
#define MOST_LEAVES 512
#define MOST_MARKS (127 * MOST_LEAVES)
#define FULL_LEAF 127

typedef struct {
    uint64_t length;
    unsigned char marks[MOST_MARKS + 1];
} model_list;

/* What a well-formed pool holds: its leaves' sizes from the left, its marks, how many nodes are free, and its height. */
typedef struct {
    uint64_t leaves, sizes[MOST_LEAVES], free_nodes, height;
    model_list list;
} model_reading;

/* Reads a pool and says whether it is well-formed. */
int model_read(const uint64_t *words, size_t count, model_reading *to);

/* Whether an insert at a place of a well-formed pool is to be Full: its leaf holds 127 marks and fewer than two nodes are free. */
int model_full(const model_reading *pool, uint64_t at);

/* What the list answers to an order, and becomes; whether an insert in range is Full is told to it. */
sz_answer model_answer(model_list *list, const uint64_t order[3], int full);

/* A word of values: 64 marks from a place that is a multiple of 64. */
uint64_t model_word(const model_list *list, uint64_t from);

#endif
