#include "model.h"

#include <string.h>

static sz_answer answer(uint64_t code, uint64_t value) {
    sz_answer made = {code, value};
    return made;
}

/* The reader: each node is met once, a leaf's size is told by the forks above it. */
typedef struct {
    const uint64_t *words;
    uint64_t nodes;
    unsigned char met[MOST_NODES];
    model_reading *to;
} reader;

typedef struct {
    int sound;
    uint64_t ones, height;
} subtree;

static const subtree UNSOUND = {0, 0, 0};

static const uint64_t *meet(reader *in, uint64_t number) {
    if (number >= in->nodes || in->met[number])
        return NULL;
    in->met[number] = 1;
    return in->words + 6 * number;
}

static subtree read_leaf(reader *in, const uint64_t *node, uint64_t size, uint64_t fewest) {
    subtree made = {1, 0, 0};
    model_reading *to = in->to;
    if (node[3] != 0 || node[4] != 0 || node[5] != 0 || size < fewest || size > FULL_LEAF)
        return UNSOUND;
    for (uint64_t i = 0; i < 128; i++) {
        unsigned char mark = node[1 + i / 64] >> i % 64 & 1;
        if (i >= size && mark)
            return UNSOUND;
        if (i < size)
            to->list.marks[to->list.length++] = mark;
        made.ones += mark;
    }
    to->sizes[to->leaves++] = size;
    return made;
}

static subtree read_tree(reader *in, uint64_t number, uint64_t size, uint64_t fewest) {
    const uint64_t *node = meet(in, number);
    if (node == NULL)
        return UNSOUND;
    if (node[0] == 1)
        return in->to->leaves < MOST_LEAVES ? read_leaf(in, node, size, fewest) : UNSOUND;
    if (node[0] != 2 || node[3] > size)
        return UNSOUND;
    subtree left = read_tree(in, node[1], node[3], 33);
    if (!left.sound || left.ones != node[4])
        return UNSOUND;
    /* the last leaf of several holds one mark at least */
    subtree right = read_tree(in, node[2], size - node[3], fewest == 0 ? 1 : fewest);
    if (!right.sound || right.height > left.height + 1 || left.height > right.height + 1 || node[5] + left.height != right.height + 2)
        return UNSOUND;
    subtree made = {1, left.ones + right.ones, 1 + (left.height > right.height ? left.height : right.height)};
    return made;
}

static int read_chain(reader *in, uint64_t first) {
    for (uint64_t next = first; next != in->nodes;) {
        const uint64_t *node = meet(in, next);
        if (node == NULL || node[0] != 0 || node[2] != 0 || node[3] != 0 || node[4] != 0 || node[5] != 0)
            return 0;
        in->to->free_nodes++;
        next = node[1];
    }
    return 1;
}

int model_read(const uint64_t *words, size_t count, model_reading *to) {
    static reader in;
    if (count % 6 != 0 || count < 12 || count > 6 * (MOST_NODES + 1))
        return 0;
    in.words = words;
    in.nodes = count / 6 - 1;
    in.to = to;
    memset(in.met, 0, sizeof in.met);
    to->leaves = to->free_nodes = to->list.length = 0;
    const uint64_t *trailer = words + 6 * in.nodes;
    if (trailer[4] != in.nodes || trailer[5] != 0 || trailer[1] > MOST_MARKS)
        return 0;
    subtree tree = read_tree(&in, trailer[0], trailer[1], 0);
    if (!tree.sound || !read_chain(&in, trailer[2]) || to->free_nodes != trailer[3])
        return 0;
    for (uint64_t i = 0; i < in.nodes; i++)
        if (!in.met[i])
            return 0;
    to->height = tree.height;
    return 1;
}

int model_full(const model_reading *pool, uint64_t at) {
    uint64_t leaf = 0;
    while (leaf + 1 < pool->leaves && at >= pool->sizes[leaf])
        at -= pool->sizes[leaf++];
    return pool->free_nodes < 2 && pool->sizes[leaf] == FULL_LEAF;
}

static sz_answer insert(model_list *list, uint64_t at, uint64_t mark, int full) {
    if (at > list->length)
        return answer(SZ_OUT_OF_RANGE, 0);
    if (full)
        return answer(SZ_FULL, 0);
    memmove(list->marks + at + 1, list->marks + at, list->length - at);
    list->marks[at] = mark;
    list->length++;
    return answer(SZ_DONE, 0);
}

static sz_answer at_place(model_list *list, uint64_t at, int taken) {
    if (at >= list->length)
        return answer(SZ_OUT_OF_RANGE, 0);
    unsigned char mark = list->marks[at];
    if (taken) {
        list->length--;
        memmove(list->marks + at, list->marks + at + 1, list->length - at);
    }
    return answer(SZ_DONE, mark);
}

static sz_answer rank_of(const model_list *list, uint64_t end, uint64_t mark) {
    uint64_t count = 0;
    if (end > list->length)
        return answer(SZ_OUT_OF_RANGE, 0);
    for (uint64_t i = 0; i < end; i++)
        count += list->marks[i] == mark;
    return answer(SZ_DONE, count);
}

static sz_answer select_of(const model_list *list, uint64_t k, uint64_t mark) {
    if (k == 0)
        return answer(SZ_NO_ZEROTH, 0);
    for (uint64_t i = 0; i < list->length; i++)
        if (list->marks[i] == mark && --k == 0)
            return answer(SZ_DONE, i);
    return answer(SZ_TOO_FEW, 0);
}

static sz_answer longest_quiet(const model_list *list) {
    uint64_t most = 0, quiet = 0, struck = 0;
    for (uint64_t i = 0; i < list->length; i++) {
        if (!list->marks[i]) {
            quiet++;
            continue;
        }
        if (struck && quiet > most)
            most = quiet;
        struck = 1;
        quiet = 0;
    }
    return answer(SZ_DONE, most);
}

sz_answer model_answer(model_list *list, const uint64_t order[3], int full) {
    uint64_t second = order[1], third = order[2];
    int takes_mark = order[0] == SZ_INSERT || order[0] == SZ_RANK || order[0] == SZ_SELECT;
    if (third > (uint64_t)takes_mark)
        return answer(SZ_MALFORMED, 0);
    switch (order[0]) {
    case SZ_INSERT:
        return insert(list, second, third, full);
    case SZ_REMOVE:
        return at_place(list, second, 1);
    case SZ_ACCESS:
        return at_place(list, second, 0);
    case SZ_RANK:
        return rank_of(list, second, third);
    case SZ_SELECT:
        return select_of(list, second, third);
    case SZ_QUIET:
        return second == 0 ? longest_quiet(list) : answer(SZ_MALFORMED, 0);
    default:
        return answer(SZ_MALFORMED, 0);
    }
}

uint64_t model_word(const model_list *list, uint64_t from) {
    uint64_t word = 0;
    for (uint64_t i = 0; i < 64 && from + i < list->length; i++)
        word |= (uint64_t)list->marks[from + i] << i;
    return word;
}
