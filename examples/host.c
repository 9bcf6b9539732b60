/* A flight host in C: it lends one pool, builds a window of marks, takes late marks and withdrawals, answers an analyst's questions, and
 * keeps the counter that matters when a pool runs full: how many events were lost. Compile it with include/spelunzone.h and link
 * target/staticlib/libspelunzone.a; nothing else is needed.
 *
 * Each answer has a code and a value. The host looks at the code first, always: a value beside a refusal is 0 and says nothing. */
#include <inttypes.h>
#include <stdio.h>
#include <stdlib.h>

#include "spelunzone.h"

#define NODES SZ_MOST_NODES
#define FRAMES 15000
#define WORDS ((FRAMES + 63) / 64)

/* The pool and all else that is lent: no heap. */
static uint64_t pool[SZ_POOL_WORDS(NODES)], small[SZ_POOL_WORDS(1)], marks[WORDS];

/* What an operator reads beside a code. */
static const char *in_words(uint64_t code) {
    static const char *const words[] = {
        "done", "no such frame", "strikes are counted from 1", "not so many strikes", "full: the mark was NOT taken", "not an order",
        "not a pool's size", "the pool is damaged", "the output is too short", "part of an order", "fewer words than marks",
        "a leaf lacks the mark",
    };
    return code < sizeof words / sizeof *words ? words[code] : "no such code";
}

/* Here a call's own refusal is a fault of the host, so it ends. */
static uint64_t done(const char *call, sz_answer answer) {
    if (answer.code != SZ_DONE) {
        fprintf(stderr, "%s: %s\n", call, in_words(answer.code));
        exit(1);
    }
    return answer.value;
}

/* Runs one order; a list of many costs less for each, as the pool is tested once a list. */
static sz_answer order(uint64_t *words, size_t count, uint64_t number, uint64_t second, uint64_t third) {
    const uint64_t asked[SZ_ORDER_WORDS] = {number, second, third};
    uint64_t told[SZ_ANSWER_WORDS];
    done("sz_run", sz_run(words, count, asked, SZ_ORDER_WORDS, told, SZ_ANSWER_WORDS));
    return (sz_answer){told[0], told[1]};
}

/* The events that were not taken since the start: raised by one for each insert that is answered SZ_FULL, and by nothing else. It goes out
 * with every figure, so that whoever reads the figure knows what it leaves out. */
static uint64_t lost;

/* Puts a mark in, and counts it as lost where there is no room for it. Any other refusal is a fault of the host. */
static int taken(uint64_t *words, size_t count, uint64_t place, uint64_t mark) {
    const sz_answer answer = order(words, count, SZ_INSERT, place, mark);
    if (answer.code == SZ_FULL) {
        lost++;
        return 0;
    }
    done("insert", answer);
    return 1;
}

/* Prints what was asked: the value, or why there is none. */
static void figure(const char *before, uint64_t *words, size_t count, uint64_t number, uint64_t second, uint64_t third) {
    const sz_answer answer = order(words, count, number, second, third);
    if (answer.code == SZ_DONE)
        printf("%s%" PRIu64, before, answer.value);
    else
        printf("%s(%s)", before, in_words(answer.code));
}

static void tell(const char *what, uint64_t *words, size_t count) {
    const uint64_t frames = done("sz_check", sz_check(words, count));
    printf("%s: %" PRIu64 " frames", what, frames);
    figure(", strikes ", words, count, SZ_RANK, frames, 1);
    figure("; the first in frame ", words, count, SZ_SELECT, 1, 1);
    figure(", the 10th in frame ", words, count, SZ_SELECT, 10, 1);
    figure("; longest quiet ", words, count, SZ_QUIET, 0, 0);
    printf("; lost %" PRIu64 "\n", lost);
}

/* Two storms: a strike in every third frame of the first, in every second frame of the other. */
static int strikes_in(unsigned frame) {
    return (frame >= 4000 && frame < 4300 && frame % 3 == 0) || (frame >= 9000 && frame < 9100 && frame % 2 == 0);
}

int main(void) {
    const size_t pool_words = SZ_POOL_WORDS(NODES), small_words = SZ_POOL_WORDS(1);

    for (unsigned frame = 0; frame < FRAMES; frame++)
        if (strikes_in(frame))
            marks[frame / 64] |= UINT64_C(1) << frame % 64;
    done("sz_build", sz_build(pool, pool_words, marks, WORDS, FRAMES));
    tell("as recorded", pool, pool_words);

    /* Late marks of the second sensor, and frames spoiled by a particle hit, as one list. */
    const uint64_t edits[] = {
        SZ_INSERT, 4005, 1, SZ_INSERT, 9050, 1, SZ_INSERT, 12000, 0, SZ_REMOVE, 4000, 0, SZ_REMOVE, 20000, 0,
    };
    enum { EDITS = sizeof edits / sizeof *edits / SZ_ORDER_WORDS };
    uint64_t told[SZ_ANSWER_WORDS * EDITS];
    done("sz_run", sz_run(pool, pool_words, edits, SZ_ORDER_WORDS * EDITS, told, SZ_ANSWER_WORDS * EDITS));
    for (int i = 0; i < EDITS; i++) {
        if (told[2 * i] == SZ_FULL && edits[3 * i] == SZ_INSERT)
            lost++;
        printf("edit %d: %" PRIu64 " %" PRIu64 ", %s\n", i, told[2 * i], told[2 * i + 1], in_words(told[2 * i]));
    }
    tell("after the edits", pool, pool_words);

    /* A storm that is too much for its pool: a pool of one node holds one leaf, 127 marks. Each frame's mark goes in at the end; each 20th
     * frame turns out to be spoiled, and the fourth mark of those that are held is withdrawn. Inserts that find no room say so. */
    done("sz_build", sz_build(small, small_words, marks, 0, 0));
    lost = 0;
    uint64_t frames = 0, held = 0, withdrawn = 0;
    for (; frames < 200; frames++) {
        if (taken(small, small_words, held, frames % 2))
            held++;
        if (frames % 20 == 19) {
            done("remove", order(small, small_words, SZ_REMOVE, 3, 0));
            held--;
            withdrawn++;
        }
    }
    tell("a busy storm", small, small_words);

    /* What was promised, and is proved of the calls (NothingLostByCount, crates/demands/specs/Promises.antt): the marks that are held are
     * those of the build, one more for each insert and one less for each remove that was answered 0. So nothing is unaccounted for. */
    const uint64_t now = done("sz_check", sz_check(small, small_words));
    printf("frames taken %" PRIu64 " = held %" PRIu64 " + withdrawn %" PRIu64 " + lost %" PRIu64 "\n", frames, now, withdrawn, lost);
    return now + withdrawn + lost == frames && now == held ? 0 : 1;
}
