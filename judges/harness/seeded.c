/* Gives the harness of the fuzzer inputs from a seeded generator, in libFuzzer's place: so many of them, as the first word says. */
#include <stdio.h>
#include <stdlib.h>

#include "spelunzone.h"

#define MOST_BYTES 512

int LLVMFuzzerInitialize(int *count, char ***words);
int LLVMFuzzerTestOneInput(const uint8_t *input, size_t size);

/* The blocks are watched by taken.c here. */
void blocks_watched(void);
void blocks_watched(void) {}

static uint64_t state = 1;

static uint64_t drawn(void) {
    state = state * 6364136223846793005ULL + 1442695040888963407ULL;
    return state >> 33;
}

int main(int count, char **words) {
    static uint8_t input[MOST_BYTES];
    unsigned long inputs = count > 1 ? strtoul(words[1], NULL, 10) : 1000;
    LLVMFuzzerInitialize(&count, &words);
    for (unsigned long i = 0; i < inputs; i++) {
        size_t size = 8 + drawn() % (MOST_BYTES - 8);
        for (size_t at = 0; at < size; at++)
            input[at] = (uint8_t)drawn();
        input[0] = (uint8_t)(i % 4);
        LLVMFuzzerTestOneInput(input, size);
    }
    printf("seeded: %lu inputs\n", inputs);
    return 0;
}
