/* Lets libFuzzer see which blocks of the library's own machine code an input reaches, though the library was compiled without it: at each
 * block's first instruction stands a breakpoint until it is reached; then the instruction is put back and a counter that libFuzzer looks at
 * is set. The addresses are read from the file that FUZZ_BLOCKS names, in hexadecimal and rising, one a line. */
#define _GNU_SOURCE
#include <signal.h>
#include <stdint.h>
#include <stdio.h>
#include <stdlib.h>
#include <sys/mman.h>
#include <ucontext.h>
#include <unistd.h>

#define MOST_BLOCKS 4096

/* What a breakpoint is, where the processor says that it met one, and how far behind it that is. */
#if defined(__x86_64__)
typedef uint8_t code;
#define BREAKPOINT 0xcc
#define AT(context) (context)->uc_mcontext.gregs[REG_RIP]
#define BEHIND 1
#elif defined(__aarch64__)
typedef uint32_t code;
#define BREAKPOINT 0xd4200000
#define AT(context) (context)->uc_mcontext.pc
#define BEHIND 0
#endif

__attribute__((section("__libfuzzer_extra_counters"))) static uint8_t reached[MOST_BLOCKS];

static uintptr_t blocks[MOST_BLOCKS];
static code instruction[MOST_BLOCKS];
static uint8_t ever[MOST_BLOCKS];
static size_t count;

static size_t block_at(uintptr_t address) {
    size_t low = 0, high = count;
    while (low < high) {
        size_t middle = (low + high) / 2;
        if (blocks[middle] < address)
            low = middle + 1;
        else
            high = middle;
    }
    return low;
}

static void put(uintptr_t address, code word) {
    *(volatile code *)address = word;
    __builtin___clear_cache((char *)address, (char *)address + sizeof word);
}

static void trapped(int signal, siginfo_t *info, void *context) {
    (void)signal, (void)info;
    uintptr_t address = (uintptr_t)AT((ucontext_t *)context) - BEHIND;
    size_t block = block_at(address);
    if (block >= count || blocks[block] != address)
        abort();
    put(address, instruction[block]);
    reached[block] = ever[block] = 1;
    AT((ucontext_t *)context) -= BEHIND;
}

static void told(void) {
    size_t seen = 0;
    for (size_t i = 0; i < count; i++)
        seen += ever[i];
    fprintf(stderr, "blocks of the library reached: %zu of %zu\n", seen, count);
    for (size_t i = 0; i < count; i++)
        if (!ever[i])
            fprintf(stderr, "not reached: %lx\n", (unsigned long)blocks[i]);
}

void blocks_watched(void) {
    const char *name = getenv("FUZZ_BLOCKS");
    FILE *file = name ? fopen(name, "r") : NULL;
    unsigned long address;
    if (file == NULL)
        return;
    while (count < MOST_BLOCKS && fscanf(file, "%lx", &address) == 1)
        blocks[count++] = address;
    fclose(file);
    if (count == 0 || count == MOST_BLOCKS)
        abort();
    uintptr_t page = (uintptr_t)sysconf(_SC_PAGESIZE), first = blocks[0] / page * page, end = (blocks[count - 1] / page + 1) * page;
    if (mprotect((void *)first, end - first, PROT_READ | PROT_WRITE | PROT_EXEC) != 0)
        abort();
    struct sigaction action = {.sa_sigaction = trapped, .sa_flags = SA_SIGINFO | SA_NODEFER};
    sigaction(SIGTRAP, &action, NULL);
    for (size_t i = 0; i < count; i++) {
        instruction[i] = *(code *)blocks[i];
        put(blocks[i], BREAKPOINT);
    }
    atexit(told);
}
