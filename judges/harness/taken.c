/* Records which blocks of the library's machine code a run reaches, and which way it goes where it chooses, though the library was compiled
 * without any of it: at each block's first instruction and at each instruction that chooses stands a breakpoint, until all is seen that can be
 * seen there. A jump is carried out here in the library's place, so that its way is known; an instruction that moves or sets a word by a
 * condition is carried out in a copy of it, from which the program jumps back.
 *
 * The file that TAKEN_POINTS names has a line for each point: its kind (block, jump, table or choice), the address of its function in the program
 * as linked and its offset there, both in hexadecimal, the function's name, and how many bytes a choice has. What was seen is added to the file
 * that TAKEN_SEEN names: the kind, the function, the offset, and of a jump or a choice 1 or 0, whether its condition held, of a table the offset
 * that it led to. */
#define _GNU_SOURCE
#include <signal.h>
#include <stdio.h>
#include <stdlib.h>
#include <string.h>
#include <sys/mman.h>

#include "spelunzone.h"

#define MOST_POINTS 4096
#define MOST_TARGETS 32
#define COPY_BYTES 32
#define BREAKPOINT 0xcc
#define PAGE 4096

enum { BLOCK = 1, JUMP = 2, TABLE = 4, CHOICE = 8 };

/* What the kernel tells of the registers at a breakpoint on x86-64, in its sequence, as the headers of another machine may stand here. */
enum { R8, R9, R10, R11, R12, R13, R14, R15, RDI, RSI, RBP, RBX, RDX, RAX, RCX, RSP, RIP, FLAGS, REGISTERS };

typedef struct {
    uint64_t flags, next, stack[3], registers[REGISTERS];
} trap_context;

typedef struct {
    uintptr_t address, function;
    char name[128];
    unsigned kinds, bytes;
    uint8_t instruction, reached, held, failed, *copy;
    uintptr_t targets[MOST_TARGETS];
    size_t target_count;
} point;

static point points[MOST_POINTS];
static size_t count;

static point *point_at(uintptr_t address) {
    size_t low = 0, high = count;
    while (low < high) {
        size_t middle = (low + high) / 2;
        if (points[middle].address < address)
            low = middle + 1;
        else
            high = middle;
    }
    if (low == count || points[low].address != address)
        abort();
    return &points[low];
}

/* Whether the condition of an instruction holds, by the low four bits of its opcode; that is noted. */
static int condition(point *at, unsigned opcode, uint64_t flags) {
    int carry = flags & 1, parity = flags >> 2 & 1, zero = flags >> 6 & 1, sign = flags >> 7 & 1, overflow = flags >> 11 & 1;
    const int holds[] = {overflow, carry, zero, carry | zero, sign, parity, sign != overflow, zero | (sign != overflow)};
    int held = holds[opcode % 16 / 2] != (int)(opcode % 2);
    at->held |= held;
    at->failed |= !held;
    return held;
}

/* Where a jump that chooses leads. */
static uintptr_t jump_from(point *at, const uint64_t *registers) {
    const uint8_t *bytes = (const uint8_t *)at->address;
    int is_far = at->instruction == 0x0f;
    uintptr_t after = at->address + (is_far ? 6 : 2);
    int32_t far = (int8_t)bytes[1];
    if (is_far)
        memcpy(&far, bytes + 2, sizeof far);
    else if (at->instruction >> 4 != 7)
        abort();
    return condition(at, is_far ? bytes[1] : at->instruction, registers[FLAGS]) ? after + (uintptr_t)(intptr_t)far : after;
}

/* Where a word is moved or set by a condition: in the copy of the instruction. Its opcode comes after 0x0f. */
static uintptr_t chosen(point *at, const uint64_t *registers) {
    size_t opcode = 1;
    while (at->copy[opcode - 1] != 0x0f)
        opcode++;
    condition(at, at->copy[opcode], registers[FLAGS]);
    return (uintptr_t)at->copy;
}

/* Where a jump through a register leads. */
static uintptr_t jump_through(point *at, const uint64_t *registers) {
    static const int numbered[] = {RAX, RCX, RDX, RBX, RSP, RBP, RSI, RDI, R8, R9, R10, R11, R12, R13, R14, R15};
    const uint8_t *bytes = (const uint8_t *)at->address;
    int high = at->instruction == 0x41;
    uint8_t opcode = high ? bytes[1] : at->instruction, which = bytes[1 + high];
    if (opcode != 0xff || which >> 3 != 0x1c)
        abort();
    uintptr_t target = registers[numbered[(which & 7) + 8 * high]];
    for (size_t i = 0; i < at->target_count; i++)
        if (at->targets[i] == target)
            return target;
    if (at->target_count == MOST_TARGETS)
        abort();
    at->targets[at->target_count++] = target;
    return target;
}

static void trapped(int signal, siginfo_t *info, void *context) {
    (void)signal, (void)info;
    uint64_t *registers = ((trap_context *)context)->registers;
    uintptr_t address = registers[RIP] - 1;
    point *at = point_at(address);
    at->reached = 1;
    if (at->kinds & JUMP)
        registers[RIP] = jump_from(at, registers);
    else if (at->kinds & TABLE)
        registers[RIP] = jump_through(at, registers);
    else if (at->kinds & CHOICE)
        registers[RIP] = chosen(at, registers);
    else
        registers[RIP] = address;
    if (at->kinds == BLOCK || (at->held && at->failed))
        *(volatile uint8_t *)address = at->instruction;
}

static void told(void) {
    const char *name = getenv("TAKEN_SEEN");
    FILE *file = name ? fopen(name, "a") : NULL;
    if (file == NULL)
        abort();
    for (size_t i = 0; i < count; i++) {
        const point *at = &points[i];
        unsigned long offset = at->address - at->function;
        if (at->reached && at->kinds & BLOCK)
            fprintf(file, "block %s %lx\n", at->name, offset);
        const char *kind = at->kinds & JUMP ? "jump" : "choice";
        if (at->held)
            fprintf(file, "%s %s %lx 1\n", kind, at->name, offset);
        if (at->failed)
            fprintf(file, "%s %s %lx 0\n", kind, at->name, offset);
        for (size_t j = 0; j < at->target_count; j++)
            fprintf(file, "table %s %lx %lx\n", at->name, offset, (unsigned long)(at->targets[j] - at->function));
    }
    fclose(file);
}

static int earlier(const void *one, const void *other) {
    uintptr_t a = ((const point *)one)->address, b = ((const point *)other)->address;
    return (a > b) - (a < b);
}

/* Reads the points, those of one address as one, and moves them to where the program was loaded. */
static void points_read(FILE *file) {
    char kind[8], name[128];
    unsigned long function, offset;
    unsigned bytes;
    uintptr_t moved = 0;
    size_t lines = 0;
    while (lines < MOST_POINTS && fscanf(file, "%7s %lx %lx %127s %u", kind, &function, &offset, name, &bytes) == 5) {
        point *at = &points[lines++];
        at->address = function + offset, at->function = function, at->bytes = bytes;
        at->kinds = strcmp(kind, "block") == 0 ? BLOCK : strcmp(kind, "jump") == 0 ? JUMP : strcmp(kind, "table") == 0 ? TABLE : CHOICE;
        strcpy(at->name, name);
        if (strcmp(name, "sz_check") == 0)
            moved = (uintptr_t)sz_check - function;
    }
    if (lines == 0 || lines == MOST_POINTS)
        abort();
    qsort(points, lines, sizeof *points, earlier);
    for (size_t i = 0; i < lines; i++)
        if (count > 0 && points[count - 1].address == points[i].address)
            points[count - 1].kinds |= points[i].kinds, points[count - 1].bytes += points[i].bytes;
        else
            points[count++] = points[i];
    for (size_t i = 0; i < count; i++)
        points[i].address += moved, points[i].function += moved;
}

/* Copies each choice, and a jump behind it to what comes after it: jmp *0(%rip), and the address. */
static void choices_copied(void) {
    static const uint8_t jump_back[] = {0xff, 0x25, 0, 0, 0, 0};
    uint8_t *copies = mmap(NULL, count * COPY_BYTES, PROT_READ | PROT_WRITE | PROT_EXEC, MAP_PRIVATE | MAP_ANONYMOUS, -1, 0);
    if (copies == MAP_FAILED)
        abort();
    for (size_t i = 0; i < count; i++) {
        point *at = &points[i];
        uintptr_t after = at->address + at->bytes;
        if (!(at->kinds & CHOICE))
            continue;
        if (at->bytes + sizeof jump_back + sizeof after > COPY_BYTES)
            abort();
        at->copy = copies + i * COPY_BYTES;
        memcpy(at->copy, (const void *)at->address, at->bytes);
        memcpy(at->copy + at->bytes, jump_back, sizeof jump_back);
        memcpy(at->copy + at->bytes + sizeof jump_back, &after, sizeof after);
    }
}

__attribute__((constructor)) static void watched(void) {
    const char *name = getenv("TAKEN_POINTS");
    FILE *file = name ? fopen(name, "r") : NULL;
    if (file == NULL)
        return;
    points_read(file);
    fclose(file);
    choices_copied();
    uintptr_t first = points[0].address / PAGE * PAGE, end = (points[count - 1].address / PAGE + 1) * PAGE;
    if (mprotect((void *)first, end - first, PROT_READ | PROT_WRITE | PROT_EXEC) != 0)
        abort();
    struct sigaction action = {.sa_sigaction = trapped, .sa_flags = SA_SIGINFO | SA_NODEFER};
    sigaction(SIGTRAP, &action, NULL);
    for (size_t i = 0; i < count; i++) {
        points[i].instruction = *(uint8_t *)points[i].address;
        *(volatile uint8_t *)points[i].address = BREAKPOINT;
    }
    atexit(told);
}
