/* Compares all numeric helpers, and bytes that are copied and filled, of two units of one module: `own` has its own helpers, `taken` is
 * compiled with W2C_RT_OPERATORS. On all pairs of edges, and on as many pairs by chance as the first word says; values, traps and whole
 * memories must be the same. Then says how long large copies and fills take. */
#include <setjmp.h>
#include <stdio.h>
#include <stdlib.h>
#include <string.h>
#include <time.h>
#include "own.h"
#include "taken.h"

/* No variable changes between a setjmp and its longjmp here. */
#if defined(__GNUC__) && !defined(__clang__)
#pragma GCC diagnostic ignored "-Wclobbered"
#endif
static jmp_buf back;
static volatile u32 trap, wanted_trap;
static volatile u64 value, wanted;

void w2c_trap(u32 k) {
    trap = k;
    longjmp(back, 1);
}

static u64 state = 88172645463325252ull;

static u64 by_chance(void) {
    state ^= state << 13;
    state ^= state >> 7;
    state ^= state << 17;
    return state;
}

static const u64 edges[] = {
    0, 1, 2, 3, 7, 8, 15, 16, 31, 32, 33, 63, 64, 65, 127, 128, 255, 256, 32767, 32768, 65535, 65536, 0x7ffffffe, 0x7fffffff, 0x80000000, 0x80000001,
    0xfffffffe, 0xffffffff, 0x100000000, 0x100000001, 0x7fffffff80000000, 0x7ffffffffffffffe, 0x7fffffffffffffff, 0x8000000000000000,
    0x8000000000000001, 0xffffffff00000000, 0xffffffff7fffffff, 0xffffffff80000000, 0xfffffffffffffffe, 0xffffffffffffffff};
#define EDGES (sizeof edges / sizeof *edges)

/* An edge in one of eight picks, else a number of any length. */
static u64 pick(void) {
    u64 r = by_chance();
    return r & 7 ? r >> (by_chance() & 63) : edges[(r >> 3) % EDGES];
}

static int differ(const char *name, u64 x, u64 y) {
    printf("%s differs at %llu, %llu\n", name, (unsigned long long)x, (unsigned long long)y);
    return 1;
}

#define TRY(call) \
    do { \
        trap = 0; \
        value = 0; \
        if (setjmp(back) == 0) value = (u64)(call); \
        else w2c_depth = 0; \
    } while (0)
#define ENDS(name, arguments) \
    do { \
        if (w2cZ_ownZ_fZ_##name arguments != w2cZ_takenZ_fZ_##name arguments) return differ(#name, x, y); \
    } while (0)
#define MAY_TRAP(name, arguments) \
    do { \
        TRY(w2cZ_ownZ_fZ_##name arguments); \
        wanted = value; \
        wanted_trap = trap; \
        TRY(w2cZ_takenZ_fZ_##name arguments); \
        if (value != wanted || trap != wanted_trap) return differ(#name, x, y); \
    } while (0)
#define COMPARE(name, how, arguments) how(name, arguments);

static int numbers(u64 x, u64 y) {
#include "pairs.h"
    return 0;
}

/* A place or a length inside a page, near an end of it, or anywhere. */
static u32 place(void) {
    u64 r = by_chance();
    switch (r & 3) {
    case 0: return (u32)(r >> 8) % 70000;
    case 1: return 65536u - (u32)(r >> 8) % 70;
    case 2: return (u32)(r >> 8) % 3000;
    default: return (r & 252) ? (u32)(r >> 8) % 65537 : (u32)(r >> 32);
    }
}

static int blocks(unsigned times) {
    const w2c_mem *own = w2cZ_ownZ_mZ_memory(), *taken = w2cZ_takenZ_mZ_memory();
    while (times--) {
        u32 x = place(), y = place(), n = place();
        if (times % 3) MAY_TRAP(memory_copy, (x, y, n));
        else MAY_TRAP(memory_fill, (x, y, n));
        if (own->len != taken->len || memcmp(own->bytes, taken->bytes, (size_t)own->len) != 0) return differ("a memory", x, y);
    }
    return 0;
}

#define TIMES 500
static double seconds(u64 (*block)(u32, u32, u32)) {
    clock_t begin = clock();
    unsigned k;
    for (k = 0; k < TIMES; k++) block(k, 3000, 60000);
    return (double)(clock() - begin) / CLOCKS_PER_SEC;
}

int main(int count, char **words) {
    long pairs = count > 1 ? atol(words[1]) : 10000000, k;
    size_t a, b;
    w2cZ_ownZ_i();
    w2cZ_takenZ_i();
    for (a = 0; a < EDGES; a++)
        for (b = 0; b < EDGES; b++)
            if (numbers(edges[a], edges[b])) return 1;
    for (k = 0; k < pairs; k++)
        if (numbers(pick(), pick())) return 1;
    if (blocks((unsigned)(pairs / 500))) return 1;
    printf("%d pairs of edges, %ld by chance, %ld blocks: the same; %d times 60,000 bytes", (int)(EDGES * EDGES), pairs, pairs / 500, TIMES);
    printf(" copied %.4f and %.4f s,", seconds(w2cZ_ownZ_fZ_memory_copy), seconds(w2cZ_takenZ_fZ_memory_copy));
    printf(" filled %.4f and %.4f s\n", seconds(w2cZ_ownZ_fZ_memory_fill), seconds(w2cZ_takenZ_fZ_memory_fill));
    return 0;
}
