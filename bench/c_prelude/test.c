/* The helpers against the compiler's own operators: all of NumOp on pairs of numbers, then stores and
   loads against memcpy, the size of a memory, and an element of a table. */
#include "helpers.c"
#include <stdio.h>
#include <stdlib.h>
#include <string.h>

static u64 state = 88172645463325252ull;

static u64 random_bits(void) {
    state ^= state << 13;
    state ^= state >> 7;
    state ^= state << 17;
    return state;
}

/* an edge in one of eight picks, else a number of a random length */
static u64 pick(void) {
    static const u64 edges[] = {
        0, 1, 2, 31, 32, 63, 64, 127, 128, 255, 256, 65535, 65536, 2147483647, 2147483648u, 4294967295u,
        4294967296ull, 9223372036854775807ull, 9223372036854775808ull, 9223372036854775809ull,
        18446744073709551614ull, 18446744073709551615ull};
    u64 r = random_bits();
    return (r & 7) ? r >> (random_bits() & 63) : edges[(r >> 3) % 22];
}

#define SAME(f, g) \
    do { \
        if ((f) != (g)) { \
            printf("%s differs\n", #f); \
            return 1; \
        } \
    } while (0)

static int numbers(long pairs) {
    for (long i = 0; i < pairs; i++) {
        u64 X = pick(), Y = pick(), K = Y % 64;
        u32 x = X, y = Y, k = y % 32;
        int32_t p = x, q = y;
        int64_t P = X, Q = Y;
        SAME(i32_lt_s(x, y), (u32)(p < q));
        SAME(i32_gt_s(x, y), (u32)(p > q));
        SAME(i32_le_s(x, y), (u32)(p <= q));
        SAME(i32_ge_s(x, y), (u32)(p >= q));
        SAME(i64_lt_s(X, Y), (u32)(P < Q));
        SAME(i64_gt_s(X, Y), (u32)(P > Q));
        SAME(i64_le_s(X, Y), (u32)(P <= Q));
        SAME(i64_ge_s(X, Y), (u32)(P >= Q));
        if (y != 0) {
            SAME(i32_div_u(x, y), x / y);
            SAME(i32_rem_u(x, y), x % y);
            if (x == 2147483648u && y == 4294967295u) {
                SAME(i32_rem_s(x, y), 0u);
            } else {
                SAME(i32_div_s(x, y), (u32)(p / q));
                SAME(i32_rem_s(x, y), (u32)(p % q));
            }
        }
        if (Y != 0) {
            SAME(i64_div_u(X, Y), X / Y);
            SAME(i64_rem_u(X, Y), X % Y);
            if (X == 9223372036854775808ull && Y == 18446744073709551615ull) {
                SAME(i64_rem_s(X, Y), 0ull);
            } else {
                SAME(i64_div_s(X, Y), (u64)(P / Q));
                SAME(i64_rem_s(X, Y), (u64)(P % Q));
            }
        }
        SAME(i32_shr_s(x, y), (u32)(p >> k));
        SAME(i64_shr_s(X, Y), (u64)(P >> K));
        SAME(i32_rotl(x, y), k ? (x << k | x >> (32 - k)) : x);
        SAME(i64_rotl(X, Y), K ? (X << K | X >> (64 - K)) : X);
        SAME(i32_rotr(x, y), k ? (x >> k | x << (32 - k)) : x);
        SAME(i64_rotr(X, Y), K ? (X >> K | X << (64 - K)) : X);
        SAME(i32_clz(x), x ? (u32)__builtin_clz(x) : 32);
        SAME(i64_clz(X), X ? (u64)__builtin_clzll(X) : 64);
        SAME(i32_ctz(x), x ? (u32)__builtin_ctz(x) : 32);
        SAME(i64_ctz(X), X ? (u64)__builtin_ctzll(X) : 64);
        SAME(i32_popcnt(x), (u32)__builtin_popcount(x));
        SAME(i64_popcnt(X), (u64)__builtin_popcountll(X));
        SAME(i64_extend_i32_s(x), (u64)(int64_t)p);
    }
    return 0;
}

/* a store by a helper and by memcpy, then every load at the same place */
#define STORE(helper, type) \
    do { \
        type low = (type)value; \
        helper(&memory, base, offset, value); \
        memcpy(plain + base + offset, &low, sizeof low); \
    } while (0)

#define LOAD(helper, type, wide) \
    do { \
        type low; \
        memcpy(&low, plain + base + offset, sizeof low); \
        SAME(helper(&memory, base, offset), (wide)low); \
    } while (0)

static int objects(void) {
    w2c_mem memory = {0};
    w2c_tab table = {0};
    static u8 plain[65536];
    w2c_mem_new(&memory, 1, 1);
    for (long i = 0; i < 300000; i++) {
        u32 base = random_bits() % 40000, offset = random_bits() % 25000;
        u64 value = random_bits();
        switch (random_bits() % 7) {
        case 0: STORE(i32_store, u32); break;
        case 1: STORE(i64_store, u64); break;
        case 2: STORE(i32_store8, u8); break;
        case 3: STORE(i32_store16, uint16_t); break;
        case 4: STORE(i64_store8, u8); break;
        case 5: STORE(i64_store16, uint16_t); break;
        default: STORE(i64_store32, u32); break;
        }
        LOAD(i32_load, u32, u32);
        LOAD(i64_load, u64, u64);
        LOAD(i32_load8_s, int8_t, u32);
        LOAD(i32_load8_u, u8, u32);
        LOAD(i32_load16_s, int16_t, u32);
        LOAD(i32_load16_u, uint16_t, u32);
        LOAD(i64_load8_s, int8_t, u64);
        LOAD(i64_load8_u, u8, u64);
        LOAD(i64_load16_s, int16_t, u64);
        LOAD(i64_load16_u, uint16_t, u64);
        LOAD(i64_load32_s, int32_t, u64);
        LOAD(i64_load32_u, u32, u64);
    }
    if (memcmp(plain, memory.bytes, sizeof plain) != 0) {
        printf("the memory differs\n");
        return 1;
    }
    SAME(size_of_memory(&memory), 1u);
    w2c_tab_new(&table, 2, 2);
    w2c_tab_set(&table, 1, (w2c_fn)objects, 7);
    SAME(table_element(&table, 1, 7), (w2c_fn)objects);
    return 0;
}

int main(int count, char **words) {
    long pairs = count > 1 ? atol(words[1]) : 10000000;
    if (numbers(pairs) || objects())
        return 1;
    printf("all equal on %ld pairs\n", pairs);
    return 0;
}
