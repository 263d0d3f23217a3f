/* Calls the primitives of whichever runtime it is compiled with, by chance but only as units may, and prints what they give and,
 * at the end, a sum over all bytes and elements. Two runtimes with one meaning print the same. */
#include <stdio.h>
#include <stdlib.h>
#include "w2c_rt.h"

#define NONE 4294967296ull
#define CALLS 3000000u
#define TOLD 20000u

static u64 state = 88172645463325252ull;
static u64 sum = 14695981039346656037ull;
static u64 calls;

static u64 chance(void) {
    state ^= state << 13;
    state ^= state >> 7;
    state ^= state << 17;
    return state;
}

static u64 below(u64 n) { return chance() % n; }

static void gave(const char *what, u64 value) {
    sum = (sum ^ value) * 1099511628211ull;
    if (calls < TOLD) printf("%s %llu\n", what, (unsigned long long)value);
}

static void first(void) {}
static void second(void) {}
static void third(void) {}
static w2c_fn functions[3] = {first, second, third};

static u64 number_of(w2c_fn f) {
    u64 k;
    for (k = 0; k < 3; k++) if (functions[k] == f) return k + 1;
    return f ? 9 : 0;
}

static const struct { u32 min; u64 max; } memory_limits[6] = {{0, 0}, {0, NONE}, {1, 3}, {2, 2}, {1, NONE}, {3, 65536}};
static const struct { u32 len; u64 max; } table_limits[4] = {{0, 0}, {1, NONE}, {7, 7}, {1000, 100000}};
static w2c_mem memories[6], large;
static w2c_tab tables[4];

static u64 place(w2c_mem *m, u64 width) {
    u64 last = w2c_mem_len(m) - width, page = 65536 * below(last / 65536 + 1);
    switch (below(4)) {
    case 0: return last - below(width);
    case 1: return page > width && page <= last ? page - below(width) : below(width);
    case 2: return below(64);
    default: return below(last + 1);
    }
}

static void call_memory(w2c_mem *m) {
    u64 width = 1ull << below(4), pages = w2c_mem_len(m) / 65536, value = chance();
    u32 more = below(3) ? (u32)below(3) : below(2) ? 16384u - (u32)below(3) : 4294967295u - (u32)below(2);
    if (!below(3000)) {
        if (more > 2 || pages < 24) gave("grow", w2c_mem_grow(m, more));
        gave("len", w2c_mem_len(m));
        gave("max", w2c_mem_max(m));
        return;
    }
    if (pages == 0) return;
    if (below(2)) {
        switch (width) {
        case 1: w2c_put1(m, place(m, 1), (u32)value); break;
        case 2: w2c_put2(m, place(m, 2), (u32)value); break;
        case 4: w2c_put4(m, place(m, 4), (u32)value); break;
        default: w2c_put8(m, place(m, 8), value);
        }
    } else {
        switch (width) {
        case 1: gave("get1", w2c_get1(m, place(m, 1))); break;
        case 2: gave("get2", w2c_get2(m, place(m, 2))); break;
        case 4: gave("get4", w2c_get4(m, place(m, 4))); break;
        default: gave("get8", w2c_get8(m, place(m, 8)));
        }
    }
}

static void call_table(w2c_tab *t) {
    u64 len = w2c_tab_len(t), i;
    gave("tab_len", len);
    gave("tab_max", w2c_tab_max(t));
    if (len == 0) return;
    i = below(len);
    if (below(2)) {
        w2c_fn f = functions[below(3)];
        w2c_tab_set(t, i, f, 1 + chance() / 2);
    }
    gave("tab_sig", w2c_tab_sig(t, i));
    gave("tab_fn", number_of(w2c_tab_fn(t, i)));
}

int main(void) {
    u64 k, i;
    gave("depth", w2c_depth);
    for (k = 0; k < 6; k++) {
        gave("not made", w2c_mem_len(&memories[k]) + w2c_mem_max(&memories[k]));
        w2c_mem_new(&memories[k], memory_limits[k].min, memory_limits[k].max);
    }
    for (k = 0; k < 4; k++) {
        gave("not made", w2c_tab_len(&tables[k]) + w2c_tab_max(&tables[k]));
        w2c_tab_new(&tables[k], table_limits[k].len, table_limits[k].max);
    }
    for (calls = 0; calls < CALLS; calls++) {
        if (below(16)) call_memory(&memories[below(6)]);
        else call_table(&tables[below(4)]);
    }
    for (k = 0; k < 6; k++)
        for (i = 0; i < w2c_mem_len(&memories[k]); i++) gave("byte", w2c_get1(&memories[k], i));
    for (k = 0; k < 4; k++)
        for (i = 0; i < w2c_tab_len(&tables[k]); i++) {
            gave("sig", w2c_tab_sig(&tables[k], i));
            gave("fn", number_of(w2c_tab_fn(&tables[k], i)));
        }
    calls = 0;
    w2c_mem_new(&large, 1, NONE);
    w2c_put1(&large, 65535, 7);
    gave("grow", w2c_mem_grow(&large, 16383));
    gave("grow", w2c_mem_grow(&large, 0));
    gave("grow", w2c_mem_grow(&large, 1));
    w2c_put8(&large, 1073741816, state);
    gave("get8", w2c_get8(&large, 1073741816));
    gave("get8", w2c_get8(&large, 65535));
    gave("sum", sum);
    fflush(stdout);
    w2c_trap(3u);
    return 0;
}
