// What compare.py compiles to WebAssembly: arithmetic, loops, recursion, tables of functions, switches, arrays and memory.
typedef unsigned u32;
typedef unsigned long long u64;
#define EXPORT(name) __attribute__((export_name(name)))

void *memset(void *to, int byte, __SIZE_TYPE__ count) {
    volatile unsigned char *at = to;
    while (count--) *at++ = byte;
    return to;
}

EXPORT("crc") u32 crc(u32 seed, u32 count) {
    u32 c = ~seed;
    for (u32 i = 0; i < count; i++) {
        c ^= (i * 131) & 255;
        for (int k = 0; k < 8; k++) c = (c >> 1) ^ (0xEDB88320u & -(c & 1));
    }
    return ~c;
}

EXPORT("fib") u64 fib(u32 n) { return n < 2 ? n : fib(n - 1) + fib(n - 2); }

static u32 add(u32 a, u32 b) { return a + b; }
static u32 mul(u32 a, u32 b) { return a * b; }
static u32 sub(u32 a, u32 b) { return a - b; }
static u32 quotient(u32 a, u32 b) { return a / b; }
static u32 (*operations[4])(u32, u32) = {add, mul, sub, quotient};

EXPORT("apply") u32 apply(u32 which, u32 a, u32 b) { return operations[which](a, b); }

static unsigned char marks[70000];

EXPORT("sieve") u32 sieve(u32 top) {
    u32 count = 0;
    if (top > 70000) top = 70000;
    memset(marks, 1, top);
    for (u32 i = 2; i < top; i++)
        if (marks[i]) {
            count++;
            for (u32 j = i + i; j < top; j += i) marks[j] = 0;
        }
    return count;
}

EXPORT("sortsum") u64 sortsum(u32 count, u32 seed) {
    static int list[4000];
    u64 sum = 0;
    if (count > 4000) count = 4000;
    for (u32 i = 0; i < count; i++) {
        seed = seed * 1664525u + 1013904223u;
        list[i] = (int)seed;
    }
    for (u32 i = 1; i < count; i++) {
        int value = list[i], j = i - 1;
        while (j >= 0 && list[j] > value) {
            list[j + 1] = list[j];
            j--;
        }
        list[j + 1] = value;
    }
    for (u32 i = 0; i < count; i++) sum = sum * 31 + (u32)list[i];
    return sum;
}

EXPORT("sw") u32 sw(u32 k) {
    switch (k) {
    case 0: return 10;
    case 1: return 77;
    case 2: return 5;
    case 3: return 99;
    case 4: return 1;
    case 7: return 42;
    case 9: return 3;
    default: return 1000;
    }
}

EXPORT("divs") int divs(int a, int b) { return a / b; }
EXPORT("rem64") long long rem64(long long a, long long b) { return a % b; }

EXPORT("mix64") u64 mix64(u64 z) {
    z = (z ^ (z >> 30)) * 0xbf58476d1ce4e5b9ull;
    z = (z ^ (z >> 27)) * 0x94d049bb133111ebull;
    return z ^ (z >> 31);
}

EXPORT("bits") u32 bits(u64 x) {
    return __builtin_clzll(x | 1) + __builtin_ctzll(x | (1ull << 63)) * 100 + __builtin_popcountll(x) * 10000;
}

EXPORT("grow") u32 grow(u32 pages) { return __builtin_wasm_memory_grow(0, pages); }
EXPORT("size") u32 size(void) { return __builtin_wasm_memory_size(0); }
EXPORT("peek") u32 peek(u32 at) { return *(volatile u32 *)at; }
EXPORT("poke") void poke(u32 at, u32 value) { *(volatile u32 *)at = value; }

EXPORT("deep") u32 deep(u32 n) {
    volatile u32 kept = n;
    return n == 0 ? 0 : 1 + deep(n - 1) + kept * 0;
}

EXPORT("bytes") long long bytes(u32 i) {
    static const signed char list[8] = {-1, 2, -3, 4, -128, 127, 0, -7};
    return list[i & 7] * 1000ll;
}

EXPORT("halves") int halves(u32 i) {
    static const short list[4] = {-1, 32767, -32768, 5};
    return list[i & 3];
}
