// What compare.py compiles to WebAssembly with sign extension and bulk memory on: bytes that are copied and filled, and signed ones.
typedef unsigned char u8;
typedef unsigned u32;
typedef unsigned long long u64;
#define EXPORT(name) __attribute__((export_name(name)))
#define SIZE 5000

static u8 bytes[SIZE];

static u64 sum(void) {
    u64 all = 0;
    for (u32 i = 0; i < SIZE; i++) all = all * 31 + bytes[i];
    return all;
}

EXPORT("number") u64 number(u32 seed) {
    for (u32 i = 0; i < SIZE; i++) {
        seed = seed * 1664525u + 1013904223u;
        bytes[i] = seed >> 24;
    }
    return sum();
}

EXPORT("move") u64 move(u32 to, u32 from, u32 count) {
    to %= SIZE / 2, from %= SIZE / 2, count %= SIZE / 2;
    __builtin_memmove(bytes + to, bytes + from, count);
    return sum();
}

EXPORT("set") u64 set(u32 to, u32 byte, u32 count) {
    to %= SIZE / 2, count %= SIZE / 2;
    __builtin_memset(bytes + to, (int)byte, count);
    return sum();
}

EXPORT("move_anywhere") u64 move_anywhere(u32 to, u32 from, u32 count) {
    __builtin_memmove((void *)to, (void *)from, count);
    return sum();
}

typedef struct Sheet { u8 rows[300]; int number; } Sheet;
static Sheet sheets[8];

EXPORT("sheet") u32 sheet(u32 a, u32 b) {
    sheets[a & 7].number = (int)(a + b);
    __builtin_memset(sheets[a & 7].rows, (int)a, sizeof sheets[0].rows);
    sheets[b & 7] = sheets[a & 7];
    return (u32)sheets[b & 7].number * 256 + sheets[b & 7].rows[299];
}

EXPORT("byte") int byte(u32 x) { return (signed char)x; }
EXPORT("half") int half(u32 x) { return (short)x; }
EXPORT("wide_byte") long long wide_byte(u64 x) { return (signed char)x; }
EXPORT("wide_half") long long wide_half(u64 x) { return (short)x; }
EXPORT("wide_word") long long wide_word(u64 x) { return (int)x; }
