/* collide HASH BITS COUNT SEED: prints COUNT names of seven letters and digits, a line each, whose places in a table agree in the low BITS
   bits (1 to 32) under a hash that no key enters: `sip`, the kit's DefaultHasher (SipHash-1-3, keys 0), or `fold`, its FoldHasher, which
   hashes a map where nothing else is said. A name is hashed as a slice of bytes, its length as eight bytes in front, and a place is the
   lower half of the hash xor the upper, as the kit's IndexMap has it. Names are tried in an order that SEED, 0 to 51, begins, so the same
   arguments print the same names; the places that they have are those of the first name. About COUNT times 2^BITS names are tried. */
#include <stdint.h>
#include <stdio.h>
#include <stdlib.h>
#include <string.h>

enum { LENGTH = 7, SIGNS = 62 };
static const char signs[] = "abcdefghijklmnopqrstuvwxyzABCDEFGHIJKLMNOPQRSTUVWXYZ0123456789";

static inline uint64_t turned(uint64_t x, int by) { return x << by | x >> (64 - by); }

/* One round over the four words of a state. */
#define ROUND(v0, v1, v2, v3) \
    (v0 += v1, v2 += v3, v1 = turned(v1, 13) ^ v0, v3 = turned(v3, 16) ^ v2, v0 = turned(v0, 32), \
     v2 += v1, v0 += v3, v1 = turned(v1, 17) ^ v2, v3 = turned(v3, 21) ^ v0, v2 = turned(v2, 32))

/* The state behind the word that is the length, from which each name goes on. */
static uint64_t s0 = 0x736f6d6570736575, s1 = 0x646f72616e646f6d, s2 = 0x6c7967656e657261, s3 = 0x7465646279746573;

static void sip_begin(void) {
    s3 ^= LENGTH;
    ROUND(s0, s1, s2, s3);
    s0 ^= LENGTH;
}

/* The seven bytes, the first lowest, and above them how many bytes there were in all, are the last word. */
static inline uint64_t sip(uint64_t name) {
    uint64_t word = (uint64_t)(8 + LENGTH) << 56 | name;
    uint64_t v0 = s0, v1 = s1, v2 = s2, v3 = s3 ^ word;
    ROUND(v0, v1, v2, v3);
    v0 ^= word;
    v2 ^= 0xFF;
    ROUND(v0, v1, v2, v3);
    ROUND(v0, v1, v2, v3);
    ROUND(v0, v1, v2, v3);
    return v0 ^ v1 ^ v2 ^ v3;
}

static inline uint64_t folded(uint64_t a, uint64_t b) {
    unsigned __int128 product = (unsigned __int128)a * b;
    return (uint64_t)product ^ (uint64_t)(product >> 64);
}

/* A write of up to eight bytes multiplies the state once; a byte alone stands three times in what is read of it. */
static inline uint64_t fold(uint64_t name) {
    const uint64_t multiplier = 0x9e3779b97f4a7c15;
    uint64_t state = folded(0x243f6a8885a308d3 ^ LENGTH, multiplier ^ 2 * 8);
    for (int k = 0; k < LENGTH; k++) {
        uint64_t byte = name >> (8 * k) & 0xFF;
        state = folded(state ^ (byte | byte << 8 | byte << 16), multiplier ^ 2 * 1);
    }
    return state;
}

/* The last two signs of a name, of which a search tries all before it takes another beginning. */
static uint64_t ends[SIGNS * SIGNS];
static uint32_t places[SIGNS * SIGNS];

static void begin_ends(void) {
    for (int k = 0; k < SIGNS * SIGNS; k++) ends[k] = (uint64_t)signs[k / SIGNS] << 40 | (uint64_t)signs[k % SIGNS] << 48;
}

/* The first five signs of a name by its number: the first sign is SEED's, which is a letter. */
static uint64_t beginning(uint64_t number, uint64_t seed) {
    uint64_t name = (uint64_t)signs[seed];
    for (int k = 4; k > 0; k--, number /= SIGNS) name |= (uint64_t)signs[number % SIGNS] << (8 * k);
    return name;
}

static void find_places(int is_sip, uint64_t start) {
    uint64_t hash;
    if (is_sip)
        for (int k = 0; k < SIGNS * SIGNS; k++) hash = sip(start | ends[k]), places[k] = (uint32_t)(hash ^ hash >> 32);
    else
        for (int k = 0; k < SIGNS * SIGNS; k++) hash = fold(start | ends[k]), places[k] = (uint32_t)(hash ^ hash >> 32);
}

int main(int count, char **words) {
    if (count != 5 || (strcmp(words[1], "sip") && strcmp(words[1], "fold"))) return 2;
    int is_sip = words[1][0] == 's';
    int bits = atoi(words[2]);
    long wanted = atol(words[3]);
    uint64_t seed = strtoull(words[4], 0, 10);
    if (bits < 1 || bits > 32 || wanted < 1 || seed >= 52) return 2;
    uint32_t mask = (uint32_t)(((uint64_t)1 << bits) - 1), first = 0;
    uint64_t beginnings = (uint64_t)SIGNS * SIGNS * SIGNS * SIGNS;
    sip_begin();
    begin_ends();
    for (uint64_t number = 0; number < beginnings && wanted; number++) {
        uint64_t start = beginning(number, seed);
        find_places(is_sip, start);
        if (number == 0) first = places[0] & mask;
        for (int k = 0; k < SIGNS * SIGNS && wanted; k++) {
            if ((places[k] & mask) != first) continue;
            uint64_t name = start | ends[k];
            for (int at = 0; at < LENGTH; at++) putchar((int)(name >> (8 * at) & 0xFF));
            putchar('\n');
            wanted--;
        }
    }
    return wanted != 0 || fflush(stdout) != 0;
}
