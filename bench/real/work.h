/* What the jobs over real libraries share: a text by chance, and a sum over bytes. */
#ifndef WORK_H
#define WORK_H
#include <stdint.h>
#include <string.h>

#define SIZE 1000000u

#ifdef __wasm__
#define RUN __attribute__((export_name("run"))) uint32_t run(uint32_t rounds)
#else
#define RUN uint32_t run(uint32_t rounds)
#endif

static unsigned char text[SIZE];

/* Words from a few hundred, the first ones more often, and now and then some bytes of any kind. */
static void write_text(uint32_t seed) {
    uint32_t at = 0, k;
    while (at < SIZE) {
        uint32_t word, length;
        seed = seed * 1664525u + 1013904223u;
        word = (seed >> 24) * ((seed >> 16) & 255) >> 8;
        length = 2 + word % 9;
        for (k = 0; k < length && at < SIZE; k++) text[at++] = (unsigned char)('a' + (word * 7 + k * k * 5) % 26);
        if ((seed & 0xf000) == 0)
            for (k = 0; k < 6 && at < SIZE; k++) text[at++] = (unsigned char)(seed >> (4 * k));
        if (at < SIZE) text[at++] = (seed & 0x700) == 0 ? '\n' : ' ';
    }
}

static uint32_t sum_of(const unsigned char *bytes, uint32_t length) {
    uint32_t sum = 2166136261u, k;
    for (k = 0; k < length; k++) sum = (sum ^ bytes[k]) * 16777619u;
    return sum;
}
#endif
