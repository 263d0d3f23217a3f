/* The parts of examples/library: CRC-32, SHA-256, the compressor and the reader of JSON, over a text; 0 where the text comes back
 * changed. */
#include "work.h"
#include "../../examples/library/source/library.h"

byte input[ROOM], output[ROOM + ROOM / 16];

u32 crc32(u32 length);
void sha256(u32 length);
u32 compress(u32 length);
u32 expand(u32 length);
u64 json(u32 length);

/* Lists in lists, and then one of objects. */
static u32 write_json(void) {
    static const char open[] = "[ 12.5, ", each[] = "{\"key\": -1e3} , ", last[] = "null";
    u32 at = 0, depth;
    for (depth = 0; depth < 400; depth++, at += 8) memcpy(input + at, open, 8);
    for (; at + 1000 < SIZE; at += 16) memcpy(input + at, each, 16);
    memcpy(input + at, last, 4);
    at += 4;
    while (depth--) input[at++] = ']';
    return at;
}

RUN {
    uint32_t sum = 1, small;
    while (rounds--) {
        write_text(7 + rounds);
        memcpy(input, text, SIZE);
        sum = sum * 31 + crc32(SIZE);
        sha256(SIZE);
        sum = sum * 31 + sum_of(output, 32);
        small = compress(SIZE);
        sum = sum * 31 + small;
        memcpy(input, output, small);
        if (expand(small) != SIZE || memcmp(text, output, SIZE) != 0) return 0;
        sum = sum * 31 + (uint32_t)json(write_json());
    }
    return sum;
}
