/* Compresses a text by lz4 and back, and sums up what comes back (what lies between depends on the size of a pointer); 0 where it comes
 * back changed. */
#include "work.h"
#include "lz4.h"

static unsigned char packed[LZ4_COMPRESSBOUND(SIZE)], unpacked[SIZE];

RUN {
    uint32_t sum = 1;
    write_text(7);
    while (rounds--) {
        int small;
        text[rounds % SIZE] ^= 1;
        small = LZ4_compress_default((char *)text, (char *)packed, SIZE, sizeof packed);
        if (small <= 0) return 0;
        if (LZ4_decompress_safe((char *)packed, (char *)unpacked, small, SIZE) != (int)SIZE) return 0;
        if (memcmp(text, unpacked, SIZE) != 0) return 0;
        sum = sum * 31 + sum_of(unpacked, SIZE);
    }
    return sum;
}
