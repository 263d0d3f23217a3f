/* Deflates a text and inflates it again, and sums both up; 0 where it comes back changed. */
#include "work.h"
#include "zlib.h"

static unsigned char packed[SIZE + SIZE / 100 + 100], unpacked[SIZE];

RUN {
    uint32_t sum = 1;
    write_text(7);
    while (rounds--) {
        uLongf small = sizeof packed, large = SIZE;
        text[rounds % SIZE] ^= 1;
        if (compress2(packed, &small, text, SIZE, 6) != Z_OK) return 0;
        if (uncompress(unpacked, &large, packed, small) != Z_OK) return 0;
        if (large != SIZE || memcmp(text, unpacked, SIZE) != 0) return 0;
        sum = sum * 31 + sum_of(packed, (uint32_t)small) + (uint32_t)small + (uint32_t)crc32(0, unpacked, SIZE);
    }
    return sum;
}
