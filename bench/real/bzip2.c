/* Compresses a text by bzip2 and back, and sums both up; 0 where it comes back changed. */
#include "work.h"
#include "bzlib.h"

static unsigned char packed[SIZE + SIZE / 100 + 600], unpacked[SIZE];

void bz_internal_error(int code) {
    (void)code;
    __builtin_trap();
}

RUN {
    uint32_t sum = 1;
    write_text(7);
    while (rounds--) {
        unsigned small = sizeof packed, large = SIZE;
        text[rounds % SIZE] ^= 1;
        if (BZ2_bzBuffToBuffCompress((char *)packed, &small, (char *)text, SIZE, 9, 0, 30) != BZ_OK) return 0;
        if (BZ2_bzBuffToBuffDecompress((char *)unpacked, &large, (char *)packed, small, 0, 0) != BZ_OK) return 0;
        if (large != SIZE || memcmp(text, unpacked, SIZE) != 0) return 0;
        sum = sum * 31 + sum_of(packed, small) + small;
    }
    return sum;
}
