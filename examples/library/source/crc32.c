/* CRC-32 as in zip files, by a table that the first call makes. */
#include "library.h"

static u32 table[256];

static void make_table(void) {
    for (u32 n = 0; n < 256; n++) {
        u32 c = n;
        for (u32 k = 0; k < 8; k++) c = (c >> 1) ^ (0xEDB88320u & -(c & 1));
        table[n] = c;
    }
}

EXPORT("crc32") u32 crc32(u32 length) {
    u32 c = FAULT;
    if (length > ROOM) return 0;
    if (table[1] == 0) make_table();
    for (u32 i = 0; i < length; i++) c = table[(c ^ input[i]) & 255] ^ (c >> 8);
    return ~c;
}
