/* The buffers through which a host and the library speak, and the two functions of the C library that clang may call. */
#include "library.h"

byte input[ROOM];
byte output[ROOM + ROOM / 16];

EXPORT("input") byte *input_place(void) { return input; }
EXPORT("output") byte *output_place(void) { return output; }

void *memcpy(void *to, const void *from, __SIZE_TYPE__ count) {
    byte *a = to;
    const byte *b = from;
    while (count--) *a++ = *b++;
    return to;
}

void *memset(void *to, int value, __SIZE_TYPE__ count) {
    byte *a = to;
    while (count--) *a++ = (byte)value;
    return to;
}
