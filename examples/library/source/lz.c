/* A compressor: the text is runs of bytes that stand for themselves, each with a copy of earlier bytes behind it. A run is its length
 * and its bytes; a copy is its length, and where that is not 0 how far back it begins. Numbers are 7 bits a byte, the low ones
 * first. A copy of length 0 ends the text. */
#include "library.h"

#define LEAST 4u
#define SLOTS 8192u

/* Where four bytes with this hash began last, plus 1. */
static u32 latest[SLOTS];

static u32 four_at(u32 at) { return input[at] | (u32)input[at + 1] << 8 | (u32)input[at + 2] << 16 | (u32)input[at + 3] << 24; }

static u32 put_number(u32 at, u32 n) {
    while (n >= 128) {
        output[at++] = (byte)(n & 127) | 128;
        n >>= 7;
    }
    output[at++] = (byte)n;
    return at;
}

static u32 put_run(u32 at, u32 from, u32 to) {
    at = put_number(at, to - from);
    while (from < to) output[at++] = input[from++];
    return at;
}

static u32 same_from(u32 earlier, u32 at, u32 length) {
    u32 count = 0;
    while (at + count < length && input[earlier + count] == input[at + count]) count++;
    return count;
}

EXPORT("compress") u32 compress(u32 length) {
    u32 out = 0, run = 0, at = 0;
    if (length > ROOM) return FAULT;
    for (u32 i = 0; i < SLOTS; i++) latest[i] = 0;
    while (at + LEAST <= length) {
        u32 slot = (four_at(at) * 2654435761u) >> 19, earlier = latest[slot];
        u32 same = earlier ? same_from(earlier - 1, at, length) : 0;
        latest[slot] = at + 1;
        if (same < LEAST) {
            at++;
            continue;
        }
        out = put_run(out, run, at);
        out = put_number(put_number(out, same), at - (earlier - 1));
        at += same;
        run = at;
    }
    return put_number(put_run(out, run, length), 0);
}

/* The number at *at, which moves behind it; FAULT where there is none. */
static u32 take_number(u32 *at, u32 length) {
    u32 n = 0;
    for (u32 shift = 0; shift < 28 && *at < length; shift += 7) {
        byte b = input[(*at)++];
        n |= (u32)(b & 127) << shift;
        if (b < 128) return n;
    }
    return FAULT;
}

EXPORT("expand") u32 expand(u32 length) {
    u32 at = 0, out = 0;
    if (length > ROOM) return FAULT;
    for (;;) {
        u32 run = take_number(&at, length), same, back;
        if (run > length - at || run > ROOM - out) return FAULT;
        while (run--) output[out++] = input[at++];
        same = take_number(&at, length);
        if (same == 0) return at == length ? out : FAULT;
        back = take_number(&at, length);
        if (back == 0 || back > out || same > ROOM - out) return FAULT;
        for (; same; same--, out++) output[out] = output[out - back];
    }
}
