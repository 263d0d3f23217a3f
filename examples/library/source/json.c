/* Reads a JSON text and counts its values. Without a fault the result is their number; else it is 2^32 and the place of the fault. */
#include "library.h"

#define DEEPEST 500u

static u32 place, end, values, depth;

static int next(void) { return place < end ? input[place] : -1; }

static int take(int wanted) {
    if (next() != wanted) return 0;
    place++;
    return 1;
}

static void pass_space(void) {
    while (next() == ' ' || next() == '\n' || next() == '\r' || next() == '\t') place++;
}

static int is_digit(int c) { return c >= '0' && c <= '9'; }
static int is_hex(int c) { return is_digit(c) || (c >= 'a' && c <= 'f') || (c >= 'A' && c <= 'F'); }

static int digits(void) {
    if (!is_digit(next())) return 0;
    while (is_digit(next())) place++;
    return 1;
}

static int word(const char *text) {
    for (; *text; text++)
        if (!take(*text)) return 0;
    return 1;
}

static int number(void) {
    take('-');
    if (!take('0') && !digits()) return 0;
    if (take('.') && !digits()) return 0;
    if (take('e') || take('E')) {
        if (!take('+')) take('-');
        if (!digits()) return 0;
    }
    return 1;
}

static int escaped(void) {
    switch (next()) {
    case '"': case '\\': case '/': case 'b': case 'f': case 'n': case 'r': case 't':
        place++;
        return 1;
    case 'u':
        place++;
        for (u32 k = 0; k < 4; k++, place++)
            if (!is_hex(next())) return 0;
        return 1;
    default:
        return 0;
    }
}

static int string(void) {
    if (!take('"')) return 0;
    while (!take('"')) {
        if (next() < ' ') return 0;
        if (take('\\')) {
            if (!escaped()) return 0;
        } else {
            place++;
        }
    }
    return 1;
}

static int value(void);

static int list(int close, int named) {
    pass_space();
    if (take(close)) return 1;
    do {
        pass_space();
        if (named) {
            if (!string()) return 0;
            pass_space();
            if (!take(':')) return 0;
        }
        if (!value()) return 0;
        pass_space();
    } while (take(','));
    return take(close);
}

static int bare_value(void) {
    switch (next()) {
    case '{': place++; return list('}', 1);
    case '[': place++; return list(']', 0);
    case '"': return string();
    case 't': return word("true");
    case 'f': return word("false");
    case 'n': return word("null");
    default: return number();
    }
}

static int value(void) {
    int good;
    pass_space();
    if (depth == DEEPEST) return 0;
    depth++;
    good = bare_value();
    depth--;
    values++;
    return good;
}

EXPORT("json") u64 json(u32 length) {
    place = values = depth = 0;
    end = length > ROOM ? ROOM : length;
    if (value()) {
        pass_space();
        if (place == end) return values;
    }
    return 4294967296ull + place;
}
