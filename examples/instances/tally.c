/* What build_wasm.sh compiles to tally.wasm: a total that lasts from call to call, and a host that hears of each change. */
typedef unsigned int u32;
typedef unsigned long long u64;

#define EXPORT(name) __attribute__((export_name(name)))
#define IMPORT(name) __attribute__((import_module("host"), import_name(name)))

/* The host prints so many bytes of this module's memory. */
IMPORT("say") void say(const char *text, u32 length);

static u64 total;

EXPORT("add") u64 add(u64 n) {
    char text[21];
    u32 at = 20;
    u64 left;
    total += n;
    left = total;
    text[at] = '\n';
    do {
        text[--at] = (char)('0' + left % 10);
        left /= 10;
    } while (left);
    say(text + at, 21 - at);
    return total;
}
