/* What build_wasm.sh compiles to guest.wasm: functions that call three functions of a host, and some that trap. */
typedef unsigned int u32;
typedef unsigned long long u64;

#define EXPORT(name) __attribute__((export_name(name)))
#define IMPORT(name) __attribute__((import_module("host"), import_name(name)))

/* The host prints so many bytes of this module's memory. */
IMPORT("say") void say(const char *text, u32 length);
/* The host gives the weight of an article; there is none past 9, and then it traps. */
IMPORT("weight") u64 weight(u32 article);
/* The host says which article comes next, or 0. */
IMPORT("next") u32 next(void);

static void say_number(u64 n) {
    char text[21];
    u32 at = 20;
    text[at] = '\n';
    do {
        text[--at] = (char)('0' + n % 10);
        n /= 10;
    } while (n);
    say(text + at, 21 - at);
}

EXPORT("weigh") u64 weigh(void) {
    static const char title[] = "weight of all: ";
    u64 sum = 0;
    u32 article;
    while ((article = next()) != 0) sum += weight(article);
    say(title, sizeof title - 1);
    say_number(sum);
    return sum;
}

EXPORT("share") u32 share(u32 all, u32 parts) { return all / parts; }

/* The call of itself is not the last thing that it does, so it stays a call. */
EXPORT("deep") u32 deep(u32 n) { return n == 0 ? 0 : deep(n - 1) * 3 + n; }
