/* A host by hand for guest.wasm: the three functions that the module imports, a trap that comes back here, and the calls.
 * It is C and C++. */
#include <setjmp.h>
#include <stdio.h>
#ifdef __cplusplus
extern "C" {
#endif
#include "guest.h"

/* An imported function's symbol is built like that of an export: the module's name, `f`, and the function's. The unit declares these
 * itself, and the header does not. */
void w2cZ_hostZ_fZ_say(u32 text, u32 length);
u64 w2cZ_hostZ_fZ_weight(u32 article);
u32 w2cZ_hostZ_fZ_next(void);
/* The header of the plain runtime and that of the fast one declare it. */
void w2c_trap(u32 kind);
#ifdef __cplusplus
}
#endif

static u32 articles_left;

/* A place and a length come from the module and may be anything: the host looks whether they lie in the memory. */
void w2cZ_hostZ_fZ_say(u32 text, u32 length) {
    w2c_mem *memory = w2cZ_guestZ_mZ_memory();
    if ((u64)text + length > memory->len) w2c_trap(11u);
    fwrite(memory->bytes + text, 1, length, stdout);
}

/* 11 is the trap of a host. */
u64 w2cZ_hostZ_fZ_weight(u32 article) {
    if (article > 9) w2c_trap(11u);
    return 1000000000ull * article + article;
}

u32 w2cZ_hostZ_fZ_next(void) { return articles_left ? articles_left-- : 0; }

static jmp_buf back;
static u32 trapped;

/* Leaves all functions of units at once. Nothing is to be freed behind them. */
void w2c_trap(u32 kind) {
    trapped = kind;
    longjmp(back, 1);
}

static const char *const traps[12] = {
    "none", "unreachable", "memory out of bounds", "division by zero", "integer overflow", "table out of bounds", "empty element",
    "signature differs", "call depth", "import limits", "segment out of bounds", "host trap",
};

/* setjmp stands in a condition of its own, as C wants it; `show` makes the call and prints. The count of active functions is set back
 * behind a trap, which has left them all. */
static void call(void (*show)(void)) {
    u32 depth = w2c_depth;
    if (setjmp(back) == 0) {
        show();
    } else {
        w2c_depth = depth;
        printf("trap %lu: %s\n", (unsigned long)trapped, traps[trapped]);
    }
}

static void weigh(void) { printf("weigh = %llu\n", (unsigned long long)w2cZ_guestZ_fZ_weigh()); }
static void share(void) { printf("share = %lu\n", (unsigned long)w2cZ_guestZ_fZ_share(17, 5)); }
static void share_among_none(void) { printf("share = %lu\n", (unsigned long)w2cZ_guestZ_fZ_share(17, 0)); }
static void deep(void) { printf("deep = %lu\n", (unsigned long)w2cZ_guestZ_fZ_deep(1023)); }
static void too_deep(void) { printf("deep = %lu\n", (unsigned long)w2cZ_guestZ_fZ_deep(1024)); }

int main(void) {
    call(w2cZ_guestZ_i);
    articles_left = 4;
    call(weigh);
    call(share);
    call(share_among_none);
    articles_left = 12;
    call(weigh);
    call(deep);
    call(too_deep);
    return 0;
}
