/* Three instances of one module. `first` and `second` are two translations, made with -n; `third` is the unit of `first`, compiled again
 * with its symbols under other names. Each has a memory and a total of its own, and a host function of its own. */
#include <stdio.h>
#include "first.h"
#include "second.h"
#include "third.h"

/* The Makefile compiles each unit with -D, which gives its import another name: so the host knows which instance calls. */
void first_say(u32 text, u32 length);
void second_say(u32 text, u32 length);
void third_say(u32 text, u32 length);

static void say(const char *who, w2c_mem *memory, u32 text, u32 length) {
    if ((u64)text + length > memory->len) w2c_trap(11u);
    printf("%s: %.*s", who, (int)length, (const char *)memory->bytes + text);
}

void first_say(u32 text, u32 length) { say("first", w2cZ_firstZ_mZ_memory(), text, length); }
void second_say(u32 text, u32 length) { say("second", w2cZ_secondZ_mZ_memory(), text, length); }
void third_say(u32 text, u32 length) { say("third", third_mZ_memory(), text, length); }

int main(void) {
    w2cZ_firstZ_i();
    w2cZ_secondZ_i();
    third_i();
    w2cZ_firstZ_fZ_add(1);
    w2cZ_secondZ_fZ_add(10);
    third_fZ_add(100);
    w2cZ_firstZ_fZ_add(1);
    w2cZ_secondZ_fZ_add(10);
    third_fZ_add(100);
    return 0;
}
