/* A host that the library in words.wasm calls back. It has two listeners; the number that it gives to `scan` comes back with each call. */
#include <stdio.h>
#include <string.h>
#include "words_unit.h"

/* The imports. `grep -E '^(u32|u64|void) w2cZ_hostZ_.*;$' out/words_unit.c` prints these lines. */
void w2cZ_hostZ_fZ_word(u32 user, u32 word, u32 length);
u32 w2cZ_hostZ_fZ_number(u32 user, u32 number);

struct listener {
    const char *name;
    u32 most;
    u32 sum;
};

static struct listener listeners[2] = {{"loud", 1000, 0}, {"quiet", 10, 0}};

/* Numbers, places and lengths come from the module and may be anything. */
static struct listener *listener_of(u32 user) {
    if (user >= 2) w2c_trap(11u);
    return &listeners[user];
}

static u8 *bytes_at(u32 place, u32 length) {
    w2c_mem *memory = w2cZ_wordsZ_mZ_memory();
    if ((u64)place + length > memory->len) w2c_trap(11u);
    return memory->bytes + place;
}

void w2cZ_hostZ_fZ_word(u32 user, u32 word, u32 length) {
    if (listener_of(user) == &listeners[0]) printf("%s: word %.*s\n", listeners[0].name, (int)length, (const char *)bytes_at(word, length));
}

u32 w2cZ_hostZ_fZ_number(u32 user, u32 number) {
    struct listener *it = listener_of(user);
    printf("%s: number %lu\n", it->name, (unsigned long)number);
    it->sum += number;
    return it->sum <= it->most;
}

static u32 scan(const char *text, u32 user) {
    u32 length = (u32)strlen(text), place = w2cZ_wordsZ_fZ_buffer(), room = w2cZ_wordsZ_fZ_room();
    if (length > room) length = room;
    memcpy(bytes_at(place, length), text, length);
    return w2cZ_wordsZ_fZ_scan(length, user);
}

int main(void) {
    u32 loud, quiet;
    w2cZ_wordsZ_i();
    loud = scan("two and 40, or 42", 0);
    quiet = scan("two and 40, or 42", 1);
    printf("found: %lu, %lu\n", (unsigned long)loud, (unsigned long)quiet);
    return 0;
}
