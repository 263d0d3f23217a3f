/* Checks the translated library against known answers: prints a line for each part, and ends with 1 where one is wrong. */
#include <stdio.h>
#include <string.h>
#include "library.h"

#define CALL(name) w2cZ_libraryZ_fZ_##name
#define ROOM 1048576u

static int wrong;

/* Where the module's buffers begin. The address of the first byte is asked for each time: a call may make the memory grow, and a
 * memory that grows may move. */
static u8 *at(u32 place) { return w2cZ_libraryZ_mZ_memory()->bytes + place; }

static u32 give(const char *text, size_t length) {
    memcpy(at(CALL(input)()), text, length);
    return (u32)length;
}

static u32 give_text(const char *text) { return give(text, strlen(text)); }

static void expect(const char *what, int good) {
    printf("%s: %s\n", what, good ? "right" : "WRONG");
    if (!good) wrong = 1;
}

static int hashes_to(u32 length, const char *wanted) {
    char hex[65];
    int i;
    CALL(sha256)(length);
    for (i = 0; i < 32; i++) sprintf(hex + 2 * i, "%02x", (unsigned)at(CALL(output)())[i]);
    return strcmp(hex, wanted) == 0;
}

static void check_hashes(void) {
    static char many[1000000];
    expect("crc32 of 123456789", CALL(crc32)(give_text("123456789")) == 0xCBF43926u);
    expect("sha256 of nothing", hashes_to(0, "e3b0c44298fc1c149afbf4c8996fb92427ae41e4649b934ca495991b7852b855"));
    expect("sha256 of abc", hashes_to(give_text("abc"), "ba7816bf8f01cfea414140de5dae2223b00361a396177a9cb410ff61f20015ad"));
    memset(many, 'a', sizeof many);
    expect("sha256 of a million times a",
           hashes_to(give(many, sizeof many), "cdc76e5c9914fb9281a1c7e284d73e67f1809a48a497200e046d39ccc7112cd0"));
}

/* Words by chance, from a few. */
static u32 write_text(char *text, u32 length) {
    static const char *const words[8] = {"label ", "frame ", "store ", "module ", "memory ", "table ", "global ", "trap\n"};
    u32 seed = 1, used = 0;
    while (used < length) {
        const char *word;
        seed = seed * 1664525u + 1013904223u;
        for (word = words[seed >> 29]; *word && used < length; word++) text[used++] = *word;
    }
    return used;
}

static void check_compressor(void) {
    static char text[ROOM];
    u32 length = write_text(text, ROOM), small, back;
    give(text, length);
    small = CALL(compress)(length);
    printf("compress: %lu bytes to %lu\n", (unsigned long)length, (unsigned long)small);
    memcpy(at(CALL(input)()), at(CALL(output)()), small);
    back = CALL(expand)(small);
    expect("expand after compress", back == length && memcmp(text, at(CALL(output)()), length) == 0);
    expect("expand of a text cut short", CALL(expand)(small - 1) == 4294967295u);
}

static void check_json(void) {
    expect("json of seven values", CALL(json)(give_text("{\"a\": [1, -2.5e3, true, null], \"b\\u00e9\": \"\"}")) == 7);
    expect("json with a fault at 6", CALL(json)(give_text("[1, 2 3]")) == 4294967296u + 6);
    expect("json cut short", CALL(json)(give_text("[[[")) == 4294967296u + 3);
}

int main(void) {
    w2cZ_libraryZ_i();
    check_hashes();
    check_compressor();
    check_json();
    return wrong;
}
