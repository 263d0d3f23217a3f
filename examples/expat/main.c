/* Parses documents by expat in a module and by the same expat compiled for this machine, and compares what the two report: each element,
 * attribute and text goes into a sum. Prints what the module reports of two small documents; with a number N, the seconds of processor
 * time that each takes for a document of N elements. */
#include <setjmp.h>
#include <stdio.h>
#include <stdlib.h>
#include <string.h>
#include <time.h>
#include "expat.h"
#include "expat_unit.h"

#define WASI_MODULE expat
#include "wasi.h"

#define CALL(name) w2cZ_expatZ_fZ_##name
#define PART 65536u

/* The imports: `grep -E '^(u32|u64|void) w2cZ_hostZ_.*;$' out/expat_unit.c` prints these lines. */
void w2cZ_hostZ_fZ_start(u32 user, u32 name, u32 attributes);
void w2cZ_hostZ_fZ_end(u32 user, u32 name);
void w2cZ_hostZ_fZ_text(u32 user, u32 text, u32 length);
void w2c_trap(u32 kind);

struct report {
    int prints;
    u32 starts, ends;
    u64 sum;
};

static void add(struct report *it, char kind, const char *text, size_t length) {
    size_t i;
    it->sum = it->sum * 31 + (u8)kind;
    for (i = 0; i < length; i++) it->sum = it->sum * 31 + (u8)text[i];
    if (it->prints) printf("%c %.*s\n", kind, (int)length, text);
}

/* In the module. The number that `open` is given comes back as `user`; there is one report here. */
static struct report *reports[1];

static struct report *report_of(u32 user) {
    if (user >= 1) w2c_trap(11u);
    return reports[user];
}

/* A text that ends in 0: the end is looked for in the memory, and not past it. */
static const char *text_at(u32 place, size_t *length) {
    w2c_mem *memory = w2cZ_expatZ_mZ_memory();
    const char *text = (const char *)wasi_at(place, 1), *end = memchr(text, 0, (size_t)(memory->len - place));
    if (!end) w2c_trap(11u);
    *length = (size_t)(end - text);
    return text;
}

static void add_at(u32 user, char kind, u32 place) {
    size_t length;
    const char *text = text_at(place, &length);
    add(report_of(user), kind, text, length);
}

/* The attributes are an array of places, four bytes each, lowest first. */
void w2cZ_hostZ_fZ_start(u32 user, u32 name, u32 attributes) {
    report_of(user)->starts++;
    add_at(user, '<', name);
    for (;; attributes += 4) {
        const u8 *bytes = wasi_at(attributes, 4);
        u32 place = bytes[0] | (u32)bytes[1] << 8 | (u32)bytes[2] << 16 | (u32)bytes[3] << 24;
        if (place == 0) return;
        add_at(user, '=', place);
    }
}

void w2cZ_hostZ_fZ_end(u32 user, u32 name) {
    report_of(user)->ends++;
    add_at(user, '>', name);
}

void w2cZ_hostZ_fZ_text(u32 user, u32 text, u32 length) { add(report_of(user), '"', (const char *)wasi_at(text, length), length); }

static jmp_buf back;
static u32 trapped;

void w2c_trap(u32 kind) {
    trapped = kind;
    longjmp(back, 1);
}

static void parse_there(u32 parser, const char *text, size_t length) {
    while (length) {
        u32 part = length < PART ? (u32)length : PART, place = CALL(buffer)(parser, part), status;
        if (place == 0) w2c_trap(11u);
        memcpy(wasi_at(place, part), text, part);
        status = CALL(parse)(parser, part, length == part);
        if (status == 0) {
            size_t size;
            const char *message = text_at(CALL(error)(parser), &size);
            printf("line %lu: %.*s\n", (unsigned long)CALL(line)(parser), (int)size, message);
            return;
        }
        text += part;
        length -= part;
    }
}

static int in_module(struct report *it, const char *text, size_t length) {
    u32 depth = w2c_depth;
    reports[0] = it;
    if (setjmp(back) == 0) {
        u32 parser = CALL(open)(0, 42);
        parse_there(parser, text, length);
        CALL(close)(parser);
        return 1;
    }
    w2c_depth = depth;
    printf("trap %lu\n", (unsigned long)trapped);
    return 0;
}

/* On this machine. */
static void start(void *user, const XML_Char *name, const XML_Char **attributes) {
    ((struct report *)user)->starts++;
    add(user, '<', name, strlen(name));
    for (; *attributes; attributes++) add(user, '=', *attributes, strlen(*attributes));
}

static void end(void *user, const XML_Char *name) {
    ((struct report *)user)->ends++;
    add(user, '>', name, strlen(name));
}

static void text(void *user, const XML_Char *bytes, int length) { add(user, '"', bytes, (size_t)length); }

static int native(struct report *it, const char *bytes, size_t length) {
    XML_Parser parser = XML_ParserCreate("UTF-8");
    int good = 1;
    XML_SetHashSalt(parser, 42);
    XML_SetUserData(parser, it);
    XML_SetElementHandler(parser, start, end);
    XML_SetCharacterDataHandler(parser, text);
    while (length && good) {
        size_t part = length < PART ? length : PART;
        void *place = XML_GetBuffer(parser, (int)part);
        if (!place) return 0;
        memcpy(place, bytes, part);
        good = XML_ParseBuffer(parser, (int)part, length == part) == XML_STATUS_OK;
        bytes += part;
        length -= part;
    }
    XML_ParserFree(parser);
    return good;
}

static double seconds(void) { return (double)clock() / CLOCKS_PER_SEC; }

static int compare(long elements) {
    size_t room = 64 + 160 * (size_t)elements, length = 0;
    char *document = malloc(room);
    struct report there = {0, 0, 0, 0}, here = {0, 0, 0, 0};
    double began;
    long i;
    if (!document) return 0;
    length += (size_t)sprintf(document, "<?xml version='1.0'?>\n<all>\n");
    for (i = 0; i < elements; i++)
        length += (size_t)sprintf(document + length, "<item number='%ld' kind=\"k%ld\">text &amp; \xc3\xa9 of %ld<empty/></item>\n", i, i % 7, i * 12345);
    length += (size_t)sprintf(document + length, "</all>");
    began = seconds();
    if (!in_module(&there, document, length)) return 0;
    printf("%lu bytes, %lu elements: in the module %.3f s", (unsigned long)length, (unsigned long)there.starts, seconds() - began);
    began = seconds();
    if (!native(&here, document, length)) return 0;
    printf(", native %.3f s\n", seconds() - began);
    free(document);
    return there.sum == here.sum && there.starts == here.starts && there.ends == here.ends && there.starts == (u32)(2 * elements + 1);
}

int main(int count, char **words) {
    static const char good[] = "<?xml version='1.0'?><greeting to=\"all\">hello &lt; <b>world</b></greeting>";
    static const char bad[] = "<greeting>\nhello\n</greting>";
    struct report it = {1, 0, 0, 0};
    w2cZ_expatZ_i();
    CALL(_initialize)();
    if (count > 1) {
        int i, right = 1;
        for (i = 0; i < 3; i++) right = right && compare(atol(words[1]));
        puts(right ? "the same" : "NOT the same");
        return !right;
    }
    return !(in_module(&it, good, sizeof good - 1) && in_module(&it, bad, sizeof bad - 1));
}
