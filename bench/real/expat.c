/* Reads an XML text by expat, with handlers of elements and of text, and sums up what they are told; 0 where it is refused.
 *
 * The parser's files are part of this one, without what asks the system for entropy, the environment and an error stream: the module
 * has no imports, and each run reads alike. */
#include <stdio.h>
#include <stdlib.h>
#include <sys/time.h>
#include <sys/types.h>
#include <unistd.h>
#include "work.h"

#define NDEBUG
#define XML_STATIC
#define XML_NS
#define XML_POOR_ENTROPY
#define XML_CONTEXT_BYTES 1024
#define BYTEORDER 1234
#define HAVE_MEMMOVE
#define fprintf(...) ((void)0)
#define getenv(name) ((char *)0)
#define getpid() 1
#define gettimeofday(time, zone) ((time)->tv_sec = (time)->tv_usec = 0)
#include "xmlparse.c"
#include "xmlrole.c"
#include "xmltok.c"

#define ROOM (SIZE + 4000)

static char xml[ROOM];
static uint32_t sum;

static void add(const char *bytes, uint32_t length) { sum = sum * 31 + sum_of((const unsigned char *)bytes, length); }

static void at_start(void *data, const char *name, const char **attributes) {
    (void)data;
    add(name, (uint32_t)strlen(name));
    for (; *attributes; attributes++) add(*attributes, (uint32_t)strlen(*attributes));
}

static void at_end(void *data, const char *name) {
    (void)data;
    sum = sum * 3 + (unsigned char)name[0];
}

static void at_text(void *data, const char *bytes, int length) {
    (void)data;
    add(bytes, (uint32_t)length);
}

static uint32_t put(uint32_t at, const char *bytes) {
    uint32_t length = (uint32_t)strlen(bytes);
    memcpy(xml + at, bytes, length);
    return at + length;
}

/* Elements, nested up to twelve deep, with an attribute, text of the words, and now and then an entity, a comment or a section. */
static uint32_t write_xml(void) {
    static const char *const names[] = {"entry", "item", "para", "name", "note", "value", "link"};
    static const char *const others[] = {" &amp; ", "<!-- - -->", "<![CDATA[a < b]]>", "&#233;", "<br/>", " &lt;&gt; "};
    uint32_t open[12], depth = 0, at = put(0, "<?xml version=\"1.0\"?>\n<all xmlns=\"urn:a\">"), from = 0, k;
    while (at < SIZE) {
        uint32_t chosen = text[from] % 7, length = 8 + text[from + 1] % 40;
        if (depth < 12 && text[from + 2] % 5) {
            at = put(put(put(put(at, "<"), names[chosen]), " id=\""), names[text[from + 3] % 7]);
            at = put(at, "\">");
            open[depth++] = chosen;
        }
        for (k = 0; k < length; k++, from++)
            if ((text[from] >= 'a' && text[from] <= 'z') || text[from] == ' ' || text[from] == '\n') xml[at++] = (char)text[from];
        if (text[from] % 3 == 0) at = put(at, others[text[from + 1] % 6]);
        if (depth && text[from + 2] % 2) at = put(put(put(at, "</"), names[open[--depth]]), ">");
        if (from + 100 > SIZE) from = 0;
    }
    while (depth) at = put(put(put(at, "</"), names[open[--depth]]), ">");
    return put(at, "</all>");
}

RUN {
    uint32_t length;
    write_text(7);
    sum = 1;
    length = write_xml();
    while (rounds--) {
        XML_Parser parser = XML_ParserCreateNS(NULL, '|');
        if (!parser) return 0;
        XML_SetHashSalt(parser, 1);
        XML_SetElementHandler(parser, at_start, at_end);
        XML_SetCharacterDataHandler(parser, at_text);
        if (XML_Parse(parser, xml, (int)length, 1) != XML_STATUS_OK) return 0;
        XML_ParserFree(parser);
    }
    return sum;
}
