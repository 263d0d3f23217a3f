/* What stands between the library and the host: it hands the addresses of two imports over as handlers. An import has an address like
 * any other function; clang puts it into the module's table. */
#include "words.h"

#define EXPORT(name) __attribute__((export_name(name)))
#define IMPORT(name) __attribute__((import_module("host"), import_name(name)))

IMPORT("word") void host_word(void *user, const char *word, unsigned length);
IMPORT("number") int host_number(void *user, unsigned number);

static char buffer[4096];

/* Where the host writes the text, and how much there is room for. */
EXPORT("buffer") char *place_of_buffer(void) { return buffer; }
EXPORT("room") unsigned room(void) { return sizeof buffer; }

/* `user` is a number of the host's. The library hands it back with each call, and that tells the host which of its listeners is meant. */
EXPORT("scan") unsigned scan_buffer(unsigned length, unsigned user) {
    return scan(buffer, length < sizeof buffer ? length : sizeof buffer, host_word, host_number, (void *)user);
}
