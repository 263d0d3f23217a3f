/* What stands between expat and the host, in the module. The handlers that expat is given are addresses of imports. */
#include <stdint.h>
#include "expat.h"

#define EXPORT(name) __attribute__((export_name(name)))
#define IMPORT(name) __attribute__((import_module("host"), import_name(name)))

IMPORT("start") void host_start(void *user, const XML_Char *name, const XML_Char **attributes);
IMPORT("end") void host_end(void *user, const XML_Char *name);
IMPORT("text") void host_text(void *user, const XML_Char *text, int length);

/* `user` is a number of the host's, which comes back with each call. `salt` is what expat's hash tables begin with: take it from a source
 * of random numbers, as the module has none. */
EXPORT("open") XML_Parser open_parser(uint32_t user, uint32_t salt) {
    XML_Parser parser = XML_ParserCreate("UTF-8");
    if (!parser) return parser;
    XML_SetHashSalt(parser, salt);
    XML_SetUserData(parser, (void *)user);
    XML_SetElementHandler(parser, host_start, host_end);
    XML_SetCharacterDataHandler(parser, host_text);
    return parser;
}

/* Where the host writes the next so many bytes of the document. */
EXPORT("buffer") void *buffer(XML_Parser parser, int length) { return XML_GetBuffer(parser, length); }
EXPORT("parse") int parse(XML_Parser parser, int length, int last) { return XML_ParseBuffer(parser, length, last); }
EXPORT("error") const XML_LChar *error(XML_Parser parser) { return XML_ErrorString(XML_GetErrorCode(parser)); }
EXPORT("line") uint32_t line(XML_Parser parser) { return (uint32_t)XML_GetCurrentLineNumber(parser); }
EXPORT("close") void close_parser(XML_Parser parser) { XML_ParserFree(parser); }
