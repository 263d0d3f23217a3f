/* Expat's switches, for the module and for the native library. XML_DTD is left out: what it adds calculates in floating point. */
#define BYTEORDER 1234
#define XML_CONTEXT_BYTES 1024
#define XML_NS 1
#define XML_POOR_ENTROPY 1
