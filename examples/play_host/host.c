#include "w2c_rt.h"
/* Plays the module `host` for the unit of guest.wasm: it adds up the bytes that it is to print, weighs article n as 1000 times n,
   and gives the articles 3, 2, 1. */
static u32 left = 3u;
static u32 said = 0u;
w2c_mem *w2cZ_guestZ_mZ_memory(void);
void w2cZ_hostZ_i(void) { ; return; }
void w2cZ_hostZ_fZ_say(u32 text, u32 length) {
w2c_mem *memory = 0;
u64 at = 0ull;
u64 end = 0ull;
u64 all = 0ull;
u32 byte = 0u;
memory = w2cZ_guestZ_mZ_memory();
at = (u64) text;
end = ((u64) text + (u64) length);
all = w2c_mem_len(memory);
if (end > all) goto Ltrap;
Lnext: if (at == end) goto Lend;
byte = w2c_get1(memory, at);
said = (said + byte);
at = (at + 1ull);
goto Lnext;
Ltrap: w2c_trap(11u);
Lend: return;
}
u64 w2cZ_hostZ_fZ_weight(u32 article) {
u64 weight = 0ull;
weight = ((u64) article * 1000ull);
return weight;
}
u32 w2cZ_hostZ_fZ_next(void) {
u32 article = 0u;
article = left;
if (left == 0u) goto Lend;
left = (left - 1u);
Lend: return article;
}
u32 w2cZ_hostZ_fZ_said(void) {
return said;
}
