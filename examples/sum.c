#include "w2c_rt.h"
static u32 f0(void);
void w2cZ_twoZ_i(void) { ; return; }
u32 w2cZ_twoZ_fZ_f(void) { u32 r = 0u; r = f0(); return r; }
static u32 f0(void) { u32 i0 = 0u; u32 i1 = 0u; i0 = 40u; i1 = 2u; i0 = (i0 + i1); return i0; }
