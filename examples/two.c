#include "w2c_rt.h"
static u32 f0(void);
static u32 f0(void) {
u32 i0 = 0u;
u32 i1 = 0u;
if (w2c_depth < 1024u) goto L0;
w2c_trap(8u);
return i0;
L0: w2c_depth = (w2c_depth + 1u);
i0 = 40u;
i1 = 2u;
i0 = (i0 + i1);
w2c_depth = (w2c_depth - 1u);
return i0;
}
u32 w2cZ_twoZ_fZ_f(void) {
u32 r = 0u;
r = f0();
return r;
}
void w2cZ_twoZ_i(void) {
;
return;
}
