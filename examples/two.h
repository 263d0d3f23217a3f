/* made by wasm2c; int has 32 bits and every character of a name counts */
#ifndef W2CZ_twoZ_H
#define W2CZ_twoZ_H
#include "w2c_rt.h"
void w2cZ_twoZ_i(void);
u32 w2cZ_twoZ_fZ_f(void);
#endif
