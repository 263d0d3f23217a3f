# A unit of the form that wasm2c writes, whose body has so many statements on eight variables.
import sys

count = int(sys.argv[1])
print('#include "w2c_rt.h"')
print("static u32 f0(void);")
print("void w2cZ_twoZ_i(void) { ; return; }")
print("u32 w2cZ_twoZ_fZ_f(void) { u32 r = 0u; r = f0(); return r; }")
print("static u32 f0(void) {")
for k in range(8):
    print(f"u32 i{k} = 0u;")
for k in range(count):
    print(f"i{k % 8} = {k}u;" if k < 8 else f"i{k % 8} = (i{(k + 3) % 8} + i{(k + 5) % 8});")
print("return i0;")
print("}")
