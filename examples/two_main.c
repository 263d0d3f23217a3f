/* Calls the exported function of two.wasm and prints its value. */
#include <stdio.h>
#include "two.h"

int main(void) {
    w2cZ_twoZ_i();
    printf("%lu\n", (unsigned long)w2cZ_twoZ_fZ_f());
    return 0;
}
