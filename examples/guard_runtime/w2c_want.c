/* The end of the plain runtime where memory is wanting: says so, and ends the program with status 5. A host with a w2c_want of its own
 * leaves this out. */
#include <stdio.h>
#include <stdlib.h>
#include "w2c_rt.h"

void w2c_want(void) {
    fputs("want of memory\n", stderr);
    exit(5);
}
