#!/usr/bin/env python3
"""Says how much stack units need, as gcc and clang compile them: for the jobs of this folder the largest frame of a function
(-fstack-usage) and 1,024 times it, as so many functions may be active; and for a recursion 1,024 functions deep how much lies between
the caller's frame and that of a host's function which the last one calls.

stack.py SOURCES [WASM2C]: as for speed.py; "" as SOURCES leaves out the jobs.
"""
import os
import sys
import tempfile

import jobs

# Recursion to a depth of 1,024 functions: `small` has two operands at the call of itself, `large` 40 locals that it needs behind it. The
# last call asks the host.
RECURSION = """(module (import "host" "probe" (func $probe))
(func $small (export "small") (param i32) (result i32)
  (if (result i32) (i32.eqz (local.get 0))
    (then call $probe i32.const 1)
    (else local.get 0 (call $small (i32.sub (local.get 0) (i32.const 1))) i32.mul)))
(func $large (export "large") (param i32) (result i32) LOCALS
  (if (result i32) (i32.eqz (local.get 0))
    (then call $probe i32.const 1)
    (else SETS (call $large (i32.sub (local.get 0) (i32.const 1))) ADDS)))
)"""

MAIN = """
#include <stdio.h>
#include "recursion.h"
static char *top, *deepest;
void w2cZ_hostZ_fZ_probe(void) { volatile char here = 0; deepest = (char *)&here; }
int main(int count, char **words) {
    volatile char here = 0;
    (void)words;
    top = (char *)&here;
    w2cZ_recursionZ_i();
    (count > 1 ? w2cZ_recursionZ_fZ_large : w2cZ_recursionZ_fZ_small)(1023u);
    printf("%ld\\n", (long)(top - deepest));
    return 0;
}
"""


def recursion():
    locals_ = " ".join(["(local i64)"] * 40)
    sets = " ".join(f"(local.set {k} (i64.mul (i64.extend_i32_u (local.get 0)) (i64.const {k * k})))" for k in range(1, 41))
    adds = " ".join(f"(i32.wrap_i64 (local.get {k})) i32.xor i32.const {k} i32.mul" for k in range(1, 41))
    return RECURSION.replace("LOCALS", locals_).replace("SETS", sets).replace("ADDS", adds)


def largest_frame(unit, compiler, level):
    jobs.run(compiler, "-w", level, "-fstack-usage", "-I", jobs.FAST, "-c", unit, "-o", "unit.o")
    with open("unit.su") as file:
        return max((int(line.split("\t")[1]), line.split("\t")[0].split(":")[-1]) for line in file)


def main():
    sources = os.path.abspath(sys.argv[1])
    wasm2c = os.path.abspath(sys.argv[2] if len(sys.argv) > 2 else os.path.join(jobs.HERE, "../../bin/wasm2c"))
    with tempfile.TemporaryDirectory() as work:
        os.chdir(work)
        for job in jobs.names(sources) if sys.argv[1] else []:
            jobs.to_wasm(job, sources)
            jobs.translate(wasm2c, job)
            for compiler in ["gcc", "clang"]:
                for level in ["-O0", "-O2", "-O3"]:
                    size, name = largest_frame(f"units/{job}.c", compiler, level)
                    print(f"{job}, {compiler} {level}: largest frame {size} bytes ({name}), times 1,024: {size} KiB")
        with open("recursion.wat", "w") as file:
            file.write(recursion())
        jobs.run("wat2wasm", "recursion.wat", "-o", "recursion.wasm")
        jobs.run(wasm2c, "recursion.wasm", "-o", "recursion.c")
        with open("main.c", "w") as file:
            file.write(MAIN)
        _, runtime = jobs.runtime("fast")
        for compiler in ["gcc", "clang"]:
            for level in ["-O0", "-O2", "-O3"]:
                jobs.run(compiler, "-w", level, "-I", ".", "-I", jobs.FAST, "main.c", "recursion.c", *runtime, "-o", "program")
                small, large = int(jobs.run("./program")), int(jobs.run("./program", "large"))
                print(f"recursion, {compiler} {level}: 1,024 functions on {small // 1024} KiB; with 40 locals, on {large // 1024} KiB")


if __name__ == "__main__":
    main()
