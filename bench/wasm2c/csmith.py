#!/usr/bin/env python3
"""Compares what units do with the three runtimes on programs by chance: csmith writes C, clang compiles it to WebAssembly, wasm2c
translates that, and gcc and clang compile the unit, as compare.py does it. The program's checksum and the memory at the end must be those of
node. A program that node does not end within twenty seconds, or that clang makes calls of an allocator or floating-point numbers of, is passed
over. Ends with 1 if something differs. Needs Debian's csmith and libcsmith-dev, clang with wasm-ld, wasi-libc, gcc, node, and wabt.

csmith.py [COUNT [FIRST [WASM2C [PART..]]]]: how many programs, the first seed, the program, and parts of the names of runtimes.
"""
import os
import subprocess
import sys
import tempfile

import compare
from modules import HERE, run

LEVELS = [["-O0"], ["-O2"]]

# printf of a program is this one, which prints nothing: the checksum is what run gives.
WRAPPER = """
int printf(const char *format, ...) { (void)format; return 0; }
#define main program
#include "program.c"
#undef main
__attribute__((export_name("run"))) uint32_t run(void) { program(); return crc32_context ^ 0xFFFFFFFFu; }
"""


def one(wasm2c, seed, runtimes):
    """Whether all is the same; None where the program is passed over."""
    name = f"seed{seed}"
    with open("program.c", "w") as file:
        file.write(run("csmith", "--seed", str(seed), "--no-argc", "--max-funcs", "6", "--no-bitfields" if seed % 2 else "--bitfields"))
    with open("wrapper.c", "w") as file:
        file.write(WRAPPER)
    level = ["-O0", "-O1", "-O2"][seed % 3]
    target = ["--target=wasm32-wasi", "-mcpu=mvp", level, "-w", "-fno-builtin-printf", "-nostartfiles", "-Wl,--no-entry", "-I", "/usr/include/csmith"]
    try:
        run("clang", *target, "wrapper.c", "-o", f"{name}.wasm")
        _, wanted = compare.prepare(wasm2c, name, {"run": [[], []]}, seconds=20)
    except (subprocess.CalledProcessError, subprocess.TimeoutExpired) as error:
        print(f"seed {seed}: passed over ({error.__class__.__name__})", flush=True)
        return None
    print(f"seed {seed}, clang {level}: {' '.join(wanted.split())}", flush=True)
    return all([compare.compare_compiled(compiler, more, runtime, name, wanted) for compiler in ["gcc", "clang"] for more in LEVELS for runtime in runtimes])


def main():
    count = int(sys.argv[1]) if len(sys.argv) > 1 else 20
    first = int(sys.argv[2]) if len(sys.argv) > 2 else 1
    wasm2c = os.path.abspath(sys.argv[3] if len(sys.argv) > 3 else os.path.join(HERE, "../../bin/wasm2c"))
    runtimes = compare.chosen(sys.argv[4:])
    with tempfile.TemporaryDirectory() as work:
        os.chdir(work)
        os.mkdir("plain")
        run(wasm2c, "--runtime", "plain")
        said = [one(wasm2c, seed, runtimes) for seed in range(first, first + count)]
    print(f"{said.count(True)} programs the same, {said.count(False)} different, {said.count(None)} passed over")
    sys.exit(1 if False in said else 0)


if __name__ == "__main__":
    main()
