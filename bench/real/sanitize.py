#!/usr/bin/env python3
"""Runs translated real modules with -fsanitize=undefined,address: the example of examples/library with its own check, and the jobs over
zlib, bzip2, lz4 and expat, compiled to WebAssembly by clang and translated. Under gcc and clang, with all three runtimes, nothing may be
reported, and the sums are those of the job compiled natively. Ends with 1 at the first difference. Needs gcc, clang with wasm-ld, and
Debian's wasi-libc.

sanitize.py SOURCES [WASM2C]: the folder that sources.sh made (jobs whose sources are not there are left out; "" leaves out all but
the example's), and the program, bin/wasm2c where it is left out.
"""
import os
import subprocess
import sys
import tempfile

import jobs

FLAGS = ["-O1", "-g", "-fsanitize=undefined,address", "-fno-sanitize-recover=all"]


def expect(title, command, wanted):
    ran = subprocess.run(command, capture_output=True, text=True)
    if ran.returncode or ran.stderr or not wanted(ran.stdout):
        sys.exit(f"{title}: status {ran.returncode}, {ran.stdout}{ran.stderr[:2000]}")
    print(f"{title}: the same, and nothing reported", flush=True)


def example(wasm2c):
    folder = os.path.join(jobs.EXAMPLES, "library")
    for compiler in ["gcc", "clang"]:
        for runtime, place in [("fast", jobs.FAST), ("guard", jobs.GUARD), ("plain", jobs.EXAMPLES)]:
            jobs.run("make", "-C", folder, f"OUT={os.getcwd()}/out", f"WASM2C={wasm2c}", f"CC={compiler}", f"RUNTIME={place}",
                     f"CFLAGS={' '.join(FLAGS)}", "-B", f"{os.getcwd()}/out/check")
            expect(f"library, {compiler}, {runtime} runtime", ["out/check"], lambda said: "WRONG" not in said)


def main():
    sources = os.path.abspath(sys.argv[1])
    wasm2c = os.path.abspath(sys.argv[2] if len(sys.argv) > 2 else os.path.join(jobs.HERE, "../../bin/wasm2c"))
    with tempfile.TemporaryDirectory() as work:
        os.chdir(work)
        example(wasm2c)
        for job in jobs.names(sources) if sys.argv[1] else []:
            jobs.to_wasm(job, sources)
            jobs.translate(wasm2c, job)
            wanted = jobs.run(*jobs.native(job, sources, "gcc", "-O2"), "2").split()[0]
            for compiler in ["gcc", "clang"]:
                for runtime in ["fast", "guard", "plain"]:
                    program = jobs.ours(job, compiler, runtime, *FLAGS)
                    expect(f"{job}, {compiler}, {runtime} runtime", [*program, "2"], lambda said: said.split()[0] == wanted != "0")


if __name__ == "__main__":
    main()
