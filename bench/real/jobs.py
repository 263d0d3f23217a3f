"""The jobs over real libraries that sanitize.py and speed.py run: how each is compiled natively, to WebAssembly and to C, and run.

A job is a C file of this folder with a function `run`, which does its work so many times and gives a sum that depends on all of it."""
import os
import shutil
import subprocess
import sys

HERE = os.path.dirname(os.path.abspath(__file__))
EXAMPLES = os.path.join(HERE, "../../examples")
FAST = os.path.join(EXAMPLES, "fast_runtime")
GUARD = os.path.join(EXAMPLES, "guard_runtime")
LIBRARY = os.path.join(EXAMPLES, "library/source")
WASM = "--target=wasm32-wasi -mcpu=mvp -O2 -w -nostartfiles -Wl,--no-entry -Wl,--strip-all -Wl,--stack-first".split()

# Of each job the folder below that of the sources, flags, and files.
JOBS = {
    "kernels": (LIBRARY, [], "crc32 sha256 lz json"),
    "zlib": ("zlib", [], "adler32 crc32 deflate inflate inftrees inffast trees compress uncompr zutil"),
    "bzip2": ("bzip2", ["-DBZ_NO_STDIO"], "blocksort huffman crctable randtable compress decompress bzlib"),
    "lz4": ("lz4/lib", [], "lz4"),
    "expat": ("expat/expat/lib", ["-I", HERE], ""),
}

MAIN = """
#include <stdio.h>
#include <stdlib.h>
#include <time.h>
HEAD
int main(int count, char **words) {
    unsigned rounds = (unsigned)atoi(words[count - 1]), sum;
    clock_t begin;
    START
    begin = clock();
    sum = (unsigned)(CALL);
    printf("%u %.4f\\n", sum, (double)(clock() - begin) / CLOCKS_PER_SEC);
    return 0;
}
"""

NODE = """
const fs = require('fs');
const [module, rounds] = process.argv.slice(1);
const { run } = new WebAssembly.Instance(new WebAssembly.Module(fs.readFileSync(module)), {}).exports;
for (let k = 0; k < 3; k++) run(1);
const begin = process.cpuUsage();
const sum = run(Number(rounds)) >>> 0;
const { user, system } = process.cpuUsage(begin);
console.log(sum, (user + system) / 1e6);
"""


def run(*command):
    done = subprocess.run(command, capture_output=True, text=True)
    if done.returncode:
        sys.exit(f"{' '.join(command)}: status {done.returncode}\n{done.stderr[:2000]}")
    return done.stdout


def main_file(name, head, start, call):
    with open(name, "w") as file:
        file.write(MAIN.replace("HEAD", head).replace("START", start).replace("CALL", call))
    return name


def sources_of(job, sources):
    folder, flags, files = JOBS[job]
    folder = os.path.join(sources, folder)
    return [*flags, "-I", folder, os.path.join(HERE, f"{job}.c"), *[f"{folder}/{name}.c" for name in files.split()]]


def names(sources):
    """The jobs whose sources are there."""
    return [job for job, (folder, _, _) in JOBS.items() if os.path.isdir(os.path.join(sources, folder))]


def native(job, sources, compiler, *flags):
    main = main_file("main_native.c", "unsigned run(unsigned);", "", "run(rounds)")
    run(compiler, "-w", *flags, *sources_of(job, sources), main, "-o", "program")
    return ["./program"]


def to_wasm(job, sources):
    run("clang", *WASM, *sources_of(job, sources), "-o", f"{job}.wasm")


def translate(wasm2c, job):
    """The unit and its header in units/, where no runtime's header stands, and the plain runtime in plain/."""
    for folder in ("units", "plain"):
        os.makedirs(folder, exist_ok=True)
    run(wasm2c, f"{job}.wasm", "-o", f"units/{job}.c")
    run(wasm2c, "--runtime", "plain")


def runtime(name):
    """The folder of a runtime's header, "fast", "guard" or "plain", and its C files."""
    folder = {"fast": FAST, "guard": GUARD, "plain": "plain"}[name]
    return folder, [os.path.join(folder, file) for file in (["w2c_rt.c"] if name == "plain" else ["w2c_rt.c", "w2c_trap.c", "w2c_want.c"])]


def main_of_unit(job):
    return main_file(f"main_{job}.c", f'#include "{job}.h"', f"w2cZ_{job}Z_i();", f"w2cZ_{job}Z_fZ_run(rounds)")


def ours(job, compiler, name, *flags):
    """The program of a unit with the runtime of that name."""
    folder, files = runtime(name)
    run(compiler, "-w", *flags, "-I", "units", "-I", folder, main_of_unit(job), f"units/{job}.c", *files, "-o", "program")
    return ["./program"]


WABT = "/usr/share/wabt/wasm2c"


def wabt(job):
    """The C of WABT 1.0.32's wasm2c, in wabt/, and a main file for it."""
    os.makedirs("wabt", exist_ok=True)
    run(shutil.which("wasm2c"), f"{job}.wasm", "-o", f"wabt/{job}.c")
    head = f'#include "{job}.h"\nstatic Z_{job}_instance_t instance;'
    return main_file(f"main_wabt_{job}.c", head, f"wasm_rt_init(); Z_{job}_init_module(); Z_{job}_instantiate(&instance);", f"Z_{job}Z_run(&instance, rounds)")


def node(job):
    return ["node", "-e", NODE, f"{job}.wasm"]
