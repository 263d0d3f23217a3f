#!/usr/bin/env python3
"""Compares what units that wasm2c wrote do with what node does with their modules.

compiled.c is compiled to WebAssembly by clang, and bulk.c with sign extension and bulk memory on; written.wat is assembled by
wat2wasm, and so is a module with a function for each numeric instruction, each load and store, a copy and a fill. wasm2c translates
all four. The units are compiled by gcc and clang, with -O0 and -O2, and with -fsanitize=undefined,address, and linked with the
plain runtime's files, with those of the fast one (examples/fast_runtime), as they are, with accesses byte by byte and with the compiler's
own operators, and with those of the guard one (examples/guard_runtime), as they are, with the operators, with exact globals and with checks.
Each export is called with edge values and random ones, in one order, by the unit and by node; results, kinds of traps, calls of hosts, and
the memory behind each trap and at the end are compared. A trap ends a call and not the program here: w2c_trap of the runtime gives way
to one that jumps back to the call. Prints for each compiler what differs, and how many warnings of -Wall -Wextra of each kind a unit got.
Ends with 1 if something differs. Needs clang with wasm-ld, gcc, node, and Debian's wabt.

compare.py [WASM2C [PART..]]: the program, bin/wasm2c where it is left out, and parts of the names of runtimes, where not all are wanted.
"""
import collections
import json
import os
import random
import re
import subprocess
import sys
import tempfile

from modules import C_TYPES, HERE, NODE, SMALL, assembled, compiled, compiled_with_bulk_memory, exported_memory, plan, run, signatures


MAIN = """
#include <setjmp.h>
#include <stdio.h>
#include <string.h>
#include "NAME.h"
static jmp_buf back;
void w2c_trap(u32 kind) { longjmp(back, (int)kind); }
u32 w2cZ_hostZ_fZ_get(u32 x) { printf("host.get %lu\\n", (unsigned long)x); return x ^ 5; }
void w2cZ_hostZ_fZ_put(u64 x) { printf("host.put %llu\\n", (unsigned long long)x); }
static const char *const kinds[] = {
    "", "unreachable", "memory out of bounds", "division by zero", "integer overflow", "table out of bounds", "empty or another signature",
    "empty or another signature", "call depth", "import limits", "segment out of bounds", "host trap"};
static void tell(const w2c_mem *m) {
    u32 sum = 2166136261u, word;
    u64 k;
    for (k = 0; k < m->len; k += 4) {
        memcpy(&word, m->bytes + k, 4);
        sum = (sum ^ word) * 16777619u;
    }
    printf("memory = %llu %lu\\n", (unsigned long long)m->len, (unsigned long)sum);
}
static int trap;
int main(void) {
w2cZ_NAMEZ_i();
"""


FAST = os.path.join(HERE, "../../examples/fast_runtime")
GUARD = os.path.join(HERE, "../../examples/guard_runtime")
# Of each runtime what it is called, the folder of its header and C files, and flags.
RUNTIMES = [
    ("plain", "plain", []),
    ("fast", FAST, []),
    ("fast, bytewise", FAST, ["-DW2C_RT_BYTEWISE"]),
    ("fast, operators", FAST, ["-DW2C_RT_OPERATORS"]),
    ("guard", GUARD, []),
    ("guard, operators", GUARD, ["-DW2C_RT_OPERATORS"]),
    ("guard, exact", GUARD, ["-DW2C_RT_EXACT"]),
    ("guard, checks", GUARD, ["-DW2C_RT_CHECKS"]),
]
LEVELS = [["-O0"], ["-O2"], ["-O2", "-fsanitize=undefined,address"]]
# The guard runtime's handler is the one that is wanted; what the sanitizer would say of SIGSEGV comes by none of these runs.
os.environ["ASAN_OPTIONS"] = "handle_segv=0:use_sigaltstack=0"


def main_of(name, sigs, calls, memory):
    lines = [MAIN.replace("NAME", name)]
    tell = f"tell(w2cZ_{name}Z_mZ_{memory}());" if memory else "(void)tell;"
    for export, args in calls:
        params, result = sigs[export]
        values = ", ".join(f"({C_TYPES[ty]}){value}ull" for ty, value in zip(params, args))
        call = f"w2cZ_{name}Z_fZ_{export}({values})"
        label = " ".join([export, *map(str, args)])
        done = f'{call}; printf("{label} = -\\n");' if result is None else f'printf("{label} = %llu\\n", (unsigned long long){call});'
        lines.append(f'w2c_depth = 0; if ((trap = setjmp(back)) == 0) {{ {done} }} else {{ printf("{label} = trap %s\\n", kinds[trap]); {tell} }}')
    return "\n".join(lines) + f"\n{tell}\nreturn 0;\n}}\n"


def prepare(wasm2c, name, given, seconds=600):
    """Translates a module, and writes main.c, which makes the calls; gives what node says of them."""
    module = f"{name}.wasm"
    sigs = signatures(module)
    calls = plan(sigs, given)
    entries = [
        {"name": export, "params": sigs[export][0], "result": sigs[export][1], "args": [str(value) for value in args]}
        for export, args in calls
    ]
    with open("plan.json", "w") as file:
        json.dump(entries, file)
    wanted = run("node", "-e", NODE, module, "plan.json", "states", timeout=seconds)
    run(wasm2c, module, "-o", f"{name}.c")
    with open("main.c", "w") as file:
        file.write(main_of(name, sigs, calls, exported_memory(module)))
    return calls, wanted


def compare(wasm2c, runtimes, name, given):
    calls, wanted = prepare(wasm2c, name, given)
    print(f"{name}: {len(calls)} calls, {wanted.count('= trap')} of them trap")
    same = True
    for compiler in ["gcc", "clang"]:
        options = ["-std=c11", "-pedantic", "-Wall", "-Wextra", "-I", "plain", "-c", f"{name}.c", "-o", "unit.o", "-O2"]
        said = subprocess.run([compiler, *options], capture_output=True, text=True).stderr
        kinds = collections.Counter(re.findall(r"\[(-W[^\]]*)\]", said))
        print(f"    {compiler}: {dict(kinds) or 'no warning'}")
        for more in LEVELS:
            for runtime in runtimes:
                same = compare_compiled(compiler, more, runtime, name, wanted) and same
    return same


def compare_compiled(compiler, more, runtime, name, wanted):
    title, folder, defines = runtime
    flags = ["-std=c11", "-w", *more, *defines, "-I", folder]
    renamed, files = ["-Dw2c_trap=ending_trap"] if title == "plain" else [], [] if title == "plain" else [os.path.join(folder, "w2c_want.c")]
    subprocess.run([compiler, *flags, *renamed, "-c", os.path.join(folder, "w2c_rt.c"), "-o", "runtime.o"], check=True)
    # What makes the calls is long, and only the unit is of interest.
    slow = ["-O0" if flag == "-O2" else flag for flag in flags]
    subprocess.run([compiler, *slow, "-I", ".", "-c", "main.c", "-o", "main.o"], check=True)
    subprocess.run([compiler, *flags, "-I", ".", "main.o", f"{name}.c", *files, "runtime.o", "-o", "program"], check=True)
    ran = subprocess.run(["./program"], capture_output=True, text=True)
    same = ran.stdout == wanted and not ran.stderr and ran.returncode == 0
    print(f"    {compiler} {' '.join(more)}, {title} runtime: {'the same' if same else 'DIFFERENT'}", flush=True)
    if not same:
        for ours, theirs in zip(ran.stdout.splitlines(), wanted.splitlines()):
            if ours != theirs:
                print(f"        unit: {ours}; node: {theirs}")
                break
        print(ran.stderr[:500])
    return same


def chosen(parts):
    return [runtime for runtime in RUNTIMES if not parts or any(part in runtime[0] for part in parts)]


def main():
    wasm2c = os.path.abspath(sys.argv[1] if len(sys.argv) > 1 else os.path.join(HERE, "../../bin/wasm2c"))
    random.seed(1)
    runtimes = chosen(sys.argv[2:])
    with tempfile.TemporaryDirectory() as work:
        os.chdir(work)
        # Not beside the units, where it would stand before each other w2c_rt.h.
        os.mkdir("plain")
        run(wasm2c, "--runtime", "plain")
        run("wat2wasm", os.path.join(HERE, "written.wat"), "-o", "written.wasm")
        given = [compiled(), compiled_with_bulk_memory(), ("written", {"loop": SMALL}), assembled()]
        sys.exit(0 if all([compare(wasm2c, runtimes, *one) for one in given]) else 1)


if __name__ == "__main__":
    main()
