#!/usr/bin/env python3
"""Times the jobs of this folder: compiled natively, and compiled to WebAssembly by clang -O2 and then run as the C of wasm2c with the guard and
the fast runtime, each with and without the compiler's own operators, as the C of WABT's wasm2c in both of its ways to check bounds, and, since
its C with guard pages counts no calls, with these counted to the same depth as in a unit, too, and by node. Needs gcc, clang with wasm-ld, Debian's wasi-libc and wabt, and node.

A time is seconds of processor time inside `run` (of node when the engine is warm, with all its threads). Each is short, all are run in turn,
and the least of fifteen counts, so that other work on the machine does little harm. All are compiled at one level, and on x86-64 with jumps
that do not cross 32 bytes and loops that begin at one of 32, which on some processors costs a hot loop a tenth for where it happens to lie. Prints a table of times, one of
units' times as parts of those of WABT's C that finds accesses out of bounds in the same way, and one of the processor time that a
compiler takes for the unit and of the size of its code.

speed.py SOURCES FOLDER [WASM2C] [--build] [--jobs NAME..] [--rows PART..] [--times N] [--level=-O3]: the folder that sources.sh made; a folder for what
is built, and is not built again when it is there; the program, bin/wasm2c where it is left out. With --build it does not time.
"""
import argparse
import json
import os
import platform
import subprocess
import sys
from concurrent.futures import ThreadPoolExecutor
from threading import Lock

import jobs

ROUNDS = {"kernels": 1, "zlib": 1, "bzip2": 1, "lz4": 5, "expat": 5}
EXPLICIT = ["-DWASM_RT_MEMCHECK_SIGNAL_HANDLER=0", "-DWASM_RT_MAX_CALL_STACK_DEPTH=1024"]
CALLS_COUNTED = ["-DWASM_RT_USE_STACK_DEPTH_COUNT=1", "-DWASM_RT_MAX_CALL_STACK_DEPTH=1024"]
COUNTED = "WABT, guard pages, calls counted"
OPERATORS = ["-DW2C_RT_OPERATORS"]

# Of each row who makes it (the name of a runtime is that of wasm2c's), flags, and the row that it is measured against.
ROWS = {
    "native": ("native", [], None),
    "wasm2c, guard runtime, operators": ("guard", OPERATORS, "WABT, guard pages"),
    "wasm2c, guard runtime": ("guard", [], "WABT, guard pages"),
    "WABT, guard pages": ("wabt", [], None),
    COUNTED: ("wabt", CALLS_COUNTED, None),
    "wasm2c, fast runtime, operators": ("fast", OPERATORS, "WABT, checks in C"),
    "wasm2c, fast runtime": ("fast", [], "WABT, checks in C"),
    "WABT, checks in C": ("wabt", EXPLICIT, None),
}
COMPILERS = ["gcc", "clang"]


def aligned(compiler):
    if platform.machine() != "x86_64":
        return []
    jumps = "-mbranches-within-32B-boundaries"
    return [jumps if compiler == "clang" else f"-Wa,{jumps}", "-falign-loops=32"]


def seconds_of(*command):
    """Runs a command, and gives its processor time."""
    child = subprocess.Popen(command, stdout=subprocess.DEVNULL, stderr=subprocess.PIPE)
    said = child.stderr.read().decode()
    _, status, use = os.wait4(child.pid, 0)
    if status:
        sys.exit(f"{' '.join(command)}: status {status}\n{said[:2000]}")
    return use.ru_utime + use.ru_stime


def build(job, compiler, title, sources, level):
    """Builds the program of a cell; gives the seconds that the unit takes to compile, and the bytes of its code."""
    maker, more, _ = ROWS[title]
    program = name_of(job, compiler, title)
    flags = ["-w", level, *aligned(compiler), *more]
    if maker == "native":
        seconds = seconds_of(compiler, *flags, *jobs.sources_of(job, sources), "main_native.c", "-o", program)
        return {"seconds": seconds}
    if maker == "wabt":
        unit, main, files, flags = f"wabt/{job}.c", f"main_wabt_{job}.c", [f"{jobs.WABT}/wasm-rt-impl.c", "-lm"], [*flags, "-I", "wabt", "-I", jobs.WABT]
    else:
        folder, files = jobs.runtime(maker)
        unit, main, flags = f"units/{job}.c", f"main_{job}.c", [*flags, "-I", "units", "-I", folder]
    seconds = seconds_of(compiler, *flags, "-c", unit, "-o", f"{program}.o")
    jobs.run(compiler, *flags, main, f"{program}.o", *files, "-o", program)
    return {"seconds": seconds, "bytes": int(jobs.run("size", f"{program}.o").splitlines()[1].split()[0])}


def name_of(job, compiler, title):
    return os.path.abspath("-".join([job, compiler, *title.replace(",", "").split()]))


def build_all(chosen, titles, sources, wasm2c, level):
    """What was built, by the name of its program; what an earlier run built in this folder stays."""
    built = {}
    if os.path.exists("built.json"):
        with open("built.json") as file:
            built = json.load(file)
    jobs.main_file("main_native.c", "unsigned run(unsigned);", "", "run(rounds)")
    for job in chosen:
        if not os.path.exists(f"units/{job}.c"):
            jobs.to_wasm(job, sources)
            jobs.translate(wasm2c, job)
        jobs.main_of_unit(job)
        jobs.wabt(job)
    cells = [(job, compiler, title) for job in chosen for compiler in COMPILERS for title in titles]
    missing = [cell for cell in cells if name_of(*cell) not in built or not os.path.exists(name_of(*cell))]

    writing = Lock()

    def build_one(cell):
        made = build(*cell, sources, level)
        with writing:
            built[name_of(*cell)] = made
            with open("built.new", "w") as file:
                json.dump(built, file)
            os.replace("built.new", "built.json")
        print(f"built {', '.join(cell)}", file=sys.stderr, flush=True)

    with ThreadPoolExecutor(int(os.environ.get("BUILDS", "2"))) as pool:
        list(pool.map(build_one, missing))
    return built


def time_all(chosen, titles, times):
    """For each cell, and for node with no compiler, its times, the least first."""
    commands = {(job, compiler, title): [name_of(job, compiler, title)] for job in chosen for compiler in COMPILERS for title in titles}
    commands.update({(job, None, "node"): jobs.node(job) for job in chosen})
    taken, sums = {cell: [] for cell in commands}, {job: set() for job in chosen}
    for turn in range(times):
        for cell, command in commands.items():
            total, seconds = jobs.run(*command, str(ROUNDS[cell[0]])).split()
            sums[cell[0]].add(total)
            if len(sums[cell[0]]) != 1 or total == "0":
                sys.exit(f"{', '.join(map(str, cell))}: the sums differ: {sorted(sums[cell[0]])}")
            taken[cell].append(float(seconds))
        print(f"turn {turn + 1} of {times}, load {os.getloadavg()[0]:.1f}", file=sys.stderr, flush=True)
    return {cell: sorted(seconds) for cell, seconds in taken.items()}


def pairs_of(titles):
    """Each row of units with the rows of WABT's C that it is measured against: with the guard runtime also the one that counts calls."""
    pairs = [(title, ROWS[title][2]) for title in titles if ROWS[title][2] in titles]
    return pairs + [(title, COUNTED) for title in titles if ROWS[title][0] == "guard" and COUNTED in titles]


def table(columns, rows):
    print("| | " + " | ".join(f"{job} {compiler}" for job, compiler in columns) + " |")
    print("|---|" + "---|" * len(columns))
    for title, cells in rows:
        print(f"| {title} | " + " | ".join(cells) + " |", flush=True)
    print()


def main():
    parser = argparse.ArgumentParser(description=__doc__, formatter_class=argparse.RawDescriptionHelpFormatter)
    parser.add_argument("sources", type=os.path.abspath)
    parser.add_argument("folder")
    parser.add_argument("wasm2c", nargs="?", type=os.path.abspath, default=os.path.join(jobs.HERE, "../../bin/wasm2c"))
    parser.add_argument("--build", action="store_true")
    parser.add_argument("--jobs", nargs="*")
    parser.add_argument("--rows", nargs="*")
    parser.add_argument("--times", type=int, default=15)
    parser.add_argument("--level", default="-O3")
    given = parser.parse_args()
    os.makedirs(given.folder, exist_ok=True)
    os.chdir(given.folder)
    chosen = [job for job in jobs.names(given.sources) if not given.jobs or job in given.jobs]
    titles = [title for title in ROWS if not given.rows or any(part in title for part in given.rows)]
    columns = [(job, compiler) for job in chosen for compiler in COMPILERS]
    built = build_all(chosen, titles, given.sources, given.wasm2c, given.level)
    if given.build:
        return
    taken = time_all(chosen, titles, given.times)

    def least(job, compiler, title):
        return taken[job, compiler, title][0]

    print(f"Seconds, {given.level}, the least of {given.times}:\n")
    rows = [(title, [f"{least(job, compiler, title):.3f}" for job, compiler in columns]) for title in titles]
    rows.append(("node", [f"{least(job, None, 'node'):.3f}" if compiler == COMPILERS[0] else "" for job, compiler in columns]))
    table(columns, rows)
    print("Parts of the time of WABT's C, by the least and the second least times:\n")
    table(columns, [(f"{title}: of {other}", [
        " ".join(f"{taken[job, compiler, title][k] / taken[job, compiler, other][k]:.2f}" for k in range(min(2, given.times)))
        for job, compiler in columns]) for title, other in pairs_of(titles)])
    print("Seconds to compile the unit, and KB of its code:\n")
    table(columns, [(title, [
        f"{built[name_of(job, compiler, title)]['seconds']:.1f}" + (f", {built[name_of(job, compiler, title)]['bytes'] // 1000}" if title != "native" else "")
        for job, compiler in columns]) for title in titles])
    for job in chosen:
        sizes = [os.path.getsize(name) for name in (f"{job}.wasm", f"units/{job}.c", f"wabt/{job}.c")]
        print(f"{job}: {sizes[0]} bytes of WebAssembly, {sizes[1]} of C, {sizes[2]} of WABT's C")


if __name__ == "__main__":
    main()
