#!/usr/bin/env python3
"""Times a job with its code at many places, since a hot loop of some milliseconds takes a few percent more or less for where its jumps lie.
Each program of speed.py is compiled several times more: with so many bytes in front of the unit's code, and with loops aligned to so many
bytes. All are run in turn, and of each the least time counts. Prints for each row how many percent its least time is above or below that
of WABT's C of the same kind: the best place of each, the middle one of all places, and the worst.

places.py SOURCES FOLDER JOB [COMPILER] [--times N]: the sources, and a folder in which `speed.py SOURCES FOLDER --build --jobs JOB` was run."""
import argparse
import os
import statistics
import sys

import jobs
import speed

PADS = [0, 16, 32, 48]
LOOPS = [1, 16, 32]
PLACES = [(pad, loop) for pad in PADS for loop in LOOPS]


def build(job, compiler, title, place, sources):
    """The program of a row with its code at a place."""
    maker, more, _ = speed.ROWS[title]
    pad, loop = place
    program = f"{speed.name_of(job, compiler, title)}-{pad}-{loop}"
    if os.path.exists(program):
        return program
    with open(f"pad{pad}.h", "w") as file:
        file.write(f'__asm__(".text\\n.balign 64\\n.skip {pad}, 0x90\\n");\n')
    flags = ["-w", "-O3", *speed.aligned(compiler), *more, f"-falign-loops={loop}"]
    if maker == "wabt":
        unit, main, files, flags = f"wabt/{job}.c", f"main_wabt_{job}.c", [f"{jobs.WABT}/wasm-rt-impl.c", "-lm"], [*flags, "-I", "wabt", "-I", jobs.WABT]
    else:
        folder, files = jobs.runtime(maker)
        unit, main, flags = f"units/{job}.c", f"main_{job}.c", [*flags, "-I", "units", "-I", folder]
    jobs.run(compiler, *flags, "-include", os.path.abspath(f"pad{pad}.h"), "-c", unit, "-o", f"{program}.o")
    jobs.run(compiler, *flags, main, f"{program}.o", *files, "-o", program)
    return program


def main():
    parser = argparse.ArgumentParser(description=__doc__, formatter_class=argparse.RawDescriptionHelpFormatter)
    parser.add_argument("sources", type=os.path.abspath)
    parser.add_argument("folder")
    parser.add_argument("job")
    parser.add_argument("compiler", nargs="?", default="gcc")
    parser.add_argument("--times", type=int, default=15)
    parser.add_argument("--build", action="store_true")
    given = parser.parse_args()
    os.chdir(given.folder)
    titles = [title for title in speed.ROWS if speed.ROWS[title][0] != "native"]
    programs = {(title, place): build(given.job, given.compiler, title, place, given.sources) for title in titles for place in PLACES}
    if given.build:
        return
    least = {}
    for turn in range(given.times):
        for cell, program in programs.items():
            seconds = float(jobs.run(program, str(speed.ROUNDS[given.job])).split()[1])
            least[cell] = min(seconds, least.get(cell, seconds))
        print(f"turn {turn + 1} of {given.times}, load {os.getloadavg()[0]:.1f}", file=sys.stderr, flush=True)
    print(f"{given.job}, {given.compiler}, the least of {given.times} at each of {len(PLACES)} places: seconds at the best, middle and worst place\n")
    for title in titles:
        taken = sorted(least[title, place] for place in PLACES)
        other = speed.ROWS[title][2]
        line = f"{title}: {taken[0]:.4f} {statistics.median(taken):.4f} {taken[-1]:.4f}"
        if other:
            others = sorted(least[other, place] for place in PLACES)
            line += f"; of {other}: {taken[0] / others[0]:.3f} {statistics.median(taken) / statistics.median(others):.3f} {taken[-1] / others[-1]:.3f}"
        print(line)


if __name__ == "__main__":
    main()
