#!/usr/bin/env python3
"""Counts, with valgrind's callgrind, the instructions inside `run` of the programs that speed.py built: which do not differ from run to run, as
times do. Prints for each row of units what part it takes of the rows of WABT's C that speed.py measures it against.

instructions.py FOLDER [--level=-O3]: the folder that speed.py made. Needs valgrind, and what speed.py needs."""
import argparse
import os
import re
import sys
from concurrent.futures import ThreadPoolExecutor

import jobs
import speed

RUN = ["--toggle-collect=w2cZ_*Z_fZ_run", "--toggle-collect=Z_*Z_run"]


def instructions(job, compiler, title, level):
    program = speed.name_of(job, compiler, title)
    if not os.path.exists(program):
        speed.build(job, compiler, title, None, level)
    log = f"{program}.callgrind"
    jobs.run("valgrind", "--tool=callgrind", "--callgrind-out-file=/dev/null", f"--log-file={log}", *RUN, program, str(speed.ROUNDS[job]))
    with open(log) as file:
        found = re.search(r"Collected : (\d+)", file.read())
    if not found or found[1] == "0":
        sys.exit(f"{program}: no instructions were counted")
    return int(found[1])


def main():
    parser = argparse.ArgumentParser(description=__doc__, formatter_class=argparse.RawDescriptionHelpFormatter)
    parser.add_argument("folder")
    parser.add_argument("--level", default="-O3")
    given = parser.parse_args()
    os.chdir(given.folder)
    columns = [(job, compiler) for job in speed.ROUNDS for compiler in speed.COMPILERS]
    cells = [(*column, title) for column in columns for title in speed.ROWS if title != "native"]
    with ThreadPoolExecutor() as pool:
        counts = dict(zip(cells, pool.map(lambda cell: instructions(*cell, given.level), cells)))
    rows = [
        (f"{title}: of {beside}", [f"{counts[(*column, title)] / counts[(*column, beside)]:.2f}" for column in columns])
        for title, beside in speed.pairs_of(speed.ROWS)
    ]
    speed.table(columns, rows)


if __name__ == "__main__":
    main()
