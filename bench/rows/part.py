#!/usr/bin/env python3
"""part.py KIND [FILE]: the lines of a part of rows, or of their answers: that of modules, units, bodies or translations. A part begins
behind a line of its kind in brackets, and ends before the next such line."""
import pathlib
import sys

KINDS = "modules", "units", "bodies", "translations"
STORED = pathlib.Path(__file__).resolve().parents[2] / "crates/rows"


def part(kind, lines):
    begun = None
    for line in lines:
        line = line.rstrip("\n")
        if line in [f"[{it}]" for it in KINDS]:
            begun = line[1:-1]
        elif begun == kind:
            yield line


def rows(kind, lines):
    """The rows of a part, and the lines that say what stands around them."""
    return (line for line in part(kind, lines) if line and not line.startswith("# "))


def stored(name):
    """The lines of a file of the program rows, `stdin` or `stdout`."""
    return (STORED / name).read_text().rstrip("\n").split("\n")


def main():
    with open(sys.argv[2]) if len(sys.argv) > 2 else sys.stdin as lines:
        for line in part(sys.argv[1], lines):
            print(line)


if __name__ == "__main__":
    main()
