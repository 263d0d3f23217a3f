#!/usr/bin/env python3
"""Times wasm2c beside Debian's wabt (where it is installed) on the same files: processor time and most memory of the whole program, the
least time of three runs. Two tables: translating (reading, checking, translating, printing and writing; beside it WABT's wasm2c), and
reading and checking alone (a module whose last byte is broken is refused behind both; beside it wasm-validate on the same file).

speed.py [WASM2C] [SOURCES]: the program, bin/wasm2c where it is left out (which builds it first); a folder that ../real/sources.sh made,
whose libraries are compiled to modules by clang (with wasm-ld and Debian's wasi-libc) and translated, too.
"""
import os
import resource
import shutil
import subprocess
import sys
import tempfile

HERE = os.path.dirname(os.path.abspath(__file__))
sys.path.insert(0, os.path.join(HERE, "../real"))
import jobs


def leb(number):
    out = b""
    while number >= 128:
        out += bytes([number % 128 + 128])
        number //= 128
    return out + bytes([number])


def section(code, content):
    return bytes([code]) + leb(len(content)) + content


def vector(items):
    return leb(len(items)) + b"".join(items)


BEGIN = b"\0asm\1\0\0\0"
TYPES = section(1, vector([b"\x60\x01\x7f\x01\x7f"]))
ONE_MEMORY = section(5, b"\1\0\1")
EXPORT = section(7, vector([b"\x01r\0\0"]))


def module(bodies):
    """Functions from an i32 to an i32; the first is exported as `r`."""
    return (
        BEGIN
        + TYPES
        + section(3, vector([b"\0"] * len(bodies)))
        + ONE_MEMORY
        + EXPORT
        + section(10, vector([leb(len(body)) + body for body in bodies]))
    )


# Two locals of i64; a loop that adds up what it loads, stores it, and counts down from the parameter; then the sum, wrapped.
USUAL = bytes.fromhex(
    "01 02 7e"
    " 03 40"
    " 20 00 41 03 74 41 f8 ff 03 71 29 03 10 20 01 7c 22 01 42 07 7e 20 02 85 21 02"
    " 20 00 41 02 74 41 fc ff 03 71 20 02 a7 36 02 08"
    " 20 00 41 01 6b 22 00 0d 00"
    " 0b"
    " 20 01 20 02 7c a7 0b"
)
# local.get 0, i32.const 1013904236, i32.add
SMALL = b"\0\x20\0\x41\xec\xb2\xa1\xe4\x03\x6a\x0b"
# local.get 0, and then i32.const 3, i32.add, i32.const 7, i32.div_u over and over
LARGE = b"\0\x20\0" + b"\x41\x03\x6a\x41\x07\x6e" * 250_000 + b"\x0b"


def nested(depth, count):
    """So many times, ifs one in another, each on the parameter, and then the parameter."""
    one = b"\x20\0\x04\x40" * depth + b"\x0b" * depth
    return b"\0" + one * count + b"\x20\0\x0b"


def deep(count):
    """So many operands on the stack, added up."""
    return b"\0" + b"\x20\0" * count + b"\x6a" * (count - 1) + b"\x0b"


def elements(count):
    """Three element segments of so many elements each."""
    segments = [b"\0\x41" + leb(0) + b"\x0b" + leb(count) + b"\0" * count] * 3
    return (
        BEGIN
        + TYPES
        + section(3, b"\1\0")
        + section(4, b"\1\x70\0" + leb(count))
        + EXPORT
        + section(9, vector(segments))
        + section(10, vector([leb(len(SMALL)) + SMALL]))
    )


def data(count, length):
    """So many data segments of so many bytes."""
    segments = [b"\0\x41" + leb(0) + b"\x0b" + leb(length) + b"\1" * length] * count
    return (
        BEGIN
        + TYPES
        + section(3, b"\1\0")
        + ONE_MEMORY
        + EXPORT
        + section(10, vector([leb(len(SMALL)) + SMALL]))
        + section(11, vector(segments))
    )


def names(count):
    """So many functions imported from as many fields, and so many exported."""
    field = lambda k: leb(len(f"f{k}")) + f"f{k}".encode()
    return (
        BEGIN
        + TYPES
        + section(2, vector([b"\3env" + field(k) + b"\0\0" for k in range(count)]))
        + section(3, b"\1\0")
        + section(7, vector([field(k) + b"\0" + leb(count) for k in range(count)]))
        + section(10, vector([leb(len(SMALL)) + SMALL]))
    )


def written(file_name, make):
    """The bytes of a file, which a process of its own makes: what this one once held would count as memory of each that it starts."""
    child = os.fork()
    if child == 0:
        with open(file_name, "wb") as file:
            file.write(make())
        os._exit(0)
    if os.waitpid(child, 0)[1] != 0:
        sys.exit(f"{file_name} could not be made")
    return os.path.getsize(file_name)


def measure(command):
    # A run of more than twenty seconds is ended.
    child = subprocess.Popen(["timeout", "20", *command], stderr=subprocess.DEVNULL)
    _, status, use = os.wait4(child.pid, 0)
    return use.ru_utime + use.ru_stime, use.ru_maxrss // 1024, os.waitstatus_to_exitcode(status)


def least(command, status):
    """The least time of three runs, with its memory."""
    runs = []
    for _ in range(3):
        runs.append(measure(command))
        if runs[-1][2] == 124:
            return None
    if any(run[2] != status for run in runs):
        sys.exit(f"{' '.join(command)}: status {runs}")
    return min(runs)[:2]


def shown(run, size=0):
    """Time, and memory where it is seen; of modules of a million bytes also how much it is for each byte."""
    if run is None:
        return "not within 20 s"
    # What this process held when it began the other counts as the other's.
    if run[1] <= resource.getrusage(resource.RUSAGE_SELF).ru_maxrss // 1024:
        return f"{run[0]:.2f} s"
    return f"{run[0]:.2f} s, {run[1]} MB" + (f" ({run[1] * 1_000_000 // size} a byte)" if size >= 1_000_000 else "")


def row(name, size, ours, other, sums):
    if ours is not None and other is not None:
        sums[0] += ours[0]
        sums[1] += other[0]
    print(f"| {name}, {size:,} bytes | {shown(ours, size)} | {shown(other)} |", flush=True)


def translating(wasm2c, sources):
    has_wabt = shutil.which("wasm2c") is not None
    rows = [
        ("1,000 functions of three instructions", lambda: module([SMALL] * 1_000)),
        ("10,000", lambda: module([SMALL] * 10_000)),
        ("100,000", lambda: module([SMALL] * 100_000)),
        ("1,000 functions with loops", lambda: module([USUAL] * 1_000)),
        ("10,000", lambda: module([USUAL] * 10_000)),
        ("100,000", lambda: module([USUAL] * 100_000)),
        ("one body of 1,000,001 instructions", lambda: module([LARGE])),
        ("ifs nested 500 deep, in one body", lambda: module([nested(500, 2_700)])),
        ("1,000,000 operands on the stack", lambda: module([deep(1_000_000)])),
        ("three element segments of 1,000,000", lambda: elements(1_000_000)),
        ("100,000 data segments of a byte", lambda: data(100_000, 1)),
        ("one data segment of 8,000,000 bytes", lambda: data(1, 8_000_000)),
        ("5,000 imports and 5,000 exports", lambda: names(5_000)),
    ]
    if sources is not None:
        for job in jobs.names(sources):
            jobs.to_wasm(job, sources)
            rows.append((job, lambda job=job: open(f"{job}.wasm", "rb").read()))
    print("| Module | wasm2c | WABT's wasm2c |\n|---|---|---|")
    sums = [0.0, 0.0]
    for name, make in rows:
        size = written("module.wasm", make)
        ours = least([wasm2c, "module.wasm", "-o", "ours.c"], 0)
        other = least(["wasm2c", "module.wasm", "-o", "wabt.c"], 0) if has_wabt else None
        row(name, size, ours, other, sums)
    print(f"\nIn the rows that WABT's ends: {sums[0]:.2f} s, and {sums[1]:.2f} s\n")


def checking(wasm2c):
    has_wabt = shutil.which("wasm-validate") is not None
    rows = [
        ("99,999 functions with loops", lambda: module([USUAL] * 99_999)),
        ("blocks nested 500 deep, never reached", lambda: module([b"\0\x20\0\x0f" + (b"\x02\x40" * 500 + b"\x0b" * 500) * 5_500 + b"\x0b"])),
        ("instructions of a byte, never reached", lambda: module([b"\0\x20\0\x0f" + b"\x01" * 8_380_000 + b"\x0b"])),
    ]
    print("| Module, reading and checking | wasm2c | wasm-validate |\n|---|---|---|")
    for name, make in rows:
        # Ours ends behind its last byte, which is broken; wasm-validate's file is whole.
        size = written("module.wasm", make)
        written("broken.wasm", lambda: make()[:-1] + b"\x0f")
        ours = least([wasm2c, "broken.wasm", "-o", "ours.c"], 1)
        other = least(["wasm-validate", "module.wasm"], 0) if has_wabt else None
        row(name, size, ours, other, [0.0, 0.0])


def main():
    wasm2c = os.path.abspath(sys.argv[1] if len(sys.argv) > 1 else os.path.join(HERE, "../../bin/wasm2c"))
    sources = os.path.abspath(sys.argv[2]) if len(sys.argv) > 2 else None
    with tempfile.TemporaryDirectory() as work:
        os.chdir(work)
        subprocess.run([wasm2c, "--runtime", "."], check=True)
        translating(wasm2c, sources)
        checking(wasm2c)


if __name__ == "__main__":
    main()
