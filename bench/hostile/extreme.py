# extreme.py WASM2C CRUN [SHARE]: what extreme.sh does, in the current folder. The files of full nesting and of many entries are smaller by
# SHARE, for programs that are slow; the limits are tried at their size where it is 1.
import os
import pathlib
import subprocess
import sys

sys.path.insert(0, str(pathlib.Path(__file__).resolve().parents[1] / "rows"))
from wat import body, call, exported, func_type, i32, imported, limits, module, segment, unsigned  # noqa: E402

WASM2C, CRUN = sys.argv[1:3]
SHARE = int(sys.argv[3]) if len(sys.argv) > 3 else 1
MODULE, UNIT = 8388608, 67108864
INCLUDE = '#include "w2c_rt.h"\n'
STACK = 8 * 1024 * 1024
# In a process of its own, since what a process has used before it becomes another program is counted too.
MEASURED = f"""import os, resource, sys
resource.setrlimit(resource.RLIMIT_STACK, ({STACK}, {STACK}))
ran = os.spawnv(os.P_NOWAIT, sys.argv[1], sys.argv[1:])
_, status, used = os.wait4(ran, 0)
print("measured", os.waitstatus_to_exitcode(status), used.ru_utime + used.ru_stime, used.ru_maxrss)"""
WRONG = []


def measured(program, words):
    """Status, what both streams got, seconds of processor time and the most memory in KB."""
    ran = subprocess.run([sys.executable, "-c", MEASURED, program, *words], capture_output=True, text=True)
    lines = ran.stdout.splitlines()
    _, status, seconds, memory = lines.pop().split()
    return int(status), lines + ran.stderr.splitlines(), float(seconds), int(memory)


def holds(title, program, words, status, *said):
    """One line on a side of a limit: this status, and these lines alone."""
    came, lines, _, _ = measured(program, words)
    fine = came == status and lines == list(said)
    print(f"{'as said' if fine else 'WRONG'}: {title}: status {came} {' '.join(lines)}")
    if not fine:
        WRONG.append(title)


def sized(title, program, words, files, status=0):
    """Time and memory of a run over files that stand, with this status."""
    size = sum(os.path.getsize(file) for file in files)
    came, lines, seconds, memory = measured(program, words)
    print(f"{title}: {size} bytes, {seconds:.2f} s, {memory} KB, {memory * 1024 / size:.0f} bytes of memory a byte, status {came}")
    if came != status:
        WRONG.append(title)
        print("\n".join(lines[:3]))


def filled(size):
    """A module of so many bytes, nearly all of them a custom section without a name."""
    count = next(count for count in range(size - 14, size - 8) if 9 + len(unsigned(count)) + count == size)
    return module() + b"\0" + unsigned(count) + bytes(count)


def limits_of_bytes():
    pathlib.Path("most.wasm").write_bytes(filled(MODULE))
    pathlib.Path("more.wasm").write_bytes(filled(MODULE + 1))
    pathlib.Path("also.wasm").write_bytes(filled(MODULE))
    pathlib.Path("empty.wasm").write_bytes(module())
    holds("a module of 8,388,608 bytes", WASM2C, ["most.wasm", "-o", "most.c"], 0)
    holds("a module of a byte more", WASM2C, ["more.wasm", "-o", "more.c"], 1, f"wasm2c: more.wasm: limit at {MODULE}: module bytes")
    holds("a set of 16,777,216 bytes", WASM2C, ["--dir", ".", "most.wasm", "also.wasm"], 0)
    holds("a set of 8 bytes more", WASM2C, ["--dir", ".", "most.wasm", "also.wasm", "empty.wasm"], 1, "wasm2c: empty.wasm: limit at 0: set bytes")
    holds("a set that passes the limit inside a file", WASM2C, ["--dir", ".", "empty.wasm", "most.wasm", "also.wasm"], 1,
          f"wasm2c: also.wasm: limit at {MODULE - 8}: set bytes")
    pathlib.Path("none").write_text("")
    for size in (UNIT, UNIT + 1):
        pathlib.Path("blank.c").write_text(INCLUDE + "\n" * (size - len(INCLUDE)))
        holds(f"a unit of {size} bytes", CRUN, ["--steps", "9", "--calls", "none", "blank.c"],
              *[0] if size == UNIT else [6, "crun: blank.c: unit too long"])
    pathlib.Path("u.c").write_text(INCLUDE)
    for size in (UNIT, UNIT + 1):
        pathlib.Path("j").write_bytes(b"\n" * size)
        holds(f"a journal of {size} bytes", CRUN, ["--steps", "9", "--calls", "none", "--replay", "j", "u.c"], 2,
              "crun: journal line 1" if size == UNIT else "crun: journal too long")


def nested(size, opener, close):
    """A module of at most so many bytes: one body of such instructions, each nested 500 deep, one behind the other."""
    one = opener * 500 + close * 500
    return module(types=[func_type("", "")], funcs=[0], exports=[exported("f", 0, 0)], bodies=[body(one * ((size - 100) // len(one)))])


FORMS = {
    "blocks": (b"\x02\x40", b"\x0B"),
    "loops that branch out": (b"\x03\x40", b"\x0C\x00\x0B"),
    "ifs with an else": (i32(1) + b"\x04\x40", b"\x05\x0B"),
    "branches out of each block": (b"\x02\x40" + i32(0) + b"\x0D\x00", b"\x0B"),
}


def modules_of_full_nesting():
    for name, (opener, close) in FORMS.items():
        for size in (MODULE // SHARE // 2, MODULE // SHARE):
            pathlib.Path("deep.wasm").write_bytes(nested(size, opener, close))
            sized(f"wasm2c, 500 {name}", WASM2C, ["deep.wasm", "-o", "deep.c"], ["deep.wasm"])
        for size in (MODULE // SHARE // 2, MODULE // SHARE):
            pathlib.Path("deep.wasm").write_bytes(nested(size, opener, close)[:-1] + b"\x06")
            sized(f"wasm2c, 500 {name}, the last byte broken", WASM2C, ["deep.wasm", "-o", "deep.c"], ["deep.wasm"], 1)
    for size in (MODULE // SHARE // 16, MODULE // SHARE // 8):
        files = [f"deep{k}.wasm" for k in range(16)]
        for file in files:
            pathlib.Path(file).write_bytes(nested(size, *FORMS["blocks"]))
        sized("wasm2c, a set of 16 modules of 500 blocks", WASM2C, ["--dir", ".", *files], files)


def expressions(size, opener, inner, close):
    """A unit of at most so many bytes: one function with a statement that holds 100 expressions over and over."""
    head = INCLUDE + "u32 w2cZ_uZ_fZ_f(u32 x) {\n"
    one = f"x = {opener * 99}{inner}{close * 99};\n"
    tail = "return x;\n}\n"
    return head + one * ((size - len(head) - len(tail)) // len(one)) + tail


def units_of_full_nesting():
    pathlib.Path("one").write_text("u f 1\n")
    for name, parts in {"to the left": ("(", "x", " + x)"), "to the right": ("(x + ", "x", ")"), "of casts": ("(u32) ", "x", "")}.items():
        for size in (UNIT // SHARE // 2, UNIT // SHARE):
            pathlib.Path("deep.c").write_text(expressions(size, *parts))
            sized(f"crun, 100 expressions {name}", CRUN, ["--steps", "3", "--calls", "one", "deep.c"], ["deep.c"], 7)
    for size in (UNIT // SHARE // 32, UNIT // SHARE // 16):
        files = [f"u{k}.c" for k in range(16)]
        for k, file in enumerate(files):
            pathlib.Path(file).write_text(expressions(size, "(", "x", " + x)").replace("w2cZ_uZ", f"w2cZ_u{k}Z"))
        pathlib.Path("one").write_text("u15 f 1\n")
        sized("crun, 16 units of 100 expressions", CRUN, ["--steps", "3", "--calls", "one", *files], files, 7)


def files_of_many_entries():
    """Other shapes in which a search for each entry, or a large text for a small one, would show."""
    shapes = {
        "exports": lambda n: module(types=[func_type("", "")], funcs=[0], exports=[exported(f"{k:x}", 0, 0) for k in range(n)], bodies=[body()]),
        "imports, and as many exports of the last": lambda n: module(
            types=[func_type("", "")], imports=[imported("", "", 0, b"\0")] * n, exports=[exported(f"{k:x}", 0, n - 1) for k in range(n)]),
        "types": lambda n: module(types=[func_type("i" * (k % 60), "") for k in range(n)]),
        "functions": lambda n: module(types=[func_type("", "")], funcs=[0] * n, bodies=[body()] * n),
        "functions of 60 parameters": lambda n: module(types=[func_type("i" * 60, "")], funcs=[0] * n, bodies=[body()] * n),
        "segments of a byte": lambda n: module(memories=[limits(1)], data=[segment(0, b"a")] * n),
        "branches of one table out of 499 blocks": lambda n: module(types=[func_type("", "")], funcs=[0], bodies=[
            body(b"\x02\x40" * 499, i32(0), b"\x0E", unsigned(n), b"".join(unsigned(k % 499) for k in range(n + 1)), b"\x0B" * 499)]),
        "calls of an import with names of 1,024 bytes, a fiftieth": lambda n: module(
            types=[func_type("", "")], imports=[imported("~" * 1024, "~" * 1024, 0, b"\0")], funcs=[0], bodies=[body(call(0) * (n // 50))]),
    }
    for name, make in shapes.items():
        for count in (50000 // SHARE, 100000 // SHARE):
            pathlib.Path("many.wasm").write_bytes(make(count))
            sized(f"wasm2c, {count} {name}", WASM2C, ["many.wasm", "-o", "many.c"], ["many.wasm"])
            print(f"    {os.path.getsize('many.c')} bytes of C")
    for count in (500000 // SHARE, 1000000 // SHARE):
        pathlib.Path("many.wasm").write_bytes(module(types=[func_type("", "")], funcs=[0] * 20, bodies=[body(runs=[(count // 20, "i")])] * 20))
        sized(f"wasm2c, {count} locals in 20 functions", WASM2C, ["many.wasm", "-o", "many.c"], ["many.wasm"])
        print(f"    {os.path.getsize('many.c')} bytes of C")


def main():
    if SHARE == 1:
        limits_of_bytes()
    modules_of_full_nesting()
    units_of_full_nesting()
    files_of_many_entries()
    sys.exit(1 if WRONG else 0)


main()
