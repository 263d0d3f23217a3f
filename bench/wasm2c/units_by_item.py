# units_by_item.py PROGRAM REFUSE: what units_by_item.sh does, in the current folder. REFUSE is the library of refuse.c.
import os
import pathlib
import subprocess
import sys

sys.path.insert(0, str(pathlib.Path(__file__).resolve().parents[1] / "rows"))
from wat import body, exported, func_type, i32, local, module  # noqa: E402

PROGRAM, REFUSE = sys.argv[1:]
MOST = 100000
MEASURED = """import os, sys
ran = os.spawnv(os.P_NOWAIT, sys.argv[1], [sys.argv[1], "many.wasm", "-o", "many.c"])
_, status, used = os.wait4(ran, 0)
print(used.ru_maxrss)
sys.exit(os.waitstatus_to_exitcode(status))"""
REAL = bytes.fromhex("0061736D0100000001060160017F017F030201000405017001010105030100020608017F0141808804"
                     "0B070E02066D656D6F72790200016600000A1A011801017F230041106B2201200036020C200128020C20006C0B000B046E616D65010401000166")


def first_item_ends(text):
    """Behind the include line and the first item: a declaration of one line, or a definition to its last brace."""
    lines = text.splitlines(keepends=True)
    end = 1
    if not lines[1].rstrip().endswith(b";"):
        while lines[end].rstrip() != b"}":
            end += 1
    return sum(map(len, lines[:end + 1]))


def translated():
    pathlib.Path("real.wasm").write_bytes(REAL)
    subprocess.run([PROGRAM, "real.wasm", "-o", "real.c"], check=True)
    text = pathlib.Path("real.c").read_bytes()
    clean()
    return text


def clean():
    for file in ("real.c", "real.h", "mark"):
        pathlib.Path(file).unlink(missing_ok=True)


def parts_left(whole):
    """How many bytes of the C file each run left that ended with 5 and did not leave it whole, and how many requests there are."""
    left = []
    for nth in range(1, MOST):
        clean()
        ran = subprocess.run([PROGRAM, "real.wasm", "-o", "real.c"], stderr=subprocess.DEVNULL,
                             env={**os.environ, "REFUSE": str(nth), "MARK": "mark", "LD_PRELOAD": REFUSE})
        if not pathlib.Path("mark").exists():
            return left, nth - 1
        if ran.returncode == 5 and pathlib.Path("real.c").exists():
            text = pathlib.Path("real.c").read_bytes()
            if not whole.startswith(text):
                sys.exit(f"request {nth}: the C file is no part of the text")
            if len(text) < len(whole):
                left.append(len(text))
    sys.exit("too many requests")


def memory(count):
    """The most memory of a run over a module of so many functions, and the bytes of its text."""
    work = body(*[local(0) + i32(k) + b"\x6A\x21\x00" for k in range(20)], local(0))
    file = module(types=[func_type("i", "i")], funcs=[0] * count, exports=[exported("f", 0, 0)], bodies=[work] * count)
    pathlib.Path("many.wasm").write_bytes(file)
    # In a process of its own, since what a process has used before it becomes another program is counted too.
    ran = subprocess.run([sys.executable, "-c", MEASURED, PROGRAM], capture_output=True, text=True)
    if ran.returncode != 0:
        sys.exit(f"{count} functions: status {ran.returncode}")
    return int(ran.stdout), len(file), pathlib.Path("many.c").stat().st_size


def main():
    whole = translated()
    left, requests = parts_left(whole)
    some = [size for size in left if size >= first_item_ends(whole)]
    print(f"of {requests} requests that were refused, {len(left)} left a part of the C file, {len(some)} one with a whole item and more to come")
    for count in (1, 1000, 10000, 30000):
        used, size, text = memory(count)
        print(f"{count} functions: module {size} bytes, text {text} bytes, {used} KB of memory at the most")
    sys.exit(0 if some else 1)


main()
