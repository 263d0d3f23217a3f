#!/usr/bin/env python3
"""Times wast_run on scripts of one module and many assertions of it: a module of about 64 KB, and of 1 KB, and 1, 1,000 and 9,999 assertions (a script has at most 10,000 commands).
Since units are made when their module joins, the time of a script should be that of the module and that of the assertions, and not their product.

assertions.py [WAST_RUN]: the program, bin/wast_run where it is left out. Prints seconds of processor time and of the clock.
"""
import json
import os
import subprocess
import sys
import tempfile
import time

HERE = os.path.dirname(os.path.abspath(__file__))


def leb(n):
    out = bytearray()
    while True:
        n, low = n >> 7, n & 127
        out.append(low | (128 if n else 0))
        if not n:
            return bytes(out)


def section(number, entries):
    inside = leb(len(entries)) + b"".join(entries)
    return bytes([number]) + leb(len(inside)) + inside


def module(functions):
    """A module of so many functions, each of which adds four ones; the last is exported as f."""
    codes = []
    for _ in range(functions):
        body = b"\0" + b"A\1" + b"A\x81\x80\x80\x80\x00j" * 3 + b"\x0b"
        codes.append(leb(len(body)) + body)
    parts = [section(1, [b"\x60\x00\x01\x7f"]), section(3, [b"\0"] * functions)]
    parts += [section(7, [b"\x01f\0" + leb(functions - 1)]), section(10, codes)]
    return b"\0asm\x01\0\0\0" + b"".join(parts)


def script(count):
    wanted = [{"type": "i32", "value": "4"}]
    assertion = {"type": "assert_return", "module": "m", "field": "f", "args": [], "expected": wanted}
    return {"commands": [{"type": "module", "name": "m", "filename": "m.wasm"}] + [assertion] * count}


def main():
    program = os.path.abspath(sys.argv[1] if len(sys.argv) > 1 else f"{HERE}/../../bin/wast_run")
    with tempfile.TemporaryDirectory() as folder:
        os.chdir(folder)
        for functions in (40, 2300):
            with open("m.wasm", "wb") as file:
                file.write(module(functions))
            for count in (1, 1000, 9999):
                with open("s.json", "w") as file:
                    json.dump(script(count), file, separators=(",", ":"))
                begin = time.monotonic()
                child = subprocess.Popen([program, "--steps", "100", "s.json"], stdout=subprocess.PIPE)
                said = child.stdout.read().decode()
                _, status, use = os.wait4(child.pid, 0)
                took = time.monotonic() - begin
                if status or said.splitlines()[-1] != f"total {count + 1} ok {count + 1}":
                    sys.exit(f"status {status}: {said[-300:]}")
                print(f"{os.path.getsize('m.wasm')} bytes, {count} assertions: {use.ru_utime + use.ru_stime:.2f} s, {took:.2f} s by the clock", flush=True)


if __name__ == "__main__":
    main()
