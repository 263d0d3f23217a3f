#!/usr/bin/env python3
"""What crun holds while units run: four units of functions that nothing calls, 64 MiB together, and a small one that loops. Prints the
bytes of the units, what the process held at most, and what it held while the loop ran. Needs Debian's wabt, and Linux for /proc.

held.py [CRUN [WASM2C]]: the programs, those of bin/ where they are left out."""
import os
import subprocess
import sys
import tempfile
import time

HERE = os.path.dirname(os.path.abspath(__file__))
LOOP = """(module (memory 1) (func (export "run") (result i32) (local $i i32)
  loop $again local.get $i i32.const 7 i32.add local.set $i br $again end i32.const 0))"""
EACH = 16 * 1024 * 1024


def status(process, field):
    """A line of /proc/PID/status in MiB."""
    with open(f"/proc/{process}/status") as file:
        return next(int(line.split()[1]) for line in file if line.startswith(field)) / 1024


def unit(wasm2c, name):
    """A unit of at most 16 MiB, and not much less: that of the loop under this name, and functions that nothing calls."""
    subprocess.run([wasm2c, "loop.wasm", "-o", f"{name}.c", "-n", name], check=True)
    left = EACH - os.path.getsize(f"{name}.c")
    with open(f"{name}.c", "a") as file:
        for k in range(10**9):
            text = f"static u32 pad{k}(u32 x) {{\n" + f"x = (x + {k % 1000}u);\n" * 20 + "return x;\n}\n"
            left -= len(text)
            if left < 0:
                return
            file.write(text)


def main():
    crun, wasm2c = (os.path.abspath(sys.argv[k] if len(sys.argv) > k else f"{HERE}/../../bin/{name}") for k, name in ((1, "crun"), (2, "wasm2c")))
    with tempfile.TemporaryDirectory() as folder:
        os.chdir(folder)
        with open("loop.wat", "w") as file:
            file.write(LOOP)
        subprocess.run(["wat2wasm", "loop.wat", "-o", "loop.wasm"], check=True)
        subprocess.run([wasm2c, "loop.wasm", "-o", "loop.c"], check=True)
        with open("calls", "w") as file:
            file.write("loop run\n")
        names = [f"u{k}" for k in range(4)]
        for name in names:
            unit(wasm2c, name)
        print(f"units: {sum(os.path.getsize(f'{name}.c') for name in names) / 2**20:.1f} MiB together", flush=True)
        begin = time.monotonic()
        child = subprocess.Popen([crun, "--steps", "4000000000", "--calls", "calls", *(f"{name}.c" for name in names), "loop.c"])
        held, steady = 0.0, 0
        while steady < 20:
            if child.poll() is not None:
                sys.exit(f"crun ended with status {child.returncode}")
            now = status(child.pid, "VmRSS")
            steady = steady + 1 if abs(now - held) < 0.5 else 0
            held = now
            time.sleep(0.5)
        print(f"at most {status(child.pid, 'VmHWM'):.0f} MiB, {held:.0f} MiB for ten seconds of the loop, {time.monotonic() - begin:.0f} s after the start")
        child.kill()


if __name__ == "__main__":
    main()
