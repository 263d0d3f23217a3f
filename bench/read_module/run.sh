#!/bin/sh
# Times wasm2c on modules of nearly 8,388,608 bytes that modules.py writes: processor time and most memory of the whole
# program, which reads the file, reads the module, checks it where it is one, and writes its unit or refuses it. Where Debian's wabt is installed, its
# wasm-validate stands beside it on the same files. Needs the Rattle kit's command rt where the program is not built
# yet, and python3.
set -e
here=$(cd "$(dirname "$0")" && pwd)
work=$(mktemp -d)
trap 'rm -rf "$work"' EXIT
"$here/../../bin/wasm2c" >/dev/null 2>&1 || true
python3 "$here/modules.py" "$work"
cd "$work"
python3 - "$here/../../crates/wasm2c_cli/out/wasm2c_cli" <<'END'
import os, shutil, subprocess, sys

def run(command, size):
    child = subprocess.Popen(command, stdout=subprocess.PIPE, stderr=subprocess.STDOUT)
    out = child.stdout.read().decode().strip()
    _, _, use = os.wait4(child.pid, 0)
    return f"{use.ru_utime + use.ru_stime:.2f} s, {use.ru_maxrss * 1024 / size:.0f} bytes of memory a byte: {out}"

for name in ["loops", "loops_broken", "small", "small_broken", "nested", "nested_broken"]:
    path = name + ".wasm"
    size = os.path.getsize(path)
    print(f"{path}, {size} bytes")
    print("    wasm2c", run([sys.argv[1], path, "-o", "out.c"], size))
    if shutil.which("wasm-validate"):
        print("    wasm-validate", run(["wasm-validate", path], size))
END
