#!/bin/sh
# Says how long wasm2c is at the translation of a body of 1,000,001 instructions: the time from the begin of c_body's `whole_body`
# to the begin of c_print's `print_unit`, by two breakpoints of gdb, three times. Needs gdb, nm and python3, and the Rattle kit's
# command rt where the program is not built yet.
#
# phases.sh [WASM2C]: the program, crates/wasm2c_cli/out/wasm2c_cli where it is left out.
set -e
here=$(cd "$(dirname "$0")" && pwd)
program=${1:-$here/../../crates/wasm2c_cli/out/wasm2c_cli}
[ $# = 1 ] || "$here/../../bin/wasm2c" >/dev/null 2>&1 || true
program=$(realpath "$program")
work=$(mktemp -d)
trap 'rm -rf "$work"' EXIT
cd "$work"
cat >module.py <<'END'
import importlib.util, sys
spec = importlib.util.spec_from_file_location("speed", sys.argv[1])
speed = importlib.util.module_from_spec(spec)
spec.loader.exec_module(speed)
open("body.wasm", "wb").write(speed.module([speed.LARGE]))
END
python3 module.py "$here/speed.py"
cat >phases.py <<'END'
import subprocess, time
import gdb

class Passed(gdb.Breakpoint):
    def __init__(self, address, name):
        super().__init__(f"*{address}")
        self.name = name

    def stop(self):
        now = time.perf_counter()
        if self.name == "c_body::func::whole_body":
            Passed.began = now
        else:
            print(f"phase: {now - Passed.began:.3f} s")
        return False

gdb.execute("set pagination off")
gdb.execute("starti", to_string=True)
program = gdb.current_progspace().filename
mapped = next(line for line in gdb.execute("info proc mappings", to_string=True).splitlines() if program in line)
for line in subprocess.run(["nm", program], capture_output=True, text=True).stdout.splitlines():
    if line.endswith((" c_body::func::whole_body", " c_print::unit::print_unit")):
        Passed(int(mapped.split()[0], 16) + int(line.split()[0], 16), line.split(" ", 2)[2])
gdb.execute("continue")
END
for _ in 1 2 3; do
    gdb -q -batch -x phases.py --args "$program" body.wasm -o body.c 2>&1 | grep '^phase: '
done
