#!/bin/bash
# Times crun on 10,000,000 statements of a translated module that writes and reads its memory in a loop, alone and in a unit of
# 67,000,000 bytes, whose other functions are never called. Prints the seconds of each. Needs Debian's wabt.
# memory.sh [WASM2C [CRUN]]: the programs, those of bin/ where they are left out.
set -e
here=$(cd "$(dirname "$0")" && pwd)
wasm2c=${1:-$here/../../bin/wasm2c}
crun=${2:-$here/../../bin/crun}
work=$(mktemp -d)
trap 'rm -rf "$work"' EXIT
cat >"$work/loop.wat" <<'WAT'
(module (memory 2)
 (func (export "run") (result i32) (local $i i32)
  loop $again
   local.get $i i32.const 65535 i32.and local.get $i i32.store
   local.get $i i32.const 7 i32.add local.tee $i i32.const 65535 i32.and i32.load8_u drop
   br $again
  end i32.const 0))
WAT
wat2wasm "$work/loop.wat" -o "$work/loop.wasm"
"$wasm2c" "$work/loop.wasm" -o "$work/loop.c"
echo 'loop run' >"$work/calls"
cp "$work/loop.c" "$work/long.c"
python3 - "$work/long.c" >>"$work/long.c" <<'PAD'
import os, sys
left = 67_000_000 - os.path.getsize(sys.argv[1])
for k in range(10**9):
    text = f"static u32 pad{k}(u32 x) {{\n" + f"x = (x + {k % 1000}u);\n" * 20 + "return x;\n}\n"
    left -= len(text)
    if left < 0:
        break
    sys.stdout.write(text)
PAD
for unit in loop long; do
    echo "$unit: $(stat -c %s "$work/$unit.c") bytes"
    time -p "$crun" --steps 10000000 --calls "$work/calls" "$work/$unit.c" || true
    echo 'reading, checking and linking alone:'
    time -p "$crun" --steps 0 --calls "$work/calls" "$work/$unit.c" || true
done
