#!/bin/sh
# programs.sh [FEATURE...]: runs the rows of programs.py that need these features alone by the top calls of wasm2c, crun and wast_run, over
# files and streams in memory, and compares what they say with what programs.py says. It proves nothing: the interpreter of
# `rt try` runs them, in a temporary folder, over copies of the crates in which the programs are made libraries. Takes ten
# minutes.
set -e
here=$(cd "$(dirname "$0")" && pwd)
top=$(cd "$here/../.." && pwd)
work=$(mktemp -d)
trap 'rm -rf "$work"' EXIT
trap 'exit 130' INT TERM
sh "$here/../copy_crates.sh" "$work" $(sed -n 's/^\([a-z0-9_]*\):.*/\1/p' "$top/crates.txt" | grep -v -e '^rows$' -e '_tests$')
for program in wasm2c_cli crun_cli wast_run; do
    src=$work/crates/$program/src
    sed -e '/^fn main/,$d' -e '/^#\[cfg(test)\]/d' -e '/^mod [a-z_]*tests;/d' -e '/^use std::/d' -e '/^use w2c_io::/d' \
        "$src/main.rt" >"$src/lib.rt"
    rm -rf "$src/main.rt" "$src"/*tests.rt "$src/tests"
done
mkdir -p "$work/crates/program_rows/src"
for file in main files hosts programs sessions turns; do
    cp "$here/program_rows/$file.rt.txt" "$work/crates/program_rows/src/$file.rt"
done
echo 'program_rows: w2c_base w2c_io c_read c_check c_link c_hosts env_host crun wasm2c_cli crun_cli wast_run' >>"$work/crates.txt"
python3 "$here/programs.py" stdin "$@" >"$work/rows"
python3 "$here/programs.py" stdout "$@" >"$work/wanted"
cd "$work/crates/program_rows"
rt try --steps 100000000000 --seconds 3000 <"$work/rows" >"$work/said"
diff "$work/said" "$work/wanted"
echo "$(grep -c '^row' "$work/rows") as programs.py says"
