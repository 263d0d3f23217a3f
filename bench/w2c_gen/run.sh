#!/bin/sh
# Compares the files of generated modules with those that generated.py says, and times w2c_gen: proves, builds and runs
# main.rt.txt in a temporary folder, over copies of w2c_gen and of the crates below it. The gate does not run it, and refuses
# a .rt file outside the crates: hence the name of main.rt.txt. Needs the Rattle kit's command rt and python3.
set -e
here=$(cd "$(dirname "$0")" && pwd)
work=$(mktemp -d)
trap 'rm -rf "$work"' EXIT
sh "$here/../copy_crates.sh" "$work" w2c_base leb_bytes wasm_tree wasm_typing wasm_spelling wasm_writing body_check wasm_valid w2c_gen
mkdir -p "$work/crates/w2c_gen_bench/src"
cp "$here/main.rt.txt" "$work/crates/w2c_gen_bench/src/main.rt"
echo 'w2c_gen_bench: w2c_base w2c_gen' >>"$work/crates.txt"
cd "$work/crates/w2c_gen_bench"
rt run </dev/null
numbers="1 2 3 999 1000 1001 1002 1129 4097 12345 19999 20000"
printf '%s\n' $numbers | out/w2c_gen_bench >"$work/said"
python3 "$here/generated.py" $numbers | diff "$work/said" - && echo "the files are those of generated.py"
