#!/bin/sh
# Times c_body: proves, builds and runs main.rt.txt in a temporary folder, over copies of c_body, wasm_binary and the crates
# below them. The gate does not run it, and refuses a .rt file outside the crates: hence the name of main.rt.txt. Needs
# the Rattle kit's command rt, and about half an hour.
set -e
here=$(cd "$(dirname "$0")" && pwd)
work=$(mktemp -d)
trap 'rm -rf "$work"' EXIT
sh "$here/../copy_crates.sh" "$work" w2c_base leb_bytes w2c_mangle name_table wasm_tree wasm_typing wasm_spelling wasm_binary body_check wasm_valid c_tree \
    c_helpers c_symbols body_emitter c_body
mkdir -p "$work/crates/c_body_bench/src"
cp "$here/main.rt.txt" "$work/crates/c_body_bench/src/main.rt"
echo 'c_body_bench: w2c_base wasm_binary wasm_valid c_tree c_body' >>"$work/crates.txt"
cd "$work/crates/c_body_bench"
rt run
