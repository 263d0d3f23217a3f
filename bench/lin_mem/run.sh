#!/bin/sh
# Times lin_mem: proves, builds and runs main.rt.txt in a temporary folder, over copies of lin_mem and
# of the crate below it. The gate does not run it, and refuses a .rt file outside the crates: hence
# the name of main.rt.txt. Needs the Rattle kit's command rt and about 2 GB of memory.
set -e
here=$(cd "$(dirname "$0")" && pwd)
work=$(mktemp -d)
trap 'rm -rf "$work"' EXIT
sh "$here/../copy_crates.sh" "$work" w2c_base lin_mem
mkdir -p "$work/crates/lin_mem_bench/src"
cp "$here/main.rt.txt" "$work/crates/lin_mem_bench/src/main.rt"
echo 'lin_mem_bench: w2c_base lin_mem' >>"$work/crates.txt"
cd "$work/crates/lin_mem_bench"
rt run
