#!/bin/sh
# Compares the helpers, as a C compiler compiles them, with the compiler's own operators on some
# million pairs of numbers, edges included. It proves, builds and runs main.rt.txt, which prints the
# helpers, in a temporary folder over copies of the crates, and compiles the text with test.c and the
# runtime's texts. The gate does not run it, and refuses a .rt file outside the crates: hence the name
# of main.rt.txt. Needs the Rattle kit's command rt, about 4 GB of memory, and cc (or the compilers
# that CC names).
set -e
here=$(cd "$(dirname "$0")" && pwd)
top=$here/../..
work=$(mktemp -d)
trap 'rm -rf "$work"' EXIT
names='w2c_base w2c_mangle wasm_tree wasm_meaning c_tree c_print c_helpers c_meaning c_prelude'
sh "$here/../copy_crates.sh" "$work" $names
mkdir -p "$work/crates/c_prelude_bench/src"
cp "$here/main.rt.txt" "$work/crates/c_prelude_bench/src/main.rt"
echo "c_prelude_bench: $names" >>"$work/crates.txt"
cd "$work/crates/c_prelude_bench"
rt run >"$work/helpers.c"
cp "$here/test.c" "$top/examples/w2c_rt.h" "$top/examples/w2c_rt.c" "$work"
cd "$work"
for cc in ${CC:-cc}; do
    "$cc" -O2 -Wall -o compare test.c w2c_rt.c
    "$cc" --version | head -n 1
    ./compare "${1:-10000000}"
done
