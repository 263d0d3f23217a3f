#!/bin/sh
# Shows that wasm2c writes a unit item by item: refuses each request for memory in turn (read_module/refuse.c) while it
# translates a module as a linker writes it, and looks for runs that end with 5 and leave of the C file a part that ends before
# the text does and has at least one whole item. Ends with 1 where there is none. Then it prints the most memory of runs over
# modules of more and more functions of one size, beside the bytes of their texts. Needs the Rattle kit's command rt where the
# program is not built yet, gcc and python3.
set -e
here=$(cd "$(dirname "$0")" && pwd)
program=${1:-$here/../../crates/wasm2c_cli/out/wasm2c_cli}
work=$(mktemp -d)
trap 'rm -rf "$work"' EXIT
gcc -O2 -shared -fPIC -o "$work/refuse.so" "$here/../read_module/refuse.c" -ldl
if [ $# = 0 ]; then
    "$here/../../bin/wasm2c" >/dev/null 2>&1 || true
fi
cd "$work"
exec python3 "$here/units_by_item.py" "$program" "$work/refuse.so"
