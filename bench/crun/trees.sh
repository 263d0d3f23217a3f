#!/bin/sh
# trees.sh UNIT.c..: what the trees of these units take. Proves, builds and runs trees.rt.txt in a temporary folder, over copies of c_read and
# of the crates below it, as bench/c_read/run.sh does: some minutes. Needs the Rattle kit's command rt, and Linux for /proc.
set -e
here=$(cd "$(dirname "$0")" && pwd)
work=$(mktemp -d)
trap 'rm -rf "$work"' EXIT
for unit in "$@"; do
    cp "$unit" "$work/"
done
sh "$here/../copy_crates.sh" "$work" w2c_base w2c_io c_tree c_lex c_read
mkdir -p "$work/crates/trees/src"
cp "$here/trees.rt.txt" "$work/crates/trees/src/main.rt"
echo 'trees: w2c_base w2c_io c_tree c_read' >>"$work/crates.txt"
cd "$work/crates/trees"
rt run -- "$work"/*.c | grep -E 'units|VmRSS|VmHWM'
