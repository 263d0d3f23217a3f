#!/bin/sh
# Times c_read: proves, builds and runs main.rt.txt in a temporary folder, over copies of c_read and
# of the crates below it, and runs it once more for its memory. The gate does not run it, and refuses a .rt
# file outside the crates: hence the name of main.rt.txt. Needs the Rattle kit's command rt, python3
# and about 4 GB of memory.
set -e
here=$(cd "$(dirname "$0")" && pwd)
work=$(mktemp -d)
trap 'rm -rf "$work"' EXIT
sh "$here/../copy_crates.sh" "$work" w2c_base c_tree c_lex c_read
mkdir -p "$work/crates/c_read_bench/src"
cp "$here/main.rt.txt" "$work/crates/c_read_bench/src/main.rt"
echo 'c_read_bench: w2c_base c_tree c_read' >>"$work/crates.txt"
cd "$work/crates/c_read_bench"
rt run
python3 -c '
import resource, subprocess
subprocess.run(["out/c_read_bench"], check=True)
print(resource.getrusage(resource.RUSAGE_CHILDREN).ru_maxrss, "KB of memory at the most, the text among them")'
