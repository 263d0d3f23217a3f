# Read by the scripts beside it: a folder of its own to work in, and the programs, which are the first two words or those of bin/.
# Sets here, work, wasm2c and crun.
here=$(cd "$(dirname "$0")" && pwd)
work=$(mktemp -d)
trap 'rm -rf "$work"' EXIT
for name in wasm2c crun; do
    [ $# != 0 ] || "$here/../../bin/$name" >/dev/null 2>&1 || true
done
wasm2c=$(realpath "${1:-$here/../../crates/wasm2c_cli/out/wasm2c_cli}")
crun=$(realpath "${2:-$here/../../crates/crun_cli/out/crun_cli}")
