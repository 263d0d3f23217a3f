#!/bin/sh
# Units of 67,108,864 bytes whose names an attacker chose: 290,000 names that all begin at one place of a table, under each hash of the kit that
# has no key (collide.c finds them, colliding.py makes the units), and as many ordinary ones. crun reads, checks and links each, TURNS times in
# turn, and a line says of each program the least seconds of processor time and the most memory. Needs gcc, python3, and the Rattle kit's
# command rt where crun is not built yet.
# colliding.sh [TURNS [CRUN ..]]: the programs, bin/crun's where they are left out.
set -e
here=$(cd "$(dirname "$0")" && pwd)
turns=${1:-3}
[ $# = 0 ] || shift
if [ $# = 0 ]; then
    "$here/../../bin/crun" >/dev/null 2>&1 || true
    set -- "$here/../../crates/crun_cli/out/crun_cli"
fi
count=$#
while [ $count != 0 ]; do
    set -- "$@" "$(realpath "$1")"
    shift
    count=$((count - 1))
done
work=$(mktemp -d)
trap 'rm -rf "$work"' EXIT
gcc -O3 -march=native -o "$work/collide" "$here/collide.c"
cd "$work"
python3 -u "$here/colliding.py" ./collide "$turns" "$@"
