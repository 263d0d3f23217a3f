#!/bin/bash
# Times crun on straight-line units: a function of 1,000 statements called 10,000 times, and one of 1,000,000
# statements called 10 times. Prints the seconds of each; each run takes about 10,000,000 statements.
set -e
here=$(cd "$(dirname "$0")" && pwd)
work=$(mktemp -d)
trap 'rm -rf "$work"' EXIT
python3 "$here/unit.py" 1000 > "$work/short.c"
python3 "$here/unit.py" 1000000 > "$work/long.c"
yes 'two f' | head -n 10000 > "$work/short.calls"
yes 'two f' | head -n 10 > "$work/long.calls"
for length in short long; do
    echo "$length"
    time -p "${CRUN:-$here/../../bin/crun}" --steps 100000000 --calls "$work/$length.calls" "$work/$length.c" > "$work/out"
    tail -n 1 "$work/out"
done
