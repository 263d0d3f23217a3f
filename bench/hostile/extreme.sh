#!/bin/sh
# Sizes at their limits and files of full nesting, over real files, with a stack of 8 MiB (extreme.py): the limits of bytes from both
# sides, and time and most memory of files of two sizes each. Needs the Rattle kit's command rt where the programs are not built yet, and
# python3. extreme.sh [WASM2C CRUN [SHARE]]: the programs, those of bin/ where they are left out, and by how much smaller the files are.
set -e
. "$(dirname "$0")/programs.sh"
cd "$work"
python3 -u "$here/extreme.py" "$wasm2c" "$crun" ${3:-1}
