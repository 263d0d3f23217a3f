#!/bin/sh
# Refuses each request for memory of the three programs in turn (read_module/refuse.c), over the module as a linker writes it, a set of two
# modules with a host, a script of assertions, and a module that clang makes of ../wasm2c/compiled.c, in every form of their command lines,
# and holds what each run leaves to what may stand then (refused.py). Needs the Rattle kit's command rt where the programs are not built yet,
# gcc, python3, and clang with wasm-ld.
# refused.sh [WASM2C CRUN WAST_RUN [LIBRARY [EVERY[,MORE] [WORD]]]]: the programs, those of bin/ where they are left out; what refuses the request
# of the number REFUSE, - for refuse.c; 1 where each request is refused, 3 where each third, and another number for the compiled module; and
# a word of the titles of the forms to run.
set -e
. "$(dirname "$0")/programs.sh"
[ $# != 0 ] || "$here/../../bin/wast_run" >/dev/null 2>&1 || true
wast_run=$(realpath "${3:-$here/../../crates/wast_run/out/wast_run}")
library=$work/refuse.so
if [ "${4:--}" != - ]; then
    library=$(realpath "$4")
else
    gcc -O2 -shared -fPIC -o "$library" "$here/../read_module/refuse.c" -ldl
fi
clang --target=wasm32 -O2 -nostdlib -Wl,--no-entry -Wl,-z,stack-size=65536 -o "$work/compiled.wasm" "$here/../wasm2c/compiled.c"
cd "$work"
python3 -u "$here/refused.py" "$wasm2c" "$crun" "$wast_run" "$library" "${5:-1}" "${6:-}"
