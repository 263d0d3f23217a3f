#!/bin/sh
# Compiles two.c with the runtime texts and a caller, and runs it: prints 42. If a translator is at hand (WASM2C, or the one that is
# built in this repository), two.wasm is translated first, and must give two.c, two.h and the runtime texts as they are kept here.
set -e
here=$(cd "$(dirname "$0")" && pwd)
work=$(mktemp -d)
trap 'rm -rf "$work"' EXIT
built=$here/../crates/wasm2c_cli/out/wasm2c_cli
if [ -z "$WASM2C" ] && [ -x "$built" ]; then WASM2C=$built; fi
if [ -n "$WASM2C" ]; then
    "$WASM2C" "$here/two.wasm" -o "$work/two.c"
    "$WASM2C" --runtime "$work"
    for file in two.c two.h w2c_rt.h w2c_rt.c; do
        cmp "$here/$file" "$work/$file"
    done
else
    echo "no translator at hand: two.c as it is kept" >&2
fi
${CC:-cc} ${CFLAGS:--O2} -o "$work/two" "$here/two_main.c" "$here/two.c" "$here/w2c_rt.c"
"$work/two"
