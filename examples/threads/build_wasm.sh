#!/bin/sh
# Compiles busy.c to busy.wasm, which is kept here. Needs clang and wasm-ld (Debian's clang and lld).
set -e
cd "$(dirname "$0")"
${CLANG:-clang} --target=wasm32 -mcpu=mvp -std=c11 -Wall -Wextra -O2 -ffreestanding -fno-builtin -nostdlib \
    -Wl,--no-entry -Wl,--strip-all -Wl,-z,stack-size=65536 -Wl,--stack-first busy.c -o busy.wasm
chmod a-x busy.wasm
