#!/bin/sh
# Compiles guest.c to guest.wasm, which stands here already. Needs clang and wasm-ld (Debian's clang and lld).
set -e
cd "$(dirname "$0")"
${CLANG:-clang} --target=wasm32 -mcpu=mvp -std=c11 -Wall -Wextra -O2 -ffreestanding -fno-builtin -nostdlib \
    -Wl,--no-entry -Wl,--strip-all -Wl,-z,stack-size=65536 -Wl,--stack-first guest.c -o guest.wasm
chmod a-x guest.wasm
