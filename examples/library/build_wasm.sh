#!/bin/sh
# Compiles source/ to library.wasm, which stands here already. Needs clang and wasm-ld (Debian's clang and lld).
# A module must be WebAssembly 1.0, integers only: -mcpu=mvp leaves out all that came later, by clang's defaults or not.
set -e
cd "$(dirname "$0")"
objects=$(mktemp -d)
trap 'rm -rf "$objects"' EXIT
here=$PWD
(cd "$objects" && ${CLANG:-clang} --target=wasm32 -mcpu=mvp -std=c11 -Wall -Wextra -O2 -ffreestanding -fno-builtin -c "$here"/source/*.c)
# A step of its own: a clang that compiles and links with -O calls the wasm-opt that it finds.
${CLANG:-clang} --target=wasm32 -nostdlib -Wl,--no-entry -Wl,--strip-all -Wl,-z,stack-size=65536 -Wl,--stack-first \
    "$objects"/*.o -o library.wasm
chmod a-x library.wasm
