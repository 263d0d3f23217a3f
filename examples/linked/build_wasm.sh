#!/bin/sh
# Assembles bank.wasm and teller.wasm, which stand here already. Needs wat2wasm (Debian's wabt).
set -e
cd "$(dirname "$0")"
for module in bank teller; do
    wat2wasm $module.wat -o $module.wasm
done
