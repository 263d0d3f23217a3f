#!/bin/sh
# Runs the module of ../host, which has a host of its own, by crun in two ways: with a unit that plays the host, also merged with the
# module's unit to one, and with a journal of what the host replies. Compares what is said with `wanted`. WASM2C and CRUN are the
# programs, those of this repository if they are not set.
set -e
cd "$(dirname "$0")"
WASM2C=${WASM2C:-../../bin/wasm2c}
CRUN=${CRUN:-../../bin/crun}
mkdir -p out
# crun's status is 1 where a call traps, which is meant here.
run() {
    echo "crun --steps 100000 $*"
    status=0
    "$CRUN" --steps 100000 "$@" || status=$?
    echo "status $status"
}
"$WASM2C" ../host/guest.wasm -o out/guest.c
{
    run --calls played.calls host.c out/guest.c
    "$CRUN" --merge out/all.c host.c out/guest.c
    run --calls played.calls out/all.c
    run --calls replayed.calls --replay journal out/guest.c
} >out/said
cmp out/said wanted
cat wanted
