#!/bin/sh
# Compares the fast runtime (examples/fast_runtime) and the guard runtime (examples/guard_runtime) with the plain one, which `wasm2c --runtime`
# writes: 3,000,000 calls of the primitives by chance, under gcc and clang, with -O0, -O3 and -fsanitize=undefined,address. The fast one is
# taken as it is, with accesses byte by byte (W2C_RT_BYTEWISE), with realloc in place of mmap (W2C_RT_REALLOC), and in an address
# space that has a limit; where gcc for s390x and qemu are there, on that big-endian machine, too. The guard one is taken as it is and with
# W2C_RT_EXACT, W2C_RT_CHECKS and W2C_RT_THREADS. Ends with 1 at the first difference. Want of memory and the texts of traps are tried, too.
set -e
here=$(cd "$(dirname "$0")" && pwd)
examples=$here/../../examples
fast=$examples/fast_runtime
guard=$examples/guard_runtime
work=$(mktemp -d)
trap 'rm -rf "$work"' EXIT
cd "$work"

# build PROGRAM COMPILER FOLDER FLAGS..: calls.c with the runtime of FOLDER.
build() {
    program=$1 compiler=$2 folder=$3
    shift 3
    sources=$folder/w2c_rt.c
    [ "$folder" = "$examples" ] || sources="$sources $folder/w2c_trap.c $folder/w2c_want.c"
    $compiler -std=c11 -pedantic -Wall -Wextra -Werror "$@" -I "$folder" "$here/calls.c" $sources -o "$program"
}

# compare COMMAND..: what calls.c prints is what the plain runtime gave first; it ends by trap 3, with status 1 and no other word.
compare() {
    status=0
    "$@" >said 2>error || status=$?
    [ "$status" = 1 ] && [ "$(cat error)" = "trap 3" ] || { echo "ended with $status:"; head -n 5 error; exit 1; }
    [ -f wanted ] || mv said wanted
    [ ! -f said ] || cmp wanted said
}

# In so many KiB of address space.
within() { (ulimit -v "$1" && shift && exec "$@"); }

build program gcc "$examples" -O0
compare ./program
for compiler in gcc clang; do
    for flags in -O0 -O3 "-O1 -g -fsanitize=undefined,address -fno-sanitize-recover=all"; do
        build program $compiler "$examples" $flags
        compare ./program
        for form in "" -DW2C_RT_BYTEWISE -DW2C_RT_REALLOC -DW2C_RT_THREADS; do
            build program $compiler "$fast" $flags $form
            compare ./program
        done
        for form in "" -DW2C_RT_EXACT -DW2C_RT_CHECKS -DW2C_RT_THREADS; do
            build program $compiler "$guard" $flags $form
            compare ./program
        done
        echo "$compiler $flags: the same"
    done
done

# 1,100,000 KiB are enough for the one memory that grows to 1 GiB, if nothing is kept for the others.
build program gcc "$fast" -O2
compare within 1200000 ./program
status=0
within 600000 ./program >/dev/null 2>error || status=$?
[ "$status" = 5 ] && [ "$(cat error)" = "want of memory" ]
build program gcc "$guard" -O2
status=0
within 600000 ./program >/dev/null 2>error || status=$?
[ "$status" = 5 ] && [ "$(cat error)" = "want of memory" ]
echo "in a short address space: the same, or want of memory"

for folder in "$fast" "$guard"; do
    for compiler in gcc clang; do
        for flags in "" -DW2C_RT_REALLOC "-g -DSANITIZED -fsanitize=undefined,address -fno-sanitize-recover=all"; do
            $compiler -std=c11 -pedantic -Wall -Wextra -Werror -O1 $flags -I "$folder" "$here/library.c" "$folder/w2c_rt.c" -o program
            ./program
        done
    done
done
echo "given back, texts, and a host's own w2c_want: right"

if command -v s390x-linux-gnu-gcc >/dev/null && command -v qemu-s390x >/dev/null; then
    build program s390x-linux-gnu-gcc "$fast" -O2 -static
    compare qemu-s390x ./program
    echo "s390x (big-endian), gcc -O2: the same"
fi
tail -n 1 wanted
