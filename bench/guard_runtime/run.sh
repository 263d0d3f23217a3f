#!/bin/sh
# Tries the guard runtime (examples/guard_runtime) with units that wasm2c writes: test.c in all ways to compile it, by gcc and clang, alone and
# with other handlers of SIGSEGV; a host in C++; the compiler's own operators against the units' helpers, with the fast runtime, too;
# and where gcc for aarch64 and qemu are there, all of it on that machine. Ends with 1 at the first that is wrong. Needs Debian's wabt.
#
# run.sh [WASM2C [PAIRS]]: the program, bin/wasm2c where it is left out, and on how many pairs of numbers the operators are compared.
set -e
here=$(cd "$(dirname "$0")" && pwd)
wasm2c=$(realpath "${1:-$here/../../bin/wasm2c}")
pairs=${2:-10000000}
guard=$here/../../examples/guard_runtime
fast=$here/../../examples/fast_runtime
work=$(mktemp -d)
trap 'rm -rf "$work"' EXIT
cd "$work"
for file in w2c_trap.c w2c_want.c w2c_rt_operators.h; do cmp "$fast/$file" "$guard/$file"; done

python3 "$here/modules.py" texts
for name in reach operators; do
    wat2wasm $name.wat -o $name.wasm
    "$wasm2c" $name.wasm -o $name.c
done
for name in own taken; do "$wasm2c" operators.wasm -o $name.c -n $name; done
python3 "$here/modules.py" names
python3 "$here/modules.py" pairs
# What a module does not use is its own affair.
warnings="-Wall -Wextra -Wpedantic -Werror -Wno-unused-function -Wno-unused-parameter -Wno-unused-but-set-variable"

# test COMPILER FLAGS..: test.c with the guard runtime, alone and with other handlers.
test_with() {
    compiler=$1
    shift
    guarded=1
    case "$*" in *CHECKS*) guarded=0 ;; esac
    $compiler -std=c11 $warnings "$@" -DGUARDED=$guarded -I "$guard" -I . -I "$here" "$here/test.c" names.c reach.c "$guard/w2c_rt.c" -lpthread -lm -o test
    echo "$compiler $*"
    for how in alone chain once own; do $run ./test $how; done
}

# compare COMPILER FOLDER FLAGS..: a unit's helpers and the compiler's operators.
compare() {
    compiler=$1 folder=$2
    shift 2
    $compiler -std=c11 $warnings "$@" -I "$folder" -DW2C_RT_OPERATORS -c taken.c -o taken.o
    $compiler -std=c11 $warnings "$@" -I "$folder" -c own.c -o own.o
    $compiler -std=c11 $warnings "$@" -I "$folder" -I . -I "$here" "$here/operators_test.c" own.o taken.o "$folder/w2c_rt.c" "$folder/w2c_want.c" -o operators
    echo "$compiler $*, $(basename "$folder"): $($run ./operators "$count")"
}

# The sanitizer leaves SIGSEGV and the stacks of threads alone.
export ASAN_OPTIONS=handle_segv=0:use_sigaltstack=0
run=
for compiler in gcc clang; do
    for flags in -O0 -O1 -O2 -O3 "-O2 -flto" "-O2 -DW2C_RT_OPERATORS" "-O2 -DW2C_RT_EXACT" "-O3 -DW2C_RT_EXACT -DW2C_RT_OPERATORS" "-O2 -DW2C_RT_CHECKS" \
        "-O2 -DW2C_RT_THREADS" "-O1 -g -DSANITIZED -fsanitize=address,undefined -fno-sanitize-recover=undefined"; do
        test_with $compiler $flags
    done
    count=$((pairs / 100))
    for flags in -O0 "-O1 -fsanitize=undefined -fno-sanitize-recover=all"; do compare $compiler "$fast" $flags; done
    count=$pairs
    compare $compiler "$fast" -O2
    compare $compiler "$guard" -O3
done

# A host in C++; the units and the runtime are C.
g++ -std=c++17 -Wall -Wextra -Werror -O2 -DGUARDED=1 -I "$guard" -I . -I "$here" -c -x c++ "$here/test.c" -o host.o
for file in names.c reach.c "$guard/w2c_rt.c"; do gcc -std=c11 -O2 -I "$guard" -c "$file" -o "$(basename "$file" .c).o"; done
g++ host.o names.o reach.o w2c_rt.o -lpthread -lm -o test
echo "g++, a host in C++"
for how in alone chain once own; do ./test $how; done

if command -v aarch64-linux-gnu-gcc >/dev/null && command -v qemu-aarch64 >/dev/null; then
    run=qemu-aarch64
    for flags in -O0 -O2 "-O2 -DW2C_RT_EXACT" "-O2 -DW2C_RT_OPERATORS"; do test_with aarch64-linux-gnu-gcc $flags -static -DSANITIZED; done
    count=$((pairs / 100))
    compare aarch64-linux-gnu-gcc "$guard" -O2 -static
fi
