#!/bin/sh
# Two instances of one module in two threads at once (threads.c), with W2C_RT_THREADS and the fast and the guard runtime, by gcc and clang:
# with -O2, and under the thread sanitizer, which must report nothing. Ends with 1 at the first that is wrong. Needs Debian's wabt.
#
# threads.sh [WASM2C]: the program, bin/wasm2c where it is left out.
set -e
here=$(cd "$(dirname "$0")" && pwd)
examples=$here/../../examples
wasm2c=$(realpath "${1:-$here/../../bin/wasm2c}")
work=$(mktemp -d)
trap 'rm -rf "$work"' EXIT
cd "$work"
wat2wasm "$here/threads.wat" -o module.wasm
for name in first second; do "$wasm2c" module.wasm -o $name.c -n $name; done
for runtime in fast guard; do
    [ $runtime = fast ] || [ "$(uname -s)" = Linux ] || continue
    folder=$examples/${runtime}_runtime
    for compiler in gcc clang; do
        for flags in -O2 "-O1 -g -fsanitize=thread"; do
            $compiler -std=c11 -Wall -Wextra -Wpedantic -Werror -Wno-unused-function -Wno-unused-parameter -DW2C_RT_THREADS $flags -I "$folder" -I . \
                "$here/threads.c" first.c second.c "$folder/w2c_rt.c" "$folder/w2c_want.c" -lpthread -o program
            echo "$runtime, $compiler $flags: $(TSAN_OPTIONS=halt_on_error=1:exitcode=66 ./program)"
        done
    done
done
