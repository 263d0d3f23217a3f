#!/bin/sh
# Refuses each request for memory in turn while wasm2c translates a module as a linker writes it. Each run must end with 5
# and say that memory was wanting, or nothing; or, where the request was made again and met, end with 0. A run that ends with 5
# leaves of the C file and the header, in this order, some whole and of the next at most a prefix. In the last run nothing was
# refused. Needs the Rattle kit's command rt where the program is not built yet, gcc and python3.
set -e
here=$(cd "$(dirname "$0")" && pwd)
program=$here/../../crates/wasm2c_cli/out/wasm2c_cli
work=$(mktemp -d)
trap 'rm -rf "$work"' EXIT
gcc -O2 -shared -fPIC -o "$work/refuse.so" "$here/refuse.c" -ldl
"$here/../../bin/wasm2c" >/dev/null 2>&1 || true
mkdir "$work/files" "$work/whole"
cd "$work/files"
python3 -c '
open("real.wasm", "wb").write(bytes.fromhex("0061736D0100000001060160017F017F030201000405017001010105030100020608017F0141808804"
    "0B070E02066D656D6F72790200016600000A1A011801017F230041106B2201200036020C200128020C20006C0B000B046E616D65010401000166"))'
"$program" real.wasm -o real.c
mv real.c real.h "$work/whole"
# A file that stands is the whole one, or a prefix of it: it differs from that at most behind its end.
prefix() {
    [ ! -e "$1" ] || [ "$(head -c "$(stat -c %s "$1")" "$work/whole/$1" | cksum)" = "$(cksum <"$1")" ]
}
n=1
as_ever=0
none=0
while [ $n -le 10000 ]; do
    status=0
    rm -f "$work/mark" real.c real.h
    REFUSE=$n MARK=$work/mark LD_PRELOAD=$work/refuse.so "$program" real.wasm -o real.c 2>"$work/line" || status=$?
    line=$(cat "$work/line")
    if ! prefix real.c || ! prefix real.h || { [ -e real.h ] && ! cmp -s real.c "$work/whole/real.c"; }; then
        echo "request $n: status $status, other files"
        exit 1
    fi
    case "$status $line" in
        '5 ' | '5 wasm2c: want of memory')
            [ -e real.c ] || none=$((none + 1))
            ;;
        '0 ')
            cmp real.h "$work/whole/real.h"
            if [ ! -e "$work/mark" ]; then
                echo "each of $((n - 1)) requests was refused: status 5 at $((n - 1 - as_ever)), as ever at $as_ever, no file at $none"
                exit 0
            fi
            as_ever=$((as_ever + 1))
            ;;
        *)
            echo "request $n: status $status, $line"
            exit 1
            ;;
    esac
    n=$((n + 1))
done
exit 1
