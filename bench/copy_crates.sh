#!/bin/sh
# copy_crates.sh FOLDER CRATE...: makes of FOLDER a project of these crates, with their sources and proofs and their
# lines of crates.txt. The crates are named lowest first. The scripts of this folder add a program of their own.
set -e
top=$(cd "$(dirname "$0")/.." && pwd)
project=$1
shift
for name in "$@"; do
    mkdir -p "$project/crates/$name"
    for part in src specs proofs; do
        if [ -d "$top/crates/$name/$part" ]; then
            cp -R "$top/crates/$name/$part" "$project/crates/$name/"
        fi
    done
    grep "^$name:" "$top/crates.txt" >>"$project/crates.txt"
done
