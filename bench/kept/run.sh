#!/bin/sh
# run.sh [GROUP..]: tries how bin/build comes to a program, the one that is kept in bin/kept, the one that the gate built, one that is proved
# and built, and each way in which a kept one is not to be used; and bin/install. For each trial a line, and what was said for one that went
# otherwise than it must; ends with 1 then. With words given only the groups of trials that are named so: kept, refused, broken, places,
# calls, kit, gate.
#
# Nothing is proved, and the kit is not needed: `rt`, the compiler and the linker are stand-ins (kit/), and so are the crates, and the
# programs, which print their words. bin/ and tools/ are the checkout's. Needs python3 and xz, and 15 seconds of processor time.
top=$(cd "$(dirname "$0")/../.." && pwd) || exit 2
work=$(mktemp -d) || exit 2
trap 'chmod -R u+w "$work"; rm -rf "$work"' EXIT
trap 'exit 130' INT TERM
checkout=$work/checkout
status=0
# Whoever runs this may have the kit in PATH.
without_kit=
IFS=:
for folder in $PATH; do
    [ -x "$folder/rt" ] || without_kit=$without_kit${without_kit:+:}$folder
done
unset IFS
with_kit=$work/kit/bin:$without_kit

# try NAME STATUS LINES TEXT COMMAND..: runs a command in the checkout, which has to end with STATUS and to print LINES lines on the error
# stream, TEXT somewhere on one of the two streams.
try() {
    name=$1 wanted=$2 lines=$3 text=$4
    shift 4
    (cd "$checkout" && "$@") >"$work/out" 2>"$work/err" </dev/null
    ended=$?
    said=$(wc -l <"$work/err")
    if [ $ended = "$wanted" ] && { [ "$lines" = any ] || [ "$said" = "$lines" ]; } &&
        { [ -z "$text" ] || cat "$work/out" "$work/err" | grep -qF -e "$text"; }; then
        echo "right: $name"
    else
        status=1
        echo "WRONG: $name: status $ended for $wanted, $said lines for $lines on the error stream, and this was to be said: $text"
        sed 's/^/    /' "$work/out" "$work/err"
    fi
}

# A stand-in prints its name and its words, here of a call with one.
wasm2c() { try "$1" 0 0 "wasm2c_cli, word" bin/wasm2c word; }
crun() { try "$1" 0 0 "crun_cli, word" bin/crun word; }
refused() { try "$1" 70 1 "$2" bin/wasm2c word; }
unpacked() { try "$1" 0 1 "wasm2c_cli: the program kept in bin/kept" bin/wasm2c word; }
check() { try "$1" "$2" 0 "$3" python3 tools/keep --check; }
afresh() { rm -rf "$checkout"/crates/*/out; }

# changed FILE COMMAND..: a file for a while as the command, which reads it, writes it.
changed() {
    cp -p "$checkout/$1" "$work/was"
    file=$1
    shift
    "$@" <"$work/was" >"$checkout/$file"
}
back() { cp -p "$work/was" "$checkout/$file"; }

group() {
    case " $chosen " in
        "  " | *" $1 "*) echo "$1 ($(($(date +%s) - began)) s):" ;;
        *) return 1 ;;
    esac
}
chosen=$* began=$(date +%s)

# Three programs over libraries of a line, in a copy of all that stands beside the crates.
mkdir -p "$checkout/crates"
(cd "$top" && tar cf - --exclude=bin/kept --exclude=__pycache__ .ci bin cmake docs examples tools LICENSE LICENSES VERSION) |
    (cd "$checkout" && tar xf -) || exit 2
cat >"$checkout/crates.txt" <<'EOF'
low:
middle: low itoa
side: low
wasm2c_cli: low middle
crun_cli: low side
wast_run: low middle side
EOF
for crate in low middle side wasm2c_cli crun_cli wast_run; do
    case $crate in
        wa* | crun_cli) root=main.rt ;;
        *) root=lib.rt ;;
    esac
    for file in src/$root src/words.rt specs/Words.antt proofs/words/Answers.antt; do
        mkdir -p "$(dirname "$checkout/crates/$crate/$file")"
        echo "what stands in $file of $crate" >"$checkout/crates/$crate/$file"
    done
done
cp -R "$top/bench/kept/kit" "$work/kit"
printf '#!/bin/sh\necho the rows were run\n' >"$checkout/tools/rows"
export STAND_IN_ROOT="$checkout"
PATH=$with_kit
(cd "$checkout" && rt ci)
try "tools/keep keeps what the gate built" 0 0 "kept wast_run: " python3 tools/keep
cp -R "$checkout/bin/kept" "$work/kept"
PATH=$without_kit

if group kept; then
    afresh
    unpacked "a first call unpacks it and says so"
    wasm2c "a second one says nothing"
    try "so crun" 0 1 "crun_cli, word" bin/crun word
    try "so wast_run" 0 1 "wast_run, word" bin/wast_run word
    check "none was built to compare it with" 0 "kept program crun_cli: of these sources; none is built here to compare it with"
    find "$checkout/crates/low/src" -exec touch {} +
    wasm2c "sources that are touched, and as they were"
    chmod 600 "$checkout/crates/low/src/lib.rt"
    wasm2c "another mode of a file"
    for name in .lib.rt.swp .#lib.rt '#lib.rt#' lib.rt~; do
        echo swap >"$checkout/crates/low/src/$name"
    done
    wasm2c "files that editors leave"
    rm "$checkout/crates/low/src/.lib.rt.swp" "$checkout/crates/low/src/.#lib.rt" "$checkout/crates/low/src/#lib.rt#" \
        "$checkout/crates/low/src/lib.rt~"
    changed crates/low/proofs/words/Answers.antt sed '$a\
'
    wasm2c "a change of proofs"
    back
    echo other >"$checkout/crates/wasm2c_cli/out/wasm2c_cli"
    unpacked "another program in out/"
    chmod a-x "$checkout/crates/wasm2c_cli/out/wasm2c_cli"
    unpacked "one that cannot be run"
    rm "$checkout/crates/wasm2c_cli/out/sums"
    unpacked "one without a record, as LLVM's behind a gate"
    echo half >"$checkout/crates/wasm2c_cli/out/wasm2c_cli.new"
    chmod 0 "$checkout/crates/wasm2c_cli/out/wasm2c_cli.new"
    rm "$checkout/crates/wasm2c_cli/out/wasm2c_cli"
    unpacked "half of one that a killed call left"
fi

if group refused; then
    afresh
    unpacked "a first call"
    try "a first call of crun" 0 1 "crun_cli, word" bin/crun word
    changed crates/low/src/lib.rt sed '1i\
// another line'
    refused "a comment more" "the program of bin/kept was made of other sources, and to prove and build it takes the Rattle kit, whose command rt"
    try "the same of crun" 70 1 "made of other sources" bin/crun word
    check "the check says so" 1 "kept program wast_run: of other sources: not used; tools/keep makes it anew"
    back
    wasm2c "taken back"
    crun "the same of crun"
    changed crates/side/src/lib.rt sed '1i\
// another line'
    wasm2c "a change of what is not below it"
    try "and is below crun" 70 1 "made of other sources" bin/crun word
    back
    changed crates/low/specs/Words.antt sed '$a\
'
    refused "a blank line in definitions" "made of other sources"
    back
    changed crates.txt sed 's/^middle:.*/& hex/'
    refused "one more library of the kit" "made of other sources"
    back
    : >"$checkout/crates/low/src/more.rt"
    refused "one more file" "made of other sources"
    rm "$checkout/crates/low/src/more.rt"
    mv "$checkout/crates/low/src/lib.rt" "$checkout/crates/low/src/lob.rt"
    refused "a file of another name" "made of other sources"
    mv "$checkout/crates/low/src/lob.rt" "$checkout/crates/low/src/lib.rt"
    changed crates/low/src/lib.rt sed '1s/^./?/'
    touch -r "$work/was" "$checkout/crates/low/src/lib.rt"
    refused "one byte, with size and time as they were" "made of other sources"
    back
    wasm2c "all taken back"
fi

# A file of bin/kept for a while as the command, which reads it, writes it; nothing may be left of it in out/.
broken() {
    trial=$1 file=$2 in_check=$3 text=$4
    shift 4
    afresh
    "$@" <"$work/kept/$file" >"$checkout/bin/kept/$file"
    refused "$trial" "$text"
    if [ -e "$checkout/crates/wasm2c_cli/out/wasm2c_cli" ]; then
        status=1
        echo "WRONG: $trial: it stands in out/"
    fi
    check "$trial: the check" 1 "kept program wasm2c_cli: $in_check"
    cp "$work/kept/$file" "$checkout/bin/kept/$file"
}

if group broken; then
    turn='import sys; data = bytearray(sys.stdin.buffer.read()); data[len(data) // 2] ^= 1; sys.stdout.buffer.write(data)'
    xz=wasm2c_cli.xz
    unreadable="bin/kept/wasm2c_cli.xz cannot be read or unpacked"
    broken "one byte of an .xz" $xz "CANNOT BE UNPACKED" "$unreadable" python3 -c "$turn"
    broken "an .xz that is cut" $xz "CANNOT BE UNPACKED" "$unreadable" head -c 60
    broken "an empty one" $xz "CANNOT BE UNPACKED" "$unreadable" true
    broken "another program" $xz "NOT the bytes whose SHA-256" "is NOT the program of which bin/kept/sums has the SHA-256" cat "$work/kept/crun_cli.xz"
    broken "another SHA-256" sums "NOT the bytes whose SHA-256" "is NOT the program of which" sed 's/^\(wasm2c_cli .*\).$/\1x/'
    broken "another sum" sums "of other sources" "was made of other sources" sed 's/^wasm2c_cli ./wasm2c_cli x/'
    broken "another kit" sums "of other sources" "was made of other sources" sed 's/^kit ./kit x/'
    broken "sums that are no text" sums "is not there" "bin/kept has no such program" head -c 99 "$work/kept/wasm2c_cli.xz"
    broken "empty sums" sums "is not there" "bin/kept has no such program" true
    rm "$checkout/bin/kept/$xz"
    refused "no .xz" "$unreadable"
    rm -r "$checkout/bin/kept"
    refused "nothing kept" "bin/kept has no such program"
    check "nothing kept: the check" 1 "kept program wasm2c_cli: is not there: tools/keep makes it"
    cp -R "$work/kept" "$checkout/bin/kept"
    unpacked "all as it was"
fi

if group places; then
    # A PATH of a few commands: no xz, and a python that was built without lzma.
    mkdir "$work/few"
    for name in sh dirname wc cat grep sed; do
        ln -s "$(command -v $name)" "$work/few/$name"
    done
    cat >"$work/few/python3" <<EOF
#!/bin/sh
shift 2
exec "$(python3 -c 'import sys; print(sys.executable)')" -c 'import runpy, sys
sys.modules["lzma"] = None
sys.argv = sys.argv[1:]
runpy.run_path(sys.argv[0], run_name="__main__")' "\$@"
EOF
    chmod +x "$work/few/python3"
    afresh
    PATH=$work/few:$without_kit unpacked "a python without lzma, with xz"
    afresh
    PATH=$work/few refused "a python without lzma, without xz" "cannot be read or unpacked"
    if setarch i686 true 2>"$work/err"; then
        try "another processor" 70 1 "are for x86_64 Linux, and this is i686 Linux" setarch i686 bin/wasm2c word
    fi
    # The system's administrator writes everywhere, so this is tried as somebody else.
    chmod -R a+rX "$work"
    if [ "$(id -u)" != 0 ]; then
        chmod a-w "$checkout/crates/wasm2c_cli"
        cannot="a checkout that cannot be written"
        refused "$cannot" "Permission denied; bin/install PREFIX needs no folder of this checkout to write to"
        chmod u+w "$checkout/crates/wasm2c_cli"
    elif setpriv --reuid=65534 --clear-groups true 2>"$work/err"; then
        nobody="setpriv --reuid=65534 --clear-groups"
        try "a checkout that cannot be written" 70 1 "Permission denied; bin/install PREFIX" $nobody bin/wasm2c word
        mkdir -m 777 "$work/prefix"
        try "bin/install from there" 0 any "" $nobody bin/install "$work/prefix/of nobody"
        try "what it installed runs" 0 0 "wasm2c_cli, word" "$work/prefix/of nobody/bin/wasm2c" word
        unpacked "once unpacked by its owner"
        try "others run it" 0 0 "wasm2c_cli, word" $nobody bin/wasm2c word
    fi
    afresh
    try "bin/install of kept programs, each of which it says" 0 3 "$work/installed/bin/crun" bin/install "$work/installed"
    try "it does not unpack them here" 1 any "" test -e crates/crun_cli/out
    try "each runs from there" 0 0 "crun_cli, word" "$work/installed/bin/crun" word
    for file in share/man/man1/wasm2c.1 share/lagwimet/runtime/plain/w2c_rt.c share/lagwimet/runtime/fast/w2c_trap.c \
        lib/cmake/Wasm2c/Wasm2cConfig.cmake share/doc/lagwimet/LICENSES/THIRD-PARTY.txt; do
        [ "$file" = share/man/man1/wasm2c.1 ] && [ ! -e "$top/docs/WASM2C.md" ] || try "and has $file" 0 0 "" test -s "$work/installed/$file"
    done
    : >"$work/a_file"
    try "bin/install where no folder can be" 1 4 "install: $work/a_file/bin: Not a directory" bin/install "$work/a_file"
    changed crates/side/src/lib.rt sed 1d
    try "bin/install of what cannot be built" 70 2 "crun_cli is not built: the program of bin/kept was made of other sources" bin/install "$work/none"
    try "it puts nothing there then" 1 any "" test -e "$work/none"
    back
    cp -R "$checkout" "$work/a folder with blanks"
    checkout="$work/a folder with blanks"
    unpacked "a folder with blanks in its name"
    checkout=$work/checkout
fi

if group calls; then
    afresh
    for call in 1 2 3 4 5 6 7 8; do
        (cd "$checkout" && bin/wasm2c word >"$work/out.$call" 2>"$work/err.$call" || echo failed >>"$work/out.$call") &
    done
    wait
    cat "$work"/out.? >"$work/outs"
    cat "$work"/err.? >"$work/errs"
    try "eight calls at once run" 0 0 8 grep -c "^wasm2c_cli, word$" "$work/outs"
    try "and one of them unpacks" 0 0 1 grep -c "kept in bin/kept" "$work/errs"
    afresh
    # Held until this process ends its input.
    mkfifo "$work/until"
    python3 -c 'import fcntl, os, sys
fcntl.flock(os.open(sys.argv[1], os.O_RDONLY), fcntl.LOCK_EX)
print("held", flush=True)
sys.stdin.read()' "$checkout/crates" <"$work/until" >"$work/held" &
    exec 3>"$work/until"
    while ! grep -q held "$work/held"; do sleep 0.1; done
    : >"$work/waited"
    (cd "$checkout" && exec bin/wasm2c word) >"$work/waited" 2>&1 3>&- &
    while ! grep -q "another call" "$work/waited"; do sleep 0.1; done
    try "a call waits for one that builds, and says so" 0 0 "at work in this checkout: this one waits for it" cat "$work/waited"
    exec 3>&-
    wait
    try "then it goes on" 0 0 "wasm2c_cli, word" cat "$work/waited"
fi

if group kit; then
    PATH=$with_kit
    afresh
    try "--prove gives the kept bytes" 0 any "proved and built here, the same bytes as the kept program" bin/build --prove wasm2c_cli
    cp "$work/err" "$work/said"
    try "it says first what is to be done" 0 0 "proving 3 crates, the last wasm2c_cli: about " cat "$work/said"
    try "then what runs, and how long it takes" 0 0 "proved crates/low (1 of 3, 0:0" grep "middle running; about .* left" "$work/said"
    try "and what is proved" 0 0 "proved crates/wasm2c_cli (3 of 3, " cat "$work/said"
    check "the check compares with it" 0 "kept program wasm2c_cli: the same bytes as built"
    export STAND_IN_OTHER=1
    try "--prove gives other bytes" 1 any "these are NOT the bytes of the kept program of the same sources" bin/build --prove wasm2c_cli
    check "so says the check" 1 "kept program wasm2c_cli: NOT the bytes that were built"
    export STAND_IN_VERSION=another
    try "by another kit" 1 any "by another kit than the one that made the kept program (stand-in 1)" bin/build --prove wasm2c_cli
    unset STAND_IN_OTHER STAND_IN_VERSION
    afresh
    changed crates/low/src/lib.rt sed '1i\
// another line'
    try "a comment more: it is proved and built" 0 any "made of other sources, so it is proved and built here" bin/wasm2c word
    wasm2c "then it is there"
    afresh
    export STAND_IN_FAILS=low
    try "a crate that fails" 70 any "crates/low was not built" bin/wasm2c word
    export STAND_IN_FAILS=middle
    try "another one" 70 any "libraries that are proved stay so" bin/wasm2c word
    unset STAND_IN_FAILS
    try "what was proved stays so" 0 any " more stay proved)" bin/wasm2c word
    afresh
    export STAND_IN_LINKS=no
    try "a program that cannot be linked" 70 any "wasm2c_cli was not linked" bin/wasm2c word
    unset STAND_IN_LINKS
    afresh
    export STAND_IN_SLEEPS=20
    : >"$work/stopped"
    (cd "$checkout" && exec python3 bin/build wasm2c_cli) 2>"$work/stopped" &
    call=$!
    while ! grep -q running "$work/stopped"; do sleep 0.1; done
    kill $call
    wait $call
    ended=$?
    try "it can be stopped" 0 0 "status 143" echo "status $ended"
    try "and says what stays" 0 0 "stopped, with 0 of 3 crates proved; libraries that are proved stay so" cat "$work/stopped"
    try "nothing is left of it" 0 0 "" rmdir crates/wasm2c_cli/out
    unset STAND_IN_SLEEPS
    export STAND_IN_TOUCHES=$checkout/crates/wasm2c_cli/src/main.rt
    try "a source that is touched meanwhile" 0 any "were touched meanwhile: the next call builds it again" bin/wasm2c word
    unset STAND_IN_TOUCHES
    try "so the next call does" 0 any "so it is proved and built here" bin/wasm2c word
    changed crates/low/src/lib.rt sed 1d
    PATH=$without_kit
fi

if group gate; then
    PATH=$with_kit
    afresh
    try "nothing is kept where nothing is built" 1 1 "keep: nothing is kept: wasm2c_cli, crun_cli, wast_run not built" python3 tools/keep
    try "a gate compares what it built" 0 any "kept program wast_run: the same bytes as built" sh .ci/run
    try "and runs the rows" 0 any "the rows were run" sh .ci/run
    export STAND_IN_CI=3
    try "it ends as rt ci does" 3 any "kept program crun_cli: the same bytes as built" sh .ci/run
    unset STAND_IN_CI
    echo >>"$checkout/crates/crun_cli/out/crun_cli.by-rattle"
    check "other bytes than it built" 1 "kept program crun_cli: NOT the bytes that were built"
    touch "$checkout/crates/low/src/lib.rt"
    check "sources that were touched since" 0 "kept program crun_cli: of these sources; none is built here"
    try "are not kept by what was built before" 1 1 "keep: nothing is kept" python3 tools/keep
    rm -r "$checkout/bin/kept"
    sh "$checkout/.ci/run" >"$work/out" 2>&1
    try "nothing kept, and a gate was here" 0 1 "\`rt ci\` proved and built here of these sources" bin/wasm2c word
    wasm2c "it is there then"
    try "a gate's programs are kept" 0 0 "kept crun_cli: " python3 tools/keep
    for file in wasm2c_cli.xz crun_cli.xz wast_run.xz sums; do
        try "as those of bin/build, byte by byte: $file" 0 0 "" cmp "bin/kept/$file" "$work/kept/$file"
    done
    PATH=$without_kit
fi
exit $status
