# refused.py WASM2C CRUN WAST_RUN LIBRARY [EVERY[,MORE] [WORD]]: what refused.sh does, in the current folder, where compiled.wasm stands. It refuses
# each request whose number is one more than a multiple of EVERY, over that module of MORE, all where these are left out. With WORD only
# the forms are run whose titles have it.
import json
import os
import pathlib
import subprocess
import sys

sys.path.insert(0, str(pathlib.Path(__file__).resolve().parents[1] / "rows"))
from wat import body, call, element, exported, func_type, global_type, i32, imported, limits, local, module, segment, unsigned  # noqa: E402

WASM2C, CRUN, WAST_RUN, LIBRARY = sys.argv[1:5]
EVERY, *MORE = map(int, sys.argv[5].split(",") if len(sys.argv) > 5 else [1])
COMPILED = MORE[0] if MORE else EVERY
WORD = sys.argv[6] if len(sys.argv) > 6 else ""
MOST = 1000000
# What stands in files that a run is to write over.
EARLIER = b"what stood here earlier\n"
WANT = "{}: want of memory\n"
LINKER = bytes.fromhex("0061736D0100000001060160017F017F030201000405017001010105030100020608017F0141808804"
                       "0B070E02066D656D6F72790200016600000A1A011801017F230041106B2201200036020C200128020C20006C0B000B046E616D65010401000166")
# `a` has a memory, a table and a global, asks the host while it starts, and grows; `b` takes a memory, a global and a function of it.
A = module(types=[func_type("", "I"), func_type("i", ""), func_type("", "i"), func_type("i", "i"), func_type("", "")],
           imports=[imported("env", "tick", 0, unsigned(0)), imported("env", "put_i32", 0, unsigned(1))], funcs=[2, 3, 4],
           tables=[limits(3)], memories=[limits(1, 3)], globals_=[global_type("i", 1) + i32(5) + b"\x0B"],
           exports=[exported("mem", 2, 0), exported("g", 3, 0), exported("inc", 0, 2), exported("grow", 0, 3)], start=4,
           elements=[element(1, [2])], data=[segment(70, b"data")],
           bodies=[body(b"\x23\x00", i32(1), b"\x6A\x24\x00\x23\x00"), body(local(0), b"\x40\x00"), body(call(0), b"\xA7", call(1))])
B = module(types=[func_type("", "i"), func_type("", "I")],
           imports=[imported("a", "mem", 2, limits(1)), imported("a", "g", 3, global_type("i", 1)), imported("a", "inc", 0, unsigned(0)),
                    imported("env", "tick", 0, unsigned(1))],
           funcs=[0], exports=[exported("run", 0, 2), exported("again", 0, 0)],
           bodies=[body(i32(0), b"\x23\x00\x36\x02\x00", call(0), i32(0), b"\x28\x02\x00\x6A", call(1), b"\xA7\x6A")])


# A function that traps, one that takes `f` of the module `real`, and one that is not valid.
TRAPPING = module(types=[func_type("", "")], funcs=[0], exports=[exported("t", 0, 0)], bodies=[body(b"\x00")])
TAKING = module(types=[func_type("i", "i")], imports=[imported("real", "f", 0, unsigned(0))], exports=[exported("g", 0, 0)])
NOT_VALID = module(types=[func_type("", "")], funcs=[0], bodies=[body(i32(1))])


def ran(program, words, nth=None):
    """The status and both streams of a run, and whether the request of this number was made."""
    mark = pathlib.Path("mark")
    mark.unlink(missing_ok=True)
    env = {**os.environ}
    if nth is not None:
        env |= {"REFUSE": str(nth), "MARK": "mark", "LD_PRELOAD": LIBRARY}
    done = subprocess.run([program, *words], capture_output=True, env=env)
    return done.returncode, done.stdout, done.stderr.decode(), mark.exists()


def held(files):
    """What each file holds, None where it is not there."""
    return [pathlib.Path(file).read_bytes() if pathlib.Path(file).exists() else None for file in files]


def set_scene(files, earlier):
    """Files hold what they held before a run, or are not there."""
    for file in files:
        pathlib.Path(file).unlink(missing_ok=True)
        if earlier is not None:
            pathlib.Path(file).write_bytes(earlier)


def others(files):
    """What stands beside the files that are written, by name, with its bytes."""
    found = [at for at in pathlib.Path(".").rglob("*") if at.is_file() and str(at) not in [*files, "mark"]]
    return {str(at): at.read_bytes() for at in found}


def may_stand(left, whole, earlier):
    """Some files are whole, the next is as it was or holds a prefix, and those behind it are as they were."""
    k = 0
    while k < len(left) and left[k] == whole[k]:
        k += 1
    return k == len(left) or ((left[k] == earlier or left[k] is not None and whole[k].startswith(left[k])) and all(text == earlier for text in left[k + 1:]))


def in_turn(title, program, name, words, files=(), every=EVERY, earlier=None):
    """Refuses each request of this command line in turn, and says how its runs ended. Before each run the files hold what stood earlier, or are
    not there. Where a file has changed, all that is said on standard output was said before."""
    if WORD not in title:
        return
    set_scene(files, earlier)
    status, out, err, _ = ran(program, words)
    whole, beside = held(files), others(files)
    if None in whole or earlier in whole and files:
        sys.exit(f"{title}: status {status}, {err}")
    ended, as_ever, nothing, part = 0, 0, 0, 0
    for nth in range(1, MOST, every):
        set_scene(files, earlier)
        came, said, line, made = ran(program, words, nth)
        left = held(files)
        changed = any(text != earlier for text in left)
        is_as_ever = (came, said, line, left) == (status, out, err, whole)
        if not made and is_as_ever:
            turn = f"of {ended + as_ever} requests" if every == 1 else f"of some {nth - every} requests one in {every} was refused, {ended + as_ever} in all;"
            print(f"{title}: status {status}; {turn} {ended} ended with 5, {nothing} of these with nothing written and {part} with a file that has changed, "
                  f"and {as_ever} as ever")
            return
        may_end = came == 5 and WANT.format(name).startswith(line) and out.startswith(said) and may_stand(left, whole, earlier) and (said == out or not changed)
        if made and may_end and others(files) == beside:
            ended += 1
            nothing += said == b"" and not changed
            part += changed
        elif made and is_as_ever and others(files) == beside:
            as_ever += 1
        else:
            sys.exit(f"{title}: request {nth} of {words}: status {came}, {said}, {line}, {[text and len(text) for text in left]}")
    sys.exit(f"{title}: too many requests")


def calls(file, *lines):
    pathlib.Path(file).write_text("".join(line + "\n" for line in lines))
    return ["--steps", "100000", "--calls", file]


def call_of(form, name, field, *args, **more):
    return {"type": form, "module": name, "field": field, "args": [{"type": "i32", "value": str(value)} for value in args], **more}


def gives(value):
    return {"expected": [{"type": "i32", "value": str(value)}]}


SCRIPT = {"commands": [
    {"type": "module", "name": "real", "filename": "real.wasm"}, {"type": "module", "name": "taking", "filename": "taking.wasm"},
    {"type": "module", "name": "trapping", "filename": "trapping.wasm"}, {"type": "module", "name": "a", "filename": "a.wasm"},
    call_of("call", "real", "f", 3), call_of("assert_return", "taking", "g", 5, **gives(25)), call_of("assert_return", "real", "f", 5, **gives(24)),
    call_of("assert_return", "real", "none", **gives(0)), call_of("assert_trap", "trapping", "t", text="unreachable"),
    {"type": "assert_invalid", "filename": "invalid.wasm"}, {"type": "assert_malformed", "filename": "one"}, {"type": "assert_malformed", "filename": "real.wasm"}]}


def made(*words):
    """A unit that the forms of crun take."""
    done = subprocess.run([WASM2C, *words], capture_output=True)
    if done.returncode:
        sys.exit(f"{words}: {done.stderr}")


def main():
    for file, holds in {"real.wasm": LINKER, "a.wasm": A, "b.wasm": B, "trapping.wasm": TRAPPING, "taking.wasm": TAKING, "invalid.wasm": NOT_VALID}.items():
        pathlib.Path(file).write_bytes(holds)
    pathlib.Path("out").mkdir(exist_ok=True)
    pathlib.Path("script.json").write_text(json.dumps(SCRIPT))
    one, two, four = calls("one", "real f 5"), calls("two", "compiled fib 5", "compiled crc 1 3"), calls("four", "b run", "a grow 1", "a grow 2", "b again")
    made("real.wasm", "-o", "real.c")
    made("--dir", "out", "a.wasm", "b.wasm")
    made("compiled.wasm", "-o", "compiled.c")
    pair = ["out/a.c", "out/b.c"]
    subprocess.run([CRUN, *four, "--record", "asked", *pair], capture_output=True)
    in_turn("wasm2c, linker module", WASM2C, "wasm2c", ["real.wasm", "-o", "real.c"], ["real.c", "real.h"])
    in_turn("crun, linker module", CRUN, "crun", [*one, "--state", "real.c"])
    in_turn("wasm2c, set of two", WASM2C, "wasm2c", ["--dir", "out", "a.wasm", "b.wasm"], [f"out/{name}" for name in ("a.c", "a.h", "b.c", "b.h")])
    in_turn("crun, set of two with a host", CRUN, "crun", [*four, "--state", *pair])
    for earlier, how in ((None, "a new file"), (EARLIER, "over a file")):
        in_turn(f"crun --record, set of two with a host, {how}", CRUN, "crun", [*four, "--state", "--record", "j", *pair], ["j"], earlier=earlier)
        in_turn(f"crun --replay --record, the same, {how}", CRUN, "crun", [*four, "--replay", "asked", "--record", "j", *pair], ["j"], earlier=earlier)
        in_turn(f"crun --merge, the same, {how}", CRUN, "crun", ["--merge", "m.c", *pair], ["m.c"], earlier=earlier)
        in_turn(f"crun --trim, linker module, {how}", CRUN, "crun", ["--trim", "t.c", "real.c"], ["t.c"], earlier=earlier)
    in_turn("crun --replay, the same with its state", CRUN, "crun", [*four, "--state", "--replay", "asked", *pair])
    in_turn("crun --replay, other calls", CRUN, "crun", [*calls("other", "b again", "b run"), "--replay", "asked", *pair])
    in_turn("crun --replay, refused journal", CRUN, "crun", [*four, "--replay", "one", *pair])
    in_turn("crun --merge, refused unit", CRUN, "crun", ["--merge", "m.c", "out/a.c", "one"])
    in_turn("crun --trim, refused unit", CRUN, "crun", ["--trim", "t.c", "one"])
    in_turn("wast_run, a script of twelve commands", WAST_RUN, "wast_run", ["--steps", "100000", "script.json"])
    in_turn("wast_run, refused script", WAST_RUN, "wast_run", ["--steps", "100000", "one"])
    in_turn("wasm2c, generated module", WASM2C, "wasm2c", ["--gen", "3", "-o", "gen.c"], ["gen.c", "gen.h"])
    in_turn("wasm2c, runtime", WASM2C, "wasm2c", ["--runtime", "out"], ["out/w2c_rt.h", "out/w2c_rt.c"])
    in_turn("wasm2c, refused module", WASM2C, "wasm2c", ["one", "-o", "one.c"])
    in_turn("wasm2c, compiled module", WASM2C, "wasm2c", ["compiled.wasm", "-o", "compiled.c"], ["compiled.c", "compiled.h"], COMPILED)
    in_turn("crun, compiled module", CRUN, "crun", [*two, "compiled.c"], every=COMPILED)
    in_turn("crun --trim, compiled module", CRUN, "crun", ["--trim", "t.c", "compiled.c"], ["t.c"], COMPILED, EARLIER)
    in_turn("crun --merge, compiled module", CRUN, "crun", ["--merge", "m.c", "compiled.c"], ["m.c"], COMPILED, EARLIER)


if __name__ == "__main__":
    main()
