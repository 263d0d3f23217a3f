#!/usr/bin/env python3
"""Trims, merges, records and replays by crun, compares runs before and behind, and times the long ones.

The modules are those of ../wasm2c/compare.py that need no host (compiled.c by clang, and one with a function for each numeric
instruction). Of each: the calls of compare.py that end, on the unit, on the trimmed unit, and, of both units, on the merged one, must
print the same lines and state. So must the two linked modules of examples/linked, on their units and on the merged one. A unit that asks the host `env` is recorded, replayed and recorded again.

Then times are printed: a module of 20,000 functions is translated, and its unit trimmed and, alone, merged; a journal of 64 MiB is
read, by a replayed run that asks once.

forms.py [WASM2C [CRUN]]: the programs, those of bin/ where they are left out. Needs clang with wasm-ld, node, and Debian's wabt.
"""
import os
import random
import resource
import subprocess
import sys
import tempfile

HERE = os.path.dirname(os.path.abspath(__file__))
sys.path[:0] = [HERE, os.path.join(HERE, "../wasm2c")]
from compare import node  # noqa: E402
from modules import assembled, compiled, plan, run, signatures  # noqa: E402

TICKS = """#include "w2c_rt.h"
u64 w2cZ_envZ_fZ_tick(void);
u64 w2cZ_aZ_fZ_tick(void) { u64 r = 0ull; r = w2cZ_envZ_fZ_tick(); return r; }
"""


def said(program, *words):
    ran = subprocess.run([program, *words], capture_output=True, text=True)
    return ran.returncode, ran.stdout, ran.stderr


def calls_that_end(name, given):
    sigs = signatures(f"{name}.wasm")
    calls = plan(sigs, given)
    while "trap" in (values := node(f"{name}.wasm", sigs, calls)):
        calls = [call for call, value in zip(calls, values) if value != "trap"]
    return [" ".join([name, export, *map(str, args)]) for export, args in calls]


def write(name, lines):
    with open(name, "w") as file:
        file.write("".join(line + "\n" for line in lines))


def played(program, calls, *units):
    write("calls", calls)
    return said(program, "--steps", str(10**10), "--calls", "calls", "--state", *units)


def check(what, good):
    print(f"{what}: {'the same' if good else 'DIFFERENT'}")


def timed(what, *words):
    before = resource.getrusage(resource.RUSAGE_CHILDREN)
    ran = subprocess.run(words, capture_output=True, text=True)
    after = resource.getrusage(resource.RUSAGE_CHILDREN)
    seconds = after.ru_utime + after.ru_stime - before.ru_utime - before.ru_stime
    print(f"{what}: status {ran.returncode}, {seconds:.2f} s of processor time {ran.stderr.strip()}")


def without_names(text):
    """The lines of a run without those of the state, whose names are new in a merged unit."""
    return [line for line in text.splitlines() if not line.startswith("state ")]


def main():
    defaults = [os.path.join(HERE, "../../bin", name) for name in ("wasm2c", "crun")]
    words = sys.argv[1:]
    wasm2c, crun = [os.path.abspath(word) for word in [*words, *defaults[len(words) :]]]
    random.seed(1)
    with tempfile.TemporaryDirectory() as work:
        os.chdir(work)
        both, lists = [], []
        for name, given in (compiled(), assembled()):
            run(wasm2c, f"{name}.wasm", "-o", f"{name}.c")
            calls = calls_that_end(name, given)
            first = played(crun, calls, f"{name}.c")
            assert said(crun, "--trim", "less.c", f"{name}.c") == (0, "", "")
            check(f"{name} trimmed, {len(calls)} calls and the state", played(crun, calls, "less.c") == first and first[0] == 0)
            assert said(crun, "--trim", "again.c", "less.c") == (0, "", "")
            check(f"{name} trimmed twice", open("less.c").read() == open("again.c").read())
            both.append(f"{name}.c")
            lists += calls
        first = played(crun, lists, *both)
        assert said(crun, "--merge", "one.c", *both) == (0, "", "")
        one = played(crun, lists, "one.c")
        check(f"both merged, {len(lists)} calls", without_names(one[1]) == without_names(first[1]) and one[0] == first[0] == 0)
        linked = os.path.join(HERE, "../../examples/linked")
        run(wasm2c, "--dir", ".", f"{linked}/bank.wasm", f"{linked}/teller.wasm")
        line = ["--steps", "100000", "--calls", f"{linked}/calls"]
        first = said(crun, *line, "bank.c", "teller.c")
        assert said(crun, "--merge", "one.c", "bank.c", "teller.c") == (0, "", "")
        check("the linked example merged", said(crun, *line, "one.c") == first and first[0] == 0)
        write("a.c", [TICKS])
        write("ticks", ["a tick"] * 1000)
        line = ["--steps", "1000000", "--calls", "ticks"]
        first = said(crun, *line, "--record", "j", "a.c")
        again = said(crun, *line, "--replay", "j", "--record", "k", "a.c")
        check("a recorded run replayed", first == again and first[0] == 0 and open("j").read() == open("k").read())
        run(wasm2c, "--gen", "20000", "-o", "gen.c")
        print(f"gen.c has {sum(1 for _ in open('gen.c'))} lines")
        timed("trimmed", crun, "--trim", "less.c", "gen.c")
        timed("merged", crun, "--merge", "one.c", "gen.c")
        head = "module env\nfunction tick = i64\n"
        entry = "host env tick = i64:18446744073709551615\n"
        with open("long", "w") as file:
            file.write(head + entry * ((67108864 - len(head)) // len(entry)))
        write("ticks", ["a tick"])
        timed(f"a journal of {os.path.getsize('long')} bytes replayed", crun, *line, "--replay", "long", "a.c")


if __name__ == "__main__":
    main()
