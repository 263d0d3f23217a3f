#!/usr/bin/env python3
"""Compares what crun says of units that wasm2c wrote with what node does with their modules.

The modules are those of ../wasm2c/compare.py that need no host: compiled.c and bulk.c by clang, and one with a function for each
numeric instruction, each load and store, a copy and a fill. The calls that do not trap are made in one run of crun, and in one
instance of node; each call that traps is made alone, and crun must end with a trap.

compare.py [WASM2C [CRUN]]: the programs, those of bin/ where they are left out. Needs clang with wasm-ld, node, and Debian's wabt.
"""
import json
import os
import random
import subprocess
import sys
import tempfile

HERE = os.path.dirname(os.path.abspath(__file__))
sys.path.insert(0, os.path.join(HERE, "../wasm2c"))
from modules import NODE, assembled, compiled, compiled_with_bulk_memory, plan, run, signatures  # noqa: E402


def node(module, sigs, calls):
    """What each call gives in one instance: its number, None, or 'trap'."""
    entries = [
        {"name": name, "params": sigs[name][0], "result": sigs[name][1], "args": [str(value) for value in args]} for name, args in calls
    ]
    with open("plan.json", "w") as file:
        json.dump(entries, file)
    said = [line.rsplit(" = ", 1)[1] for line in run("node", "-e", NODE, module, "plan.json").splitlines()]
    return [None if value == "-" else value for value in said]


def crun(program, unit, name, sigs, calls):
    """The status of a run of these calls, and its lines."""
    with open("calls", "w") as file:
        for export, args in calls:
            file.write(" ".join([name, export, *map(str, args)]) + "\n")
    words = [program, "--steps", str(10**10), "--calls", "calls", unit]
    ran = subprocess.run(words, capture_output=True, text=True)
    return ran.returncode, (ran.stdout + ran.stderr).splitlines()


def line(number, result, value):
    return f"call {number} = " + ("none" if value is None else f"{result}:{value}")


def compare(wasm2c, program, name, given):
    module, unit = f"{name}.wasm", f"{name}.c"
    sigs = signatures(module)
    run(wasm2c, module, "-o", unit)
    calls, trapping = plan(sigs, given), []
    while "trap" in (values := node(module, sigs, calls)):
        trapping += [call for call, value in zip(calls, values) if value == "trap"]
        calls = [call for call, value in zip(calls, values) if value != "trap"]
    status, said = crun(program, unit, name, sigs, calls)
    wanted = [line(k + 1, sigs[call[0]][1], value) for k, (call, value) in enumerate(zip(calls, values))]
    differ = [pair for pair in zip(said, wanted) if pair[0] != pair[1]]
    print(f"{name}: {len(calls)} calls that end: {'the same' if said == wanted and status == 0 else f'DIFFERENT {status} {differ[:3]} {said[-1:]}'}")
    wrong = 0
    for call in trapping:
        alone = node(module, sigs, [call])
        status, said = crun(program, unit, name, sigs, [call])
        good = status == 1 and said[0].startswith("call 1 trap") if alone == ["trap"] else status == 0
        wrong += not good
    print(f"    {len(trapping)} calls that trap: {'the same' if wrong == 0 else f'{wrong} DIFFERENT'}")


def main():
    defaults = [os.path.join(HERE, "../../bin", name) for name in ("wasm2c", "crun")]
    words = sys.argv[1:]
    programs = [os.path.abspath(word) for word in [*words, *defaults[len(words) :]]]
    random.seed(1)
    with tempfile.TemporaryDirectory() as work:
        os.chdir(work)
        compare(*programs, *compiled())
        compare(*programs, *compiled_with_bulk_memory())
        compare(*programs, *assembled())


if __name__ == "__main__":
    main()
