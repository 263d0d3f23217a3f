# colliding.py COLLIDE TURNS CRUN ..: what colliding.sh does, in the current folder.
import itertools
import os
import pathlib
import subprocess
import sys

COLLIDE, TURNS, *PROGRAMS = sys.argv[1:]
# As many names fill the places of a table of 2^15 groups (9 of each group), so that names whose places agree in 15 bits all begin at one.
COUNT, BITS, STRIDE = 290000, 15, 104729
UNIT = 67108864
INCLUDE = '#include "w2c_rt.h"\n'
# In a process of its own, since what a process has used before it becomes another program is counted too.
MEASURED = """import os, sys
ran = os.spawnv(os.P_NOWAIT, sys.argv[1], sys.argv[1:])
_, status, used = os.wait4(ran, 0)
print("measured", os.waitstatus_to_exitcode(status), used.ru_utime + used.ru_stime, used.ru_maxrss)"""


def found(kind, seed):
    """Names whose places agree, or as many as there are lines of the file that the same search wrote earlier."""
    kept = pathlib.Path(f"{kind}.names")
    if not kept.exists():
        kept.write_bytes(subprocess.run([COLLIDE, kind, str(BITS), str(COUNT), str(seed)], stdout=subprocess.PIPE, check=True).stdout)
    return kept.read_text().split()


def unit_of_names(names):
    """A unit of UNIT bytes: half of the names are variables of file scope and half are static functions, all are labels of one function, and
    its statements name them over and over, in an order that depends on their number alone. So two units with as many names of as many signs
    differ in nothing but the names."""
    variables, functions = names[0::2], names[1::2]
    parts = [INCLUDE]
    for variable, function in zip(variables, functions):
        parts.append(f"static u32 {variable};\nstatic void {function}(void) {{ return; }}\n")
    parts.append("void w2cZ_uZ_fZ_f(void) {\n")
    tail = "return;\n}\n"
    left = UNIT - sum(map(len, parts)) - len(tail)
    half = len(names) // 2
    for k in itertools.count():
        at, other = k * STRIDE % half, (k * STRIDE + k // half + 1) % half
        text = f"{variables[at]} = {variables[other]};\n{functions[at]}();\n"
        if k < half:
            text += f"{variables[at]}: {functions[at]}: goto {variables[other]};\n"
        if len(text) > left:
            return "".join(parts) + "\n" * left + tail
        parts.append(text)
        left -= len(text)


def unit_of_functions():
    """A unit of nearly UNIT bytes of functions as a translator names them, each with names of its own."""
    parts, left = [INCLUDE], UNIT - len(INCLUDE)
    for k in itertools.count():
        text = f"static u32 f{k}(u32 p0) {{\nu32 i0 = 0u;\nu32 i1 = 0u;\nL0: i0 = p0;\ni1 = {k % 1000}u;\ni0 = (i0 + i1);\nif (i0 < i1) goto L1;\np0 = i0;\nL1: return i0;\n}}\n"
        left -= len(text)
        if left < 0:
            return "".join(parts)
        parts.append(text)


UNITS = {
    "functions": unit_of_functions,
    "names by number": lambda: unit_of_names([f"n{k:06}" for k in range(COUNT)]),
    "names at chance": lambda: unit_of_names([f"n{k * 3575857 % 16777213:06x}" for k in range(COUNT)]),
    "names that fall together under DefaultHasher": lambda: unit_of_names(found("sip", 0)),
    "names that fall together under FoldHasher": lambda: unit_of_names(found("fold", 0)),
}


def measured(program, words):
    """Status, seconds of processor time and the most memory in MB."""
    ran = subprocess.run([sys.executable, "-c", MEASURED, program, *words], capture_output=True, text=True)
    _, status, seconds, memory = ran.stdout.splitlines()[-1].split()
    return int(status), float(seconds), int(memory) / 1024


def main():
    pathlib.Path("none").write_text("")
    best = {}
    for title, make in UNITS.items():
        pathlib.Path("unit.c").write_text(make())
        for _ in range(int(TURNS)):
            for program in PROGRAMS:
                status, seconds, memory = measured(program, ["--steps", "0", "--calls", "none", "unit.c"])
                if status:
                    sys.exit(f"{title}: {program} ended with {status}")
                least = best.get((title, program), (seconds, memory))
                best[title, program] = min(seconds, least[0]), max(memory, least[1])
        shown = "; ".join(f"{best[title, program][0]:.2f} s, {best[title, program][1]:.0f} MB" for program in PROGRAMS)
        print(f"{title}, {os.path.getsize('unit.c')} bytes: {shown}", flush=True)


main()
