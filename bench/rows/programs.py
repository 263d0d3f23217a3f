# programs.py stdin|stdout FEATURE...: rows of command lines of wasm2c, crun and wast_run, and what must be said of each, for
# crates/program_rows. A row stands where the features that it needs are named: `linked` (crun runs units of any module, one
# or several), `state`, `words` (options in any order), `set` (--dir), `gen`, `wast` (scripts of assertions), `large` (what takes a
# minute or more). What must be said is written here by hand, or computed as the standard has it. The programs have no part in it, but
# for the texts of two units, which are those that crates/rows has.
import json
import subprocess
import sys
import pathlib

import part
import units
from wat import (body, call, element, exported, func_type, global_type, i32, imported, limits, local, module, segment, signed,
                 unsigned)

ROWS = []
HERE = pathlib.Path(__file__).resolve().parent


class Row:
    """A title, what the row needs, its lines and what is said of them."""

    def __init__(self, title, *needs):
        self.needs, self.lines, self.said = set(needs), [f"row {title}"], [f"= {title}"]
        ROWS.append(self)

    def module(self, file, content):
        self.lines.append(f"module {file} " + content.hex(" "))
        return self

    def text(self, file, *lines):
        self.lines += [f"line {file} {line}".rstrip() for line in lines]
        return self

    def fill(self, file, count, byte=0):
        self.lines.append(f"fill {file} {count} {byte:02x}")
        return self

    def watch(self, *files):
        self.lines.append("watch " + " ".join(files))
        return self

    def fail(self, call, nth):
        self.lines.append(f"fail {call} {nth}")
        return self

    def ran(self, program, words, status, out, err):
        self.lines.append(f"{program} {words}".rstrip())
        self.said.append(f"{program}: {status}")
        self.said += [f"out: {line}" for line in out] + [f"err: {line}" for line in err]
        return self

    def wasm2c(self, words, status, *err):
        return self.ran("wasm2c", words, status, [], err)

    def sure(self, file, output, words, status):
        """A run over files without faults, of which one is there."""
        self.lines.append(f"sure {file} {output} {words}")
        self.said.append(f"wasm2c: {status}")
        return self

    def translates(self, file):
        return self.wasm2c(f"{file}.wasm -o {file}.c", 0)

    def crun(self, words, status, *out, steps=100000):
        """A run that says something on its output alone."""
        return self.ran("crun", f"--steps {steps} --calls {words}", status, out, [])

    def refused(self, words, status, err, steps=100000):
        return self.ran("crun", f"--steps {steps} --calls {words}", status, [], [err])

    def trapping(self, words, status, *out):
        self.ran("trapping", f"--steps 100000 --calls {words}", status, out, [])
        self.said = [line.replace("trapping: ", "crun: ") for line in self.said]
        return self

    def turns(self, call, words, *said):
        """What runs say in which a call of this kind fails, the first, then the second and so on; the last ones in which none does."""
        self.lines.append(f"turns {call} {words}")
        self.said += [f"{call}: {line}" for line in said]
        return self

    def session(self, steps, unit, *came):
        """Each symbol with what its call comes to; of the first none is called, it is the init functions."""
        self.lines.append(" ".join(["session", str(steps), unit] + [symbol for symbol, _ in came[1:]]))
        self.said += [f"{symbol}: {said}" for symbol, said in came]
        return self

    def calls(self, unit, status, calls, *out, steps=100000):
        """Calls of a unit, from a file of their own."""
        file = f"calls{sum(line.startswith('crun') for line in self.lines)}"
        return self.text(file, *calls).crun(f"{file} {unit}", status, *out, steps=steps)

    def holds(self, file, *lines):
        self.lines.append(f"say {file}")
        self.said += [f"{file}: {len(lines)} lines"] + [f"| {line}" for line in lines]
        return self

    def none(self, *files):
        for file in files:
            self.lines.append(f"say {file}")
            self.said.append(f"{file}: none")
        return self


def one(params, result, *code, **parts):
    """A module of one function, `f`."""
    return module(types=[func_type(params, result)], funcs=[0], exports=[exported("f", 0, 0)], bodies=[body(*code)], **parts)


# ---- the worked examples

ADD = bytes.fromhex("0061736d0100000001070160027f7f017f03020100070701036164640000" "0a09010700200020016a0b")
TWO = bytes.fromhex("0061736d010000000105016000017f030201000705010166" "00000a0901070041284102" "6a0b")
FRONT = TWO[:26]
ADD_H = ["/* made by wasm2c; int has 32 bits and every character of a name counts */", "#ifndef W2CZ_addZ_H", "#define W2CZ_addZ_H",
         '#include "w2c_rt.h"', "void w2cZ_addZ_i(void);", "u32 w2cZ_addZ_fZ_add(u32, u32);", "#endif"]
TRANSLATED = list(part.part("translations", part.stored("stdout")))


def translated(name):
    """The lines of a unit and of its header, as crates/rows has them from `translate` itself."""
    at = TRANSLATED.index(f"{name}: ") + 1
    end = TRANSLATED.index(ADD_H[0], at)
    return TRANSLATED[at:end], TRANSLATED[end:TRANSLATED.index("#endif", end) + 1]



Row("add two numbers").module("add.wasm", ADD).translates("add").holds("add.h", *ADD_H)
Row("add two numbers, run", "linked").module("add.wasm", ADD).translates("add").calls("add.c", 0, ["add add 4294967295 1"], "call 1 = i32:0")
BY_HAND = ['#include "w2c_rt.h"', "static u32 f0(u32, u32);", "void w2cZ_addZ_i(void) {", ";", "return;", "}",
           "u32 w2cZ_addZ_fZ_add(u32 a, u32 b) {", "u32 r = 0u;", "r = f0(a, b);", "return r;", "}",
           "static u32 f0(u32 l0, u32 l1) {", "u32 i0 = 0u;", "u32 i1 = 0u;", "if (w2c_depth >= 1024u) goto L1;",
           "w2c_depth = (w2c_depth + 1u);", "i0 = l0;", "i1 = l1;", "i0 = (i0 + i1);", "w2c_depth = (w2c_depth - 1u);", "return i0;",
           "L1: w2c_trap(8u);", "}"]
Row("add two numbers by another unit", "linked").text("add.c", *BY_HAND).calls("add.c", 0, ["add add 4294967295 1"], "call 1 = i32:0")
Row("empty module").module("e.wasm", module()).translates("e")
Row("empty module, run", "linked").module("e.wasm", module()).translates("e").fill("none", 0).crun("none e.c", 0)
Row("seven bytes end early").module("seven.wasm", module()[:7]).wasm2c(
    "seven.wasm -o seven.c", 1, "wasm2c: seven.wasm: malformed at 7: unexpected end").none("seven.c", "seven.h")
UNUSED = FRONT + bytes.fromhex("0a0a010800418080808008" "0b")
Row("unused bits of a constant").module("u.wasm", UNUSED).wasm2c("u.wasm -o u.c", 1, "wasm2c: u.wasm: malformed at 32: unused bits")
Row("a constant in five bytes").module("u.wasm", UNUSED[:-2] + b"\x78\x0b").translates("u")
Row("a constant in five bytes, run", "linked").module("u.wasm", UNUSED[:-2] + b"\x78\x0b").translates("u").calls(
    "u.c", 0, ["u f"], "call 1 = i32:2147483648")
Row("a negative constant, run", "linked").module("n.wasm", FRONT + bytes.fromhex("0a0601040041" "7f0b")).translates("n").calls(
    "n.c", 0, ["n f"], "call 1 = i32:4294967295")
for title, code, place in (("a sum of one operand", "0a0701050041286a0b", 33), ("two operands are left", "0a080106004128" "41020b", 35)):
    Row(title).module("s.wasm", FRONT + bytes.fromhex(code)).wasm2c(
        "s.wasm -o s.c", 1, f"wasm2c: s.wasm: invalid at {place}: type mismatch").none("s.c", "s.h")
Row("padded count").module("p.wasm", bytes.fromhex("0061736d0100000001058080808000")).translates("p")
DIVISION = module(types=[func_type("ii", "i")], funcs=[0, 0], exports=[exported("div", 0, 0), exported("rem", 0, 1)],
                  bodies=[body(local(0), local(1), b"\x6D"), body(local(0), local(1), b"\x6F")])
Row("signed division", "linked").module("d.wasm", DIVISION).translates("d").calls(
    "d.c", 1, ["d div 2147483648 4294967295"], "call 1 trap 4 integer overflow").calls(
    "d.c", 0, ["d rem 2147483648 4294967295"], "call 1 = i32:0").calls("d.c", 1, ["d div 1 0"], "call 1 trap 3 division by zero")
BITS = module(types=[func_type("ii", "i"), func_type("i", "i"), func_type("I", "I")], funcs=[0, 0, 1, 2],
              exports=[exported(name, 0, i) for i, name in enumerate(["shl", "rotl", "clz", "popcnt"])],
              bodies=[body(local(0), local(1), b"\x74"), body(local(0), local(1), b"\x77"), body(local(0), b"\x67"), body(local(0), b"\x7B")])
Row("shifts, rotates and counts", "linked").module("b.wasm", BITS).translates("b").calls(
    "b.c", 0, ["b shl 1 32", "b rotl 2147483649 33", "b clz 0", "b popcnt 18446744073709551615"],
    "call 1 = i32:1", "call 2 = i32:3", "call 3 = i32:32", "call 4 = i64:64")
LOADS = module(types=[func_type("i", "i")], funcs=[0, 0], memories=[limits(1)], exports=[exported("near", 0, 0), exported("far", 0, 1)],
               bodies=[body(local(0), b"\x28\x02\x00"), body(local(0), b"\x28\x02" + unsigned(4294967295))])
Row("load at the end", "linked").module("m.wasm", LOADS).translates("m").calls("m.c", 0, ["m near 65532"], "call 1 = i32:0").calls(
    "m.c", 1, ["m near 65533"], "call 1 trap 2 memory out of bounds").calls("m.c", 1, ["m far 1"], "call 1 trap 2 memory out of bounds")
Row("dead code after branch", "linked").module("dead.wasm", one("", "", bytes.fromhex("02400c006a1a0b"))).translates("dead").calls(
    "dead.c", 0, ["dead f"], "call 1 = none")
TABLE = (b"\x02\x7F" * 3 + i32(3) + i32(7) + local(0) + b"\x0E" + unsigned(2) + bytes([0, 1, 2]) + b"\x0B" + i32(1) + b"\x6A\x0B"
         + i32(2) + b"\x6A\x0B")
Row("branch table drops values", "linked").module("t.wasm", one("i", "i", TABLE)).translates("t").calls(
    "t.c", 0, ["t f 0", "t f 1", "t f 4294967295"], "call 1 = i32:10", "call 2 = i32:9", "call 3 = i32:7")
Row("if without else has no result").module("i.wasm", FRONT + bytes.fromhex("0a0b010900410104" "7f41050b0b")).wasm2c(
    "i.wasm -o i.c", 1, "wasm2c: i.wasm: invalid at 37: type mismatch")
INDIRECT = dict(types=[func_type("", "i"), func_type("i", "i")], funcs=[0, 1, 1], tables=[limits(3)], exports=[exported("c", 0, 2)],
                elements=[element(0, [0]), element(2, [1])])
for title, zero in [("indirect calls", b"\0"), ("padded table index", b"\x80\x80\x80\x80\0")]:
    Row(title, "linked").module("c.wasm", module(bodies=[body(i32(4)), body(local(0)), body(local(0), b"\x11\x00" + zero)], **INDIRECT)).translates(
        "c").calls("c.c", 0, ["c c 0"], "call 1 = i32:4").calls("c.c", 1, ["c c 1"], "call 1 trap 6 empty element").calls(
        "c.c", 1, ["c c 2"], "call 1 trap 7 signature differs").calls("c.c", 1, ["c c 3"], "call 1 trap 5 table out of bounds")
DEPTH = one("i", "i", local(0), b"\x45\x04\x7F", i32(0), b"\x05", i32(1), local(0), i32(1), b"\x6B", call(0), b"\x6A\x0B")
Row("depth of 1024", "linked").module("r.wasm", DEPTH).translates("r").calls("r.c", 0, ["r f 1023"], "call 1 = i32:1023").calls(
    "r.c", 1, ["r f 1024"], "call 1 trap 8 call depth")
FLOAT = bytes.fromhex("0061736d010000000105016000017d")
Row("float type").module("f.wasm", FLOAT).wasm2c("f.wasm -o f.c", 1, "wasm2c: f.wasm: float at 14")
ninth = Row("float type in the ninth file", "set")
for i in range(1, 17):
    ninth.module(f"m{i}.wasm", FLOAT if i == 9 else ADD)
ninth.wasm2c("--dir out " + " ".join(f"m{i}.wasm" for i in range(1, 17)), 1, "wasm2c: m9.wasm: float at 14").none(
    *[f"out/m{i}.{kind}" for i in range(1, 17) for kind in "ch"])
A = module(types=[func_type("", "i")], funcs=[0, 0], memories=[limits(1)], globals_=[global_type("i", 1) + i32(5) + b"\x0B"],
           exports=[exported("mem", 2, 0), exported("g", 3, 0), exported("inc", 0, 0), exported("peek", 0, 1)],
           bodies=[body(b"\x23\x00", i32(1), b"\x6A\x24\x00\x23\x00"), body(i32(0), b"\x28\x02\x00")])
B = module(types=[func_type("", "i")], funcs=[0],
           imports=[imported("a", "mem", 2, limits(1)), imported("a", "g", 3, global_type("i", 1)), imported("a", "inc", 0, unsigned(0))],
           exports=[exported("run", 0, 1), exported("again", 0, 0)],
           bodies=[body(i32(0), b"\x23\x00\x36\x02\x00", call(0), i32(0), b"\x28\x02\x00\x6A")])
Row("two linked modules", "linked", "set").module("a.wasm", A).module("b.wasm", B).wasm2c("--dir out a.wasm b.wasm", 0).calls(
    "out/a.c out/b.c", 0, ["b run", "a peek", "b again"], "call 1 = i32:11", "call 2 = i32:5", "call 3 = i32:7")
Row("two linked modules, translated apart", "linked").module("a.wasm", A).module("b.wasm", B).translates("a").translates("b").calls(
    "a.c b.c", 0, ["b run", "a peek", "b again"], "call 1 = i32:11", "call 2 = i32:5", "call 3 = i32:7")
Row("unresolved import", "linked").module("b.wasm", B).translates("b").text("none", "").refused(
    "none b.c", 6, "crun: b.c: undefined w2cZ_aZ_mZ_mem")
LARGER = module(imports=[imported("a", "mem", 2, limits(2))])
Row("a memory that is too small for an import", "linked").module("a.wasm", A).module("b.wasm", LARGER).translates("a").translates("b").calls(
    "a.c b.c", 1, ["a peek"], "init 2 trap 9 import limits")
PAST = module(memories=[limits(1)], data=[segment(0, b"A"), segment(65536, b"\0")])
Row("segment past the end", "linked").module("s.wasm", PAST).translates("s").calls("s.c", 1, [""], "init 1 trap 10 segment out of bounds")
Row("segment past the end, its state", "linked", "state").module("s.wasm", PAST).translates("s").text("none", "").crun(
    "none --state s.c", 1, "init 1 trap 10 segment out of bounds", "state 0 m0 pages 1")
# Many entries of each kind, and bounds of all before any write.
def many(globals_, bytes_, elements, *more):
    """So many globals, data segments of a byte, and elements, each with its number, and data segments behind them."""
    return module(types=[func_type("", "i"), func_type("i", "i")], funcs=[0, 1, 1] + [0] * elements, tables=[limits(elements)],
                  memories=[limits(1)], globals_=[global_type("i", 0) + i32(k) + b"\x0B" for k in range(globals_)],
                  exports=[exported("last", 0, 0), exported("byte", 0, 1), exported("call", 0, 2)],
                  elements=[element(0, range(3, 3 + elements // 2)), element(elements // 2, range(3 + elements // 2, 3 + elements))],
                  bodies=[body(b"\x23" + unsigned(globals_ - 1)), body(local(0), b"\x2D\0\0"), body(local(0), b"\x11\0\0")]
                  + [body(i32(k)) for k in range(elements)],
                  data=[segment(k, bytes([k % 256])) for k in range(bytes_)] + list(more))
for count in (100, 101, 250):
    row = Row(f"{count} globals, segments and elements", "linked").module("p.wasm", many(count, count, count)).translates("p")
    row.calls("p.c", 0, ["p last", f"p byte {count - 1}", f"p byte {count}", f"p call {count - 1}", "p call 0"],
              f"call 1 = i32:{count - 1}", f"call 2 = i32:{count - 1}", "call 3 = i32:0", f"call 4 = i32:{count - 1}", "call 5 = i32:0")
for count in (99, 100, 200):
    row = Row(f"segment past the end behind {count} others, its state", "linked", "state")
    row.module("s.wasm", many(1, count, 4, segment(65536, b"\0"))).translates("s").text("none", "").crun(
        "none --state s.c", 1, "init 1 trap 10 segment out of bounds", "state 0 g0 u32:0", "state 0 m0 pages 1", "state 0 t0 length 4")
GROWTH = module(types=[func_type("i", "i")], funcs=[0], memories=[limits(1, 2)], exports=[exported("grow", 0, 0)],
                bodies=[body(local(0), b"\x40\x00")])
Row("growth", "linked").module("g.wasm", GROWTH).translates("g").calls(
    "g.c", 0, [f"g grow {n}" for n in (0, 2, 1, 0)], "call 1 = i32:1", "call 2 = i32:4294967295", "call 3 = i32:1", "call 4 = i32:2")
NO_MOST = module(types=[func_type("i", "i")], funcs=[0], memories=[limits(1)], exports=[exported("grow", 0, 0)],
                 bodies=[body(local(0), b"\x40\x00")])
Row("growth above what is grown to", "linked").module("g.wasm", NO_MOST).translates("g").calls(
    "g.c", 0, ["g grow 16384"], "call 1 = i32:4294967295")
EXTENDS = module(types=[func_type("i", "i"), func_type("I", "I")], funcs=[0, 1], exports=[exported("byte", 0, 0), exported("word", 0, 1)],
                 bodies=[body(local(0), b"\xC0"), body(local(0), b"\xC4")])
Row("signs extended", "linked").module("x.wasm", EXTENDS).translates("x").calls(
    "x.c", 0, ["x byte 128", "x byte 127", "x word 2147483648", "x word 2147483647"],
    "call 1 = i32:4294967168", "call 2 = i32:127", "call 3 = i64:18446744071562067968", "call 4 = i64:2147483647")
# Bytes 1 to 4 stand at 0. `copy` and `fill` take the three operands in the order of the stack, and give what `load` gives at 0 then.
BYTES = module(types=[func_type("iii", "i"), func_type("iii", "")], funcs=[0, 0, 1], memories=[limits(1)],
               exports=[exported("copy", 0, 0), exported("fill", 0, 1), exported("past", 0, 2)],
               bodies=[body(local(0), local(1), local(2), b"\xFC\x0A\0\0", i32(0), b"\x28\x02\0"),
                       body(local(0), local(1), local(2), b"\xFC\x0B\0", i32(0), b"\x28\x02\0"),
                       body(local(0), local(1), local(2), b"\xFC\x0A\0\0")],
               data=[segment(0, b"\1\2\3\4")])
row = Row("bytes copied onto themselves", "linked").module("b.wasm", BYTES).translates("b")
row.calls("b.c", 0, ["b copy 1 0 3"], "call 1 = i32:50462977").calls("b.c", 0, ["b copy 0 1 3"], "call 1 = i32:67371778")
row.calls("b.c", 0, ["b copy 0 0 65536", "b fill 1 258 2"], "call 1 = i32:67305985", "call 2 = i32:67240449", steps=10**6)
row = Row("bytes copied and filled past the end", "linked", "state").module("b.wasm", BYTES).translates("b")
STATE = ("state 0 m0 pages 1", "state 0 m0 at 0 01020304000000000000000000000000")
for at, size, ends in [(65536, 0, True), (65537, 0, False), (65535, 2, False), (65535, 1, True), (4294967295, 1, False), (0, 4294967295, False)]:
    for name, args in [("fill", f"{at} 0 {size}"), ("past", f"{at} 8 {size}"), ("past", f"8 {at} {size}")]:
        line = ("call 1 = i32:67305985" if name == "fill" else "call 1 = none") if ends else "call 1 trap 2 memory out of bounds"
        file = f"{name}{len(row.lines)}"
        row.text(file, f"b {name} {args}").crun(f"{file} --state b.c", 0 if ends else 1, line, *STATE)
row = Row("bytes filled at the end, its state", "linked", "state").module("b.wasm", BYTES).translates("b")
row.text("one", "b fill 65535 255 1").crun("one --state b.c", 0, "call 1 = i32:67305985", *STATE, "state 0 m0 at 65520 000000000000000000000000000000ff")
FILL = module(types=[func_type("iii", "")], funcs=[0], memories=[limits(1)], exports=[exported("fill", 0, 0)],
              bodies=[body(local(0), local(1), local(2), b"\xFC\x0B\0")])
row = Row("a memory of zeros filled past the end, its state", "linked", "state").module("f.wasm", FILL).translates("f")
for at, size, ends in ((65536, 0, True), (65537, 0, False), (65535, 2, False)):
    row.text(f"at{at}", f"f fill {at} 255 {size}").crun(
        f"at{at} --state f.c", 0 if ends else 1, "call 1 = none" if ends else "call 1 trap 2 memory out of bounds", "state 0 m0 pages 1")
Row("unreachable", "linked").module("t.wasm", one("", "", b"\0")).translates("t").calls("t.c", 1, ["t f"], "call 1 trap 1 unreachable")
NAMES = module(types=[func_type("", "")], funcs=[0], exports=[exported("a b", 0, 0), exported("aZ20b", 0, 0)], bodies=[body()])
Row("escaped names", "linked").module("n.wasm", NAMES).translates("n").holds(
    "n.h", ADD_H[0], "#ifndef W2CZ_nZ_H", "#define W2CZ_nZ_H", '#include "w2c_rt.h"', "void w2cZ_nZ_i(void);",
    "void w2cZ_nZ_fZ_aZ20b(void);", "void w2cZ_nZ_fZ_aZ5A20b(void);", "#endif").calls(
    "n.c", 0, ["n aZ20b", "n aZ5A20b"], "call 1 = none", "call 2 = none").text("bad", "n aZ2").refused("bad n.c", 2, "crun: calls line 1")
Row("endless loop", "linked").module("l.wasm", one("", "", b"\x03\x40\x0C\x00\x0B")).translates("l").calls(
    "l.c", 7, ["l f"], "call 1 out of steps", steps=1000)
DIVIDES = ['#include "w2c_rt.h"', "u32 w2cZ_uZ_fZ_q(u32 x, u32 y) {", "u32 z = 0u;", "z = (x / y);", "return z;", "}"]
Row("division in C", "linked").text("u.c", *DIVIDES).calls("u.c", 0, ["u q 7 2"], "call 1 = i32:3").calls(
    "u.c", 8, ["u q 1 0"], "call 1 undefined 1 unit 0 item 0 statement 1").calls("u.c", 7, ["u q 7 2"], "call 1 out of steps", steps=1).calls(
    "u.c", 0, ["u q 7 2"], "call 1 = i32:3", steps=2)
Row("second file fails").module("add.wasm", ADD).fail("begin", 2).wasm2c("add.wasm -o add.c", 4, "wasm2c: add.h: write fault").none("add.h")
Row("second file of a set fails", "set").module("a.wasm", A).module("b.wasm", B).fail("begin", 2).wasm2c(
    "--dir out a.wasm b.wasm", 4, "wasm2c: out/a.h: write fault").none("out/a.h", "out/b.c", "out/b.h")
REAL = bytes.fromhex("0061736d0100000001060160017f017f03020100040501700101010503010002" "0608017f01418088040b070e02066d656d6f727902000166"
                     "00000a1a011801017f230041106b220120003602" "0c2001280" "20c20006c0b000b046e616d650104010001" "66")
real_c, real_h = [[line.replace("linkedZ", "realZ") for line in lines] for lines in translated("linked")]
Row("linker module").module("real.wasm", REAL).translates("real").holds("real.c", *real_c).holds("real.h", *real_h)
Row("linker module, run", "linked").module("real.wasm", REAL).translates("real").calls("real.c", 0, ["real f 5"], "call 1 = i32:25")
Row("linker module, its state", "linked", "state").module("real.wasm", REAL).translates("real").text("five", "real f 5").crun(
    "five --state real.c", 0, "call 1 = i32:25", "state 0 g0 u32:66560", "state 0 m0 pages 2",
    "state 0 m0 at 66544 00000000000000000000000005000000", "state 0 t0 length 1")


def generated(*words):
    ran = subprocess.run([sys.executable, HERE.parent / "w2c_gen/generated.py", *map(str, words)], capture_output=True, check=True, text=True)
    return ran.stdout.strip()


for n in (1, 2, 1001, 20000):
    size = generated(n).split(":")[1].strip()
    if n < 20000:
        Row(f"generated module of {n}", "gen").wasm2c(f"--gen {n} -o g.c", 0, f"wasm2c: gen {n}: {size} bytes, {n} functions")
    Row(f"generated module of {n}, run", "gen", "linked", *(["large"] if n == 20000 else [])).wasm2c(
        f"--gen {n} -o g.c", 0, f"wasm2c: gen {n}: {size} bytes, {n} functions").calls(
        "g.c", 0, ["gen run 0"], f"call 1 = i32:{generated('--run', n, 0)}")
Row("generated module of another name", "gen").wasm2c("--gen 1 -o g.c -n one", 0, "wasm2c: gen 1: 44 bytes, 1 functions")
MOST_BYTES = 8388608
Row("zeros, as many as a module has bytes").fill("z.wasm", MOST_BYTES).wasm2c("z.wasm -o z.c", 1, "wasm2c: z.wasm: malformed at 1: bad magic")
Row("a byte more than a module has").fill("z.wasm", MOST_BYTES + 1).wasm2c(
    "z.wasm -o z.c", 1, f"wasm2c: z.wasm: limit at {MOST_BYTES}: module bytes").none("z.c", "z.h")
Row("more bytes than a set has", "set").fill("a.wasm", MOST_BYTES).fill("b.wasm", MOST_BYTES).module("two.wasm", TWO).wasm2c(
    "--dir out a.wasm b.wasm two.wasm", 1, "wasm2c: two.wasm: limit at 0: set bytes").none("out/a.c", "out/two.c")
for words in ("--gen 0 -o g.c", "--gen 1 a.wasm -o g.c", "--gen 20001 -o g.c", "--gen 1x -o g.c", "--gen +1 -o g.c", "--gen 000001 -o g.c",
              "--gen 1 -o g.h"):
    Row(f"words `{words}`", "words").module("a.wasm", A).wasm2c(words, 2, "wasm2c: bad command line").none("g.c", "g.h")
for words in ("-o add.c add.wasm", "--gen 00001 -o add.c", "-o add.c -- add.wasm"):
    said = ["wasm2c: gen 1: 44 bytes, 1 functions"] if "gen" in words else []
    Row(f"words `{words}`", "words", "gen").module("add.wasm", ADD).wasm2c(words, 0, *said)
for words in ("a.wasm", "", "a.wasm -o a.c -n", "a.wasm -o a.c -o a.c", "a.wasm -o .c", "a.wasm -o a.h", "-o a.c", "x/ -o a.c", "--runtime",
              "--help"):
    Row(f"words `{words}`").module("a.wasm", A).wasm2c(words, 2, "wasm2c: bad command line").none("a.c", "a.h")
Row("two modules of one name", "set").module("x/a.wasm", A).module("y/a.wasm", A).wasm2c(
    "--dir out x/a.wasm y/a.wasm", 2, "wasm2c: bad command line").none("out/a.c")
Row("a file that is not there").wasm2c("a.wasm -o a.c", 3, "wasm2c: a.wasm: read fault").none("a.c", "a.h")
Row("the name of a module").module("x.y/add.two.wasm", ADD).wasm2c("x.y/add.two.wasm -o add.c", 0).holds(
    "add.h", *[line.replace("addZ", "addZ2EtwoZ", 1) for line in ADD_H])
two_c, two_h = translated("two")
Row("a given name").module("in/1.wasm", TWO).wasm2c("in/1.wasm -o out/1.c -n two", 0).holds("out/1.c", *two_c).holds("out/1.h", *two_h)
Row("a module over files without faults").module("two.wasm", TWO).sure("two.wasm", "two.c", "two.wasm -o two.c", 0).holds("two.c", *two_c)
Row("a name without letters").module("two.wasm", TWO).wasm2c("two.wasm -o two.c -n ''", 2, "wasm2c: bad command line").none("two.c", "two.h")
row = Row("the runtime").wasm2c("--runtime out", 0)
for name in ("w2c_rt.h", "w2c_rt.c"):
    row.holds(f"out/{name}", *(HERE.parents[1] / "examples" / name).read_text().splitlines())
Row("float in C").text("f.c", '#include "w2c_rt.h"', "float x;").text("none", "").refused("none f.c", 6, "crun: f.c: unexpected at 20: wanted item")
LABEL = ['#include "w2c_rt.h"', "u32 w2cZ_uZ_fZ_q(u32 x) {", "goto L9;", "}"]
Row("missing label").text("u.c", *LABEL).text("none", "").refused("none u.c", 6, "crun: u.c: rule 7 item 0 statement 1")
Row("a function of another type", "linked").text("u.c", *DIVIDES).text("v.c", DIVIDES[0], "u32 w2cZ_uZ_fZ_q(u32 x, u64 y);").text(
    "none", "").refused("none u.c v.c", 6, "crun: v.c: type differs w2cZ_uZ_fZ_q")
for title, lines, said in (("breaks a rule", LABEL, "rule 7 item 0 statement 1"),
                           ("does not link", [DIVIDES[0], "u32 w2cZ_g(u32 x);"], "undefined w2cZ_g")):
    Row(f"a unit that {title}, and a line that names no call", "linked").text("u.c", *lines).text("bad", "x").refused(
        "bad u.c", 6, f"crun: u.c: {said}")
Row("500 nested blocks").module("n.wasm", one("", "", b"\x02\x40" * 500 + b"\x0B" * 500)).translates("n")
DEEP = one("", "", b"\x02\x40" * 501 + b"\x0B" * 501)
Row("501 nested blocks").module("n.wasm", DEEP).wasm2c(
    "n.wasm -o n.c", 1, f"wasm2c: n.wasm: limit at {DEEP.index(bytes.fromhex('0240')) + 1000}: block depth")
Row("two constants").module("two.wasm", TWO).translates("two")
Row("two constants, run", "linked").module("two.wasm", TWO).translates("two").calls("two.c", 0, ["two f"], "call 1 = i32:42")
Row("bad calls line", "linked").module("add.wasm", ADD).translates("add").text("calls", "add add 1").refused(
    "calls add.c", 2, "crun: calls line 1")
for lines, number in ((["", "u q 7"], 2), (["u r 7 2"], 1), (["u q 7 2", "u q 7 4294967296"], 2)):
    Row(f"calls `{lines[-1]}`", "linked").text("u.c", *DIVIDES).text("calls", *lines).refused("calls u.c", 2, f"crun: calls line {number}")
# A line of another form, though the function is there.
for text in ("u", "u ", " q 7 2", "u  q 7 2", "u q 7 2 ", " u q 7 2", "Z q 7 2", "u q 7\t2", "u q 7 -2", "u q 7 " + "0" * 20 + "2",
             f"u q 7 {2**64}"):
    Row(f"calls `{text}`", "linked").text("u.c", *DIVIDES).module("calls", text.encode() + b"\n").refused("calls u.c", 2, "crun: calls line 1")
Row("calls whose last line has no end", "linked").text("u.c", *DIVIDES).module("calls", b"\n\nu q 7 00000000000000000002").crun(
    "calls u.c", 0, "call 1 = i32:3")
S2 = ['#include "w2c_rt.h"', "static u32 f0(void);", "void w2cZ_twoZ_i(void) { ; return; }",
      "u32 w2cZ_twoZ_fZ_f(void) { u32 r = 0u; r = f0(); return r; }",
      "static u32 f0(void) { u32 i0 = 0u; u32 i1 = 0u; i0 = 40u; i1 = 2u; i0 = (i0 + i1); return i0; }"]
Row("a unit by hand").text("s2.c", *S2).calls("s2.c", 0, ["two f"], "call 1 = i32:42", steps=8).calls(
    "s2.c", 7, ["two f"], "call 1 out of steps", steps=7).calls("s2.c", 7, ["two f"], "call 1 out of steps", steps=2).calls(
    "s2.c", 7, ["two f"], "init 1 out of steps", steps=1).text("g", "two g").refused("g s2.c", 2, "crun: calls line 1")

# A unit with a variable, a memory, a table and a host's function, and one that calls it.
OBJECTS = ['#include "w2c_rt.h"', "u64 w2cZ_envZ_fZ_tick(void);", "static u32 g0 = 7u;", "static w2c_mem m0;", "static w2c_tab t0;",
           "static u32 f0(u32 x);", "u32 w2cZ_aZ_fZ_half(u32 x) { u32 r = 0u; r = f0(x); return r; }",
           "u64 w2cZ_aZ_fZ_tick(void) { u64 r = 0ull; r = w2cZ_envZ_fZ_tick(); return r; }",
           "void w2cZ_aZ_i(void) {", "w2c_mem_new(&m0, 1u, 1ull);", "w2c_put4(&m0, 32ull, 5u);", "w2c_tab_new(&t0, 2u, 2ull);",
           "w2c_tab_set(&t0, 1ull, (w2c_fn)f0, 13ull);", "g0 = 9u;", "return;", "}",
           "static u32 f0(u32 x) { u32 r = 0u; r = (x / 2u); return r; }"]
HALVES = ['#include "w2c_rt.h"', "u32 w2cZ_aZ_fZ_half(u32 x);",
          "u32 w2cZ_bZ_fZ_over(u32 x, u32 y) { u32 r = 0u; r = w2cZ_aZ_fZ_half(x); r = (r / y); return r; }"]
TICK = "host env tick = i64:1"


def objects(title, *needs):
    return Row(title, "linked", *needs).text("a.c", *OBJECTS).text("b.c", *HALVES)


objects("a unit of objects, its state", "state", "words").text("none", "").ran("crun", "--state --steps=100 --calls=none a.c", 0, [
    "state 0 g0 u32:9", "state 0 m0 pages 1", "state 0 m0 at 32 05000000000000000000000000000000", "state 0 t0 length 2",
    "state 0 t0 at 1 unit 0 f0 13"], [])
objects("two units and a host").calls(
    "a.c b.c", 0, ["a tick", "", "a tick", "b over 9 2"],
    TICK, "call 1 = i64:1", "host env tick = i64:2", "call 2 = i64:2", "call 3 = i32:2").calls(
    "a.c b.c", 8, ["b over 9 0", "a tick"], "call 1 undefined 1 unit 1 item 1 statement 2")
row = objects("a run of two units and a host stops where its steps are spent")
for steps, said in ((5, ["init 1 out of steps"]), (6, ["call 1 out of steps"]), (7, [TICK, "call 1 out of steps"])):
    row.calls("a.c b.c", 7, ["a tick"], *said, steps=steps)
objects("a unit or calls that are not there").refused("none a.c c.c", 3, "crun: c.c: read fault").refused(
    "none a.c", 3, "crun: none: read fault")
for words in ("a.c", "--steps 9 --calls none", "--steps x --calls none a.c", "--calls none a.c", "--steps 9 a.c", "--help"):
    objects(f"words `{words}` of crun", "words").text("none", "").ran("crun", words, 2, [], ["crun: bad command line"])

# ---- faults of the outside: a call fails, the first of its kind, then the second and so on, to a run in which nothing fails

PAIR = ["out/a.c", "out/a.h", "out/b.c", "out/b.h"]


def stands(names, whole, *part):
    """So many files are whole, then these, and the others are not there."""
    states = ["whole"] * whole + list(part)
    states += ["none"] * (len(names) - len(states))
    return "".join(f", {name} {state}" for name, state in zip(names, states))


def line(status, err, names, whole, *part, out="whole"):
    return f"{status} `{err}` out {out}" + stands(names, whole, *part)


def writes(names, part):
    """What is said where a call that writes fails, file by file, and behind them."""
    said = [line(4, f"wasm2c: {name}: write fault", names, k, *part) for k, name in enumerate(names)]
    return said + [line(0, "", names, len(names))]


def pair(title):
    return Row(title, "linked", "set").module("a.wasm", A).module("b.wasm", B)


SET = "wasm2c --dir out a.wasm b.wasm"
pair("a read of a set fails").watch(*PAIR).turns(
    "read", SET, *[line(3, f"wasm2c: {name}.wasm: read fault", PAIR, 0) for name in "ab"], line(0, "", PAIR, 4))
pair("a begin of a set fails").watch(*PAIR).turns("begin", SET, *writes(PAIR, []))
pair("a put of a set fails").watch(*PAIR).turns("put", SET, *writes(PAIR, ["part"]))
pair("a finish of a set fails").watch(*PAIR).turns("finish", SET, *writes(PAIR, ["whole"]))
for state, kind in (("as before", "begin"), ("part", "put"), ("whole", "finish")):
    at = [line(4, f"wasm2c: {name}: write fault", PAIR, k, state, *["as before"] * (3 - k)) for k, name in enumerate(PAIR)]
    held = pair(f"a {kind} of a set fails where files stand")
    for name in PAIR:
        held.text(name, "a text that stood here")
    held.watch(*PAIR).turns(kind, SET, *at, line(0, "", PAIR, 4))
ONE = ["g.c", "g.h"]
SUMMED = "wasm2c: gen 3: " + generated(3).split(":")[1].strip() + " bytes, 3 functions"
Row("a put of a generated module fails", "gen").watch(*ONE).turns(
    "put", "wasm2c --gen 3 -o g.c", *[line(4, f"wasm2c: {name}: write fault", ONE, k, "part") for k, name in enumerate(ONE)],
    line(0, SUMMED, ONE, 2))
Row("a generated module is not summed up", "gen").watch(*ONE).turns(
    "err", "wasm2c --gen 3 -o g.c", line(0, "part", ONE, 2), line(0, SUMMED, ONE, 2))
MOST = "wasm2c: gen 20000: " + generated(20000).split(":")[1].strip() + " bytes, 20000 functions"
Row("a generated module of 20000, twice", "gen", "large").watch(*ONE).turns("read", "wasm2c --gen 20000 -o g.c", line(0, MOST, ONE, 2))
TEXTS = ["out/w2c_rt.h", "out/w2c_rt.c"]
for kind, part in [("begin", []), ("put", ["part"]), ("finish", ["whole"])]:
    Row(f"a {kind} of the runtime fails").watch(*TEXTS).turns(kind, "wasm2c --runtime out", *writes(TEXTS, part))
Row("the line of a refused file is not written").module("seven.wasm", module()[:7]).watch("seven.c", "seven.h").turns(
    "err", "wasm2c seven.wasm -o seven.c", line(1, "part", ["seven.c", "seven.h"], 0),
    line(1, "wasm2c: seven.wasm: malformed at 7: unexpected end", ["seven.c", "seven.h"], 0))
Row("the line of a file that is not there is not written").turns(
    "err", "wasm2c a.wasm -o a.c", "3 `part` out whole", "3 `wasm2c: a.wasm: read fault` out whole")
Row("the line of words without a reading is not written").turns(
    "err", "wasm2c a.wasm", "2 `part` out whole", "2 `wasm2c: bad command line` out whole")
UNITS = ["out/a.c", "out/b.c"]


def kept(status, err, out="whole"):
    return line(status, err, UNITS, 0, "as before", "as before", out=out)


def linked(title, *needs):
    row = Row(title, "linked", "set", *needs).module("a.wasm", A).module("b.wasm", B).wasm2c(SET.split(" ", 1)[1], 0)
    return row.text("three", "b run", "a peek", "b again").watch(*UNITS)


RUN = "crun --steps 100000 --calls three out/a.c out/b.c"
linked("a line of two linked modules is not written").turns("out", RUN, kept(4, "crun: write fault", "part"), kept(0, ""))
linked("a line of the state is not written", "state").turns(
    "out", RUN.replace(" out/a", " --state out/a"), kept(4, "crun: write fault", "part"), kept(0, ""))
linked("a unit or the calls cannot be read").turns(
    "read", RUN, *[kept(3, f"crun: {name}: read fault", "part") for name in UNITS + ["three"]], kept(0, ""))
linked("nothing is written that a run of units could fail at").turns("begin", RUN, kept(0, "")).turns("put", RUN, kept(0, "")).turns(
    "err", RUN, kept(0, ""))
Row("a line of a run that is out of steps is not written", "linked").text("s2.c", *S2).text("two", "two f", "two f").turns(
    "out", "crun --steps 10 --calls two s2.c", "4 `crun: write fault` out part", "7 `` out whole")
Row("a line of a trap is not written", "linked").module("d.wasm", DIVISION).translates("d").text(
    "two", "d rem 7 2", "d div 1 0").watch("d.c").turns(
    "out", "crun --steps 100000 --calls two d.c", "4 `crun: write fault` out part, d.c as before", "1 `` out whole, d.c as before")
Row("a line of what is undefined is not written", "linked").text("u.c", *DIVIDES).text("two", "u q 7 2", "u q 1 0").turns(
    "out", "crun --steps 100000 --calls two u.c", "4 `crun: write fault` out part", "8 `` out whole")
Row("the line of a refused unit is not written", "linked").text("f.c", '#include "w2c_rt.h"', "float x;").text("none", "").turns(
    "err", "crun --steps 9 --calls none f.c", "6 `part` out whole", "6 `crun: f.c: unexpected at 20: wanted item` out whole")
Row("the line of a refused call is not written", "linked").text("u.c", *DIVIDES).text("one", "u q").turns(
    "err", "crun --steps 9 --calls one u.c", "2 `part` out whole", "2 `crun: calls line 1` out whole")
Row("neither stream is written", "linked").text("u.c", *DIVIDES).text("one", "u q 7 2").fail("out", 1).fail("err", 1).turns(
    "put", "crun --steps 9 --calls one u.c", "4 `crun: wri` out whole")

# ---- hosts that trap, and sessions that are over

TICKS = dict(types=[func_type("", "I"), func_type("", "i")], imports=[imported("env", "tick", 0, unsigned(0))])
TWICE = module(funcs=[0], exports=[exported("r", 0, 1)], bodies=[body(call(0), call(0), b"\x7C")], **TICKS)
Row("a host is asked twice", "linked").module("h.wasm", TWICE).translates("h").calls(
    "h.c", 0, ["h r"], "host env tick = i64:1", "host env tick = i64:2", "call 1 = i64:3")
PUTS = module(types=[func_type("i", ""), func_type("", "")], imports=[imported("env", "put_i32", 0, unsigned(0))], funcs=[1],
              exports=[exported("r", 0, 1)], bodies=[body(i32(5), call(0))])
Row("a host is given a number", "linked").module("h.wasm", PUTS).translates("h").calls(
    "h.c", 0, ["h r"], "host env put_i32 i32:5 = none", "call 1 = none")
Row("a host that traps second", "linked").module("h.wasm", TWICE).translates("h").text("one", "h r").trapping(
    "one h.c", 1, "host env tick = i64:1", "host env tick = trap", "call 1 trap 11 host trap")
Row("a host traps in the second call, and no call comes behind it", "linked").module(
    "h.wasm", module(funcs=[0], exports=[exported("r", 0, 1)], bodies=[body(call(0))], **TICKS)).translates("h").text(
    "three", "h r", "h r", "h r").trapping(
    "three h.c", 1, "host env tick = i64:1", "call 1 = i64:1", "host env tick = trap", "call 2 trap 11 host trap")
Row("a host traps while a module starts", "linked").module("h.wasm", module(
    types=[func_type("", "I"), func_type("", "")], imports=[imported("env", "tick", 0, unsigned(0))], funcs=[1], start=1,
    bodies=[body(call(0), call(0), b"\x1A\x1A")])).translates("h").text("none", "").trapping(
    "none h.c", 1, "host env tick = i64:1", "host env tick = trap", "init 1 trap 11 host trap")
Row("a line of a host that traps is not written", "linked").module("h.wasm", TWICE).translates("h").text("one", "h r").watch("h.c").turns(
    "out", "trapping --steps 100000 --calls one h.c", "4 `crun: write fault` out part, h.c as before", "1 `` out whole, h.c as before")
# g0 counts the calls of f, from 5 on.
COUNTS = b"\x23\x00" + i32(1) + b"\x6A\x24\x00\x23\x00"
FROM_5 = dict(globals_=[global_type("i", 1) + i32(5) + b"\x0B"])
F, R = "w2cZ_sZ_fZ_f", "w2cZ_sZ_fZ_r"
Row("a session whose init function was trapped is over", "linked").module("s.wasm", module(
    types=[func_type("", "i")], funcs=[0], memories=[limits(1)], exports=[exported("f", 0, 0)], bodies=[body(COUNTS)],
    data=[segment(0, b"A"), segment(65536, b"\0")], **FROM_5)).translates("s").session(
    100000, "s.c", ("init", "trap 10 segment out of bounds; g0 5, asks 0"),
    *[(F, "over, trap 10 segment out of bounds; g0 5, asks 0")] * 2)
Row("a session whose host has trapped is over", "linked").module("s.wasm", module(
    funcs=[1, 0], exports=[exported("f", 0, 1), exported("r", 0, 2)], bodies=[body(COUNTS), body(call(0), call(0), b"\x7C")],
    **TICKS, **FROM_5)).translates("s").session(
    100000, "s.c", ("init", "ended; g0 5, asks 0"), (F, "i32:6; g0 6, asks 0"), (R, "trap 11 host trap; g0 6, asks 2"),
    (F, "over, trap 11 host trap; g0 6, asks 2"), (R, "over, trap 11 host trap; g0 6, asks 2"))
Row("a session that is out of steps is over", "linked").module("s.wasm", module(
    types=[func_type("", "i"), func_type("", "")], funcs=[0, 1], exports=[exported("f", 0, 0), exported("r", 0, 1)],
    bodies=[body(COUNTS), body(b"\x03\x40\x0C\x00\x0B")], **FROM_5)).translates("s").session(
    1000, "s.c", ("init", "ended; g0 5, asks 0"), (F, "i32:6; g0 6, asks 0"), (R, "out of steps; g0 6, asks 0"),
    (F, "over, out of steps; g0 6, asks 0"))
Row("a session in which something was undefined is over", "linked").text(
    "s.c", '#include "w2c_rt.h"', "static u32 g0 = 5u;", f"u32 {F}(void) {{ g0 = (g0 + 1u); return g0; }}",
    f"u32 {R}(void) {{ g0 = (g0 / 0u); return g0; }}").session(
    1000, "s.c", ("init", "ended; g0 5, asks 0"), (F, "i32:6; g0 6, asks 0"), (R, "undefined 1; g0 6, asks 0"),
    (F, "over, undefined 1; g0 6, asks 0"))

# ---- units that are merged and trimmed

MERGED = ['#include "w2c_rt.h"', "u32 w2cZ_uZ_fZ_q(u32 u0_x, u32 u0_y) {", "u32 u0_z = 0u;", "u0_z = (u0_x / u0_y);", "return u0_z;", "}"]
MERGE = "--merge m.c out/a.c out/b.c"
linked("two linked modules merged").ran("crun", MERGE, 0, [], []).crun(
    "three m.c", 0, "call 1 = i32:11", "call 2 = i32:5", "call 3 = i32:7")
Row("a unit merged alone", "linked").text("u.c", *DIVIDES).ran("crun", "--merge m.c u.c", 0, [], []).holds("m.c", *MERGED).calls(
    "m.c", 8, ["u q 1 0"], "call 1 undefined 1 unit 0 item 0 statement 1")
Row("a merged unit with an import", "linked").module("b.wasm", B).translates("b").ran(
    "crun", "--merge m.c b.c", 6, [], ["crun: b.c: undefined w2cZ_aZ_mZ_mem"]).none("m.c")
Row("a unit merged with itself", "linked").text("u.c", *DIVIDES).ran(
    "crun", "--merge m.c u.c u.c", 6, [], ["crun: u.c: twice w2cZ_uZ_fZ_q"]).none("m.c")
Row("a merged unit that breaks a rule", "linked").text("u.c", *DIVIDES).text("l.c", *LABEL).ran(
    "crun", "--merge m.c u.c l.c", 6, [], ["crun: l.c: rule 7 item 0 statement 1"]).none("m.c")
Row("a merged unit that is not there", "linked").text("u.c", *DIVIDES).ran(
    "crun", "--merge m.c u.c n.c", 3, [], ["crun: n.c: read fault"]).none("m.c")
Row("a merged unit with an import of a host", "linked").module("h.wasm", TWICE).translates("h").ran(
    "crun", "--merge m.c h.c", 0, [], []).calls("m.c", 0, ["h r"], "host env tick = i64:1", "host env tick = i64:2", "call 1 = i64:3")
Row("a function that nothing needs", "linked").text("u.c", DIVIDES[0], "static u32 h(u32 a) { return a; }", *DIVIDES[1:]).calls(
    "u.c", 8, ["u q 1 0"], "call 1 undefined 1 unit 0 item 1 statement 1").ran("crun", "--trim t.c u.c", 0, [], []).holds(
    "t.c", *DIVIDES).calls("t.c", 8, ["u q 1 0"], "call 1 undefined 1 unit 0 item 0 statement 1")
Row("functions that need each other alone", "linked").text(
    "u.c", DIVIDES[0], "static u32 g(u32 n);", "static u32 h(u32 n);", "static u32 h(u32 n) { u32 r = 0u; r = g(n); return r; }",
    "static u32 g(u32 n) { u32 r = 0u; r = h(n); return r; }", *DIVIDES[1:]).ran("crun", "--trim t.c u.c", 0, [], []).holds("t.c", *DIVIDES)
ELEMENT = ['#include "w2c_rt.h"', "static w2c_tab t0;", "static u32 h(void) {", "return 1u;", "}", "void w2cZ_aZ_i(void) {",
           "w2c_tab_new(& t0, 2u, 2ull);", "w2c_tab_set(& t0, 1ull, (w2c_fn) h, 4ull);", "return;", "}"]
Row("a function in a table", "linked").text("u.c", *ELEMENT).ran("crun", "--trim t.c u.c", 0, [], []).holds("t.c", *ELEMENT)
# Its table holds two functions; each function of the unit is needed.
row = Row("indirect calls of a trimmed unit", "linked").module(
    "c.wasm", module(bodies=[body(i32(4)), body(local(0)), body(local(0), b"\x11\x00\x00")], **INDIRECT)).translates("c")
row.watch("c.c").turns("err", "crun --trim c.c c.c", "0 `` out whole, c.c as before")
row.ran("crun", "--trim t.c c.c", 0, [], []).calls("t.c", 0, ["c c 0"], "call 1 = i32:4")
for place, said in ((1, "6 empty element"), (2, "7 signature differs"), (3, "5 table out of bounds")):
    row.calls("t.c", 1, [f"c c {place}"], f"call 1 trap {said}")
Row("a trimmed unit that is refused", "linked").text("f.c", '#include "w2c_rt.h"', "float x;").ran(
    "crun", "--trim t.c f.c", 6, [], ["crun: f.c: unexpected at 20: wanted item"]).ran(
    "crun", "--trim t.c n.c", 3, [], ["crun: n.c: read fault"]).none("t.c")


def written(row, words, file, *held):
    """What is said where a write of the file that crun writes fails. The files that are held are watched, too."""
    row.watch(file)
    before = "out whole, " + "".join(f"{name} as before, " for name in held) + file
    for kind, part in (("begin", "none"), ("put", "part"), ("finish", "whole")):
        row.turns(kind, words, f"4 `crun: write fault` {before} {part}", f"0 `` {before} whole")


written(linked("a merged unit is not written"), "crun " + MERGE, "m.c", *UNITS)
written(Row("a trimmed unit is not written", "linked").text("u.c", *DIVIDES), "crun --trim t.c u.c", "t.c")
for words in ("--merge m.c", "--merge", "--trim m.c", "--trim m.c u.c u.c", "--merge m.c u.c --state", "--merge m.c u.c --record j",
              "--trim m.c u.c --replay j", "--trim m.c --merge m.c u.c", "--merge m.c --steps 9 --calls none u.c", "--merge m.h u.c",
              "--merge .c u.c", "--trim t u.c", "--merge m.c --merge m.c u.c"):
    Row(f"words `{words}`", "words", "linked").text("u.c", *DIVIDES).text("none", "").ran(
        "crun", words, 2, [], ["crun: bad command line"]).none("m.c", "j")

# ---- runs that are recorded and replayed

ASKS = ["host env tick = i64:1", "host env tick = i64:2"]
JOURNAL = ["module env", "function put_i32 i32 = none", "function put_i64 i64 = none", "function tick = i64", *ASKS]
TRAPPED = [ASKS[0], "host env tick = trap", "call 1 trap 11 host trap"]


def asks(title):
    return Row(title, "linked").module("h.wasm", TWICE).translates("h").text("one", "h r")


asks("a run is recorded and replayed").crun("one --record j h.c", 0, *ASKS, "call 1 = i64:3").holds("j", *JOURNAL).crun(
    "one --replay j h.c", 0, *ASKS, "call 1 = i64:3").crun("one --replay j --record k h.c", 0, *ASKS, "call 1 = i64:3").holds("k", *JOURNAL)
asks("another reply is replayed").text("j", *JOURNAL[:5], "host env tick = i64:5").crun(
    "one --replay j h.c", 0, ASKS[0], "host env tick = i64:5", "call 1 = i64:6")
asks("a reply is missing").text("j", *JOURNAL[:5]).crun("one --replay j --record k h.c", 1, *TRAPPED).holds("k", *JOURNAL[:5], TRAPPED[1])
asks("a journal of no modules").text("none", "").fill("j", 0).refused("none --replay j h.c", 6, "crun: h.c: undefined w2cZ_envZ_fZ_tick")
for number, lines in ((7, [*JOURNAL, "module env"]), (1, JOURNAL[1:]), (5, [*JOURNAL[:4], JOURNAL[3]]), (5, [*JOURNAL[:4], "host env tock = i64:1"]),
                      (5, [*JOURNAL[:4], "host env tick = i32:1"]), (5, [*JOURNAL[:4], "host env tick 1 = i64:1"]), (5, [*JOURNAL[:4], "host env tick = i64:01"]),
                      (4, [*JOURNAL[:3], "function tick  = i64"]), (2, [JOURNAL[0], ""])):
    asks(f"a journal whose line {number} is refused: {lines[number - 1]}").text("j", *lines).refused(
        "one --replay j h.c", 2, f"crun: journal line {number}").none("k")
asks("a journal that is not there").refused("one --replay j h.c", 3, "crun: j: read fault")
asks("a run that is refused is not recorded").text("bad", "h").refused("bad --record j h.c", 2, "crun: calls line 1").none("j")
asks("a run that is out of steps is recorded").crun("one --record j h.c", 7, "init 1 out of steps", steps=0).holds("j", *JOURNAL[:4])
written(asks("a journal is not written").watch("h.c"), "crun --steps 100000 --calls one --record j h.c", "j", "h.c")
asks("a line of a recorded run is not written").watch("h.c", "j").turns(
    "out", "crun --steps 100000 --calls one --record j h.c", "4 `crun: write fault` out part, h.c as before, j none",
    "0 `` out whole, h.c as before, j whole")
for words in ("--record j --record k", "--replay j --replay j", "--record", "--replay"):
    asks(f"words `{words}`").text("j", *JOURNAL).refused(f"one h.c {words}", 2, "crun: bad command line").none("k")

# ---- scripts of assertions


def value(ty, number):
    return {"type": ty, "value": str(number)}


def script(row, *commands):
    return row.text("s.json", json.dumps({"commands": commands}))


def of_module(name, file=None):
    return {"type": "module", "name": name, "filename": file or f"{name}.wasm"}


def of_call(kind, module_, field, *args, **more):
    return {"type": kind, "module": module_, "field": field, "args": list(args), **more}


def reported(row, status, *words, steps=100000):
    """The report has these words."""
    out = [f"command {k} {word}" for k, word in enumerate(words, 1)] + [f"total {len(words)} ok {words.count('ok')}"]
    return row.ran("wast_run", f"--steps {steps} s.json", status, out, [])


ENDLESS = module(types=[func_type("", "")], funcs=[0], exports=[exported("l", 0, 0)], bodies=[body(b"\x03\x40\x0C\x00\x0B")])
NO_ELSE = FRONT + bytes.fromhex("0a0b010900410104" "7f41050b0b")
row = Row("an assertion on a sum", "wast").module("add.wasm", ADD)
reported(script(row, of_module("add"), of_call(
    "assert_return", "add", "add", value("i32", 4294967295), value("i32", 1), expected=[value("i32", 0)])), 0, "ok", "ok")
row = Row("assertions of each kind", "wast").module("d.wasm", DIVISION).module("l.wasm", ENDLESS).module("seven.wasm", module()[:7])
row.module("i.wasm", NO_ELSE).module("f.wasm", FLOAT)
reported(script(
    row, of_module("d"), of_module("l"),
    of_call("assert_trap", "d", "div", value("i32", 2147483648), value("i32", 4294967295), text="integer overflow"),
    {"type": "assert_malformed", "filename": "seven.wasm"}, {"type": "assert_invalid", "filename": "i.wasm"},
    {"type": "assert_invalid", "filename": "f.wasm"}, of_call("assert_trap", "l", "l", text="unreachable")),
    1, "ok", "ok", "ok", "ok", "ok", "failed", "out of steps", steps=1000)
row = Row("a module that is joined too soon", "wast").module("a.wasm", A).module("b.wasm", B)
reported(script(row, of_module("b"), of_module("a"), of_module("b"), of_call("call", "b", "again"), of_call(
    "assert_return", "a", "peek", expected=[value("i32", 0)])), 1, "unlinked", "ok", "ok", "ok", "ok")
row = Row("calls that are kept, and assertions that are not", "wast").module("a.wasm", A)
counts = [of_call("assert_return", "a", "inc", expected=[value("i32", n)]) for n in (6, 6, 7, 7)]
reported(script(row, of_module("a"), counts[0], counts[1], of_call("call", "a", "inc"), counts[2], counts[3], counts[0]),
         1, "ok", "ok", "ok", "ok", "ok", "ok", "failed")
row = Row("calls that do not fit", "wast").module("a.wasm", A)
reported(script(row, of_module("a"), of_call("call", "a", "inc", value("i32", 1)), of_call("call", "a", "g"), of_call("call", "b", "inc"),
                of_call("assert_return", "a", "none", expected=[]), of_call("assert_trap", "a", "mem", text="unreachable")),
         1, "ok", *["no such call"] * 5)
row = Row("arguments of another type, and too few", "wast").module("add.wasm", ADD)
reported(script(row, of_module("add"), of_call("call", "add", "add", value("i64", 1), value("i32", 1)), of_call(
    "call", "add", "add", value("i32", 1))), 1, "ok", "no such call", "no such call")
RETYPES = module(types=[func_type("", "")], imports=[imported("a", "inc", 0, unsigned(0))], exports=[exported("inc", 0, 0)])
row = Row("an import of the module itself, and one of another type", "wast").module("a.wasm", A).module("r.wasm", RETYPES)
reported(script(row, of_module("a", "r.wasm"), of_module("a"), of_module("b", "r.wasm")), 1, "unlinked", "ok", "unlinked")
row = Row("values that differ", "wast").module("add.wasm", ADD)
two = (value("i32", 1), value("i32", 1))
reported(script(row, of_module("add"), *[of_call("assert_return", "add", "add", *two, expected=it) for it in (
    [value("i32", 2)], [value("i32", 3)], [value("i64", 2)], [])], of_call("assert_trap", "add", "add", *two, text="unreachable")),
    1, "ok", "ok", "failed", "failed", "failed", "failed")
row = Row("traps that differ, and a trap in a call that is kept", "wast").module("d.wasm", DIVISION)
zero = (value("i32", 1), value("i32", 0))
reported(script(row, of_module("d"), of_call("assert_trap", "d", "div", *zero, text="division by zero"), of_call(
    "assert_trap", "d", "div", *zero, text="integer overflow"), of_call("assert_return", "d", "div", *zero, expected=[]), of_call(
    "call", "d", "div", *zero), of_call("assert_trap", "d", "div", *zero, text="division by zero"), of_call(
    "assert_return", "d", "rem", *two, expected=[value("i32", 0)])), 1, "ok", "ok", "failed", "failed", "ok", "failed", "failed")
NUMBERS = module(types=[func_type("ii", "i")], funcs=[0, 0], exports=[exported("add", 0, 0), exported("div", 0, 1)],
                 bodies=[body(local(0), local(1), b"\x6A"), body(local(0), local(1), b"\x6E")])
most, seven = (value("i32", 2**32 - 1), value("i32", 2)), (value("i32", 7), value("i32", 2))
nothing = (value("i32", 7), value("i32", 0))
is_1 = of_call("assert_return", "n", "add", *most, expected=[value("i32", 1)])
row = Row("sums and quotients behind each other", "wast").module("n.wasm", NUMBERS)
reported(script(row, of_module("n"), of_call("call", "n", "div", *seven), is_1, of_call("call", "n", "add", *most), of_call(
    "assert_return", "n", "div", *seven, expected=[value("i32", 3)]), of_call("assert_trap", "n", "div", *nothing, text="division by zero"),
    of_call("call", "n", "div", *nothing), is_1), 1, *["ok"] * 7, "failed", steps=1000)
row = Row("an assertion that is out of steps behind a call that is kept", "wast").module("n.wasm", NUMBERS)
reported(script(row, of_module("n"), of_call("call", "n", "add", *most), is_1), 1, "ok", "ok", "out of steps", steps=1)
row = Row("a module that traps while it starts", "wast").module("s.wasm", PAST).module("add.wasm", ADD)
reported(script(row, of_module("add"), of_module("s"), of_call("assert_return", "add", "add", *two, expected=[value("i32", 2)]), of_call(
    "assert_trap", "add", "add", *two, text="segment out of bounds")), 1, "ok", "ok", "failed", "failed")
row = Row("a module that is refused, a name that is taken, and seventeen modules", "wast").module("add.wasm", ADD).module("f.wasm", FLOAT)
row.module("i.wasm", NO_ELSE)
reported(script(row, of_module("f"), of_module("i"), of_module("add"), of_module("add"), *[of_module(f"m{i}", "add.wasm") for i in range(16)]),
         1, "refused", "refused", "ok", "unlinked", *["ok"] * 15, "unlinked")
row = Row("verdicts on files", "wast").module("add.wasm", ADD).module("i.wasm", NO_ELSE).module("f.wasm", FLOAT).module("seven.wasm", module()[:7])
reported(script(row, *[{"type": kind, "filename": file} for kind in ("assert_invalid", "assert_malformed") for file in (
    "add.wasm", "i.wasm", "f.wasm", "seven.wasm")]), 1, "failed", "ok", "failed", "failed", "failed", "failed", "failed", "ok")
row = Row("a file of a command that is not there", "wast").module("add.wasm", ADD)
script(row, of_module("add"), {"type": "assert_invalid", "filename": "none.wasm"}, of_module("add")).ran(
    "wast_run", "--steps 9 s.json", 3, ["command 1 ok"], ["wast_run: none.wasm: read fault"])
Row("a script that is not there", "wast").ran("wast_run", "--steps 9 s.json", 3, [], ["wast_run: s.json: read fault"])
reported(script(Row("a script without commands", "wast")), 0)
ONE_MODULE = '{"type":"module","name":"m","filename":"m.wasm"}'
for text, said in (("{", "script is not JSON"), ("", "script is not JSON"), ("[]", "no commands"), ("{}", "no commands"),
                   ('{"commands":{}}', "no commands"), ('{"commands":[3]}', "no commands"), ('{"commands":[{"type":"module"}]}', "command 1"),
                   (f'{{"commands":[{ONE_MODULE},{{"type":"assert_return"}}]}}', "command 2"),
                   ('{"commands":[{"type":"module","name":"m","filename":1}]}', "command 1"),
                   ('{"commands":[{"type":"call","module":"m","field":"f","args":[{"type":"i32","value":"4294967296"}]}]}', "command 1"),
                   ('{"commands":[{"type":"call","module":"m","field":"f","args":[{"type":"f32","value":"1"}]}]}', "command 1"),
                   ('{"commands":[{"type":"assert_trap","module":"m","field":"f","args":[],"text":"trap"}]}', "command 1"),
                   ('{"commands":[{"type":"assert_return","module":"m","field":"f","args":[],"expected":[1]}]}', "command 1"),
                   ('{"commands":[{"type":"other"}]}', "command 1")):
    Row(f"script `{text}`", "wast").text("s.json", text).ran("wast_run", "--steps 9 s.json", 2, [], [f"wast_run: {said}"])
for size in (1048576, 1048577):
    row = Row(f"a script of {size} bytes", "wast").text("s.json", '{"commands":[]}').fill("s.json", size - 16, 32)
    row.ran("wast_run", "--steps 9 s.json", *[0, ["total 0 ok 0"], []] if size == 1048576 else [2, [], ["wast_run: script too long"]])
for count in (10000, 10001):
    row = script(Row(f"a script of {count} commands", "wast"), *[{"type": "assert_malformed", "filename": "f"}] * count).module("f", b"")
    if count == 10000:
        reported(row, 0, *["ok"] * count)
    else:
        row.ran("wast_run", "--steps 9 s.json", 2, [], ["wast_run: no commands"])
for size in (0, 1024, 1025):
    row = script(Row(f"a module's name of {size} bytes in a script", "wast"), of_module("n" * size, "add.wasm")).module("add.wasm", ADD)
    reported(row, 0, "ok") if size == 1024 else row.ran("wast_run", "--steps 9 s.json", 2, [], ["wast_run: command 1"])
for digits in ("", "0" * 19 + "1", "0" * 20 + "1"):
    row = script(Row(f"a value of {len(digits)} digits", "wast"), of_module("add"), of_call(
        "assert_return", "add", "add", value("i32", digits), value("i32", 1), expected=[value("i32", 2)])).module("add.wasm", ADD)
    reported(row, 0, "ok", "ok") if len(digits) == 20 else row.ran("wast_run", "--steps 9 s.json", 2, [], ["wast_run: command 2"])
for words in ("", "s.json", "--steps 9", "--steps x s.json", "--steps 9 s.json s.json", f"--steps {2**64} s.json", "--steps 9 --steps 9 s.json"):
    Row(f"words `{words}` of wast_run", "wast").text("s.json", '{"commands":[]}').ran("wast_run", words, 2, [], ["wast_run: bad command line"])
row = Row("a line of a report is not written", "wast").module("add.wasm", ADD)
script(row, of_module("add"), of_module("add")).watch("s.json").turns(
    "out", "wast_run --steps 9 s.json", "4 `wast_run: write fault` out part, s.json as before", "1 `` out whole, s.json as before")
row = Row("a script or a file of a command cannot be read", "wast").module("add.wasm", ADD)
script(row, of_module("add"), of_module("add")).watch("s.json").turns(
    "read", "wast_run --steps 9 s.json", *[f"3 `wast_run: {name}: read fault` out part, s.json as before" for name in ("s.json", "add.wasm")],
    "1 `` out whole, s.json as before")

# ---- each cut of a module and of a unit

COUNT_DIFFERS, UNEXPECTED, WHOLE = [20, 27, 32, 42, 58], [9, 17, 21, 28, 33, 43, 59, 87], [8, 16, 86, 99]


def cut_module(size):
    """What is said of the first bytes of the linker module: its sections end at 16, 20, 27, 32, 42, 58, 86 and 99."""
    if size in WHOLE:
        return None
    if size in COUNT_DIFFERS:
        return f"malformed at {size}: count differs"
    if size < 8 or size in UNEXPECTED:
        return f"malformed at {size}: unexpected end"
    return f"malformed at {max(n for n in UNEXPECTED if n < size)}: size past end"


cuts = Row("each cut of the linker module")
for size in range(len(REAL) + 1):
    fault = cut_module(size)
    cuts.module(f"r{size}.wasm", REAL[:size]).wasm2c(f"r{size}.wasm -o r{size}.c", 1 if fault else 0,
                                                     *[f"wasm2c: r{size}.wasm: {fault}"] if fault else [])
    if fault:
        cuts.none(f"r{size}.c", f"r{size}.h")
TEXT = "".join(text + "\n" for text in DIVIDES)
cuts = Row("each cut of a unit", "linked").text("none", "")
for size in range(len(TEXT) + 1):
    said = units.verdict(TEXT[:size])
    cuts.module(f"u{size}.c", TEXT[:size].encode())
    if said == "accepted":
        cuts.crun(f"none u{size}.c", 0)
    else:
        cuts.refused(f"none u{size}.c", 6, f"crun: u{size}.c: {said}")

# ---- limits, on both sides

# Those of sizes of megabytes are in ../hostile/extreme.py, over real files.
CALLS = 1048576
for count in (16, 17):
    files = [f"m{i}.wasm" for i in range(1, count + 1)]
    row = Row(f"a set of {count} modules", "set")
    for file in files:
        row.module(file, ADD)
    row.wasm2c("--dir out " + " ".join(files), *[0] if count == 16 else [2, "wasm2c: bad command line"])
    units_ = [file.replace("wasm", "c") for file in files]
    row = Row(f"a run of {count} units", "linked").text("none", "")
    for file in units_:
        row.text(file, '#include "w2c_rt.h"')
    if count == 16:
        row.crun("none " + " ".join(units_), 0)
    else:
        row.refused("none " + " ".join(units_), 2, "crun: bad command line")
    row = Row(f"{count} units merged", "words", "linked")
    for file in units_:
        row.text(file, '#include "w2c_rt.h"')
    row.ran("crun", "--merge=o.c " + " ".join(units_), *[0, [], []] if count == 16 else [2, [], ["crun: bad command line"]])
for count in (1024, 1025):
    row = Row(f"a module's name of {count} bytes", "words").module("a.wasm", ADD)
    row.wasm2c("a.wasm -o a.c -n " + "n" * count, *[0] if count == 1024 else [2, "wasm2c: bad command line"])
for more in (0, 1):
    row = Row(f"a calls file of {CALLS + more} bytes", "linked").text("u.c", *DIVIDES).fill("calls", CALLS + more, 10)
    if more:
        row.refused("calls u.c", 2, "crun: calls file too long")
    else:
        row.crun("calls u.c", 0)
for steps, fine in (("0", True), (str(2**64 - 1), True), (str(2**64), False), ("0" * 19 + "9", True), ("0" * 20 + "9", False), ("", False),
                    ("+9", False), ("9x", False)):
    row = Row(f"steps `{steps}`", "linked").text("none", "").text("u.c", *DIVIDES)
    words = f"--steps={steps} --calls none u.c"
    row.ran("crun", words, 0 if fine else 2, [], [] if fine else ["crun: bad command line"])
for arg, fine in ((str(2**32 - 1), True), (str(2**32), False), ("0" * 10 + str(2**32 - 1), True), ("0" * 11 + str(2**32 - 1), False),
                  ("+1", False), ("1x", False)):
    row = Row(f"an argument `{arg}`", "linked").text("u.c", *DIVIDES).text("one", f"u q {arg} 1")
    if fine:
        row.crun("one u.c", 0, f"call 1 = i32:{int(arg)}")
    else:
        row.refused("one u.c", 2, "crun: calls line 1")
for count in (99, 100):
    row = Row(f"x inside {count} parentheses", "linked").text("none", "").text(
        "u.c", *DIVIDES[:3], "z = " + "(" * count + "x" + " + x)" * count + ";", *DIVIDES[4:])
    if count == 99:
        row.crun("none u.c", 0)
    else:
        row.refused("none u.c", 6, "crun: u.c: too deep at 169")
SIXTY = module(types=[func_type("i" * 60, "i")], funcs=[0], exports=[exported("f", 0, 0)], bodies=[body(local(59))])
Row("a call with 60 arguments", "linked").module("p.wasm", SIXTY).translates("p").calls(
    "p.c", 0, ["p f " + " ".join(str(i) for i in range(60))], "call 1 = i32:59")
LOCALS = module(types=[func_type("", "i")], funcs=[0], exports=[exported("f", 0, 0)],
                bodies=[body(i32(7), b"\x21" + unsigned(49999), local(49999), local(0), b"\x6A", runs=[(50000, "i")])])
Row("a function of 50,000 locals, run", "linked", "large").module("l.wasm", LOCALS).translates("l").calls("l.c", 0, ["l f"], "call 1 = i32:7")
WIDE = module(types=[func_type("i", "i")], funcs=[0], tables=[limits(1000000)], exports=[exported("f", 0, 0)],
              bodies=[body(i32(0), local(0), b"\x11\x00\x00")], elements=[element(999999, [0])])
for place, said in ((999998, "trap 6 empty element"), (1000000, "trap 5 table out of bounds"), (999999, "trap 6 empty element")):
    calls_ = [f"t f {place}"]
    # Element 999,999 is f itself, which calls element 0 with index 0.
    Row(f"element {place} of 1,000,000", "linked").module("t.wasm", WIDE).translates("t").calls("t.c", 1, calls_, "call 1 " + said)

# ---- what is said

if __name__ == "__main__":
    features = set(sys.argv[2:])
    for row in ROWS:
        if row.needs <= features:
            print("\n".join(row.lines if sys.argv[1] == "stdin" else row.said))
