#!/usr/bin/env python3
"""Writes what run.sh compiles into the folder that it is in.

modules.py texts: reach.wat, a module with each load and store at four offsets and some functions about traps, accesses.h, the table of
these loads and stores, and operators.wat, a module with a function for each numeric instruction, each load and store, a copy and a fill.
modules.py names: names.c and names.h, a function for each name that a helper has in the units reach.c and operators.c, and for names that
are nearly one, each of which says which length of a memory it is told.
modules.py pairs: pairs.h, which calls all numeric functions of two units of operators.wat on one pair of numbers, and compares.
"""
import os
import re
import sys

sys.path.insert(0, os.path.join(os.path.dirname(os.path.abspath(__file__)), "../wasm2c"))
import modules

OFFSETS = [("", 0), ("_1", 1), ("_page", 65535), ("_most", 4294967295)]
BYTES = {"8": 1, "16": 2, "32": 4}

OTHERS = """
(import "host" "tell" (func $tell (param i32)))
(memory (export "memory") 1 4)
(table (export "table") 3 funcref) (elem (i32.const 0) $one $two)
(global $g (export "g") (mut i32) (i32.const 0)) (global $hidden (mut i32) (i32.const 0))
(type $of_one (func (result i32)))
(func $one (result i32) i32.const 1)
(func $two (param i32) (result i32) i32.const 2)
(func $perhaps (param i32) (if (local.get 0) (then unreachable)))
(func (export "dead") (param i32) (drop (i32.load (local.get 0))))
(func (export "size") (result i32) memory.size)
(func (export "grow") (param i32) (result i32) (memory.grow (local.get 0)))
(func (export "between") (param i32)
  (i32.store (i32.const 0) (i32.const 1)) (global.set $g (i32.const 1)) (global.set $hidden (i32.const 1))
  (drop (i32.load (local.get 0)))
  (i32.store (i32.const 0) (i32.const 2)) (global.set $g (i32.const 2)) (global.set $hidden (i32.const 2)))
(func (export "between_stores") (param i32)
  (i32.store (i32.const 0) (i32.const 1)) (global.set $g (i32.const 1)) (global.set $hidden (i32.const 1))
  (i64.store (local.get 0) (i64.const -1))
  (i32.store (i32.const 0) (i32.const 2)) (global.set $g (i32.const 2)) (global.set $hidden (i32.const 2)))
(func (export "between_fills")
  (memory.fill (i32.const 0) (i32.const 1) (i32.const 64)) (drop (i32.load (i32.const 4000000000)))
  (memory.fill (i32.const 0) (i32.const 2) (i32.const 64)))
(func (export "hidden") (result i32) (global.get $hidden))
(func (export "hide") (param i32) (global.set $hidden (local.get 0)))
(func (export "before_div") (param i32 i32) (result i32) (i32.div_u (i32.load (local.get 0)) (local.get 1)))
(func (export "behind_div") (param i32 i32) (result i32)
  (i32.add (i32.div_s (i32.const 7) (local.get 1)) (i32.load (local.get 0))))
(func (export "before_call") (param i32 i32) (result i32) (i32.load (local.get 0)) (call $perhaps (local.get 1)))
(func (export "behind_call") (param i32 i32) (result i32) (call $perhaps (local.get 1)) (i32.load (local.get 0)))
(func (export "store_before_call") (param i32 i32) (i32.store (local.get 0) (i32.const 9)) (call $perhaps (local.get 1)))
(func (export "store_behind_call") (param i32 i32) (call $perhaps (local.get 1)) (i32.store (local.get 0) (i32.const 9)))
(func (export "tells") (param i32)
  (call $tell (i32.const 1)) (drop (i64.load (local.get 0))) (call $tell (i32.const 2)) (i64.store (local.get 0) (i64.const 0))
  (call $tell (i32.const 3)))
(func (export "write_on") (param i32) (result i32)
  (loop (i32.store8 (local.get 0) (i32.const 119)) (local.set 0 (i32.add (local.get 0) (i32.const 1))) (br_if 0 (local.get 0))) (local.get 0))
(func (export "spin") (param i32 i32) (loop (i32.store (local.get 0) (i32.const 3)) (br_if 0 (local.get 1))))
(func (export "spin_load") (param i32 i32) (loop (drop (i32.load (local.get 0))) (br_if 0 (local.get 1))))
(func (export "copy") (param i32 i32 i32) (memory.copy (local.get 0) (local.get 1) (local.get 2)))
(func (export "fill") (param i32 i32 i32) (memory.fill (local.get 0) (local.get 1) (local.get 2)))
(func (export "indirect") (param i32) (result i32) (call_indirect (type $of_one) (local.get 0)))
(func $deep (export "deep") (param i32) (result i32)
  (if (result i32) (local.get 0)
    (then (i32.add (call $deep (i32.sub (local.get 0) (i32.const 1))) (i32.load (local.get 0))))
    (else (i32.load (i32.const 4000000000)))))
"""


def accesses():
    """Each load and store: its name as an instruction, whether it stores, its number's type, and its width in bytes."""
    for ty in ["i32", "i64"]:
        for width in ["", "8", "16"] + (["32"] if ty == "i64" else []):
            size = BYTES.get(width, int(ty[1:]) // 8)
            for sign in ["_s", "_u"] if width else [""]:
                yield f"{ty}.load{width}{sign}", False, ty, size
            yield f"{ty}.store{width}", True, ty, size


def write(name, text):
    with open(name, "w") as file:
        file.write(text)


def texts():
    functions, rows = [], []
    for suffix, offset in OFFSETS:
        for instruction, stores, ty, size in accesses():
            name = instruction.replace(".", "_") + suffix
            params, values, result = (f"i32 {ty}", "(local.get 0) (local.get 1)", "") if stores else ("i32", "(local.get 0)", f" (result {ty})")
            functions.append(f'(func (export "{name}") (param {params}){result} ({instruction} offset={offset} {values}))')
            fields = [f"w2cZ_reachZ_fZ_{name}" if (stores, ty) == kind else "0" for kind in [(False, "i32"), (False, "i64"), (True, "i32"), (True, "i64")]]
            rows.append(f'    {{"{name}", {size}, {offset}u, {", ".join(fields)}}},')
    write("reach.wat", f"(module {OTHERS}" + "\n".join(functions) + ")\n")
    write("accesses.h", "/* name, width, offset, and the function, as one of four types */\n" + "\n".join(rows) + "\n")
    write("operators.wat", modules.operators())


def helpers():
    """The names of the helpers that the units define."""
    found = set()
    for unit in ["reach.c", "operators.c"]:
        with open(unit) as file:
            found |= set(re.findall(r"^static \w+ (\w+)\([^)]*\) \{$", file.read(), re.M))
    return {name for name in found if not re.fullmatch(r"f\d+", name)}


def nearly(names):
    """What is no helper's name but begins, ends or reads like one."""
    wide = ["i32_load32_s", "i32_load32_u", "i32_store32", "i64_load64_s", "i64_store64", "i32_load64", "f32_load", "f64_store", "load", "store", "f0", "f32", "f64"]
    cut = [name[:k] for name in names for k in range(1, len(name))]
    left_out = [name[:k] + name[k + 1 :] for name in names for k in range(1, len(name))]
    changed = [name[:k] + letter + name[k + 1 :] for name in names for k in range(len(name)) for letter in "xX_"]
    longer = [form for name in names for form in (f"{name}_", f"{name}s", f"{name}8", f"_{name}", f"u0_{name}", f"u15_{name}")]
    return sorted(set(wide + cut + left_out + changed + longer) - set(names))


def names():
    all_helpers = helpers()
    reach = {instruction.replace(".", "_") for instruction, _, _, _ in accesses()}
    if len(all_helpers) != 57 or not reach <= all_helpers:
        sys.exit(f"{len(all_helpers)} helpers: {sorted(all_helpers)}")
    listed = sorted(all_helpers) + nearly(sorted(reach))
    head = '#undef W2C_RT_OPERATORS /* these names are functions here */\n#include "w2c_rt.h"\n#include "names.h"\n'
    functions = "".join(f"static u64 {name}(w2c_mem *m) {{ return w2c_mem_len(m); }}\n" for name in listed)
    rows = "".join(f'    {{"{name}", {int(name in reach)}, {name}}},\n' for name in listed)
    count = f"const unsigned count_named = {len(listed)};\n"
    write("names.c", f"{head}{functions}const struct named all_named[] = {{\n{rows}}};\n{count}")
    write("names.h", "#include \"w2c_rt.h\"\nstruct named { const char *name; int access; u64 (*length)(w2c_mem *); };\nextern const struct named all_named[];\nextern const unsigned count_named;\n")


def pairs():
    lines = []
    for name, (params, result) in modules.signatures("operators.wasm").items():
        if "load" in name or "store" in name or "memory" in name:
            continue
        values = ", ".join(f"({modules.C_TYPES[ty]}){letter}" for ty, letter in zip(params, "xy"))
        lines.append(f"    COMPARE({name}, {'MAY_TRAP' if 'div' in name or 'rem' in name else 'ENDS'}, ({values}))")
    write("pairs.h", "\n".join(lines) + "\n")


{"texts": texts, "names": names, "pairs": pairs}[sys.argv[1]]()
