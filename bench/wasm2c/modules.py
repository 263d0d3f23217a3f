"""The modules that compare.py and ../crun/compare.py translate, calls of them, and what node says of these."""
import os
import random
import re
import subprocess

HERE = os.path.dirname(os.path.abspath(__file__))
EDGES = [0, 1, 2, 3, 7, 8, 31, 32, 33, 63, 64, 65, 65535, 65536, 0x7FFFFFFF, 0x80000000, 0xFFFFFFFE, 0xFFFFFFFF]
WIDE = EDGES + [1 << 32, (1 << 63) - 1, 1 << 63, (1 << 64) - 2, (1 << 64) - 1]
C_TYPES = {"i32": "u32", "i64": "u64"}
SMALL = [[n] for n in (0, 1, 2, 10, 1000)]


def run(*command, **options):
    return subprocess.run(command, check=True, capture_output=True, text=True, **options).stdout


def signatures(module):
    """The types of the exported functions, by name: parameters and result."""
    text = run("wasm-objdump", "-x", module)
    types = [
        ([part for part in params.split(", ") if part], None if result == "nil" else result)
        for params, result in re.findall(r"- type\[\d+\] \((.*?)\) -> (\w+)", text)
    ]
    funcs = {int(index): types[int(ty)] for index, ty in re.findall(r"- func\[(\d+)\] sig=(\d+)", text)}
    return {name: funcs[int(index)] for index, name in re.findall(r'- func\[(\d+)\] <[^>]*> -> "([^"]*)"', text)}


def exported_memory(module):
    """The name that the module exports its memory by, if it does."""
    return next(iter(re.findall(r'- memory\[0\] -> "([^"]*)"', run("wasm-objdump", "-x", module))), None)


def argument(ty):
    if random.random() < 0.7:
        return random.choice(EDGES if ty == "i32" else WIDE)
    return random.getrandbits(32 if ty == "i32" else 64)


def plan(sigs, given):
    """The calls: those that are given by hand, and for each other export some with arguments by chance."""
    calls = []
    for name, (params, _) in sigs.items():
        for args in given.get(name) or [[argument(ty) for ty in params] for _ in range(40 if params else 2)]:
            calls.append((name, args))
    return calls


# With a third word the kind of each trap is told, and behind it and at the end a sum over the memory that is exported, if one is. The sum is
# over words of 32 bits, in the order of a little-endian machine.
NODE = """
const fs = require('fs');
const [module, plan, states] = process.argv.slice(1);
const host = {
    get: x => { console.log('host.get ' + (x >>> 0)); return (x ^ 5) | 0; },
    put: x => { console.log('host.put ' + BigInt.asUintN(64, x)); },
};
const { exports } = new WebAssembly.Instance(new WebAssembly.Module(fs.readFileSync(module)), { host });
const memory = Object.values(exports).find(it => it instanceof WebAssembly.Memory);
function tell() {
    if (!memory) return;
    const words = new Int32Array(memory.buffer);
    let sum = 0x811c9dc5 | 0;
    for (let k = 0; k < words.length; k++) sum = Math.imul(sum ^ words[k], 16777619);
    console.log('memory = ' + memory.buffer.byteLength + ' ' + (sum >>> 0));
}
const kinds = [
    ['unreachable', 'unreachable'], ['memory access', 'memory out of bounds'], ['by zero', 'division by zero'], ['unrepresentable', 'integer overflow'],
    ['table index', 'table out of bounds'], ['signature mismatch', 'empty or another signature'], ['call stack', 'call depth'],
];
for (const { name, params, result, args } of JSON.parse(fs.readFileSync(plan))) {
    const values = args.map((x, i) => params[i] == 'i64' ? BigInt.asIntN(64, BigInt(x)) : Number(BigInt.asIntN(32, BigInt(x))));
    const label = [name, ...args].join(' ') + ' = ';
    try {
        const value = exports[name](...values);
        console.log(label + (result == null ? '-' : result == 'i64' ? BigInt.asUintN(64, value) : value >>> 0));
    } catch (trap) {
        if (!states) console.log(label + 'trap');
        else {
            console.log(label + 'trap ' + (kinds.find(([part]) => trap.message.includes(part)) ?? [0, trap.message])[1]);
            tell();
        }
    }
}
if (states) tell();
"""


def compiled():
    """Compiles compiled.c by clang, and gives its name and the calls that are given by hand."""
    target = ["--target=wasm32", "-mcpu=mvp", "-O2", "-nostdlib", "-fno-builtin", "-Wl,--no-entry"]
    run("clang", *target, os.path.join(HERE, "compiled.c"), "-o", "compiled.wasm")
    return "compiled", {
        "crc": [[1, 1000], [7, 13]],
        "fib": [[n] for n in (0, 1, 2, 20)],
        "sieve": [*SMALL, [70000], [9999999]],
        "sortsum": [[n, 9] for n in (0, 1, 2, 500)],
        "sw": [[n] for n in [*range(12), 0xFFFFFFFF]],
        "apply": [[k, argument("i32"), argument("i32")] for k in (0, 1, 2, 3, 3, 3, 4, 0xFFFFFFFF) for _ in range(3)],
        "grow": [[0], [3], [70000], [0]],
        "deep": [[n] for n in (0, 1, 500)],
        "poke": [[3 * 65536, 0xDEADBEEF], [4 * 65536 - 2, 7], [0xFFFFFFFC, 1]],
    }


def compiled_with_bulk_memory():
    """Compiles bulk.c by clang with sign extension and bulk memory on, and gives its name and the calls that are given by hand."""
    target = ["--target=wasm32", "-mcpu=mvp", "-msign-ext", "-mbulk-memory", "-O2", "-nostdlib", "-Wl,--no-entry"]
    run("clang", *target, os.path.join(HERE, "bulk.c"), "-o", "bulk.wasm")
    return "bulk", {
        "number": [[1], [77]],
        "move": [[0, 1, 2000], [1, 0, 2000], [9, 9, 50], [2499, 0, 2499], [0, 2499, 0], [700, 100, 1]],
        "set": [[0, 1, 0], [5, 0x1FF, 2000], [2499, 128, 2499]],
    }


def assembled():
    """Assembles the module of all operators, and gives its name and no calls by hand."""
    with open("operators.wat", "w") as file:
        file.write(operators())
    run("wat2wasm", "operators.wat", "-o", "operators.wasm")
    return "operators", {}


def operators():
    """A module with a function for each numeric instruction on integers, each load and store, and bytes copied and filled."""
    lines = ['(module (memory (export "memory") 1) (data (i32.const 0) "' + "".join(f"\\{37 * i % 256:02x}" for i in range(64)) + '")']

    def add(name, params, result, *code):
        tell = "".join(f" (param {ty})" for ty in params) + (f" (result {result})" if result else "")
        lines.append(f'(func (export "{name}"){tell} {" ".join(code)})')

    def of(instruction, params, result):
        add(instruction.replace(".", "_"), params, result, *[f"local.get {i}" for i in range(len(params))], instruction)

    for ty in C_TYPES:
        for operator in "clz ctz popcnt".split():
            of(f"{ty}.{operator}", [ty], ty)
        for operator in "add sub mul div_s div_u rem_s rem_u and or xor shl shr_s shr_u rotl rotr".split():
            of(f"{ty}.{operator}", [ty, ty], ty)
        for operator in "eq ne lt_s lt_u gt_s gt_u le_s le_u ge_s ge_u".split():
            of(f"{ty}.{operator}", [ty, ty], "i32")
        of(f"{ty}.eqz", [ty], "i32")
        widths = ["8_s", "8_u", "16_s", "16_u", ""] + (["32_s", "32_u"] if ty == "i64" else [])
        for width in widths:
            add(f"{ty}_load{width}", ["i32"], ty, f"local.get 0 {ty}.load{width} offset=5")
        for width in ["8", "16", ""] + (["32"] if ty == "i64" else []):
            code = f"local.get 0 local.get 1 {ty}.store{width} offset=3 align=1 local.get 0 {ty}.load offset=1"
            add(f"{ty}_store{width}", ["i32", ty], ty, code)
    of("i32.wrap_i64", ["i64"], "i32")
    of("i64.extend_i32_s", ["i32"], "i64")
    of("i64.extend_i32_u", ["i32"], "i64")
    for ty in C_TYPES:
        for width in "8 16 32".split() if ty == "i64" else "8 16".split():
            of(f"{ty}.extend{width}_s", [ty], ty)
    for operator in ["copy", "fill"]:
        code = f"local.get 0 local.get 1 local.get 2 memory.{operator} local.get 0 i32.const 0xfff8 i32.and i64.load"
        add(f"memory_{operator}", ["i32", "i32", "i32"], "i64", code)
    return "\n".join(lines) + ")\n"
