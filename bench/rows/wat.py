# Modules of WebAssembly 1.0 as bytes, each number in its shortest spelling, sections without entries left out. It shares
# nothing with the programs.
I32, I64 = 0x7F, 0x7E
TYPES = {"i": I32, "I": I64}


def unsigned(n):
    found = []
    while n >= 128:
        found.append(n % 128 + 128)
        n //= 128
    return bytes(found + [n])


def signed(n):
    count = 1
    while not -(2**(7 * count - 1)) <= n < 2**(7 * count - 1):
        count += 1
    n %= 2**(7 * count)
    return bytes(n // 128**i % 128 + (128 if i < count - 1 else 0) for i in range(count))


def vector(items):
    return unsigned(len(items)) + b"".join(items)


def sized(content):
    return unsigned(len(content)) + content


def name(text):
    return sized(text.encode())


def func_type(params, result):
    """`func_type("iI", "i")` is [i32 i64] -> [i32]."""
    return b"\x60" + vector([bytes([TYPES[p]]) for p in params]) + vector([bytes([TYPES[r]]) for r in result])


def limits(least, most=None):
    return b"\0" + unsigned(least) if most is None else b"\1" + unsigned(least) + unsigned(most)


def body(*code, runs=()):
    """Instructions, and runs of locals as `(2, "i")`."""
    return sized(vector([unsigned(count) + bytes([TYPES[ty]]) for count, ty in runs]) + b"".join(code) + b"\x0B")


def i32(n):
    return b"\x41" + signed(n - 2**32 if n >= 2**31 else n)


def local(index):
    return b"\x20" + unsigned(index)


def call(index):
    return b"\x10" + unsigned(index)


def imported(module, field, kind, what):
    """Of kind 0 a function by its type's index, 2 a memory by its limits, 3 a global by `global_type`."""
    return name(module) + name(field) + bytes([kind]) + what


def global_type(ty, mutable):
    return bytes([TYPES[ty], mutable])


def exported(field, kind, index):
    return name(field) + bytes([kind]) + unsigned(index)


def segment(offset, content):
    return b"\0" + i32(offset) + b"\x0B" + sized(content)


def element(offset, funcs):
    return b"\0" + i32(offset) + b"\x0B" + vector([unsigned(f) for f in funcs])


def module(types=(), imports=(), funcs=(), tables=(), memories=(), globals_=(), exports=(), start=None, elements=(),
           bodies=(), data=()):
    parts = [(1, types), (2, imports), (3, [unsigned(f) for f in funcs]), (4, [b"\x70" + t for t in tables]), (5, memories),
             (6, globals_), (7, exports), (9, elements), (10, bodies), (11, data)]
    sections = [(number, vector(items)) for number, items in parts if items]
    if start is not None:
        sections.append((8, unsigned(start)))
    return b"\0asm\1\0\0\0" + b"".join(bytes([number]) + sized(content) for number, content in sorted(sections))
