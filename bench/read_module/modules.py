# Writes modules of nearly 8,388,608 bytes: one as compilers write them, which a validator takes, and two that make trees
# as large as any, a row of instructions of a byte and nested blocks; and each of them with its last byte broken, which
# is read to its end and not checked.
import sys

MOST = 8388608
HEAD = b"\0asm\x01\0\0\0"


def number(n):
    low, n = n & 127, n >> 7
    return bytes([low]) if n == 0 else bytes([low | 128]) + number(n)


def section(id, content):
    return bytes([id]) + number(len(content)) + content


def vector(entries):
    return number(len(entries)) + b"".join(entries)


def module(bodies):
    types = section(1, vector([bytes([0x60, 2, 0x7F, 0x7F, 1, 0x7F])]))
    functions = section(3, vector([b"\0"] * len(bodies)))
    memory = section(5, vector([b"\0\x01"]))
    code = section(10, vector([number(len(b)) + b for b in bodies]))
    return HEAD + types + functions + memory + code


# three locals; a loop with a load, a store, arithmetic and a branch out of a block
LOOP = bytes([1, 3, 0x7F]) + bytes([
    0x41, 0x00, 0x21, 0x02, 0x20, 0x01, 0x45, 0x04, 0x40, 0x41, 0x00, 0x0F, 0x0B,
    0x02, 0x40, 0x03, 0x40, 0x20, 0x02, 0x20, 0x01, 0x4F, 0x0D, 0x01,
    0x20, 0x00, 0x20, 0x02, 0x6A, 0x28, 0x02, 0x08, 0x22, 0x03, 0x41, 0x03, 0x6C,
    0x20, 0x03, 0x41, 0x80, 0x80, 0x04, 0x71, 0x73, 0x21, 0x04,
    0x20, 0x00, 0x20, 0x02, 0x6A, 0x20, 0x04, 0x36, 0x02, 0x08,
    0x20, 0x02, 0x41, 0x04, 0x6A, 0x21, 0x02, 0x0C, 0x00, 0x0B, 0x0B,
    0x20, 0x02, 0x41, 0x02, 0x76, 0x20, 0x04, 0x6A, 0x10, 0x00])
LOOP = LOOP[:-2] + b"\x0B"


def most(make, high):
    low = 0
    while low < high:
        middle = (low + high + 1) // 2
        if len(make(middle)) <= MOST:
            low = middle
        else:
            high = middle - 1
    return make(low)


def nested(n):
    return module([b"\0" + (b"\x02\x40" * 500 + b"\x01" + b"\x0B" * 500) * n + b"\x41\x00\x0B"])


files = {
    "loops": most(lambda n: module([LOOP] * n), 99999),
    "small": most(lambda n: module([b"\0" + b"\x01" * n + b"\x41\x00\x0B"]), MOST),
    "nested": most(nested, MOST // 1500),
}
for name, text in files.items():
    with open(sys.argv[1] + "/" + name + ".wasm", "wb") as file:
        file.write(text)
    with open(sys.argv[1] + "/" + name + "_broken.wasm", "wb") as file:
        file.write(text[:-1] + b"\x06")
