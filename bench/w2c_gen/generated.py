# generated.py N...: the files of the generated modules of N functions, byte by byte, in hexadecimal, and how many bytes they
# have. With --run N ARGUMENT it says what a call of `run` gives. It knows nothing of w2c_gen but what a generated module is:
# x(0) = N and x(k+1) = 1664525 x(k) + 1013904223 modulo 2^32; function k of the N of type [i32] -> [i32] is local.get 0,
# i32.const x(k+1), the operator add, sub, mul or xor by the remainder of x(k+1) by 4, and a call of function k-1 where k is no
# multiple of 1000; function N-1 is exported as `run`; each number is spelled in the shortest way.
import sys

OPCODES = {0: 0x6A, 1: 0x6B, 2: 0x6C, 3: 0x73}
WIDTH = 2**32


def numbers(n):
    x, found = n, []
    for _ in range(n):
        x = (1664525 * x + 1013904223) % WIDTH
        found.append(x)
    return found


def unsigned(n):
    bytes_ = [n % 128]
    while n >= 128:
        n //= 128
        bytes_[-1] += 128
        bytes_.append(n % 128)
    return bytes_


def signed(n):
    count = 1
    while not -(2**(7 * count - 1)) <= n < 2**(7 * count - 1):
        count += 1
    n %= 2**(7 * count)
    return [n // 128**i % 128 + (128 if i < count - 1 else 0) for i in range(count)]


def body(x, k):
    code = [0x20, 0x00, 0x41] + signed(x - WIDTH if x >= WIDTH // 2 else x) + [OPCODES[x % 4]]
    if k % 1000 != 0:
        code += [0x10] + unsigned(k - 1)
    content = [0x00] + code + [0x0B]
    return unsigned(len(content)) + content


def section(number, content):
    return [number] + unsigned(len(content)) + content


def generated(n):
    bodies = [byte for k, x in enumerate(numbers(n)) for byte in body(x, k)]
    return (list(b"\0asm\1\0\0\0")
            + section(1, [1, 0x60, 1, 0x7F, 1, 0x7F])
            + section(3, unsigned(n) + [0] * n)
            + section(7, [1, 3] + list(b"run") + [0x00] + unsigned(n - 1))
            + section(10, unsigned(n) + bodies))


def run(n, argument):
    value, found, k = argument, numbers(n), n - 1
    while True:
        x = found[k]
        value = [value + x, value - x, value * x, value ^ x][x % 4] % WIDTH
        if k % 1000 == 0:
            return value
        k -= 1


if sys.argv[1] == "--run":
    print(run(int(sys.argv[2]), int(sys.argv[3])))
else:
    for word in sys.argv[1:]:
        file = generated(int(word))
        print(f"{word}: {len(file)}: " + " ".join(f"{byte:02x}" for byte in file))
