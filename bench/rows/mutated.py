#!/usr/bin/env python3
"""mutated.py modules|units COUNT SEED: writes rows like those of the gate with a few bytes or tokens changed, for a comparison
of the program with modules.py or units.py on inputs that nobody chose."""
import random
import re
import sys

import part
import units
from modules import LOADS, NUMERIC, STORES, verdict

CODES = [0x00, 0x02, 0x03, 0x04, 0x05, 0x0b, 0x0c, 0x0d, 0x0e, 0x0f, 0x10, 0x11, 0x1a, 0x1b, 0x20, 0x21, 0x22, 0x23, 0x24, 0x41, 0x42, 0xfc,
         *LOADS, *STORES, *NUMERIC]


def rows(kind):
    return part.rows(kind, part.stored("stdin"))


def mutated_bytes(data):
    data = bytearray(data)
    for _ in range(random.choice((1, 1, 1, 2, 3))):
        # behind magic and version, and mostly in the last section, which has the bodies
        at = random.choice((random.randrange(8, len(data) + 1), random.randrange(len(data) * 2 // 3, len(data) + 1)))
        byte = random.choice((random.randrange(256), random.randrange(4), random.choice(CODES), 0x7f, 0x7e, 0x40, 0x80))
        # sizes hold where bytes are changed in place, so mostly that
        how = random.randrange(10)
        if how == 0 or at == len(data):
            data.insert(at, byte)
        elif how == 1 and len(data) > 1:
            del data[at]
        elif how < 8:
            data[at] = byte
        else:
            data[at] ^= 1 << random.randrange(8)
    return bytes(data)


def modules(count):
    files = [bytes.fromhex(line.split(":", 1)[1]) for line in rows("modules")]
    files = [file for file in files if 12 < len(file) < 400 and not verdict(file).startswith(("malformed", "limit", "float"))]
    for number in range(count):
        yield f"{number}: {mutated_bytes(random.choice(files)).hex(' ')}"


def tokens_of(text):
    reader = units.Reader(text)
    found = []
    while reader.kind != "END":
        found.append(text[reader.place:reader.next])
        reader.look()
    return found


def units_mutated(count):
    texts, front, back = [], "", ""
    for line in rows("units"):
        if line[0] in "<>":
            front, back = (line[1:], back) if line[0] == "<" else (front, line[1:])
        else:
            texts.append(units.plain(front + line + back))
    texts = [tokens_of(text) for text in texts if text.isascii() and len(text) < 4000]
    texts = [tokens for tokens in texts if len(tokens) > 3]
    words = sorted({token for tokens in texts for token in tokens})
    for _ in range(count):
        tokens = list(random.choice(texts))
        for _ in range(random.choice((1, 1, 2))):
            at = random.randrange(1, len(tokens))
            how = random.randrange(4)
            if how == 0:
                tokens.insert(at, random.choice(words))
            elif how == 1:
                del tokens[at]
            elif how == 2:
                tokens[at] = random.choice(words)
            else:
                other = random.randrange(1, len(tokens))
                tokens[at], tokens[other] = tokens[other], tokens[at]
        text = " ".join(tokens)
        text = "".join(c if re.match("[ -~]", c) and c != "\\" else f"\\{ord(c):02x}" for c in text)
        # a line that begins as others do is none
        yield text if text[:1] not in "<># " else f"\\{ord(text[0]):02x}{text[1:]}" if text else "\\"


def main():
    random.seed(int(sys.argv[3]))
    make = {"modules": modules, "units": units_mutated}[sys.argv[1]]
    print("\n".join([f"[{sys.argv[1]}]", *make(int(sys.argv[2]))]))


main()
