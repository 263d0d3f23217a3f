#!/usr/bin/env python3
"""modules.py [FILE]: says of each row of modules what the tables of the binary format and of the typing rules say, without
the product, and of an accepted one its shortest file where the row is not that. It prints what crates/rows/stdout
should hold of them. Written from WebAssembly Core 1.0, chapters 3 and 5, from Core 2.0 for sign extension, memory.copy, memory.fill and the
data count section, and from the limits and causes of this project."""
import sys

from part import rows

MODULE_BYTES, PARAMETERS, RESULTS, NAME_LENGTH, FUNCTIONS = 8388608, 60, 1, 1024, 100000
LOCALS, ALL_LOCALS, BLOCK_DEPTH, MEMORY_PAGES, TABLE_LENGTH = 50000, 1000000, 500, 16384, 1000000
I32, I64 = 'i32', 'i64'
TYPE_CODES = {0x7f: I32, 0x7e: I64}
FLOATS = {0x2a, 0x2b, 0x38, 0x39, 0x43, 0x44, *range(0x5b, 0x67), *range(0x8b, 0xa7), *range(0xa8, 0xac), *range(0xae, 0xc0)}
LOADS = {0x28: (I32, 4), 0x29: (I64, 8), 0x2c: (I32, 1), 0x2d: (I32, 1), 0x2e: (I32, 2), 0x2f: (I32, 2), 0x30: (I64, 1),
         0x31: (I64, 1), 0x32: (I64, 2), 0x33: (I64, 2), 0x34: (I64, 4), 0x35: (I64, 4)}
STORES = {0x36: (I32, 4), 0x37: (I64, 8), 0x3a: (I32, 1), 0x3b: (I32, 2), 0x3c: (I64, 1), 0x3d: (I64, 2), 0x3e: (I64, 4)}
NUMERIC = {0x45: ([I32], I32), 0x50: ([I64], I32), 0xa7: ([I64], I32), 0xac: ([I32], I64), 0xad: ([I32], I64)}
NUMERIC.update({code: ([I32, I32], I32) for code in range(0x46, 0x50)})
NUMERIC.update({code: ([I64, I64], I32) for code in range(0x51, 0x5b)})
NUMERIC.update({code: ([I32], I32) for code in range(0x67, 0x6a)})
NUMERIC.update({code: ([I64], I64) for code in range(0x79, 0x7c)})
NUMERIC.update({code: ([I32, I32], I32) for code in range(0x6a, 0x79)})
NUMERIC.update({code: ([I64, I64], I64) for code in range(0x7c, 0x8b)})
NUMERIC.update({0xc0: ([I32], I32), 0xc1: ([I32], I32), 0xc2: ([I64], I64), 0xc3: ([I64], I64), 0xc4: ([I64], I64)})
ZEROS_BEHIND = {10: 2, 11: 1}
SECTION_ORDER = (1, 2, 3, 4, 5, 6, 7, 8, 9, 12, 10, 11)


class Stop(Exception):
    pass


def malformed(place, cause):
    return Stop(f'malformed at {place}: {cause}')


def limit(place, which):
    return Stop(f'limit at {place}: {which}')


def shortest(value, signed):
    """The shortest LEB128 number."""
    spelled = bytearray()
    while True:
        low, value = value & 0x7f, value >> 7
        if value == 0 and not (signed and low & 0x40) or value == -1 and low & 0x40:
            return spelled + bytes([low])
        spelled.append(low | 0x80)


class Reader:
    """Fields in order; `end` is the end of the innermost window, `file` its content in the shortest spelling so far."""

    def __init__(self, data):
        self.data, self.at, self.end, self.file = data, 0, len(data), bytearray()
        self.functions, self.locals, self.data_count = 0, 0, None

    def byte(self):
        if self.at >= self.end:
            raise malformed(self.at, 'unexpected end')
        self.at += 1
        self.file.append(self.data[self.at - 1])
        return self.data[self.at - 1]

    def number(self, width, signed):
        start, most, value, shift = self.at, -(-width // 7), 0, 0
        for count in range(1, most + 1):
            if self.at >= self.end:
                raise malformed(start, 'unexpected end')
            byte = self.data[self.at]
            self.at += 1
            value |= (byte & 0x7f) << shift
            shift += 7
            if byte < 0x80:
                break
            if count == most:
                raise malformed(start, 'integer too long')
        if signed:
            if value >> (shift - 1) & 1:
                value -= 1 << shift
            if not -(1 << width - 1) <= value < 1 << width - 1:
                raise malformed(start, 'unused bits')
        elif value >= 1 << width:
            raise malformed(start, 'unused bits')
        self.file += shortest(value, signed)
        return value

    def u32(self):
        return self.number(32, False)

    def many(self, entry, most=None):
        return [entry() for _ in range(self.u32())]

    def window(self, read, cause):
        start, outside = self.at, bytes(self.file)
        size = self.u32()
        if size > self.end - self.at:
            raise malformed(start, 'size past end')
        outer, self.end, self.file = self.end, self.at + size, bytearray()
        result = read()
        if self.at != self.end:
            raise malformed(self.at, cause)
        self.end, self.file = outer, bytearray(outside + shortest(len(self.file), False) + self.file)
        return result

    def raw(self, count):
        """So many bytes that any bytes spell."""
        if count > self.end - self.at:
            raise malformed(self.at, 'unexpected end')
        text = self.data[self.at:self.at + count]
        self.at += count
        self.file += text
        return text

    def name(self, most=None):
        start = self.at
        length = self.u32()
        if most is not None and length > most:
            raise limit(start, 'name length')
        text_at = self.at
        text = self.raw(length)
        try:
            text.decode('utf-8')
        except UnicodeDecodeError:
            raise malformed(text_at, 'bad UTF-8')
        return start, text

    def value_type(self):
        start, code = self.at, self.byte()
        if code in (0x7d, 0x7c):
            raise Stop(f'float at {start}')
        if code not in TYPE_CODES:
            raise malformed(start, 'bad type code')
        return TYPE_CODES[code]

    def coded(self, codes, cause):
        start, code = self.at, self.byte()
        if code not in codes:
            raise malformed(start, cause)
        return code

    def placed(self):
        start = self.at
        return start, self.u32()

    def limits(self, most, which):
        flag_at = self.at
        flag = self.coded((0, 1), 'bad limits flag')
        minimum_at = self.at
        minimum = self.u32()
        if minimum > most:
            raise limit(minimum_at, which)
        return flag_at, minimum, self.u32() if flag else None

    def table_type(self):
        self.coded((0x70,), 'bad element type')
        return self.limits(TABLE_LENGTH, 'table length')

    def memory_type(self):
        return self.limits(MEMORY_PAGES, 'memory pages')

    def global_type(self):
        ty = self.value_type()
        return ty, self.coded((0, 1), 'bad mutability') == 1

    def func_type(self):
        self.coded((0x60,), 'bad form')
        return self.types_of(PARAMETERS, 'parameters'), self.types_of(RESULTS, 'results')

    def types_of(self, most, which):
        start, count = self.placed()
        if count > most:
            raise limit(start, which)
        return [self.value_type() for _ in range(count)]

    def imported(self):
        self.name(NAME_LENGTH)
        self.name(NAME_LENGTH)
        kind = self.coded((0, 1, 2, 3), 'bad kind')
        return kind, (self.placed, self.table_type, self.memory_type, self.global_type)[kind]()

    def exported(self):
        name_at, name = self.name(NAME_LENGTH)
        kind = self.coded((0, 1, 2, 3), 'bad kind')
        return name_at, name, kind, self.placed()

    def function_section(self):
        start, count = self.placed()
        if count > FUNCTIONS:
            raise limit(start, 'functions')
        self.functions = count
        return [self.placed() for _ in range(count)]

    def expression(self):
        """The tokens of an expression: (place, code, immediates)."""
        tokens, open_blocks = [], []
        while True:
            start, code = self.at, self.byte()
            if code == 0x0b:
                tokens.append((start, 'end', None))
                if not open_blocks:
                    return tokens
                open_blocks.pop()
            elif code == 0x05:
                if not open_blocks or open_blocks[-1] != 'if':
                    raise malformed(start, 'bad opcode')
                open_blocks[-1] = 'else'
                tokens.append((start, 'else', None))
            elif code in (2, 3, 4):
                if len(open_blocks) == BLOCK_DEPTH:
                    raise limit(start, 'block depth')
                tokens.append((start, code, self.block_type()))
                open_blocks.append('if' if code == 4 else 'block')
            else:
                tokens.append((start, code, self.immediates(start, code)))

    def block_type(self):
        if self.at < self.end and self.data[self.at] == 0x40:
            self.byte()
            return []
        return [self.value_type()]

    def zero_byte(self):
        self.coded((0,), 'zero byte expected')

    def immediates(self, start, code):
        if code in (0x0c, 0x0d, 0x10, 0x20, 0x21, 0x22, 0x23, 0x24):
            return self.u32()
        if code == 0x0e:
            labels = self.many(self.u32)
            return labels + [self.u32()]
        if code == 0x11:
            index = self.u32()
            zero_at = self.at
            if self.u32() != 0:
                raise malformed(zero_at, 'zero byte expected')
            return index
        if code in LOADS or code in STORES:
            alignment = self.u32()
            self.u32()
            return alignment
        if code in (0x3f, 0x40):
            return self.zero_byte()
        if code == 0xfc:
            sub_opcode_at = self.at
            sub_opcode = self.u32()
            if sub_opcode not in ZEROS_BEHIND:
                raise malformed(sub_opcode_at, 'bad opcode')
            for _ in range(ZEROS_BEHIND[sub_opcode]):
                self.zero_byte()
            return None
        if code == 0x41:
            return self.number(32, True)
        if code == 0x42:
            return self.number(64, True)
        if code in (0x00, 0x01, 0x0f, 0x1a, 0x1b) or code in NUMERIC:
            return None
        if code in FLOATS:
            raise Stop(f'float at {start}')
        raise malformed(start, 'bad opcode')

    def body(self):
        return self.window(self.body_content, 'body not used up')

    def body_content(self):
        own, declared = 0, []
        for _ in range(self.u32()):
            start, count = self.placed()
            own += count
            self.locals += count
            if own > LOCALS:
                raise limit(start, 'locals')
            if self.locals > ALL_LOCALS:
                raise limit(start, 'all locals')
            declared.append((count, self.value_type()))
        return declared, self.expression()

    def code_section(self):
        start, count = self.placed()
        if count != self.functions:
            raise malformed(start, 'count differs')
        return [self.body() for _ in range(count)]

    def element(self):
        return self.placed(), self.expression(), self.many(self.placed)

    def data_segment(self):
        index, offset = self.placed(), self.expression()
        self.raw(self.u32())
        return index, offset

    def data_section(self):
        start, count = self.placed()
        if self.data_count is not None and count != self.data_count:
            raise malformed(start, 'count differs')
        return [self.data_segment() for _ in range(count)]

    def data_count_section(self):
        self.data_count = self.u32()
        return self.data_count

    def custom(self):
        self.name()
        self.at = self.end

    def module(self):
        for byte in b'\0asm':
            self.coded((byte,), 'bad magic')
        for byte in b'\1\0\0\0':
            self.coded((byte,), 'bad version')
        module = {number: [] for number in range(1, 13)}
        module[8] = module[12] = None
        readers = {1: lambda: self.many(self.func_type), 2: lambda: self.many(self.imported), 3: self.function_section,
                   4: lambda: self.many(self.table_type), 5: lambda: self.many(self.memory_type),
                   6: lambda: self.many(lambda: (self.global_type(), self.expression())),
                   7: lambda: self.many(self.exported), 8: self.placed, 9: lambda: self.many(self.element),
                   10: self.code_section, 11: self.data_section, 12: self.data_count_section}
        read = []
        while self.at < self.end:
            outside = bytes(self.file)
            start, number = self.at, self.byte()
            if number > 12:
                raise malformed(start, 'bad section id')
            if number != 0 and any(SECTION_ORDER.index(number) <= SECTION_ORDER.index(other) for other in read):
                raise malformed(start, 'section order')
            if number == 11 and 10 not in read and self.functions:
                raise malformed(start, 'count differs')
            if number == 0:
                self.window(self.custom, 'section not used up')
            else:
                read.append(number)
                module[number] = self.window(readers[number], 'section not used up')
            # the shortest file has no custom section, and none without entries
            if number == 0 or module[number] == []:
                self.file = bytearray(outside)
        if 10 not in read and self.functions or 11 not in read and self.data_count:
            raise malformed(self.at, 'count differs')
        return module




class Validator:
    def __init__(self, module):
        self.module, self.types, self.faults = module, module[1], []
        imports = module[2]
        self.imported_globals = [what for kind, what in imports if kind == 3]
        self.globals = self.imported_globals + [ty for ty, _ in module[6]]
        self.functions = [what for kind, what in imports if kind == 0] + module[3]
        self.tables = [what for kind, what in imports if kind == 1] + module[4]
        self.memories = [what for kind, what in imports if kind == 2] + module[5]

    def fault(self, place, cause):
        self.faults.append((place, len(self.faults), cause))

    def verdict(self):
        module = self.module
        for place, index in self.functions:
            if index >= len(self.types):
                self.fault(place, 'unknown type')
        for number, (flag_at, minimum, maximum) in enumerate(self.tables):
            if number > 0:
                self.fault(flag_at, 'too many tables')
            if maximum is not None and minimum > maximum:
                self.fault(flag_at, 'min above max')
        for number, (flag_at, minimum, maximum) in enumerate(self.memories):
            if number > 0:
                self.fault(flag_at, 'too many memories')
            if maximum is not None and minimum > maximum:
                self.fault(flag_at, 'min above max')
            if maximum is not None and maximum > 65536:
                self.fault(flag_at, 'too many pages')
        for (ty, _), tokens in module[6]:
            self.constant(tokens, ty, self.imported_globals)
        names = set()
        spaces = (self.functions, self.tables, self.memories, self.globals)
        for name_at, name, kind, (place, index) in module[7]:
            if name in names:
                self.fault(name_at, 'duplicate export')
            names.add(name)
            if index >= len(spaces[kind]):
                self.fault(place, ('unknown function', 'unknown table', 'unknown memory', 'unknown global')[kind])
        if module[8]:
            place, index = module[8]
            if index >= len(self.functions):
                self.fault(place, 'unknown function')
            elif self.functions[index][1] < len(self.types) and self.types[self.functions[index][1]] != ([], []):
                self.fault(place, 'start type')
        for (place, index), tokens, entries in module[9]:
            if index != 0 or not self.tables:
                self.fault(place, 'unknown table')
            self.constant(tokens, I32, self.globals)
            for entry_at, entry in entries:
                if entry >= len(self.functions):
                    self.fault(entry_at, 'unknown function')
        for (place, index), tokens in module[11]:
            if index != 0 or not self.memories:
                self.fault(place, 'unknown memory')
            self.constant(tokens, I32, self.globals)
        for (_, index), (declared, tokens) in zip(module[3], module[10]):
            if index < len(self.types):
                found = Body(self, self.types[index], declared).first_fault(tokens)
                if found:
                    self.fault(*found)
        if not self.faults:
            return 'accepted'
        place, _, cause = min(self.faults)
        return f'invalid at {place}: {cause}'

    def constant(self, tokens, wanted, known):
        place, code, immediate = tokens[0]
        if len(tokens) != 2 or code not in (0x41, 0x42, 0x23):
            return self.fault(place, 'constant expected')
        if code == 0x23:
            if immediate >= len(known):
                return self.fault(place, 'unknown global')
            ty, mutable = known[immediate]
            if mutable:
                return self.fault(place, 'constant expected')
        else:
            ty = I32 if code == 0x41 else I64
        if ty != wanted:
            self.fault(place, 'type mismatch')


class Wrong(Exception):
    pass


class Body:
    """The algorithm of the standard's appendix on validation."""

    def __init__(self, validator, func_type, declared):
        self.v, (parameters, self.results) = validator, func_type
        self.runs = [(1, ty) for ty in parameters] + declared
        self.operands, self.controls = [], [('block', self.results, 0, False)]

    def local(self, index):
        for count, ty in self.runs:
            if index < count:
                return ty
            index -= count
        raise Wrong('unknown local')

    def pop(self, wanted=None):
        _, _, height, dead = self.controls[-1]
        if len(self.operands) == height:
            if dead:
                return wanted
            raise Wrong('type mismatch')
        found = self.operands.pop()
        if found is None:
            return wanted
        if wanted is not None and found != wanted:
            raise Wrong('type mismatch')
        return found

    def pop_all(self, types):
        for ty in reversed(types):
            self.pop(ty)

    def dead(self):
        kind, results, height, _ = self.controls[-1]
        del self.operands[height:]
        self.controls[-1] = (kind, results, height, True)

    def label(self, index):
        if index >= len(self.controls):
            raise Wrong('unknown label')
        kind, results, _, _ = self.controls[-1 - index]
        return [] if kind == 'loop' else results

    def memory(self, alignment=0, width=1):
        if not self.v.memories:
            raise Wrong('unknown memory')
        if 1 << min(alignment, 40) > width:
            raise Wrong('alignment')

    def close(self):
        kind, results, height, _ = self.controls[-1]
        self.pop_all(results)
        if len(self.operands) != height:
            raise Wrong('type mismatch')
        return self.controls.pop()

    def first_fault(self, tokens):
        for place, code, immediate in tokens:
            try:
                self.token(code, immediate)
            except Wrong as wrong:
                return place, str(wrong)
        return None

    def token(self, code, immediate):
        push = self.operands.append
        if code == 'end':
            kind, results, _, _ = self.controls[-1]
            self.close()
            if kind == 'if' and results:
                raise Wrong('type mismatch')
            self.operands.extend(results)
        elif code == 'else':
            _, results, height, _ = self.close()
            self.controls.append(('else', results, height, False))
        elif code in (2, 3, 4):
            if code == 4:
                self.pop(I32)
            self.controls.append(({2: 'block', 3: 'loop', 4: 'if'}[code], immediate, len(self.operands), False))
        elif code == 0x00:
            self.dead()
        elif code == 0x01:
            pass
        elif code == 0x0c:
            self.pop_all(self.label(immediate))
            self.dead()
        elif code == 0x0d:
            types = self.label(immediate)
            self.pop(I32)
            self.pop_all(types)
            self.operands.extend(types)
        elif code == 0x0e:
            labels = [self.label(index) for index in immediate]
            if any(types != labels[-1] for types in labels):
                raise Wrong('type mismatch')
            self.pop(I32)
            self.pop_all(labels[-1])
            self.dead()
        elif code == 0x0f:
            self.pop_all(self.results)
            self.dead()
        elif code == 0x10:
            if immediate >= len(self.v.functions):
                raise Wrong('unknown function')
            if self.v.functions[immediate][1] >= len(self.v.types):
                raise Wrong('unknown type')
            self.call(self.v.types[self.v.functions[immediate][1]])
        elif code == 0x11:
            if immediate >= len(self.v.types):
                raise Wrong('unknown type')
            if not self.v.tables:
                raise Wrong('unknown table')
            self.pop(I32)
            self.call(self.v.types[immediate])
        elif code == 0x1a:
            self.pop()
        elif code == 0x1b:
            self.pop(I32)
            second = self.pop()
            first = self.pop(second)
            push(first if second is None else second)
        elif code == 0x20:
            push(self.local(immediate))
        elif code == 0x21:
            self.pop(self.local(immediate))
        elif code == 0x22:
            ty = self.local(immediate)
            self.pop(ty)
            push(ty)
        elif code in (0x23, 0x24):
            if immediate >= len(self.v.globals):
                raise Wrong('unknown global')
            ty, mutable = self.v.globals[immediate]
            if code == 0x23:
                push(ty)
            elif not mutable:
                raise Wrong('immutable global')
            else:
                self.pop(ty)
        elif code in LOADS:
            ty, width = LOADS[code]
            self.memory(immediate, width)
            self.pop(I32)
            push(ty)
        elif code in STORES:
            ty, width = STORES[code]
            self.memory(immediate, width)
            self.pop(ty)
            self.pop(I32)
        elif code in (0x3f, 0x40):
            self.memory()
            if code == 0x40:
                self.pop(I32)
            push(I32)
        elif code == 0xfc:
            self.memory()
            self.pop_all([I32, I32, I32])
        elif code in (0x41, 0x42):
            push(I32 if code == 0x41 else I64)
        else:
            operands, result = NUMERIC[code]
            self.pop_all(operands)
            push(result)

    def call(self, func_type):
        parameters, results = func_type
        self.pop_all(parameters)
        self.operands.extend(results)


def verdict(data):
    if len(data) > MODULE_BYTES:
        return f'limit at {MODULE_BYTES}: module bytes'
    reader = Reader(data)
    try:
        said = Validator(reader.module()).verdict()
    except Stop as stop:
        return str(stop)
    if said != 'accepted' or reader.file == data:
        return said
    return f'accepted, written as {reader.file.hex(" ")}'


def main():
    with open(sys.argv[1]) if len(sys.argv) > 1 else sys.stdin as lines:
        for line in rows('modules', lines):
            name, digits = line.split(':', 1)
            print(f'{name}: {verdict(bytes.fromhex(digits))}')


if __name__ == '__main__':
    main()
