#!/usr/bin/env python3
"""units.py [FILE]: says of each row of units what the grammar and the rules of the C subset say, without the product. It
prints what crates/rows/stdout should hold of them. Written from the tables of the grammar and of the rules, not from the code."""
import re
import sys

from part import rows

sys.setrecursionlimit(100000)
INCLUDE = '#include "w2c_rt.h"\n'
KEY_WORDS = set('static const void u8 u32 u64 w2c_mem w2c_tab w2c_fn goto if switch case default return'.split())
OTHER_WORDS = set('''auto break char continue do double else enum extern float for inline int long register restrict short
    signed sizeof struct typedef union unsigned volatile while _Alignas _Alignof _Atomic _Bool _Complex _Generic _Imaginary
    _Noreturn _Static_assert _Thread_local'''.split())
SIGNS = ['<<', '>>', '==', '!=', '<=', '>=', *'(){}[];,:=*&+-/%|^<>']
COMPARISONS = {'==', '!=', '<', '<=', '>', '>='}
OPERATORS = ['+', '-', '*', '/', '%', '&', '|', '^', '<<', '>>', *COMPARISONS]
GRAMMAR = {
    'unit': ['INCLUDE items END'],
    'items': ['', 'item items'],
    'item': ['static inner', 'type NAME ( function'],
    'inner': ['const u8 NAME [ PLAIN ] = { BYTE more } ;', 'type NAME rest'],
    'more': [', BYTE more', ''],
    'rest': [';', '= number ;', '( function'],
    'type': ['void', 'u32 star', 'u64 star', 'w2c_mem star', 'w2c_tab star', 'w2c_fn'],
    'star': ['*', ''],
    'function': ['parameters ) close'],
    'parameters': ['type pname ptail'],
    'pname': ['NAME', ''],
    'ptail': [', type pname ptail', ''],
    'close': [';', '{ body }'],
    'body': ['declaration body', 'statements'],
    'declaration': ['type NAME = number ;'],
    'statements': ['', 'statement statements'],
    'statement': [';', 'NAME after', '* NAME = expr ;', '( * through ;', 'goto NAME ;',
                  'if ( expr operator expr ) goto NAME ;', 'switch ( expr ) { cases }', 'return result ;'],
    'after': [':', '= right ;', '( arguments ) ;'],
    'right': ['NAME rname', 'number', '& NAME', '( rgroup'],
    'rname': ['[ expr ]', '( arguments )', ''],
    'rgroup': ['* rstar', 'w2c_fn ) NAME', 'u32 ) expr', 'u64 ) expr', 'expr operator expr )'],
    'rstar': ['NAME )', 'through'],
    'through': ['( type ( * ) ( types ) ) NAME ) ( arguments )'],
    'types': ['type ttail'],
    'ttail': [', type ttail', ''],
    'arguments': ['', 'argument atail'],
    'atail': [', argument atail', ''],
    'argument': ['& NAME', '( agroup', 'NAME index', 'number'],
    'agroup': ['w2c_fn ) NAME', 'u32 ) expr', 'u64 ) expr', '* NAME )', 'expr operator expr )'],
    'result': ['', 'argument'],
    'cases': ['case number : goto NAME ; cases', 'default : goto NAME ;'],
    'expr': ['NAME index', 'number', '( group'],
    'index': ['[ expr ]', ''],
    'group': ['u32 ) expr', 'u64 ) expr', '* NAME )', 'expr operator expr )'],
    'operator': OPERATORS,
    'number': ['PLAIN', 'N32', 'N64'],
}
GRAMMAR = {part: [expansion.split() for expansion in expansions] for part, expansions in GRAMMAR.items()}
TYPE_WORDS = {'void', 'u32', 'u64', 'w2c_mem', 'w2c_tab', 'w2c_fn'}
# the first of two expansions stands at these tokens, the other one everywhere else
AT = {'items': {'END'}, 'statements': {'}'}, 'arguments': {')'}, 'result': {';'}, 'body': TYPE_WORDS}
NAMED = {'NAME': 'name', 'PLAIN': 'plain number', 'BYTE': 'plain number', 'INCLUDE': 'include line', 'END': 'end'}
EXPRESSIONS = {'expr', 'argument', 'right'}


class Fault(Exception):
    pass


def firsts(expansion):
    front = expansion[0] if expansion else None
    if front is None:
        return set()
    if front not in GRAMMAR:
        return {'PLAIN' if front == 'BYTE' else front}
    return set().union(*(firsts(inner) for inner in GRAMMAR[front]))


class Reader:
    def __init__(self, text):
        self.text, self.next = text, 0
        self.look()

    def look(self):
        """The next token: its kind, its place and its text."""
        text, at = self.text, self.next
        while at < len(text):
            if text[at] in ' \t\n\r\v\f':
                at += 1
            elif text.startswith('/*', at):
                end = text.find('*/', at + 2)
                inner = text[at + 2:end]
                if end < 0 or re.search(r'[^\n -~]|[\\?]', inner):
                    break
                at = end + 2
            else:
                break
        self.place = at
        self.kind, self.word = self.token_at(at)
        self.next = at + len(self.word)

    def token_at(self, at):
        text = self.text
        if at == len(text):
            return 'END', ''
        if text.startswith(INCLUDE, at):
            return 'INCLUDE', INCLUDE
        word = re.compile('[A-Za-z0-9_]+').match(text, at)
        if word:
            word = word.group()
            if word[0].isdigit():
                number = re.fullmatch('(0|[1-9][0-9]*)(u|ull)?', word)
                return ({None: 'PLAIN', 'u': 'N32', 'ull': 'N64'}[number.group(2)] if number else 'WRONG'), word
            if word in OTHER_WORDS:
                return 'WRONG', word
            return (word if word in KEY_WORDS else 'NAME'), word
        if not text.startswith('/*', at):
            for sign in SIGNS:
                if text.startswith(sign, at):
                    return sign, sign
        return 'WRONG', text[at]

    def select(self, part):
        expansions = GRAMMAR[part]
        if len(expansions) == 1:
            return expansions[0]
        if part in AT:
            return expansions[0 if self.kind in AT[part] else 1]
        for expansion in expansions:
            if self.kind in firsts(expansion):
                return expansion
        if [] in expansions:
            return []
        raise Fault(f'unexpected at {self.place}: wanted {part}')

    def read(self, part, inside=0):
        """The tree of a part: its name and what its expansion became. Numbers stand as (suffix, value)."""
        expansion = self.select(part)
        if part in EXPRESSIONS:
            if inside >= 100:
                raise Fault(f'too deep at {self.place}')
            inside += 1
        children = []
        for symbol in expansion:
            children.append(self.read(symbol, inside) if symbol in GRAMMAR else self.take(symbol))
        return part, children

    def take(self, symbol):
        kind = 'PLAIN' if symbol == 'BYTE' else symbol
        if self.kind != kind:
            raise Fault(f'unexpected at {self.place}: wanted {NAMED.get(symbol, symbol)}')
        word = self.word
        if kind in ('PLAIN', 'N32', 'N64'):
            word = (kind, int(word.rstrip('ul')))
            if word[1] > (255 if symbol == 'BYTE' else 2 ** 64 - 1 if kind == 'N64' else 2 ** 32 - 1):
                raise Fault(f'number too large at {self.place}')
        if kind != 'END':
            self.look()
        return word


# From what the parts became to trees.

def chain(node, first, rest):
    """The entries of a list that is written by a part that holds itself."""
    _, children = node
    entries = []
    while children:
        entries.append(first(children))
        children = rest(children)
    return entries


def type_of_node(node):
    _, children = node
    return children[0] + ('*' if len(children) > 1 and children[1][1] else '')


def number_of(node):
    return node[1][0]


def items_of(node):
    return chain(node, lambda c: item_of(c[0]), lambda c: c[1][1])


def item_of(node):
    _, c = node
    if c[0] != 'static':
        return function_of(False, type_of_node(c[0]), c[1], c[3])
    _, c = c[1]
    if c[0] == 'const':
        return ('array', c[2], c[4][1], [c[8]] + chain(c[9], lambda m: m[1], lambda m: m[2][1]))
    ty, name, (_, rest) = type_of_node(c[0]), c[1], c[2]
    if rest[0] == '(':
        return function_of(True, ty, name, rest[1])
    return ('variable', name, ty, number_of(rest[1]) if rest[0] == '=' else None)


def function_of(static, result, name, node):
    _, (parameters, _, (_, close)) = node
    _, (ty, pname, tail) = parameters
    listed = [(type_of_node(ty), name_of(pname))]
    listed += chain(tail, lambda c: (type_of_node(c[1]), name_of(c[2])), lambda c: c[3][1])
    body = body_of(close[1]) if close[0] == '{' else None
    return ('function', name, static, result, listed, body)


def name_of(node):
    return node[1][0] if node[1] else None


def body_of(node):
    own = []
    while node[1][0][0] == 'declaration':
        _, c = node[1][0]
        own.append((type_of_node(c[0]), c[1], number_of(c[3])))
        node = node[1][1]
    return own, chain(node[1][0], lambda c: statement_of(c[0]), lambda c: c[1][1])


def statement_of(node):
    _, c = node
    if c[0] == ';':
        return ('null',)
    if c[0] == '*':
        return ('set star', c[1], expr_of(c[3]))
    if c[0] == '(':
        return ('call', None, *through_of(c[2]))
    if c[0] == 'goto':
        return ('goto', c[1])
    if c[0] == 'if':
        return ('if', c[3][1][0], expr_of(c[2]), expr_of(c[4]), c[7])
    if c[0] == 'switch':
        cases, node = [], c[5]
        while node[1][0] == 'case':
            cases.append((number_of(node[1][1]), node[1][4]))
            node = node[1][6]
        return ('switch', expr_of(c[2]), cases, node[1][3])
    if c[0] == 'return':
        return ('return', argument_of(c[1][1][0]) if c[1][1] else None)
    name, (_, after) = c[0], c[1]
    if after[0] == ':':
        return ('label', name)
    if after[0] == '(':
        return ('call', None, ('name', name), arguments_of(after[1]))
    return right_of(name, after[1])


def right_of(target, node):
    _, c = node
    if c[0] == '(' and c[1][1][0] == '*' and c[1][1][1][1][0] != '(' and len(c[1][1][1][1]) == 1:
        return ('call', target, *through_of(c[1][1][1][1][0]))
    if c[0] == '(' and c[1][1][0] == '*':
        return ('set', target, ('expr', ('star', c[1][1][1][1][0])))
    if c[0] != '(' and c[0] != '&' and c[0][0] != 'number' and c[1][1] and c[1][1][0] == '(':
        return ('call', target, ('name', c[0]), arguments_of(c[1][1][1]))
    return ('set', target, argument_of(node))


def argument_of(node):
    _, c = node
    if c[0] == '&':
        return ('address', c[1])
    if c[0] == '(' and c[1][1][0] == 'w2c_fn':
        return ('function', c[1][1][2])
    return ('expr', expr_of(node))


def arguments_of(node):
    return chain(node, lambda c: argument_of(c[-2]), lambda c: c[-1][1])


def through_of(node):
    _, c = node
    written = [type_of_node(c[6][1][0])] + chain(c[6][1][1], lambda t: type_of_node(t[1]), lambda t: t[2][1])
    return ('through', type_of_node(c[1]), written, c[9]), arguments_of(c[12])


def expr_of(node):
    _, c = node
    if c[0] == '(':
        _, g = c[1]
        if g[0] in ('u32', 'u64'):
            return ('to ' + g[0], expr_of(g[2]))
        if g[0] == '*':
            return ('star', g[1])
        return ('operation', g[1][1][0], expr_of(g[0]), expr_of(g[2]))
    if c[0][0] == 'number':
        return ('number', number_of(c[0]))
    return ('at', c[0], expr_of(c[1][1][1])) if c[1][1] else ('name', c[0])


# The rules.

MEMORY, TABLE, FUNCTION = 'w2c_mem*', 'w2c_tab*', 'w2c_fn'
PRIMITIVES = {
    'w2c_trap': ('void', ['u32']), 'w2c_mem_new': ('void', [MEMORY, 'u32', 'u64']), 'w2c_mem_len': ('u64', [MEMORY]),
    'w2c_mem_max': ('u64', [MEMORY]), 'w2c_mem_grow': ('u32', [MEMORY, 'u32']), 'w2c_get1': ('u32', [MEMORY, 'u64']),
    'w2c_get2': ('u32', [MEMORY, 'u64']), 'w2c_get4': ('u32', [MEMORY, 'u64']), 'w2c_get8': ('u64', [MEMORY, 'u64']),
    'w2c_put1': ('void', [MEMORY, 'u64', 'u32']), 'w2c_put2': ('void', [MEMORY, 'u64', 'u32']),
    'w2c_put4': ('void', [MEMORY, 'u64', 'u32']), 'w2c_put8': ('void', [MEMORY, 'u64', 'u64']),
    'w2c_tab_new': ('void', [TABLE, 'u32', 'u64']), 'w2c_tab_len': ('u64', [TABLE]), 'w2c_tab_max': ('u64', [TABLE]),
    'w2c_tab_sig': ('u64', [TABLE, 'u64']), 'w2c_tab_fn': (FUNCTION, [TABLE, 'u64']),
    'w2c_tab_set': ('void', [TABLE, 'u64', FUNCTION, 'u64'])}
NUMBERS = ('u32', 'u64')
BARE = ('w2c_mem', 'w2c_tab')


def written_types(listed):
    return [ty for ty, _ in listed]


def parameter_types(listed):
    return [] if listed == [('void', None)] else [ty for ty, _ in listed]


def bad_parameters(listed):
    if listed == [('void', None)]:
        return False
    return any(ty in BARE or ty == 'void' for ty, _ in listed)


def fits(ty, number):
    kind, value = number
    if ty == 'u32':
        return kind == 'N32'
    if ty == 'u64':
        return kind == 'N64'
    return (ty.endswith('*') or ty == FUNCTION) and number == ('PLAIN', 0)


class Unit:
    def __init__(self, items):
        self.items, self.broken = items, []

    def first_broken(self):
        for number, item in enumerate(self.items):
            self.number, self.statement = number, 0
            self.item(item)
        return min(self.broken) if self.broken else None

    def breaks(self, rule, condition=True):
        if condition:
            self.broken.append((self.number, self.statement, rule))

    def item(self, item):
        kind, name = item[0], item[1]
        static = kind != 'function' or item[2]
        for other in self.items[:self.number]:
            if other[1] == name:
                self.breaks(1, 'function' != kind or 'function' != other[0] or
                            (item[2], item[3], written_types(item[4])) != (other[2], other[3], written_types(other[4]))
                            or (item[5] and other[5]) is not None)
        self.breaks(2, name.startswith('w2c_') or name.startswith('w2cZ_') == static)
        if kind == 'array':
            self.breaks(3, item[2] < 1 or item[2] != len(item[3]))
        elif kind == 'variable':
            self.breaks(3, item[2] == 'void')
            self.breaks(4, item[3] is not None and not fits(item[2], item[3]))
        else:
            self.function(*item[1:])

    def function(self, name, static, result, listed, body):
        own, statements = body or ([], [])
        self.breaks(3, result in BARE or bad_parameters(listed) or any(ty in BARE or ty == 'void' for ty, _, _ in own))
        self.breaks(4, any(not fits(ty, number) for ty, _, number in own))
        defined = any(other[1] == name and other[0] == 'function' and other[5] for other in self.items)
        self.breaks(5, static and not defined)
        names = [name for _, name in listed if name] + [name for _, name, _ in own]
        self.breaks(2, any(name.startswith(('w2c_', 'w2cZ_')) for name in names))
        self.breaks(6, body is not None and listed != [('void', None)] and any(name is None for _, name in listed))
        self.breaks(6, len(set(names)) < len(names) or any(item[1] in names for item in self.items))
        if body is None:
            return
        self.result = result
        self.own = {name: ty for ty, name in listed if name}
        self.own.update({name: ty for ty, name, _ in own})
        labels = [statement[1] for statement in statements if statement[0] == 'label']
        for number, statement in enumerate(statements, 1):
            self.statement = number
            if statement[0] == 'label':
                seen = [s[1] for s in statements[:number - 1] if s[0] == 'label']
                self.breaks(2, statement[1].startswith(('w2c_', 'w2cZ_')))
                self.breaks(7, statement[1] in seen)
            for label in named_labels(statement):
                self.breaks(7, label not in labels)
            self.statement_rules(statement)
        last = statements[-1] if statements else ('null',)
        self.statement = len(statements)
        ends = last[0] in ('return', 'goto', 'switch') or last[0] == 'call' and last[2] == ('name', 'w2c_trap')
        self.breaks(12, not ends)

    # What a name stands for: its kind and its type.
    def stands_for(self, name):
        if name in self.own:
            return 'own', self.own[name]
        if name == 'w2c_depth':
            return 'depth', 'u32'
        if name in PRIMITIVES:
            return 'primitive', PRIMITIVES[name]
        for item in self.items[:self.number + 1]:
            if item[1] == name:
                if item[0] == 'function':
                    return 'function', (item[3], parameter_types(item[4]))
                return item[0], (item[2] if item[0] == 'variable' else None)
        return None, None

    def variable(self, name):
        kind, ty = self.stands_for(name)
        self.breaks(8, kind not in ('own', 'depth', 'variable'))
        return ty if kind in ('own', 'depth', 'variable') else None

    def callee(self, name):
        kind, ty = self.stands_for(name)
        self.breaks(8, kind not in ('function', 'primitive'))
        return ty if kind in ('function', 'primitive') else (None, None)

    def expression(self, e):
        """Its type, or None where a rule is broken."""
        if e[0] == 'name':
            ty = self.variable(e[1])
            self.breaks(9, ty in BARE)
            return ty
        if e[0] == 'at':
            self.element(e)
            return self.breaks(9)
        if e[0] == 'number':
            self.breaks(9, e[1][0] == 'PLAIN')
            return {'N32': 'u32', 'N64': 'u64'}.get(e[1][0])
        if e[0] == 'to u32' and e[1][0] == 'at':
            self.element(e[1])
            return 'u32'
        if e[0] == 'to u32' and e[1][0] == 'operation' and e[1][1] in COMPARISONS:
            self.operands(e[1][2], e[1][3])
            return 'u32'
        if e[0] in ('to u32', 'to u64'):
            self.breaks(9, self.expression(e[1]) not in NUMBERS)
            return e[0][3:]
        if e[0] == 'star':
            return self.pointed(e[1])
        ty = self.operands(e[2], e[3])
        self.breaks(9, e[1] in COMPARISONS)
        return ty

    def element(self, e):
        self.breaks(8, self.stands_for(e[1])[0] != 'array')
        self.breaks(9, self.expression(e[2]) not in NUMBERS)

    def operands(self, a, b):
        first, second = self.expression(a), self.expression(b)
        self.breaks(9, first != second or first not in NUMBERS)
        return first

    def pointed(self, name):
        ty = self.variable(name)
        self.breaks(9, ty not in ('u32*', 'u64*'))
        return ty[:-1] if ty in ('u32*', 'u64*') else None

    def argument(self, a):
        if a[0] == 'expr':
            return self.expression(a[1])
        kind, ty = self.stands_for(a[1])
        if a[0] == 'function':
            self.breaks(8, kind not in ('function', 'primitive'))
            self.breaks(10, kind != 'function')
            return FUNCTION
        self.breaks(8, kind not in ('own', 'depth', 'variable'))
        self.breaks(10, kind != 'variable' or ty not in (*NUMBERS, *BARE))
        return ty + '*' if kind == 'variable' else None

    def statement_rules(self, s):
        if s[0] == 'set':
            ty = self.variable(s[1])
            self.breaks(9, ty in BARE)
            self.breaks(10, self.argument(s[2]) != ty)
        elif s[0] == 'set star':
            self.breaks(10, self.expression(s[2]) != self.pointed(s[1]))
        elif s[0] == 'call':
            self.call(*s[1:])
        elif s[0] == 'if':
            self.operands(s[2], s[3])
            self.breaks(9, s[1] not in COMPARISONS)
        elif s[0] == 'switch':
            ty = self.expression(s[1])
            numbers = [number for number, _ in s[2]]
            self.breaks(11, ty not in NUMBERS or len(set(numbers)) < len(numbers))
            self.breaks(11, any({'N32': 'u32', 'N64': 'u64'}.get(kind) != ty for kind, _ in numbers))
        elif s[0] == 'return':
            if s[1] is None:
                self.breaks(10, self.result != 'void')
            else:
                self.breaks(10, self.argument(s[1]) != self.result or self.result == 'void')

    def call(self, target, callee, arguments):
        if callee[0] == 'name':
            result, wanted = self.callee(callee[1])
        else:
            _, result, written, name = callee
            listed = [(ty, None) for ty in written]
            self.breaks(3, result in BARE or bad_parameters(listed))
            self.breaks(9, self.variable(name) != FUNCTION)
            wanted = parameter_types(listed)
        self.breaks(10, [self.argument(a) for a in arguments] != wanted)
        if target is not None:
            ty = self.variable(target)
            self.breaks(9, ty in BARE)
            self.breaks(10, ty != result or result == 'void')


def named_labels(s):
    if s[0] == 'goto':
        return [s[1]]
    if s[0] == 'if':
        return [s[4]]
    if s[0] == 'switch':
        return [label for _, label in s[2]] + [s[3]]
    return []


def verdict(text):
    try:
        _, (_, items, _) = Reader(text).read('unit')
    except Fault as fault:
        return str(fault)
    broken = Unit(items_of(items)).first_broken()
    return f'rule {broken[2]} item {broken[0]} statement {broken[1]}' if broken else 'accepted'


def plain(text):
    return re.sub(r'\\(n|[0-9a-fA-F]{2}|)', lambda m: {'n': '\n', '': ''}.get(m.group(1)) if m.group(1) in ('n', '')
                  else chr(int(m.group(1), 16)), text)


def main():
    front = back = ''
    with open(sys.argv[1]) if len(sys.argv) > 1 else sys.stdin as lines:
        for line in rows('units', lines):
            if line[0] == '<':
                front = plain(line[1:])
            elif line[0] == '>':
                back = plain(line[1:])
            else:
                print(f'{line}  =>  {verdict(front + plain(line) + back)}')


if __name__ == '__main__':
    main()
