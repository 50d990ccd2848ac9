"""Mixed code as compilers write it: the straight form that all others are set beside."""

from itertools import count
from random import Random

from assembler.instructions import (
    BINARY, DROP, I32_WRAP_I64, LOADS, RELATIONS, RETURN, SELECT, STORES, access, block, br, br_if, br_table, call,
    global_get, global_set, i32_const, i64_const, if_, local_get, local_set, local_tee, loop, numeric)
from assembler.modules import as_func, code, export, global_, imported
from assembler.segments import active_functions
from assembler.types import EMPTY, FUNCREF, I32, I64, functype, limits
from filling import module_of_functions

SIGNATURES = [
    ([], []), ([I32], [I32]), ([I32, I32], [I32]), ([I64], [I64]), ([I32, I64, I32], [I64]), ([I32, I32, I32, I32], []),
    ([I32], []), ([I32, I32, I32], [I32])]
IMPORTED = len(SIGNATURES)      # one import of each signature, so that function f has signature f modulo their number
GLOBALS = [I32, I32, I64, I32, I64, I32, I32, I32]
FUNCTIONS_CALLED = 800          # a module of half a MiB has more functions
DISTINCT_FUNCTIONS = 4000
LEAST_BODY, GREATEST_BODY = 50, 400
GREATEST_DEPTH = 5              # of expressions, and of blocks
OFFSETS = [0, 0, 4, 8, 12, 16, 24, 40, 96, 200, 1024, 66000]
NAMES = {I32: 'i32', I64: 'i64'}
WIDTHS = {I32: [numeric('i64.extend_i32_s'), numeric('i64.extend_i32_u')], I64: [I32_WRAP_I64]}
ACCESSES = {
    value_type: [[(name, exponent) for name, (_, of, exponent) in table.items() if of == value_type]
                 for table in (LOADS, STORES)]
    for value_type in (I32, I64)}
ARITHMETIC = {
    value_type: [numeric(f'{NAMES[value_type]}.{name}') for name in BINARY + ['add'] * 12 + ['and', 'shl', 'sub'] * 3]
    for value_type in (I32, I64)}
COMPARISONS = {
    value_type: [numeric(f'{NAMES[value_type]}.{name}') for name in RELATIONS] for value_type in (I32, I64)}


class FunctionWriter:
    """Writes one body, by choices at random, that is valid and has hardly any code that isn't reached."""

    def __init__(self, random, signature):
        self.random = random
        parameters, self.results = SIGNATURES[signature]
        self.runs = [(random.randint(1, 9), I32), (random.randint(1, 4), I64)]
        self.locals = parameters + [value_type for times, value_type in self.runs for _ in range(times)]

    def code(self):
        """The code of the whole function."""
        wanted = self.random.randint(LEAST_BODY, GREATEST_BODY)
        body = bytearray()
        while len(body) < wanted:
            body += self.statement(0)
        for result in self.results:
            body += self.expression(result, 1)
        return code(bytes(body), self.runs)

    def local_of(self, value_type):
        return self.random.choice([place for place, of in enumerate(self.locals) if of == value_type])

    def global_of(self, value_type):
        return self.random.choice([place for place, of in enumerate(GLOBALS) if of == value_type])

    def number(self):
        """A number of a size that programs have: mostly small, now and then an address or a mask."""
        bits = self.random.choice([3, 5, 5, 6, 7, 8, 12, 16, 20, 30])
        return self.random.getrandbits(bits) * self.random.choice([1, 1, 1, -1])

    def constant(self, value_type):
        return (i32_const if value_type == I32 else i64_const)(self.number())

    def expression(self, value_type, depth):
        """Instructions that give one value of this type."""
        if depth >= GREATEST_DEPTH or self.random.random() < 0.35:
            return self.leaf(value_type)
        form = self.random.choices(
            [self.binary, self.load, self.comparison, self.widening, self.call_of, self.selected, self.tee,
             self.if_value],
            [30, 20, 12, 5, 6, 3, 6, 2])[0]
        return form(value_type, depth + 1)

    def leaf(self, value_type):
        chosen = self.random.random()
        if chosen < 0.6:
            return local_get(self.local_of(value_type))
        if chosen < 0.95:
            return self.constant(value_type)
        return global_get(self.global_of(value_type))

    def binary(self, value_type, depth):
        operands = self.expression(value_type, depth) + self.expression(value_type, depth)
        return operands + self.random.choice(ARITHMETIC[value_type])

    def load(self, value_type, depth):
        return self.expression(I32, depth) + self.accessed(value_type, 0)

    def accessed(self, value_type, kind):
        name, exponent = self.random.choice(ACCESSES[value_type][kind])
        return access(name, exponent, self.random.choice(OFFSETS))

    def comparison(self, value_type, depth):
        if value_type == I64:
            return self.comparison(I32, depth) + WIDTHS[I32][1]
        of = self.random.choice([I32, I32, I64])
        return self.expression(of, depth) + self.expression(of, depth) + self.random.choice(COMPARISONS[of])

    def widening(self, value_type, depth):
        other = I64 if value_type == I32 else I32
        return self.expression(other, depth) + self.random.choice(WIDTHS[other])

    def call_of(self, value_type, depth):
        giving = [place for place, (_, results) in enumerate(SIGNATURES) if results == [value_type]]
        return self.call(self.random.choice(giving), depth)

    def call(self, signature, depth):
        arguments = b''.join(self.expression(parameter, depth + 1) for parameter in SIGNATURES[signature][0])
        return arguments + call(self.random.randrange(signature, FUNCTIONS_CALLED, len(SIGNATURES)))

    def selected(self, value_type, depth):
        operands = self.expression(value_type, depth) + self.expression(value_type, depth)
        return operands + self.expression(I32, depth) + SELECT

    def tee(self, value_type, depth):
        return self.expression(value_type, depth) + local_tee(self.local_of(value_type))

    def if_value(self, value_type, depth):
        then, otherwise = self.expression(value_type, depth), self.expression(value_type, depth)
        return self.expression(I32, depth) + if_(value_type, then, otherwise)

    def statement(self, depth):
        """Instructions that take and give nothing; `depth` counts the blocks around."""
        forms = [self.set_local, self.store, self.set_global, self.call_statement, self.dropped]
        chances = [40, 20, 4, 10, 2]
        if depth < GREATEST_DEPTH:
            forms += [self.if_statement, self.if_else, self.block, self.loop, self.switched, self.early_return]
            chances += [8, 5, 6, 4, 1, 2]
        return self.random.choices(forms, chances)[0](depth)

    def statements(self, depth):
        return b''.join(self.statement(depth) for _ in range(self.random.randint(1, 3)))

    def set_local(self, depth):
        value_type = self.random.choice([I32, I32, I64])
        return self.expression(value_type, 1) + local_set(self.local_of(value_type))

    def store(self, depth):
        value_type = self.random.choice([I32, I32, I64])
        return self.expression(I32, 2) + self.expression(value_type, 2) + self.accessed(value_type, 1)

    def set_global(self, depth):
        value_type = self.random.choice([I32, I64])
        return self.expression(value_type, 2) + global_set(self.global_of(value_type))

    def call_statement(self, depth):
        return self.call(self.random.choice([0, 5, 6]), 2)

    def dropped(self, depth):
        return self.call_of(I32, 3) + DROP

    def if_statement(self, depth):
        return self.expression(I32, 2) + if_(EMPTY, self.statements(depth + 1))

    def if_else(self, depth):
        leaving = br(self.random.randint(0, depth)) if self.random.random() < 0.2 and not self.results else b''
        then, otherwise = self.statements(depth + 1) + leaving, self.statements(depth + 1)
        return self.expression(I32, 2) + if_(EMPTY, then, otherwise)

    def block(self, depth):
        left = self.statements(depth + 1) + self.expression(I32, 2) + br_if(0)
        return block(EMPTY, left + self.statements(depth + 1))

    def loop(self, depth):
        return loop(EMPTY, self.statements(depth + 1) + self.expression(I32, 2) + br_if(0))

    def switched(self, depth):
        """What a switch of a program becomes: blocks around a br_table, each followed by a case."""
        cases = self.random.randint(2, 4)
        labels = [self.random.randrange(cases) for _ in range(self.random.randint(3, 12))]
        inner = self.expression(I32, 2) + br_table(labels, cases - 1)
        for _ in range(cases):
            inner = block(EMPTY, inner) + self.set_local(depth)
        return inner

    def early_return(self, depth):
        values = b''.join(self.leaf(result) for result in self.results)
        return self.expression(I32, 2) + if_(EMPTY, values + RETURN)


def mixed_code(size):
    """Functions of some 50 to 400 bytes, with all that integers, locals, memory, calls and branches have."""
    random = Random(1)
    signatures = len(SIGNATURES)
    written = [FunctionWriter(random, place % signatures).code() for place in range(DISTINCT_FUNCTIONS)]
    functions = ((place % signatures, written[place % DISTINCT_FUNCTIONS]) for place in count())
    return module_of_functions(
        size, functions,
        types=[functype(*signature) for signature in SIGNATURES],
        imports=[imported(as_func(place), f'import{place}') for place in range(IMPORTED)],
        tables=[FUNCREF + limits(1000)],
        memories=[limits(16)],
        globals=[global_(of, i32_const(7) if of == I32 else i64_const(7), True) for of in GLOBALS],
        exports=[export(f'function{place}', 'func', 19 * place) for place in range(40)],
        elements=[active_functions(range(0, FUNCTIONS_CALLED, 3))])


FORMS = [mixed_code]
