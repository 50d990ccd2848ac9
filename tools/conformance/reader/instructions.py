"""The instructions: their opcodes, their immediates, and how they are read from bytes."""

from typing import NamedTuple

from reader.byte_source import Malformed
from reader.type_decoding import block_type, heap_type, index, value_type
from reader.types import I32, I64


class Instruction(NamedTuple):
    """An instruction by its name in the standard. The immediates of a block are its type and its instructions."""

    name: str
    immediates: tuple


END = 0x0b
ELSE = 0x05
BLOCKS = {0x02: 'block', 0x03: 'loop'}
IF = 0x04
PREFIX = 0xfc


def _numeric():
    """The instructions of integers without immediates, by opcode: name, types of operands, type of the result."""
    table = {}

    def add(first, prefix, names, operands, result):
        table.update((first + place, (prefix + name, operands, result)) for place, name in enumerate(names.split()))

    relations = 'eq ne lt_s lt_u gt_s gt_u le_s le_u ge_s ge_u'
    unary = 'clz ctz popcnt'
    binary = 'add sub mul div_s div_u rem_s rem_u and or xor shl shr_s shr_u rotl rotr'
    add(0x45, 'i32.', 'eqz', [I32], I32)
    add(0x46, 'i32.', relations, [I32, I32], I32)
    add(0x50, 'i64.', 'eqz', [I64], I32)
    add(0x51, 'i64.', relations, [I64, I64], I32)
    add(0x67, 'i32.', unary, [I32], I32)
    add(0x6a, 'i32.', binary, [I32, I32], I32)
    add(0x79, 'i64.', unary, [I64], I64)
    add(0x7c, 'i64.', binary, [I64, I64], I64)
    add(0xa7, 'i32.', 'wrap_i64', [I64], I32)
    add(0xac, 'i64.', 'extend_i32_s extend_i32_u', [I32], I64)
    add(0xc0, 'i32.', 'extend8_s extend16_s', [I32], I32)
    add(0xc2, 'i64.', 'extend8_s extend16_s extend32_s', [I64], I64)
    return table


NUMERIC = _numeric()

# Loads and stores, by opcode: name, type of the value, exponent of the width in bytes.
LOADS = {
    0x28: ('i32.load', I32, 2), 0x29: ('i64.load', I64, 3),
    0x2c: ('i32.load8_s', I32, 0), 0x2d: ('i32.load8_u', I32, 0),
    0x2e: ('i32.load16_s', I32, 1), 0x2f: ('i32.load16_u', I32, 1),
    0x30: ('i64.load8_s', I64, 0), 0x31: ('i64.load8_u', I64, 0),
    0x32: ('i64.load16_s', I64, 1), 0x33: ('i64.load16_u', I64, 1),
    0x34: ('i64.load32_s', I64, 2), 0x35: ('i64.load32_u', I64, 2),
}
STORES = {
    0x36: ('i32.store', I32, 2), 0x37: ('i64.store', I64, 3),
    0x3a: ('i32.store8', I32, 0), 0x3b: ('i32.store16', I32, 1),
    0x3c: ('i64.store8', I64, 0), 0x3d: ('i64.store16', I64, 1), 0x3e: ('i64.store32', I64, 2),
}


def _i32(source):
    return source.signed(32)


def _i64(source):
    return source.signed(64)


def _alignment(source):
    start = source.position
    exponent = source.unsigned()
    if exponent >= 64:
        raise Malformed(start, f'an exponent of the alignment, below 64; this one is {exponent}')
    return exponent


def _offset(source):
    return source.unsigned(64)


def _indices(source):
    return source.vector(index)


def _types(source):
    return source.vector(value_type)


def _handlers(source):
    return source.vector(_handler)


def _handler(source):
    """A handler of resume: `on`, a tag and a label, or `switch` and a tag."""
    byte = source.byte()
    if byte == 0:
        return 'on', index(source), index(source)
    if byte == 1:
        return 'switch', index(source)
    raise source.wrong('a clause: 00 for a tag and a label, or 01 for switch')


# All other instructions but the blocks, by opcode: name, and what reads each immediate.
PLAIN = {
    0x00: ('unreachable',), 0x01: ('nop',), 0x0c: ('br', index), 0x0d: ('br_if', index),
    0x0e: ('br_table', _indices, index), 0x0f: ('return',), 0x10: ('call', index),
    0x11: ('call_indirect', index, index), 0x12: ('return_call', index), 0x13: ('return_call_indirect', index, index),
    0x14: ('call_ref', index), 0x15: ('return_call_ref', index), 0x1a: ('drop',), 0x1b: ('select',),
    0x1c: ('select t', _types), 0x20: ('local.get', index), 0x21: ('local.set', index), 0x22: ('local.tee', index),
    0x23: ('global.get', index), 0x24: ('global.set', index), 0x25: ('table.get', index), 0x26: ('table.set', index),
    0x3f: ('memory.size', index), 0x40: ('memory.grow', index), 0x41: ('i32.const', _i32), 0x42: ('i64.const', _i64),
    0xd0: ('ref.null', heap_type), 0xd1: ('ref.is_null',), 0xd2: ('ref.func', index), 0xd4: ('ref.as_non_null',),
    0xd5: ('br_on_null', index), 0xd6: ('br_on_non_null', index), 0xe0: ('cont.new', index),
    0xe1: ('cont.bind', index, index), 0xe2: ('suspend', index), 0xe3: ('resume', index, _handlers),
    0xe6: ('switch', index, index),
}
PLAIN |= {opcode: (name,) for opcode, (name, _, _) in NUMERIC.items()}
PLAIN |= {opcode: (name, _alignment, _offset) for opcode, (name, _, _) in (LOADS | STORES).items()}

# Those behind the prefix.
PREFIXED = {
    8: ('memory.init', index, index), 9: ('data.drop', index), 10: ('memory.copy', index, index),
    11: ('memory.fill', index), 12: ('table.init', index, index), 13: ('elem.drop', index),
    14: ('table.copy', index, index), 15: ('table.grow', index), 16: ('table.size', index), 17: ('table.fill', index),
}


class _Open:
    """A sequence of instructions whose end is not read yet: of an expression, or of a block with this opcode."""

    def __init__(self, opcode=None, shape=None):
        self.opcode = opcode
        self.shape = shape
        self.then = None            # what stands before the else, once this is read
        self.sequence = []

    def begin_else(self, source):
        if self.opcode != IF or self.then is not None:
            raise source.wrong('an instruction or the end; an else stands in an if, and once')
        self.then, self.sequence = self.sequence, []

    def block(self):
        """The block, whose end is read."""
        if self.opcode != IF:
            return Instruction(BLOCKS[self.opcode], (self.shape, self.sequence))
        if self.then is None:
            return Instruction('if', (self.shape, self.sequence, None))
        return Instruction('if', (self.shape, self.then, self.sequence))


def expression(source):
    """The instructions up to the end of an expression. Blocks may stand in one another to any depth."""
    around = []
    inner = _Open()
    while True:
        opcode = source.byte()
        if opcode == END:
            if not around:
                return inner.sequence
            ended, inner = inner, around.pop()
            inner.sequence.append(ended.block())
        elif opcode == ELSE:
            inner.begin_else(source)
        elif opcode in BLOCKS or opcode == IF:
            around.append(inner)
            inner = _Open(opcode, block_type(source))
        else:
            inner.sequence.append(_instruction(source, opcode))


def _instruction(source, opcode):
    """The instruction with this opcode, whose immediates are read. It holds no others."""
    if opcode == PREFIX:
        start = source.position
        number = source.unsigned()
        if number not in PREFIXED:
            raise Malformed(start, f'a number from 8 to 17 behind FC; this one is {number}')
        name, *immediates = PREFIXED[number]
    elif opcode in PLAIN:
        name, *immediates = PLAIN[opcode]
    else:
        raise source.wrong('an instruction; no instruction has this opcode')
    return Instruction(name, tuple(read(source) for read in immediates))


def all_instructions(instructions):
    """These instructions, and those in their blocks."""
    left = [instructions]
    while left:
        for instruction in left.pop():
            yield instruction
            if instruction.name in ('block', 'loop', 'if'):
                left += [body for body in instruction.immediates[1:] if body]
