"""Instructions, each by its own name in the standard, with underscores for dots.

Those without immediates are constants; those of the integers are spelled by `numeric`, loads and stores by `access`.
"""

from assembler.encoding import indices, signed, unsigned, vector
from assembler.types import I32, I64, heap_type

RELATIONS = 'eq ne lt_s lt_u gt_s gt_u le_s le_u ge_s ge_u'.split()
UNARY = 'clz ctz popcnt'.split()
SUMS = 'add sub mul'.split()                # those that a constant expression may have
OTHER_BINARY = 'div_s div_u rem_s rem_u and or xor shl shr_s shr_u rotl rotr'.split()
BINARY = SUMS + OTHER_BINARY


def _numeric_opcodes():
    opcodes = {
        'i32.eqz': 0x45, 'i64.eqz': 0x50, 'i32.wrap_i64': 0xa7, 'i64.extend_i32_s': 0xac, 'i64.extend_i32_u': 0xad,
        'i32.extend8_s': 0xc0, 'i32.extend16_s': 0xc1, 'i64.extend8_s': 0xc2, 'i64.extend16_s': 0xc3,
        'i64.extend32_s': 0xc4,
    }
    for first, prefix, names in [
            (0x46, 'i32.', RELATIONS), (0x51, 'i64.', RELATIONS),
            (0x67, 'i32.', UNARY + BINARY), (0x79, 'i64.', UNARY + BINARY)]:
        opcodes.update((prefix + suffix, first + place) for place, suffix in enumerate(names))
    return opcodes


NUMERIC_OPCODES = _numeric_opcodes()

# Loads and stores: the opcode, the type of the value, and the exponent of its width in bytes.
LOADS = {
    'i32.load': (0x28, I32, 2), 'i64.load': (0x29, I64, 3),
    'i32.load8_s': (0x2c, I32, 0), 'i32.load8_u': (0x2d, I32, 0),
    'i32.load16_s': (0x2e, I32, 1), 'i32.load16_u': (0x2f, I32, 1),
    'i64.load8_s': (0x30, I64, 0), 'i64.load8_u': (0x31, I64, 0),
    'i64.load16_s': (0x32, I64, 1), 'i64.load16_u': (0x33, I64, 1),
    'i64.load32_s': (0x34, I64, 2), 'i64.load32_u': (0x35, I64, 2),
}
STORES = {
    'i32.store': (0x36, I32, 2), 'i64.store': (0x37, I64, 3),
    'i32.store8': (0x3a, I32, 0), 'i32.store16': (0x3b, I32, 1),
    'i64.store8': (0x3c, I64, 0), 'i64.store16': (0x3d, I64, 1), 'i64.store32': (0x3e, I64, 2),
}


def numeric(instruction):
    """An instruction of integers that has no immediate, by its name in the standard."""
    return bytes([NUMERIC_OPCODES[instruction]])


def access(instruction, alignment, offset):
    """A load or a store, by its name in the standard, with the exponent of its alignment."""
    opcode = (LOADS.get(instruction) or STORES[instruction])[0]
    return bytes([opcode]) + unsigned(alignment) + unsigned(offset)


def i32_const(number):
    return b'\x41' + signed(number)


def i64_const(number):
    return b'\x42' + signed(number)


I32_EQZ = numeric('i32.eqz')
I32_ADD = numeric('i32.add')
I32_MUL = numeric('i32.mul')
I32_DIV_S = numeric('i32.div_s')
I32_EXTEND8_S = numeric('i32.extend8_s')
I32_WRAP_I64 = numeric('i32.wrap_i64')
I64_EQZ = numeric('i64.eqz')
I64_ADD = numeric('i64.add')
I64_EXTEND_I32_S = numeric('i64.extend_i32_s')

# Control instructions.

UNREACHABLE = b'\x00'
NOP = b'\x01'
ELSE = b'\x05'
END = b'\x0b'
RETURN = b'\x0f'


def block(block_type, body):
    return b'\x02' + block_type + body + END


def loop(block_type, body):
    return b'\x03' + block_type + body + END


def if_(block_type, then, otherwise=None):
    """An if, with an else where there are bytes for it, though they be none."""
    return b'\x04' + block_type + then + (b'' if otherwise is None else ELSE + otherwise) + END


def br(label):
    return b'\x0c' + unsigned(label)


def br_if(label):
    return b'\x0d' + unsigned(label)


def br_table(labels, default):
    return b'\x0e' + indices(labels) + unsigned(default)


def call(function):
    return b'\x10' + unsigned(function)


def call_indirect(function_type, table):
    return b'\x11' + unsigned(function_type) + unsigned(table)


def call_ref(function_type):
    return b'\x14' + unsigned(function_type)


def return_call(function):
    return b'\x12' + unsigned(function)


def return_call_indirect(function_type, table):
    return b'\x13' + unsigned(function_type) + unsigned(table)


def return_call_ref(function_type):
    return b'\x15' + unsigned(function_type)


def br_on_null(label):
    return b'\xd5' + unsigned(label)


def br_on_non_null(label):
    return b'\xd6' + unsigned(label)


# Parametric and variable instructions.

DROP = b'\x1a'
SELECT = b'\x1b'


def select(*value_types):
    """The select that tells its type, which is one where it is valid."""
    return b'\x1c' + vector(value_types)


def local_get(local):
    return b'\x20' + unsigned(local)


def local_set(local):
    return b'\x21' + unsigned(local)


def local_tee(local):
    return b'\x22' + unsigned(local)


def global_get(index):
    return b'\x23' + unsigned(index)


def global_set(index):
    return b'\x24' + unsigned(index)


# Instructions of memories and data segments. The immediates stand in the order of the binary format.


def memory_size(memory):
    return b'\x3f' + unsigned(memory)


def memory_grow(memory):
    return b'\x40' + unsigned(memory)


def _prefixed(opcode, *immediates):
    return b'\xfc' + unsigned(opcode) + b''.join(unsigned(index) for index in immediates)


def memory_init(segment, memory):
    return _prefixed(8, segment, memory)


def data_drop(segment):
    return _prefixed(9, segment)


def memory_copy(destination, source):
    return _prefixed(10, destination, source)


def memory_fill(memory):
    return _prefixed(11, memory)


# Instructions of tables and element segments.


def table_get(table):
    return b'\x25' + unsigned(table)


def table_set(table):
    return b'\x26' + unsigned(table)


def table_init(segment, table):
    return _prefixed(12, segment, table)


def elem_drop(segment):
    return _prefixed(13, segment)


def table_copy(destination, source):
    return _prefixed(14, destination, source)


def table_grow(table):
    return _prefixed(15, table)


def table_size(table):
    return _prefixed(16, table)


def table_fill(table):
    return _prefixed(17, table)


# Reference instructions.

REF_IS_NULL = b'\xd1'
REF_AS_NON_NULL = b'\xd4'


def ref_null(heap):
    return b'\xd0' + heap_type(heap)


def ref_func(function):
    return b'\xd2' + unsigned(function)


# Stack switching.


def cont_new(continuation):
    return b'\xe0' + unsigned(continuation)


def cont_bind(source, target):
    return b'\xe1' + unsigned(source) + unsigned(target)


def suspend(tag):
    return b'\xe2' + unsigned(tag)


def resume(continuation, *handlers):
    return b'\xe3' + unsigned(continuation) + vector(handlers)


def on(tag, label):
    """A handler of resume that leads to a label."""
    return b'\x00' + unsigned(tag) + unsigned(label)


def on_switch(tag):
    """A handler of resume that lets switch pass."""
    return b'\x01' + unsigned(tag)


def switch(continuation, tag):
    return b'\xe6' + unsigned(continuation) + unsigned(tag)
