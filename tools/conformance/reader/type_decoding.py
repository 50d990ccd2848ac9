"""Reads types from bytes."""

from reader.byte_source import Malformed
from reader.types import I32, I64, ContType, FuncType, Limits, Ref, SubType

HEAP_TYPES = {0x70: 'func', 0x73: 'nofunc', 0x68: 'cont', 0x75: 'nocont'}
NUMBER_TYPES = {0x7f: I32, 0x7e: I64}
NULLABLE = 0x63
NOT_NULL = 0x64
GROUP = 0x4e
OPEN = 0x50
FINAL = 0x4f
COMPOSITE = '60 for a function or 5D for a continuation'


def index(source):
    return source.unsigned()


def heap_type(source):
    if source.peek() in HEAP_TYPES:
        return HEAP_TYPES[source.byte()]
    return _signed_index(source, 'a heap type: 70, 73, 68, 75 or an index')


def _signed_index(source, wanted):
    """An index that is spelled as a signed number, which is not to be negative."""
    start = source.position
    number = source.signed(33)
    if number < 0:
        raise Malformed(start, wanted)
    return number


def value_type(source):
    byte = source.byte()
    if byte in NUMBER_TYPES:
        return NUMBER_TYPES[byte]
    if byte in (NULLABLE, NOT_NULL):
        return Ref(byte == NULLABLE, heap_type(source))
    if byte in HEAP_TYPES:
        return Ref(True, HEAP_TYPES[byte])
    raise source.wrong('a value type: 7F, 7E, 63, 64, 70, 73, 68 or 75')


def ref_type(source):
    start = source.position
    read = value_type(source)
    if not isinstance(read, Ref):
        raise Malformed(start, 'a reference type: 63, 64, 70, 73, 68 or 75')
    return read


def _comp_type(source, wanted):
    byte = source.byte()
    if byte == 0x60:
        return FuncType(source.vector(value_type), source.vector(value_type))
    if byte == 0x5d:
        return ContType(index(source))
    raise source.wrong(wanted)


def _sub_type(source, others=''):
    """A type behind its supertypes: open behind 50, final behind 4F. Where neither stands it is final, without any."""
    byte = source.peek()
    if byte not in (OPEN, FINAL):
        return SubType(True, [], _comp_type(source, f'a type: {COMPOSITE}, 50 or 4F in front of supertypes{others}'))
    source.byte()
    supertypes = source.vector(index)
    return SubType(byte == FINAL, supertypes, _comp_type(source, f'a type, behind its supertypes: {COMPOSITE}'))


def rec_group(source):
    """A recursive group, or one type that stands for a group of its own, as a list of types."""
    if source.peek() == GROUP:
        source.byte()
        return source.vector(_sub_type)
    return [_sub_type(source, ', or 4E for a group')]


def limits(source):
    flag = source.byte()
    if flag == 0:
        return Limits(source.unsigned(64), None)
    if flag == 1:
        return Limits(source.unsigned(64), source.unsigned(64))
    raise source.wrong('limits: 00 without a maximum, or 01 with one')


def mutability(source):
    byte = source.byte()
    if byte > 1:
        raise source.wrong('00 for a constant, or 01 for a variable')
    return byte == 1


def tag_type(source):
    """The index of a tag's type."""
    if source.byte():
        raise source.wrong('00, with which a tag begins')
    return index(source)


def extern_type(source):
    """The type of an import: its kind, and what tells the type of this kind."""
    byte = source.byte()
    if byte == 0:
        return 'func', index(source)
    if byte == 1:
        return 'table', ref_type(source), limits(source)
    if byte == 2:
        return 'memory', limits(source)
    if byte == 3:
        return 'global', value_type(source), mutability(source)
    if byte == 4:
        return 'tag', tag_type(source)
    raise source.wrong('a kind of import: 00 function, 01 table, 02 memory, 03 global or 04 tag')


def block_type(source):
    """The index of a function type, or a list of no or one result."""
    byte = source.peek()
    if byte == 0x40:
        source.byte()
        return []
    if byte in NUMBER_TYPES or byte in (NULLABLE, NOT_NULL) or byte in HEAP_TYPES:
        return [value_type(source)]
    return _signed_index(source, 'the type of a block: 40, a value type or an index')
