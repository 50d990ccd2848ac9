"""The rules of instructions that are neither of control nor of stack switching.

Each is a function of the block around and of the immediates.
"""

from functools import partial

from reader.context import Invalid, entry, require
from reader.control_rules import not_null
from reader.instructions import LOADS, NUMERIC, STORES
from reader.matching import matches
from reader.types import BOTTOM, I32, I64, Ref, spelled


def drop(block):
    block.pop()


def select(block):
    block.take(I32)
    second = block.pop()
    first = block.pop()
    require(first in (BOTTOM, I32, I64) and second in (BOTTOM, I32, I64), 'two numbers beneath the i32')
    require(first == second or BOTTOM in (first, second), 'two numbers of one type beneath the i32')
    block.give(first if second == BOTTOM else second)


def select_of(block, value_types):
    require(len(value_types) == 1, 'one type')
    value_type = value_types[0]
    require(block.context.has_type(value_type), f'a type whose index is below {len(block.context.types)}')
    block.take(value_type, value_type, I32)
    block.give(value_type)


def local_get(block, local):
    value_type = entry(block.local_types, local, 'local')
    require(block.set_locals[local], 'a local that is set')
    block.give(value_type)


def local_set(block, local):
    block.take(entry(block.local_types, local, 'local'))
    block.set_locals[local] = True


def local_tee(block, local):
    local_set(block, local)
    block.give(block.local_types[local])


def global_get(block, index):
    value_type, _ = entry(block.context.globals, index, 'global')
    block.give(value_type)


def global_set(block, index):
    value_type, mutable = entry(block.context.globals, index, 'global')
    require(mutable, 'a global that is a variable')
    block.take(value_type)


def _numeric(operands, result, block):
    block.take(*operands)
    block.give(result)


def _check_access(block, width, alignment, offset):
    require(block.context.memories, 'a memory')
    require(alignment <= width, f'an exponent of the alignment of at most {width}')
    require(offset < 2 ** 32, 'an offset below 2^32')


def _load(value_type, width, block, alignment, offset):
    _check_access(block, width, alignment, offset)
    block.take(I32)
    block.give(value_type)


def _store(value_type, width, block, alignment, offset):
    _check_access(block, width, alignment, offset)
    block.take(I32, value_type)


def memory_size(block, memory):
    entry(block.context.memories, memory, 'memory')
    block.give(I32)


def memory_grow(block, memory):
    entry(block.context.memories, memory, 'memory')
    block.take(I32)
    block.give(I32)


def memory_fill(block, memory):
    entry(block.context.memories, memory, 'memory')
    block.take(I32, I32, I32)


def memory_copy(block, destination, source):
    entry(block.context.memories, destination, 'memory')
    memory_fill(block, source)


def data_drop(block, segment):
    segments = block.context.data_segments
    require(segment < segments, f'data segment {segment}, which is not there; their number is {segments}')


def memory_init(block, segment, memory):
    data_drop(block, segment)
    memory_fill(block, memory)


def table_get(block, table):
    element_type = entry(block.context.tables, table, 'table')
    block.take(I32)
    block.give(element_type)


def table_set(block, table):
    block.take(I32, entry(block.context.tables, table, 'table'))


def table_size(block, table):
    entry(block.context.tables, table, 'table')
    block.give(I32)


def table_grow(block, table):
    block.take(entry(block.context.tables, table, 'table'), I32)
    block.give(I32)


def table_fill(block, table):
    block.take(I32, entry(block.context.tables, table, 'table'), I32)


def _copied(block, copied_type, table):
    """Take a destination, a source and a length, for elements of a type that go into a table."""
    table_type = entry(block.context.tables, table, 'table')
    if not matches(block.context, copied_type, table_type):
        raise Invalid(f'elements of {spelled(table_type)}, as the table has; these are of {spelled(copied_type)}')
    block.take(I32, I32, I32)


def table_copy(block, destination, source):
    _copied(block, entry(block.context.tables, source, 'table'), destination)


def table_init(block, segment, table):
    _copied(block, entry(block.context.elements, segment, 'element segment'), table)


def elem_drop(block, segment):
    entry(block.context.elements, segment, 'element segment')


def const(value_type, block, _number):
    block.give(value_type)


def ref_null(block, heap):
    null_type = Ref(True, heap)
    require(block.context.has_type(null_type), f'a heap type whose index is below {len(block.context.types)}')
    block.give(null_type)


def ref_is_null(block):
    block.pop_ref()
    block.give(I32)


def ref_func(block, function):
    function_type = entry(block.context.functions, function, 'function')
    wanted = 'a function that an export, an element segment, a global or a table names'
    require(function in block.context.declared, wanted)
    block.give(Ref(False, function_type))


def ref_as_non_null(block):
    block.give(not_null(block.pop_ref()))


RULES = {
    'drop': drop, 'select': select, 'select t': select_of, 'local.get': local_get, 'local.set': local_set,
    'local.tee': local_tee, 'global.get': global_get, 'global.set': global_set, 'memory.size': memory_size,
    'memory.grow': memory_grow, 'memory.fill': memory_fill, 'memory.copy': memory_copy, 'memory.init': memory_init,
    'data.drop': data_drop, 'table.get': table_get, 'table.set': table_set, 'table.size': table_size,
    'table.grow': table_grow, 'table.fill': table_fill, 'table.copy': table_copy, 'table.init': table_init,
    'elem.drop': elem_drop, 'i32.const': partial(const, I32), 'i64.const': partial(const, I64), 'ref.null': ref_null,
    'ref.is_null': ref_is_null, 'ref.func': ref_func, 'ref.as_non_null': ref_as_non_null,
}
RULES |= {name: partial(_numeric, operands, result) for name, operands, result in NUMERIC.values()}
RULES |= {name: partial(_load, value_type, width) for name, value_type, width in LOADS.values()}
RULES |= {name: partial(_store, value_type, width) for name, value_type, width in STORES.values()}
