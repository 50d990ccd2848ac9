"""The reductions of instructions that are neither of control nor of stack switching.

Each is a function of the machine and of the immediates.
"""

from functools import partial

from executing.ends import Trap
from executing.numbers import BINARY, UNARY, WIDTHS, extended, wrapped
from executing.stores import NULL
from reader.instructions import LOADS, STORES


def drop(machine):
    machine.pop()


def select(machine, _value_types=None):
    condition, second, first = machine.pop(), machine.pop(), machine.pop()
    machine.push(first if condition else second)


def local_get(machine, local):
    machine.push(machine.locals[local])


def local_set(machine, local):
    machine.locals[local] = machine.pop()


def local_tee(machine, local):
    machine.locals[local] = machine.operands[-1]


def global_get(machine, index):
    machine.push(machine.store.globals[machine.instance.globals[index]])


def global_set(machine, index):
    machine.store.globals[machine.instance.globals[index]] = machine.pop()


def _const(width, machine, number):
    machine.push(wrapped(width, number))


def _unary(operation, machine):
    machine.push(operation(machine.pop()))


def _binary(operation, machine):
    right, left = machine.pop(), machine.pop()
    machine.push(operation(left, right))


def _load(width, size, is_signed, machine, _alignment, offset):
    """The address is the sum of operand and offset, which is not wrapped."""
    number = machine.memory(0).load(machine.pop() + offset, size)
    machine.push(extended(8 * size, width, number) if is_signed else number)


def _store(size, machine, _alignment, offset):
    number, address = machine.pop(), machine.pop()
    machine.memory(0).store(address + offset, size, number)


def memory_size(machine, memory):
    machine.push(machine.memory(memory).size())


def memory_grow(machine, memory):
    machine.push(wrapped(32, machine.memory(memory).grow(machine.pop())))


def memory_fill(machine, memory):
    count, number, address = machine.pop(), machine.pop(), machine.pop()
    machine.memory(memory).fill(address, number, count)


def memory_copy(machine, destination, source):
    _init(machine, machine.memory(destination), machine.memory(source).bytes)


def memory_init(machine, segment, memory):
    _init(machine, machine.memory(memory), machine.store.datas[machine.instance.datas[segment]])


def _init(machine, destination, source):
    """Put into a memory or a table what stands in the source: a place there, one here, and a count are taken."""
    count, start, place = machine.pop(), machine.pop(), machine.pop()
    destination.init(source, place, start, count)


def data_drop(machine, segment):
    machine.store.drop_data(machine.instance.datas[segment])


def table_get(machine, table):
    machine.push(machine.table(table).get(machine.pop()))


def table_set(machine, table):
    value, place = machine.pop(), machine.pop()
    machine.table(table).set(place, value)


def table_size(machine, table):
    machine.push(machine.table(table).size())


def table_grow(machine, table):
    count, value = machine.pop(), machine.pop()
    machine.push(wrapped(32, machine.table(table).grow(value, count)))


def table_fill(machine, table):
    count, value, place = machine.pop(), machine.pop(), machine.pop()
    machine.table(table).fill(place, value, count)


def table_copy(machine, destination, source):
    _init(machine, machine.table(destination), machine.table(source).elements)


def table_init(machine, segment, table):
    _init(machine, machine.table(table), machine.store.elements[machine.instance.elements[segment]])


def elem_drop(machine, segment):
    machine.store.drop_elements(machine.instance.elements[segment])


def ref_null(machine, _heap):
    machine.push(NULL)


def ref_is_null(machine):
    machine.push(int(machine.pop() is NULL))


def ref_func(machine, function):
    machine.push(machine.instance.functions[function])


def ref_as_non_null(machine):
    if machine.operands[-1] is NULL:
        raise Trap('null reference')


RULES = {
    'drop': drop, 'select': select, 'select t': select, 'local.get': local_get, 'local.set': local_set,
    'local.tee': local_tee, 'global.get': global_get, 'global.set': global_set, 'memory.size': memory_size,
    'memory.grow': memory_grow, 'memory.fill': memory_fill, 'memory.copy': memory_copy, 'memory.init': memory_init,
    'data.drop': data_drop, 'table.get': table_get, 'table.set': table_set, 'table.size': table_size,
    'table.grow': table_grow, 'table.fill': table_fill, 'table.copy': table_copy, 'table.init': table_init,
    'elem.drop': elem_drop, 'ref.null': ref_null, 'ref.is_null': ref_is_null, 'ref.func': ref_func,
    'ref.as_non_null': ref_as_non_null,
}
RULES |= {f'{value_type}.const': partial(_const, width) for value_type, width in WIDTHS.items()}
RULES |= {name: partial(_unary, operation) for name, operation in UNARY.items()}
RULES |= {name: partial(_binary, operation) for name, operation in BINARY.items()}
RULES |= {
    name: partial(_load, WIDTHS[value_type], 1 << exponent, name.endswith('_s'))
    for name, value_type, exponent in LOADS.values()}
RULES |= {name: partial(_store, 1 << exponent) for name, _, exponent in STORES.values()}
