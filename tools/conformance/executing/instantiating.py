"""Instantiation: where a run begins, or why there is none (Core, execution, instantiation)."""

from executing.constants import value_of
from executing.ends import Exceeded
from executing.instances import Addresses
from executing.numbers import signed, wrapped
from executing.stores import GREATEST_MEMORY, GREATEST_TABLE, NULL, Function, Memory, Printer, Store, Table
from reader.types import I32, I64, FuncType, Ref

FUNCTION_EXPORT = 0
HOST = b'host'
MAIN = b'main'


class Refused(Exception):
    """A module that can't be run, with what is said of it."""


def _print_i32(number):
    return b'%d\n' % signed(32, number)


def _print_i64(number):
    return b'%d\n' % signed(64, number)


def _print_byte(number):
    return bytes([wrapped(8, number)])


# The functions of the host, which give nothing: what each takes, and what it prints.
PRINTERS = {b'print_i32': (I32, _print_i32), b'print_i64': (I64, _print_i64), b'print_byte': (I32, _print_byte)}


def instantiated(module):
    """The store with which a module begins, and the address of its function main.

    What is in the way is raised, in this order: imports, the entry, limits, and the ranges of active segments.
    """
    types = module.types
    printers = [_wanted_printer(types, number, each) for number, each in enumerate(module.imports)]
    main = entry(module)
    check_limits(module)
    addresses = Addresses()
    instance = addresses.instance(module, {'functions': addresses.new('functions', len(printers))})
    store = Store()
    allocate(store, module, instance, printers, types)
    initialize(store, module, instance)
    return store, instance.functions[main]


def _wanted_printer(types, number, imported):
    found = printer_of(types, imported)
    if found is None:
        raise Refused(f'no printer {number}')
    return found


def printer_of(types, imported, first_type=0):
    """The function of the host that an import names, where there is one; types of other modules may be in front."""
    kind, described, *_ = imported.type
    if imported.module == HOST and imported.item in PRINTERS and kind == 'func':
        taken, printed = PRINTERS[imported.item]
        if types[described] == FuncType([taken], []):
            return Printer(first_type + described, printed)
    return None


def function_types(module):
    """The types of the functions of a module by index, each by the index of the type."""
    imported = [described for kind, described, *_ in (each.type for each in module.imports) if kind == 'func']
    return imported + module.functions


def entry(module):
    """The index of the function main, which takes nothing and gives integers."""
    for export in module.exports:
        if export.name == MAIN and export.kind == FUNCTION_EXPORT:
            main_type = module.types[function_types(module)[export.index]]
            if not main_type.parameters and all(result in (I32, I64) for result in main_type.results):
                return export.index
    raise Refused('no entry')


def check_limits(module):
    """The memory's minimum is looked at before those of tables."""
    if any(limits.minimum > GREATEST_MEMORY for limits in module.memories):
        raise Exceeded('memory')
    if any(table.limits.minimum > GREATEST_TABLE for table in module.tables):
        raise Exceeded('table')


def allocate(store, module, instance, printers, types):
    """Put into the store what the addresses of an instance stand for that are new: these printers, and all that the
    module defines. The types are those of all modules. Globals, tables and segments have their values later."""
    store.instances.append(instance)
    store.functions += printers
    store.functions += [
        _function(types, instance, index, code) for index, code in zip(module.functions, module.codes)]
    store.tables += [Table([NULL] * table.limits.minimum, table.limits.maximum) for table in module.tables]
    store.memories += [Memory(limits.minimum, limits.maximum) for limits in module.memories]
    store.globals += [NULL] * len(module.globals)
    store.tags += [instance.types[tag] for tag in module.tags]
    store.elements += [[] for _ in module.elements]
    store.datas += [data.bytes for data in module.datas]


def _function(types, instance, index, code):
    address = instance.types[index]
    defaults = [_default(value_type) for count, value_type in code.runs for _ in range(count)]
    return Function(
        instance, address, len(types[address].parameters), len(types[address].results), defaults, code.body)


def _default(value_type):
    """What a local of this type holds at first. One that may not be null is not read before it is set."""
    return NULL if isinstance(value_type, Ref) else 0


def _own(addresses, defined):
    """What a module defines of a kind, each with its address. What it imports stands in front."""
    return zip(addresses[len(addresses) - len(defined):], defined)


def initialize(store, module, instance):
    """Give globals their values, each by those before it, fill the tables, and copy active segments in order."""
    for address, each in _own(instance.globals, module.globals):
        store.globals[address] = value_of(each.initial, store, instance)
    for address, table in _own(instance.tables, module.tables):
        if table.initial is not None:
            store.tables[address].fill(0, value_of(table.initial, store, instance), table.limits.minimum)
    for address, element in zip(instance.elements, module.elements):
        store.elements[address] = [value_of(item, store, instance) for item in element.items]
    _copy_elements(store, module, instance)
    _copy_datas(store, module, instance)


def _copy_elements(store, module, instance):
    """Copy active element segments in order. They are dropped, as are those that are only declared."""
    for address, element in zip(instance.elements, module.elements):
        if element.active is not None:
            source = store.elements[address]
            offset = value_of(element.active.offset, store, instance)
            store.tables[instance.tables[element.active.index]].init(source, offset, 0, len(source))
        if element.active is not None or element.declarative:
            store.drop_elements(address)


def _copy_datas(store, module, instance):
    """Copy active data segments in order, and drop them."""
    for address, data in zip(instance.datas, module.datas):
        if data.active is not None:
            offset = value_of(data.active.offset, store, instance)
            memory = store.memories[instance.memories[data.active.index]]
            memory.init(data.bytes, offset, 0, len(data.bytes))
            store.drop_data(address)
