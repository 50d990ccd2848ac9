"""Several modules in one store: which import stands for what, where their run begins, or why there is none.

Every module is instantiated in turn, and an instance has for each of its indices the address of what it stands for.
Types are compared among those of all modules, which stand one behind the other.
"""

from typing import NamedTuple

from executing.ends import Exceeded, Trap
from executing.instances import Addresses
from executing.instantiating import Refused, allocate, check_limits, entry, initialize, printer_of
from executing.stores import Store
from reader.matching import TypeOrder, all_equal, matches
from reader.types import ContType, FuncType, Ref, SubType

# The lists of an instance in which the imports of each kind stand, and those in which exports do, by their numbers.
LISTS = {'func': 'functions', 'table': 'tables', 'memory': 'memories', 'global': 'globals', 'tag': 'tags'}
EXPORTED = list(LISTS)


class Unlinked(Exception):
    """Modules that can't be run together: the line that is said of them, and the status."""

    def __init__(self, line, status):
        super().__init__(line)
        self.line = line
        self.status = status


class Linked(NamedTuple):
    """Where a run of modules begins: the store, the types of all and their order, and the address of main."""

    store: Store
    types: list
    order: TypeOrder
    main: int


class AllTypes:
    """The types of modules, one module's behind the other's, with each index counted on from those in front."""

    def __init__(self, modules):
        groups, self.firsts, first = [], [], 0
        for module in modules:
            self.firsts.append(first)
            groups += [[_shifted_type(sub_type, first) for sub_type in group] for group in module.groups]
            first += len(module.types)
        self.types = [sub_type.composite for group in groups for sub_type in group]
        self.order = TypeOrder(groups)

    def kind(self, heap):
        """Whether a heap type is the address of a type of functions or of continuations, or neither."""
        return self.types[heap].kind if isinstance(heap, int) else None


def _shifted_type(sub_type, first):
    supertypes = [first + index for index in sub_type.supertypes]
    return SubType(sub_type.final, supertypes, _shifted_composite(sub_type.composite, first))


def _shifted_composite(composite, first):
    if isinstance(composite, ContType):
        return ContType(first + composite.function)
    parameters, results = (
        [shifted_value(value_type, first) for value_type in row] for row in (composite.parameters, composite.results))
    return FuncType(parameters, results)


def shifted_value(value_type, first):
    """A value type in which the address of a type stands for its index; those of a module begin with the first."""
    if isinstance(value_type, Ref) and value_type.index is not None:
        return Ref(value_type.nullable, first + value_type.index)
    return value_type


class Linker:
    """Finds what imports stand for, module by module.

    Of what has an address it knows the type: of a function or a tag the type's address, of a table the type of its
    elements and its limits, of a memory the limits, of a global its type and whether it may be set.
    """

    def __init__(self, modules):
        self.all_types = AllTypes(modules)
        self.addresses = Addresses()
        self.types = {kind: [] for kind in LISTS}
        self.exports = []       # of each module so far, by name: the kind, and the address
        self.instances = []
        self.printers = []      # of each module so far

    def add(self, number, module):
        """Find what the imports of a module stand for, and give addresses to what it defines."""
        first = self.all_types.firsts[number]
        imported = {name: [] for name in LISTS.values()}
        printers = []
        for place, each in enumerate(module.imports):
            printer = printer_of(module.types, each, first)
            if printer is not None:
                printers.append(printer)
                imported['functions'] += self.addresses.new('functions', 1)
                self.types['func'].append(printer.type)
            else:
                imported[LISTS[each.type[0]]].append(self._address(number, place, each, first))
        instance = self.addresses.instance(module, imported)
        self.printers.append(printers)
        self.instances.append(instance)
        self._add_types(module, first)
        self._add_exports(module, instance)

    def _address(self, number, place, imported, first):
        """The address of what an earlier module exports by the name of an import, where this fits."""
        kind, *described = imported.type
        names = {b'm%d' % earlier: exports for earlier, exports in enumerate(self.exports)}
        found, address = names.get(imported.module, {}).get(imported.item, (None, None))
        if found == kind and self._fits(kind, self.types[kind][address], _shifted_import(kind, described, first)):
            return address
        raise Unlinked(f'file {number} no import {place}', 4)

    def _fits(self, kind, given, wanted):
        """Whether what is there of a type may stand for an import of another one of the same kind."""
        if kind == 'func':
            return self.all_types.order.matches(given, wanted)
        if kind == 'tag':
            return self.all_types.order.same(given, wanted)
        if kind == 'memory':
            return _limits_fit(given, wanted)
        if kind == 'table':
            return all_equal(self.all_types, given[:1], wanted[:1]) and _limits_fit(given[1], wanted[1])
        (given_type, given_mutable), (wanted_type, wanted_mutable) = given, wanted
        if given_mutable != wanted_mutable:
            return False
        if given_mutable:
            return all_equal(self.all_types, [given_type], [wanted_type])
        return matches(self.all_types, given_type, wanted_type)

    def _add_types(self, module, first):
        self.types['func'] += [first + index for index in module.functions]
        self.types['tag'] += [first + index for index in module.tags]
        self.types['memory'] += module.memories
        self.types['table'] += [(shifted_value(table.type, first), table.limits) for table in module.tables]
        self.types['global'] += [(shifted_value(each.type, first), each.mutable) for each in module.globals]

    def _add_exports(self, module, instance):
        exports = {}
        for each in module.exports:
            kind = EXPORTED[each.kind]
            exports[each.name] = kind, getattr(instance, LISTS[kind])[each.index]
        self.exports.append(exports)


def _shifted_import(kind, described, first):
    """What an import wants, as the linker knows it of what has an address."""
    if kind in ('func', 'tag'):
        return first + described[0]
    if kind == 'memory':
        return described[0]
    return shifted_value(described[0], first), described[1]


def _limits_fit(given, wanted):
    if given.minimum < wanted.minimum:
        return False
    return wanted.maximum is None or given.maximum is not None and given.maximum <= wanted.maximum


def linked(modules):
    """Where a run of these modules begins. What is in the way is raised, in this order: the entry, which is that of the
    last one; imports; limits; and the ranges of active segments. Each goes over all modules in turn."""
    try:
        main = entry(modules[-1])
    except Refused as refused:
        raise Unlinked(f'{refused}', 4) from None
    linker = Linker(modules)
    for number, module in enumerate(modules):
        linker.add(number, module)
    for number, module in enumerate(modules):
        _said_of_file(number, 'limit', 9, check_limits, module)
    store, types = Store(), linker.all_types.types
    for module, instance, printers in zip(modules, linker.instances, linker.printers):
        allocate(store, module, instance, printers, types)
    for number, (module, instance) in enumerate(zip(modules, linker.instances)):
        _said_of_file(number, 'trap', 1, initialize, store, module, instance)
    return Linked(store, types, linker.all_types.order, linker.instances[-1].functions[main])


def _said_of_file(number, kind, status, done, *arguments):
    """Do something with a file, whose number is told with what is in the way."""
    try:
        done(*arguments)
    except (Exceeded, Trap) as end:
        raise Unlinked(f'file {number} {kind} {end}', status) from None
