"""Judges the items of a module: types, imports, definitions, segments, the start, exports and bodies."""

from dataclasses import replace
from functools import partial

from reader.blocks import Block, Place
from reader.context import Invalid, entry, require
from reader.matching import composite_matches, matches
from reader.types import I32, FuncType, Ref, spelled, spelled_composite

EXPORT_KINDS = ['function', 'table', 'memory', 'global', 'tag']
GREATEST_TABLE = 2 ** 32 - 1
GREATEST_MEMORY = 65536     # in pages

CONSTANT = {
    'i32.const', 'i64.const', 'i32.add', 'i32.sub', 'i32.mul', 'i64.add', 'i64.sub', 'i64.mul', 'ref.null', 'ref.func'}


def items(module, context):
    """Each item by its name, with what judges it, in the order in which they are judged.

    An item is to be judged, and to be valid, before the next is asked for.
    """
    yield from _type_items(module, context)
    for number, each in enumerate(module.imports):
        yield f'import {number}', partial(_check_import, context, *each.type)
    for number, table in enumerate(module.tables):
        yield f'table {number}', partial(_check_table, context, table)
    yield 'memory', partial(_check_memories, context, module.memories)
    for number, tag in enumerate(module.tags):
        yield f'tag {number}', partial(context.function_type, tag)
    yield from _global_items(module, context)
    for number, element in enumerate(module.elements):
        yield f'element {number}', partial(_check_element, context, element)
    for number, data in enumerate(module.datas):
        yield f'data {number}', partial(_check_data, context, data.active)
    if module.start is not None:
        yield 'start', partial(_check_start, context, module.start)
    names = set()
    for number, export in enumerate(module.exports):
        yield f'export {number}', partial(_check_export, context, export, names)
        names.add(export.name)
    for number, (function, code) in enumerate(zip(module.functions, module.codes)):
        yield f'function {number}', partial(_check_function, context, function, code)


def _type_items(module, context):
    number = end = 0
    for group in module.groups:
        end += len(group)
        for sub_type in group:
            yield f'type {number}', partial(_check_type, context, number, sub_type, end)
            number += 1


def _check_type(context, number, sub_type, end):
    """A type may name those before the end of its group, and have one supertype, which stands in front of it."""
    wanted = f'indices of types before the end of the group, so below {end}'
    require(all(index < end for index in _named_types(sub_type)), wanted)
    if not isinstance(sub_type.composite, FuncType):
        context.function_type(sub_type.composite.function)
    count = len(sub_type.supertypes)
    require(count <= 1, f'one supertype at most; there are {count}')
    for supertype in sub_type.supertypes:
        _check_supertype(context, number, supertype)


def _named_types(sub_type):
    """The indices in a type."""
    composite = sub_type.composite
    if not isinstance(composite, FuncType):
        return [*sub_type.supertypes, composite.function]
    references = [each for each in composite.parameters + composite.results if isinstance(each, Ref)]
    return [*sub_type.supertypes, *(each.index for each in references if each.index is not None)]


def _check_supertype(context, number, supertype):
    require(supertype < number, f'a supertype in front of the type, so below {number}; here it is {supertype}')
    above = context.order.sub_types[supertype]
    require(not above.final, f'a supertype that is open; type {supertype} is final')
    if not composite_matches(context, context.types[number], above.composite):
        below, above = spelled_composite(context.types[number]), spelled_composite(above.composite)
        raise Invalid(f'{below} to match {above}, its supertype {supertype}')


def _check_limits(greatest, limits):
    require(limits.minimum <= greatest, f'a minimum of at most {greatest}; it is {limits.minimum}')
    if limits.maximum is not None:
        require(
            limits.minimum <= limits.maximum <= greatest,
            f'a maximum from the minimum, {limits.minimum}, to {greatest}; it is {limits.maximum}')


def _check_in_range(context, value_type):
    if not context.has_type(value_type):
        raise Invalid(f'a type whose index is below {len(context.types)}; here is {spelled(value_type)}')


def _check_table_type(context, ref_type, limits):
    _check_limits(GREATEST_TABLE, limits)
    _check_in_range(context, ref_type)


def _check_import(context, kind, described, *more):
    if kind in ('func', 'tag'):
        context.function_type(described)
    elif kind == 'table':
        _check_table_type(context, described, *more)
    elif kind == 'memory':
        _check_limits(GREATEST_MEMORY, described)
    else:
        _check_in_range(context, described)


def _check_table(context, table):
    _check_table_type(context, table.type, table.limits)
    if table.initial is None:
        require(table.type.nullable, 'an initial expression, since its elements can\'t be null')
    else:
        _check_constant('initial expression', context, table.initial, table.type)


def _check_memories(context, memories):
    require(len(context.memories) <= 1, f'one memory at most; there are {len(context.memories)}')
    for limits in memories:
        _check_limits(GREATEST_MEMORY, limits)


def _global_items(module, context):
    """The expression of a global sees only those in front of it."""
    imported = len(context.globals) - len(module.globals)
    for number, each in enumerate(module.globals):
        before = replace(context, globals=context.globals[:imported + number])
        yield f'global {number}', partial(_check_global, before, each)


def _check_global(context, defined):
    _check_in_range(context, defined.type)
    _check_constant('initial expression', context, defined.initial, defined.type)


def _check_element(context, element):
    _check_in_range(context, element.type)
    if element.active is not None:
        table_type = entry(context.tables, element.active.index, 'table')
        require(matches(context, element.type, table_type), 'elements whose type matches that of the table')
        _check_constant('offset', context, element.active.offset, I32)
    for number, item in enumerate(element.items):
        _check_constant(f'item {number}', context, item, element.type)


def _check_data(context, active):
    if active is not None:
        entry(context.memories, active.index, 'memory')
        _check_constant('offset', context, active.offset, I32)


def _check_start(context, function):
    function_type = context.function_type(entry(context.functions, function, 'function'))
    require(
        not function_type.parameters and not function_type.results,
        f'a function of type [] -> []; function {function} is of another')


def _check_export(context, export, names):
    """An export of a name that none of those in front of it has."""
    spaces = [context.functions, context.tables, context.memories, context.globals, context.tags]
    entry(spaces[export.kind], export.index, EXPORT_KINDS[export.kind])
    require(export.name not in names, 'a name that no export before it has')


def _check_constant(name, context, instructions, value_type):
    """A constant expression of this name, of a value of this type."""
    for number, instruction in enumerate(instructions):
        try:
            _check_is_constant(context, instruction)
        except Invalid as fault:
            fault.places.append(Place(number, instruction, None, Block(name, context, [], [], [], [])))
            raise
    _judge_body(name, context, [], [], [value_type], instructions)


def _check_is_constant(context, instruction):
    if instruction.name == 'global.get':
        _, mutable = entry(context.globals, *instruction.immediates, 'global')
        require(not mutable, 'a global that is constant')
    else:
        require(instruction.name in CONSTANT, 'an instruction of constant expressions')


def _check_function(context, function, code):
    function_type = context.function_type(function)
    for count, value_type in code.runs:
        if count:
            _check_in_range(context, value_type)
    declared = [value_type for count, value_type in code.runs for _ in range(count)]
    _judge_body('body', context, function_type.parameters, declared, function_type.results, code.body)


def _judge_body(name, context, parameters, declared, results, instructions):
    """Judge the instructions of a body of this name with these parameters, further locals and results."""
    defaults = [not isinstance(value_type, Ref) or value_type.nullable for value_type in declared]
    set_locals = [True] * len(parameters) + defaults
    Block(name, context, parameters + declared, set_locals, results, [results]).judge(instructions, results)
