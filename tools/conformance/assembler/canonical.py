"""The canonical spelling of a module that is given as the tree of `reader`: what is to be written of it."""

from functools import partial

from assembler import instructions, types
from assembler.encoding import indices, name, signed, unsigned, vector
from assembler.modules import (
    as_func, as_global, as_memory, as_table, as_tag, code, global_type, imported, module, table)
from assembler.segments import FUNCTIONS
from reader.module_decoding import names_data
from reader.types import FUNCREF, I32, I64, FuncType, Ref
from text_reader.expressions import in_order, joined

CONTINUATION = b'\x5d'          # behind which an index stands as a signed number
FUNCTION_REF = Ref(False, 'func')
OPENINGS = {'block': b'\x02', 'loop': b'\x03', 'if': b'\x04'}
HEAP_TYPES = {'func': types.FUNC, 'nofunc': types.NOFUNC, 'cont': types.CONT, 'nocont': types.NOCONT}
SHORT = ('func', 'nofunc')      # the heap types of which the nullable reference is spelled by the same byte


def canonical(tree):
    """The bytes of a module. Sections of nothing don't stand, nor does a data count that no body needs."""
    sections = {
        'types': [_group(group) for group in tree.groups], 'imports': [_import(each) for each in tree.imports],
        'functions': tree.functions, 'tables': [_table(each) for each in tree.tables],
        'memories': [_limits(each) for each in tree.memories], 'tags': tree.tags,
        'globals': [_global(each) for each in tree.globals], 'exports': [_export(each) for each in tree.exports],
        'elements': [_element(each) for each in tree.elements],
        'codes': [_code(each) for each in tree.codes], 'datas': [_data(each) for each in tree.datas]}
    counts = {'start': tree.start, 'data_count': len(tree.datas) if names_data(tree) else None}
    return module(
        **{kind: given for kind, given in sections.items() if given},
        **{kind: number for kind, number in counts.items() if number is not None})


def _group(group):
    members = [_sub_type(each) for each in group]
    return members[0] if len(members) == 1 else types.rec_group(members)


def _sub_type(sub_type):
    composite = _composite(sub_type.composite)
    if sub_type.final and not sub_type.supertypes:
        return composite
    return (types.final_type if sub_type.final else types.open_type)(composite, *sub_type.supertypes)


def _composite(composite):
    if isinstance(composite, FuncType):
        rows = (composite.parameters, composite.results)
        return types.functype(*([_value_type(each) for each in row] for row in rows))
    return CONTINUATION + signed(composite.function)


def _heap(heap):
    """A heap type as the assembler takes it: its bytes, or the index of a type."""
    return HEAP_TYPES.get(heap, heap)


def _value_type(value_type):
    if not isinstance(value_type, Ref):
        return {I32: types.I32, I64: types.I64}[value_type]
    if value_type.nullable and value_type.heap in SHORT:
        return HEAP_TYPES[value_type.heap]
    return (types.nullable if value_type.nullable else types.ref)(_heap(value_type.heap))


def _limits(limits):
    return types.limits(limits.minimum, limits.maximum)


def _import(each):
    kind, *described = each.type
    extern_type = {
        'func': as_func, 'tag': as_tag, 'memory': lambda limits: as_memory(_limits(limits)),
        'table': lambda ref_type, limits: as_table(_value_type(ref_type), _limits(limits)),
        'global': lambda value_type, mutable: as_global(_value_type(value_type), mutable)}[kind](*described)
    return imported(extern_type, each.item, each.module)


def _table(each):
    initial = None if each.initial is None else _expression(each.initial)[:-1]
    return table(_value_type(each.type), _limits(each.limits), initial)


def _global(each):
    return global_type(_value_type(each.type), each.mutable) + _expression(each.initial)


def _export(each):
    return name(each.name) + bytes([each.kind]) + unsigned(each.index)


def _element(segment):
    """A segment. Functions alone are listed by their indices; others go by expressions, and the table 0 and the type of
    references to functions aren't told where both are meant."""
    lists = segment.type == FUNCTION_REF and all(
        [each.name for each in item] == ['ref.func'] for item in segment.items)
    told = FUNCTIONS if lists else _value_type(segment.type)
    flag = (0 if lists else 4) + (3 if segment.declarative else 1)
    place = b''
    if segment.active is not None:
        untold = segment.active.index == 0 and (lists or segment.type == FUNCREF)
        flag = (0 if lists else 4) + (0 if untold else 2)
        place = (b'' if untold else unsigned(segment.active.index)) + _expression(segment.active.offset)
        told = b'' if untold else told
    if lists:
        return unsigned(flag) + place + told + indices([item[0].immediates[0] for item in segment.items])
    return unsigned(flag) + place + told + vector([_expression(item) for item in segment.items])


def _data(segment):
    if segment.active is None:
        return unsigned(1) + name(segment.bytes)
    place = unsigned(2) + unsigned(segment.active.index) if segment.active.index else unsigned(0)
    return place + _expression(segment.active.offset) + name(segment.bytes)


def _code(each):
    runs = [(count, _value_type(value_type)) for count, value_type in joined(each.runs)]
    return code(_expression(each.body)[:-1], runs)


def _expression(sequence):
    """The instructions of an expression, and its end."""
    return b''.join(map(_instruction, in_order(sequence)))


def _instruction(instruction):
    spelled = _SPELLED.get(instruction.name)
    if spelled is not None:
        return spelled(*instruction.immediates)
    if instruction.name in instructions.NUMERIC_OPCODES:
        return instructions.numeric(instruction.name)
    if instruction.name in instructions.LOADS | instructions.STORES:
        return instructions.access(instruction.name, *instruction.immediates)
    by_name = instruction.name.replace('.', '_')
    if instruction.immediates:
        return getattr(instructions, by_name)(*instruction.immediates)
    return getattr(instructions, by_name.upper())


def _opening(name_, shape):
    """The first bytes of a block."""
    if isinstance(shape, int):
        return OPENINGS[name_] + signed(shape)
    return OPENINGS[name_] + (_value_type(*shape) if shape else types.EMPTY)


def _resume(continuation, handlers):
    spelled = {'on': instructions.on, 'switch': instructions.on_switch}
    return instructions.resume(continuation, *(spelled[kind](*given) for kind, *given in handlers))


# Instructions that the assembler calls otherwise than the tree, or whose immediates it takes otherwise.
_SPELLED = {name_: partial(_opening, name_) for name_ in OPENINGS} | {
    'select t': lambda value_types: instructions.select(*map(_value_type, value_types)), 'resume': _resume,
    'ref.null': lambda heap: instructions.ref_null(_heap(heap)),
}
