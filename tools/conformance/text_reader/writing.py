"""Writes the text of a module that is decoded and valid, line by line."""

from reader.types import ContType, Ref
from text_reader.expressions import in_order, joined
from text_reader.forms import FORMS, name_in_text
from text_reader.lines import EXPORT_KINDS


def text_of(module):
    """The text of a module."""
    return ''.join(f'{line}\n' for line in _lines(module)).encode()


def _lines(module):
    """The lines of a module, without their ends."""
    yield 'module'
    for group in module.groups:
        yield from _group(group)
    yield from map(_import, module.imports)
    for table in module.tables:
        yield from _table(table)
    for limits in module.memories:
        yield f'memory {_limits(limits)}'
    for tag in module.tags:
        yield f'tag {tag}'
    for each in module.globals:
        yield f'global {_global_type(each.type, each.mutable)}'
        yield from _expression(each.initial)
    for export in module.exports:
        yield f'export {_bytes(export.name)} {EXPORT_KINDS[export.kind]} {export.index}'
    if module.start is not None:
        yield f'start {module.start}'
    for segment in module.elements:
        yield from _element(segment)
    for segment in module.datas:
        yield from _data(segment)
    for function_type, code in zip(module.functions, module.codes, strict=True):
        yield from _function(function_type, code)


def _group(group):
    if len(group) != 1:
        yield f'rec {len(group)}'
    yield from map(_sub_type, group)


def _sub_type(sub_type):
    composite = _composite(sub_type.composite)
    if sub_type.final and not sub_type.supertypes:
        return composite
    return _words('final' if sub_type.final else 'open', *sub_type.supertypes, ':', composite)


def _composite(composite):
    """A function or continuation type."""
    if isinstance(composite, ContType):
        return _words('cont', composite.function)
    return _words('func', *map(_value_type, composite.parameters), '->', *map(_value_type, composite.results))


def _words(*words):
    """Words of a line, and numbers as words."""
    return ' '.join(map(str, words))


def _value_type(value_type):
    if isinstance(value_type, Ref):
        return f'{"null" if value_type.nullable else "ref"}:{value_type.heap}'
    return value_type


def _limits(limits):
    return _words(limits.minimum, '-' if limits.maximum is None else limits.maximum)


def _global_type(value_type, mutable):
    return _words(_value_type(value_type), 'var' if mutable else 'const')


def _bytes(spelling):
    return f'x{spelling.hex()}'


# The type of an import behind the name of its kind.
_EXTERN_TYPES = {
    'func': str, 'tag': str, 'memory': _limits, 'global': _global_type,
    'table': lambda ref_type, limits: _words(_value_type(ref_type), _limits(limits)),
}


def _import(each):
    kind, *described = each.type
    return _words('import', _bytes(each.module), _bytes(each.item), kind, _EXTERN_TYPES[kind](*described))


def _table(table):
    described = _words('table', _value_type(table.type), _limits(table.limits))
    if table.initial is None:
        yield described
    else:
        yield f'{described} init'
        yield from _expression(table.initial)


def _element(segment):
    mode = 'declare' if segment.declarative else 'passive'
    if segment.active is not None:
        mode = f'active {segment.active.index}'
    yield _words('elem', mode, _value_type(segment.type), len(segment.items))
    yield from _offset(segment.active)
    for item in segment.items:
        yield from _expression(item)


def _data(segment):
    mode = 'passive' if segment.active is None else f'active {segment.active.index}'
    yield _words('data', mode, _bytes(segment.bytes))
    yield from _offset(segment.active)


def _offset(active):
    """The expression of an active segment."""
    if active is not None:
        yield from _expression(active.offset)


def _function(function_type, code):
    yield f'function {function_type}'
    for count, value_type in joined(code.runs):
        yield f'local {count} {_value_type(value_type)}'
    yield from _expression(code.body)


def _expression(instructions):
    return map(_instruction, in_order(instructions))


def _instruction(instruction):
    name = name_in_text(instruction.name)
    words = [word for kind, given in zip(FORMS[name], instruction.immediates, strict=True)
             for word in _IMMEDIATES[kind](given)]
    return _words(name, *words)


def _shape(shape):
    """The type of a block: none or one result, or the index of a type."""
    if isinstance(shape, int):
        return [f'type:{shape}']
    return map(_value_type, shape) if shape else ['void']


def _clause(clause):
    return ':'.join(map(str, clause))


def _alone(word):
    return [word]


# What gives the words of an immediate, by what `FORMS` says that it is.
_IMMEDIATES = {
    'index': _alone, 'alignment': _alone, 'offset': _alone, 'i32': _alone, 'i64': _alone, 'heap': _alone,
    'shape': _shape, 'labels': list, 'types': lambda types: map(_value_type, types),
    'clauses': lambda clauses: map(_clause, clauses),
}
