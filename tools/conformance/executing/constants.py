"""The values of constant expressions (Core, execution, instantiation)."""

from executing.numbers import BINARY, WIDTHS, wrapped
from executing.stores import NULL


def value_of(instructions, store, instance):
    """The value of a constant expression of an instance, by the globals and functions that it has."""
    values = []
    for name, immediates in instructions:
        if name in BINARY:
            right, left = values.pop(), values.pop()
            values.append(BINARY[name](left, right))
        else:
            values.append(_value(name, immediates, store, instance))
    value, = values
    return value


def _value(name, immediates, store, instance):
    """The value of a constant instruction that takes no operands."""
    if name == 'global.get':
        return store.globals[instance.globals[immediates[0]]]
    if name == 'ref.func':
        return instance.functions[immediates[0]]
    if name == 'ref.null':
        return NULL
    value_type, _ = name.split('.')
    return wrapped(WIDTHS[value_type], immediates[0])
