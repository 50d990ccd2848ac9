"""Runs of each operation of integers, at edges of their types."""

from assembler.instructions import (
    BINARY, DROP, RELATIONS, UNARY, i32_const, i64_const, numeric)
from assembler.types import I32, I64
from rows.runs import RunSection

CONSTANTS = RunSection('constants')
ONE_OPERAND = RunSection('one_operand')
TWO_OPERANDS = RunSection('two_operands')
DIVISIONS = RunSection('divisions')
DIVIDING = ('div_s', 'div_u', 'rem_s', 'rem_u')
SHIFTING = ('shl', 'shr_s', 'shr_u', 'rotl', 'rotr')


class Width:
    """An integer type: its numbers at edges, which are given as signed ones, and what makes one."""

    def __init__(self, name, value_type, bits, constant):
        self.name = name
        self.type = value_type
        self.bits = bits
        self.constant = constant
        self.least = -2 ** (bits - 1)
        self.greatest = 2 ** (bits - 1) - 1
        self.edges = {
            '0': 0, '1': 1, '-1': -1, 'least': self.least, 'greatest': self.greatest, '2': 2, '-2': -2, '10': 10,
            '-3': -3, 'all-digits': 0x0123456789abcdef % 2 ** (bits - 1), 'more-than-half': self.least + 0x1234567}
        self.counts = [0, 1, 7, bits - 1, bits, bits + 1, 2 * bits - 1, 2 * bits, -1, self.least, self.greatest]


WIDTHS = [Width('i32', I32, 32, i32_const), Width('i64', I64, 64, i64_const)]


def _constants():
    for width in WIDTHS:
        numbers = [*width.edges.values(), 63, 64, -64, -65, 8191, 8192, -8192, -8193]
        CONSTANTS.counted(
            f'{width.name}.const', [width.type] * len(numbers), b''.join(map(width.constant, numbers)))
    CONSTANTS.main(
        'both-types', [I64, I32, I32, I64], i64_const(-1) + i32_const(-1) + i32_const(2 ** 31 - 1) + i64_const(2 ** 32))


def _unary(name, width, result, numbers):
    """An operation of one operand, on these numbers."""
    body = b''.join(width.constant(number) + numeric(name) for number in numbers)
    ONE_OPERAND.main(name, [result] * len(numbers), body)
    ONE_OPERAND.counted(f'{name}/once', [result], width.constant(numbers[-1]) + numeric(name))


def _all_unary():
    for width in WIDTHS:
        powers = [2 ** place for place in range(width.bits - 1)]
        numbers = [*width.edges.values(), *powers, *(-power for power in powers), *(power - 1 for power in powers)]
        for suffix in [*UNARY, 'eqz']:
            result = I32 if suffix == 'eqz' else width.type
            _unary(f'{width.name}.{suffix}', width, result, numbers)
    parts = [edge + more for bits in (8, 16, 32) for edge in (0, 2 ** (bits - 1), 2 ** bits) for more in (-1, 0, 1)]
    for name, result in [
            ('i32.wrap_i64', I32), ('i64.extend8_s', I64), ('i64.extend16_s', I64), ('i64.extend32_s', I64)]:
        wide = [*WIDTHS[1].edges.values(), *parts, *(-part for part in parts), 2 ** 62 + 2 ** 31, -2 ** 62 + 2 ** 15]
        _unary(name, WIDTHS[1], result, wide)
    for name, result in [
            ('i64.extend_i32_s', I64), ('i64.extend_i32_u', I64), ('i32.extend8_s', I32), ('i32.extend16_s', I32)]:
        narrow = [part for part in parts if part < 2 ** 31]
        _unary(name, WIDTHS[0], result, [*WIDTHS[0].edges.values(), *narrow, *(-part for part in narrow)])


def _applied(width, name, left, right):
    return width.constant(left) + width.constant(right) + numeric(name)


def _binary(width, suffix):
    """An operation of two operands: for each on the left, one row of all on the right that don't trap."""
    name = f'{width.name}.{suffix}'
    result = I32 if suffix in RELATIONS else width.type
    section = DIVISIONS if suffix in DIVIDING else TWO_OPERANDS
    rights = width.counts if suffix in SHIFTING else list(width.edges.values())
    for text, left in width.edges.items():
        fitting = [right for right in rights if not _traps(width, suffix, left, right)]
        section.main(
            f'{name}-of-{text}', [result] * len(fitting),
            b''.join(_applied(width, name, left, right) for right in fitting))
    section.counted(f'{name}/once', [result], _applied(width, name, 6, 7))


def _traps(width, suffix, left, right):
    if suffix not in DIVIDING:
        return False
    return right == 0 or (suffix, left, right) == ('div_s', width.least, -1)


def _trapping(width):
    for suffix in DIVIDING:
        name = f'{width.name}.{suffix}'
        for text, left in width.edges.items():
            for right in width.edges.values():
                if _traps(width, suffix, left, right):
                    DIVISIONS.main(f'{name}-of-{text}-by-{right}', [width.type], _applied(width, name, left, right))
        DIVISIONS.counted(f'{name}/trap', [], _applied(width, name, 5, 0) + DROP)
    overflow = _applied(width, f'{width.name}.div_s', width.least, -1)
    DIVISIONS.counted(f'{width.name}.div_s/overflow', [], overflow + DROP)


_constants()
_all_unary()
for each in WIDTHS:
    for operation in BINARY + RELATIONS:
        _binary(each, operation)
    _trapping(each)
