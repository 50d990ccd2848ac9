"""The operations of integers, by the names of the instructions (Core, execution, numerics).

A number of a width is a whole number from 0 up, below the power of two of this width.
"""

from functools import partial

from executing.ends import Trap

WIDTHS = {'i32': 32, 'i64': 64}


def wrapped(width, number):
    """The number of this width that is this one modulo its power of two."""
    return number % (1 << width)


def signed(width, number):
    """What a number of this width says as a signed one."""
    return number - (1 << width) if number >> (width - 1) else number


def extended(part, width, number):
    """The low bits of a number, so many as the part has, as a signed number in this width."""
    return wrapped(width, signed(part, wrapped(part, number)))


def _add(width, left, right):
    return wrapped(width, left + right)


def _sub(width, left, right):
    return wrapped(width, left - right)


def _mul(width, left, right):
    return wrapped(width, left * right)


def _check_divisor(divisor):
    if divisor == 0:
        raise Trap('divide by zero')


def _div_u(_width, left, right):
    _check_divisor(right)
    return left // right


def _rem_u(_width, left, right):
    _check_divisor(right)
    return left % right


def _div_s(width, left, right):
    """The quotient towards zero."""
    _check_divisor(right)
    dividend, divisor = signed(width, left), signed(width, right)
    quotient = abs(dividend) // abs(divisor)
    if (dividend < 0) != (divisor < 0):
        quotient = -quotient
    if quotient == 1 << (width - 1):
        raise Trap('integer overflow')
    return wrapped(width, quotient)


def _rem_s(width, left, right):
    """The remainder, which has the sign of the dividend."""
    _check_divisor(right)
    dividend, divisor = signed(width, left), signed(width, right)
    remainder = abs(dividend) % abs(divisor)
    return wrapped(width, -remainder if dividend < 0 else remainder)


def _and(_width, left, right):
    return left & right


def _or(_width, left, right):
    return left | right


def _xor(_width, left, right):
    return left ^ right


def _shl(width, number, count):
    return wrapped(width, number << count % width)


def _shr_u(width, number, count):
    return number >> count % width


def _shr_s(width, number, count):
    return wrapped(width, signed(width, number) >> count % width)


def _rotl(width, number, count):
    count %= width
    return wrapped(width, number << count) | number >> (width - count)


def _rotr(width, number, count):
    return _rotl(width, number, width - count % width)


def _clz(width, number):
    return width - number.bit_length()


def _ctz(width, number):
    """How many bits stand behind the lowest that is set, which alone is left by the conjunction."""
    return (number & -number).bit_length() - 1 if number else width


def _popcnt(_width, number):
    return number.bit_count()


def _eqz(_width, number):
    return int(number == 0)


def _eq(_width, left, right):
    return int(left == right)


def _ne(_width, left, right):
    return int(left != right)


def _lt_u(_width, left, right):
    return int(left < right)


def _lt_s(width, left, right):
    return int(signed(width, left) < signed(width, right))


def _gt_u(_width, left, right):
    return int(left > right)


def _gt_s(width, left, right):
    return int(signed(width, left) > signed(width, right))


def _le_u(_width, left, right):
    return int(left <= right)


def _le_s(width, left, right):
    return int(signed(width, left) <= signed(width, right))


def _ge_u(_width, left, right):
    return int(left >= right)


def _ge_s(width, left, right):
    return int(signed(width, left) >= signed(width, right))


_UNARY = {'clz': _clz, 'ctz': _ctz, 'popcnt': _popcnt, 'eqz': _eqz}
_BINARY = {
    'add': _add, 'sub': _sub, 'mul': _mul, 'div_s': _div_s, 'div_u': _div_u, 'rem_s': _rem_s, 'rem_u': _rem_u,
    'and': _and, 'or': _or, 'xor': _xor, 'shl': _shl, 'shr_s': _shr_s, 'shr_u': _shr_u, 'rotl': _rotl, 'rotr': _rotr,
    'eq': _eq, 'ne': _ne, 'lt_s': _lt_s, 'lt_u': _lt_u, 'gt_s': _gt_s, 'gt_u': _gt_u, 'le_s': _le_s, 'le_u': _le_u,
    'ge_s': _ge_s, 'ge_u': _ge_u,
}


def _of_widths(operations):
    return {
        f'{value_type}.{name}': partial(operation, width)
        for value_type, width in WIDTHS.items() for name, operation in operations.items()}


UNARY = _of_widths(_UNARY) | {
    'i32.wrap_i64': partial(wrapped, 32), 'i64.extend_i32_s': partial(extended, 32, 64),
    'i64.extend_i32_u': partial(wrapped, 64), 'i32.extend8_s': partial(extended, 8, 32),
    'i32.extend16_s': partial(extended, 16, 32), 'i64.extend8_s': partial(extended, 8, 64),
    'i64.extend16_s': partial(extended, 16, 64), 'i64.extend32_s': partial(extended, 32, 64),
}
BINARY = _of_widths(_BINARY)
