"""Operators on numbers, which are signed and of 64 bits."""

from script_evaluator.ends import Fault

LEAST = -2 ** 63
CONNECTIVES = ('&&', '||')


def wrapped(number):
    """The number of 64 bits that is left of any number."""
    return (number - LEAST) % 2 ** 64 + LEAST


def _cut_quotient(left, right):
    """The quotient, cut towards 0."""
    if right == 0:
        raise Fault('divzero')
    quotient = abs(left) // abs(right)
    return quotient if (left < 0) == (right < 0) else -quotient


def divided(left, right):
    quotient = _cut_quotient(left, right)
    if quotient == -LEAST:
        raise Fault('overflow')
    return quotient


def remainder(left, right):
    return left - right * _cut_quotient(left, right)


UNARY = {'-': lambda number: wrapped(-number), '!': lambda number: int(number == 0)}

BINARY = {
    '+': lambda left, right: wrapped(left + right),
    '-': lambda left, right: wrapped(left - right),
    '*': lambda left, right: wrapped(left * right),
    '/': divided,
    '%': remainder,
    '==': lambda left, right: int(left == right),
    '!=': lambda left, right: int(left != right),
    '<': lambda left, right: int(left < right),
    '<=': lambda left, right: int(left <= right),
    '>': lambda left, right: int(left > right),
    '>=': lambda left, right: int(left >= right),
}


def decides(connective, left):
    """Whether the left side of a connective decides its value."""
    return (left != 0) == (connective == '||')


def truth(number):
    """1 or 0, by whether a number isn't 0."""
    return int(number != 0)
