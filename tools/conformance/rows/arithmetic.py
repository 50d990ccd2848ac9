"""Runs of one operation on two numbers of 64 bits: what stands behind `=` is the result, signed, modulo 2^64."""

from assembler.instructions import i64_const, numeric
from assembler.modules import code, export, module
from assembler.types import I64, functype
from rows.sections import CallRow, Section, spelled

SECTION = Section('arithmetic')
LEAST = -2 ** 63
GREATEST = 2 ** 63 - 1


def wrapped(number):
    """The number between -2^63 and 2^63 that is this one modulo 2^64."""
    return (number - LEAST) % 2 ** 64 + LEAST


OPERATIONS = {
    'i64.add': lambda a, b: a + b, 'i64.sub': lambda a, b: a - b, 'i64.mul': lambda a, b: a * b}
PAIRS = [
    (3, 5), (5, 3), (-1, 2), (0, 0), (6, 7), (GREATEST, 1), (LEAST, 1), (LEAST, 2), (-1, LEAST), (LEAST, LEAST),
    (GREATEST, GREATEST), (LEAST, GREATEST), (2 ** 32, 2 ** 32), (2 ** 32 + 1, 2 ** 32 - 1), (-123456, 624485)]
for operation, meaning in OPERATIONS.items():
    for a, b in PAIRS:
        given = module(
            types=[functype([], [I64])], functions=[0], exports=[export('main', 'func', 0)],
            codes=[code(i64_const(a) + i64_const(b) + numeric(operation))])
        SECTION.rows.append(CallRow(
            f'{operation}-of-{a}-and-{b}', 'run x', spelled(given), (f'out | = {wrapped(meaning(a, b))}',)))
