"""Instructions of integers."""

from assembler.instructions import (
    BINARY, I32_ADD, I32_EQZ, I64_EQZ, REF_AS_NON_NULL, RELATIONS, UNARY, UNREACHABLE, i32_const, i64_const, local_get,
    numeric, ref_null)
from assembler.types import FUNC, FUNCREF, I32, I64
from rows.sections import FunctionSection, local_gets

CONVERSIONS = FunctionSection('conversions')
COMPARISONS = FunctionSection('comparisons')
ARITHMETIC_OF_I32 = FunctionSection('arithmetic_of_i32')
ARITHMETIC_OF_I64 = FunctionSection('arithmetic_of_i64')

for name, operand, result in [
        ('i32.eqz', I32, I32), ('i64.eqz', I64, I32), ('i32.wrap_i64', I64, I32), ('i64.extend_i32_s', I32, I64),
        ('i64.extend_i32_u', I32, I64), ('i32.extend8_s', I32, I32), ('i32.extend16_s', I32, I32),
        ('i64.extend8_s', I64, I64), ('i64.extend16_s', I64, I64), ('i64.extend32_s', I64, I64)]:
    CONVERSIONS.standard(name, numeric(name), [operand], [result])

for prefix, value_type, arithmetic in [('i32.', I32, ARITHMETIC_OF_I32), ('i64.', I64, ARITHMETIC_OF_I64)]:
    for suffix in RELATIONS:
        COMPARISONS.standard(prefix + suffix, numeric(prefix + suffix), [value_type] * 2, [I32])
    for suffix in UNARY:
        arithmetic.standard(prefix + suffix, numeric(prefix + suffix), [value_type], [value_type])
    for suffix in BINARY:
        arithmetic.standard(prefix + suffix, numeric(prefix + suffix), [value_type] * 2, [value_type])

CONVERSIONS.standard('i32.const', i32_const(-5), [], [I32])
CONVERSIONS.standard('i64.const', i64_const(1 << 62), [], [I64])
CONVERSIONS.row('i32.const/least', '+', [], [I32], i32_const(-2 ** 31))
CONVERSIONS.row('i64.const/least', '+', [], [I64], i64_const(-2 ** 63))
CONVERSIONS.row('i32.const/longest-spelling', '+', [], [I32], b'\x41\x80\x80\x80\x80\x00')
CONVERSIONS.row('i32.add/reference', '-', [FUNCREF, I32], [I32], local_gets(2) + I32_ADD)
CONVERSIONS.row('i32.add/too-much-beneath', '-', [I32], [I32], local_get(0) + local_gets(1) * 2 + I32_ADD)
CONVERSIONS.row('i64.eqz/of-null', '-', [], [I32], ref_null(FUNC) + I64_EQZ)
CONVERSIONS.row('i32.eqz/unreached-reference', '-', [], [I32], UNREACHABLE + ref_null(FUNC) + I32_EQZ)
CONVERSIONS.row('i32.eqz/unreached-bottom-reference', '-', [], [I32], UNREACHABLE + REF_AS_NON_NULL + I32_EQZ)
