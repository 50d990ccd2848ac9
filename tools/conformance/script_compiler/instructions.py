"""The instructions that scripts are compiled to, beside those that the assembler has."""

from assembler.instructions import I32_WRAP_I64, SELECT, i32_const, i64_const, if_, local_get, local_set, numeric

NUMBER = b'\x7e'                        # the block type of a number that is left

IS_ZERO = numeric('i64.eqz')
EXTEND = numeric('i64.extend_i32_u')    # of an i32 that is 0 or 1
TRUTH = IS_ZERO + numeric('i32.eqz') + EXTEND       # 1 where a number isn't 0, else 0
NEGATE = i64_const(-1) + numeric('i64.mul')
ARITHMETIC = {
    sign: numeric(f'i64.{operation}')
    for sign, operation in {'+': 'add', '-': 'sub', '*': 'mul', '/': 'div_s', '%': 'rem_s'}.items()}
COMPARISONS = {
    sign: numeric(f'i64.{relation}') + EXTEND
    for sign, relation in {'==': 'eq', '!=': 'ne', '<': 'lt_s', '<=': 'le_s', '>': 'gt_s', '>=': 'ge_s'}.items()}


def place_of(temporary, count):
    """The number on the stack as a place of so many: where there is no such place, one that no table has."""
    is_there = local_get(temporary) + i64_const(count) + numeric('i64.lt_u')
    return local_set(temporary) + local_get(temporary) + I32_WRAP_I64 + i32_const(-1) + is_there + SELECT


def if_zero(block_type, zero, other):
    """One code where the number on the stack is 0, and else the other."""
    return IS_ZERO + if_(block_type, zero, other)
