"""Parametric and variable instructions, and which locals are set."""

from assembler.instructions import (
    DROP, I64_EXTEND_I32_S, NOP, REF_AS_NON_NULL, SELECT, UNREACHABLE, block, br, global_get, global_set, i32_const,
    if_, local_get, local_set, local_tee, loop, select)
from assembler.types import CONT, CONTREF, EMPTY, FUNCREF, I32, I64, NOFUNC, NULLFUNCREF, nullable, ref
from rows.sections import FunctionSection, local_gets, wrong_type
from surroundings import CONT_I32, FUNC_I32, GLOBALS, OUT_OF_RANGE

SECTION = FunctionSection('parametric_and_variable')
row = SECTION.row
standard = SECTION.standard

# Parametric.

for name, value_type in [('i32', I32), ('i64', I64), ('funcref', FUNCREF), ('not-null', ref(CONT_I32))]:
    row(f'drop/{name}', '+', [value_type], [], local_get(0) + DROP)
row('drop/nothing', '-', [I32], [], DROP)
row('drop/no-result', '-', [I32], [I32], local_get(0) + DROP)
row('drop/unreached', '+', [], [], UNREACHABLE + DROP)
row('drop/unreached-many', '+', [], [I64], UNREACHABLE + DROP * 5)
row('drop/unreached-known-and-more', '+', [I32], [], UNREACHABLE + local_get(0) + DROP + DROP)
row('drop/bottom-reference', '+', [], [], UNREACHABLE + REF_AS_NON_NULL + DROP)
row('drop/left-over', '-', [I32], [], local_get(0) + local_get(0) + DROP)
for name, value_type in [('i32', I32), ('i64', I64)]:
    other = wrong_type(value_type)
    row(f'select/{name}', '+', [value_type, value_type, I32], [value_type], local_gets(3) + SELECT)
    row(f'select/{name}-then-other', '-', [value_type, other, I32], [value_type], local_gets(3) + SELECT)
    row(f'select/{name}-other-result', '-', [value_type, value_type, I32], [other], local_gets(3) + SELECT)
    row(f'select/{name}-by-i64', '-', [value_type, value_type, I64], [value_type], local_gets(3) + SELECT)
    row(f'select/{name}-missing', '-', [value_type, I32], [value_type], local_gets(2) + SELECT)
    row(f'select/unreached-{name}', '+', [value_type, I32], [value_type], UNREACHABLE + local_gets(2) + SELECT)
    row(f'select/unreached-{name}-other-result', '-', [value_type, I32], [other], UNREACHABLE + local_gets(2) + SELECT)
    row(f'select/unreached-{name}-both', '+', [value_type, I32], [value_type],
        UNREACHABLE + local_get(0) + local_get(0) + local_get(1) + SELECT)
    row(f'select/unreached-{name}-then-other', '-', [value_type, other, I32], [value_type],
        UNREACHABLE + local_gets(3) + SELECT)
row('select/unreached-as-i32', '+', [], [I32], UNREACHABLE + SELECT)
row('select/unreached-as-i64', '+', [], [I64], UNREACHABLE + SELECT)
row('select/unreached-as-reference', '+', [], [ref(CONT_I32)], UNREACHABLE + SELECT)
row('select/unreached-condition', '+', [I32], [FUNCREF], UNREACHABLE + local_get(0) + SELECT)
row('select/unreached-condition-i64', '-', [I64], [I32], UNREACHABLE + local_get(0) + SELECT)
row('select/unreached-then-both-ways', '+', [], [I32, I64],
    UNREACHABLE + SELECT + I64_EXTEND_I32_S + UNREACHABLE + SELECT)
for name, value_type in [('funcref', FUNCREF), ('not-null', ref(FUNC_I32)), ('contref', CONTREF)]:
    row(f'select/{name}', '-', [value_type, value_type, I32], [value_type], local_gets(3) + SELECT)
    row(f'select/unreached-{name}', '-', [value_type, I32], [value_type], UNREACHABLE + local_gets(2) + SELECT)
    row(f'select/unreached-{name}-dropped', '-', [value_type, I32], [], UNREACHABLE + local_gets(2) + SELECT + DROP)
row('select/unreached-bottom-reference', '-', [I32], [FUNCREF], UNREACHABLE + REF_AS_NON_NULL + local_get(0) + SELECT)
row('select/unreached-bottom-reference-beneath', '-', [I32], [I32],
    UNREACHABLE + REF_AS_NON_NULL + local_get(0) + local_get(0) + SELECT)
for name, value_type in [
        ('i32', I32), ('i64', I64), ('funcref', FUNCREF), ('typed', nullable(FUNC_I32)), ('not-null', ref(CONT_I32)),
        ('contref', CONTREF)]:
    standard(f'select-of/{name}', select(value_type), [value_type, value_type, I32], [value_type])
row('select-of/no-type', '-', [I32] * 3, [I32], local_gets(3) + select())
row('select-of/two-types', '-', [I32] * 3, [I32, I32], local_gets(3) + select(I32, I32))
row('select-of/unreached-no-type', '-', [], [], UNREACHABLE + select())
row('select-of/unreached-two-types', '-', [], [], UNREACHABLE + select(I32, I32))
row('select-of/type-out-of-range', '-', [I32], [], UNREACHABLE + select(nullable(OUT_OF_RANGE)) + DROP)
row('select-of/not-null-type-out-of-range', '-', [I32], [], UNREACHABLE + select(ref(OUT_OF_RANGE)) + DROP)
row('select-of/subtypes', '+', [ref(FUNC_I32), NULLFUNCREF, I32], [FUNCREF], local_gets(3) + select(FUNCREF))
row('select-of/is-no-subtype-again', '-', [ref(FUNC_I32), ref(FUNC_I32), I32], [ref(FUNC_I32)],
    local_gets(3) + select(FUNCREF))
row('select-of/bottom-references', '+', [], [ref(CONT_I32)],
    UNREACHABLE + REF_AS_NON_NULL + REF_AS_NON_NULL + i32_const(1) + select(ref(CONT_I32)))
row('select-of/bottom-reference-as-i32', '-', [], [I32], UNREACHABLE + REF_AS_NON_NULL + i32_const(1) + select(I32))

# Variables.

for name, value_type in [
        ('i32', I32), ('i64', I64), ('funcref', FUNCREF), ('not-null', ref(FUNC_I32)), ('contref', CONTREF),
        ('typed-cont', nullable(CONT_I32))]:
    row(f'local.get/{name}-parameter', '+', [value_type], [value_type], local_get(0))
    row(f'local.get/{name}-wrong-result', '-', [value_type], [wrong_type(value_type)], local_get(0))
    row(f'local.get/{name}-unreached', '+', [value_type], [value_type], UNREACHABLE + local_get(0))
    row(f'local.get/{name}-unreached-wrong-result', '-', [value_type], [wrong_type(value_type)],
        UNREACHABLE + local_get(0))
    for instruction, results, prefix in [
            (local_set(1), [], f'local.set/{name}'), (local_tee(1), [value_type], f'local.tee/{name}')]:
        other = wrong_type(value_type)
        row(prefix, '+', [value_type] * 2, results, local_get(0) + instruction)
        row(f'{prefix}-wrong-operand', '-', [other, value_type], results, local_get(0) + instruction)
        row(f'{prefix}-missing-operand', '-', [other, value_type], results, instruction)
        row(f'{prefix}-wrong-result', '-', [value_type] * 2, [other], local_get(0) + instruction)
        row(f'{prefix}-unreached', '+', [value_type] * 2, results, UNREACHABLE + instruction)
        row(f'{prefix}-unreached-wrong-operand', '-', [other, value_type], results,
            UNREACHABLE + local_get(0) + instruction)
    if value_type != ref(FUNC_I32):
        row(f'local.get/{name}-begins-with-a-default', '+', [], [value_type], local_get(0), [(1, value_type)])
    else:
        row(f'local.get/{name}-begins-unset', '-', [], [value_type], local_get(0), [(1, value_type)])
RUNS = [(2, I32), (1, I64)]     # behind one parameter, so 3 is the last local
for name, instruction, before, after in [
        ('local.get', local_get, b'', DROP), ('local.set', local_set, local_get(0), b''),
        ('local.tee', local_tee, local_get(0), DROP)]:
    row(f'{name}/last-local', '+', [I64], [], before + instruction(3) + after, RUNS)
    row(f'{name}/past-the-last', '-', [I64], [], before + instruction(4) + after, RUNS)
    row(f'{name}/unreached-past-the-last', '-', [I64], [], UNREACHABLE + instruction(4), RUNS)
    row(f'{name}/greatest-index', '-', [I64], [], UNREACHABLE + instruction(2 ** 32 - 1))
row('local.set/subtype', '+', [ref(FUNC_I32), FUNCREF], [], local_get(0) + local_set(1))
row('local.set/supertype', '-', [ref(FUNC_I32), FUNCREF], [], local_get(1) + local_set(0))
row('local.tee/gives-the-type-of-the-local', '-', [ref(FUNC_I32), FUNCREF], [ref(FUNC_I32)],
    local_get(0) + local_tee(1))
row('local.tee/gives-the-supertype', '+', [ref(FUNC_I32), FUNCREF], [FUNCREF], local_get(0) + local_tee(1))
row('local.tee/unreached-gives-the-type-of-the-local', '-', [I32], [I64], UNREACHABLE + local_tee(0))
for index, (value_type, mutable) in enumerate(GLOBALS):
    standard(f'global.get/{index}', global_get(index), [], [value_type])
    if mutable:
        standard(f'global.set/{index}', global_set(index), [value_type], [])
    else:
        row(f'global.set/{index}', '-', [value_type], [], local_get(0) + global_set(index))
        row(f'global.set/unreached-{index}', '-', [value_type], [], UNREACHABLE + global_set(index))
row('global.get/past-the-last', '-', [], [], global_get(7) + DROP)
row('global.get/unreached-past-the-last', '-', [], [], UNREACHABLE + global_get(7) + DROP)
row('global.set/past-the-last', '-', [I32], [], local_get(0) + global_set(7))
row('global.set/unreached-past-the-last', '-', [I32], [], UNREACHABLE + global_set(7))
row('global.set/subtype', '+', [ref(FUNC_I32)], [], local_get(0) + global_set(4))

# Which locals are set.

NOT_NULL = ref(FUNC_I32)
ONE = [(1, NOT_NULL)]
TWO = [(2, NOT_NULL)]
VALUE = local_get(0)
SET = VALUE + local_set(1)
SET_2 = VALUE + local_set(2)
USE = local_get(1) + DROP
USE_2 = local_get(2) + DROP
row('unset/read-at-once', '-', [NOT_NULL], [], USE, ONE)
row('unset/set-before', '+', [NOT_NULL], [], SET + USE, ONE)
row('unset/tee-before', '+', [NOT_NULL], [], VALUE + local_tee(1) + DROP + USE, ONE)
row('unset/set-after', '-', [NOT_NULL], [], USE + SET, ONE)
row('unset/other-local-set', '-', [NOT_NULL], [], SET_2 + USE, TWO)
row('unset/set-then-block-reads', '+', [NOT_NULL], [], SET + block(EMPTY, loop(EMPTY, USE)), ONE)
row('unset/set-in-block-and-read-there', '+', [NOT_NULL], [], block(EMPTY, SET + USE), ONE)
row('unset/set-in-block-forgotten', '-', [NOT_NULL], [], block(EMPTY, SET) + USE, ONE)
row('unset/set-in-loop-forgotten', '-', [NOT_NULL], [], loop(EMPTY, SET) + USE, ONE)
row('unset/tee-in-block-forgotten', '-', [NOT_NULL], [], block(EMPTY, VALUE + local_tee(1) + DROP) + USE, ONE)
row('unset/set-in-then-alone', '-', [NOT_NULL], [], i32_const(1) + if_(EMPTY, SET) + USE, ONE)
row('unset/set-in-one-branch', '-', [NOT_NULL], [], i32_const(1) + if_(EMPTY, SET, NOP) + USE, ONE)
row('unset/set-in-the-other-branch', '-', [NOT_NULL], [], i32_const(1) + if_(EMPTY, NOP, SET) + USE, ONE)
row('unset/set-in-both-branches-forgotten', '-', [NOT_NULL], [], i32_const(1) + if_(EMPTY, SET, SET) + USE, ONE)
row('unset/set-in-then-forgotten-in-else', '-', [NOT_NULL], [], i32_const(1) + if_(EMPTY, SET, USE), ONE)
row('unset/set-in-then-and-read-there', '+', [NOT_NULL], [], i32_const(1) + if_(EMPTY, SET + USE, SET + USE), ONE)
row('unset/set-before-an-if', '+', [NOT_NULL], [], SET + i32_const(1) + if_(EMPTY, USE, USE) + USE, ONE)
row('unset/set-again-in-a-block', '+', [NOT_NULL], [], SET + block(EMPTY, SET) + USE, ONE)
row('unset/outer-block-keeps-its-own', '+', [NOT_NULL], [], block(EMPTY, SET + block(EMPTY, SET) + USE), ONE)
row('unset/inner-block-forgets-two', '-', [NOT_NULL], [],
    block(EMPTY, SET + block(EMPTY, SET_2 + USE + USE_2) + USE + USE_2), TWO)
row('unset/inner-block-forgets-its-own', '+', [NOT_NULL], [],
    block(EMPTY, SET + block(EMPTY, SET_2 + USE + USE_2) + USE), TWO)
row('unset/first-branch-forgets-before-second-sets', '+', [NOT_NULL], [], i32_const(1) + if_(EMPTY, SET, SET_2 + USE_2),
    TWO)
row('unset/unreached-read', '-', [NOT_NULL], [], UNREACHABLE + USE, ONE)
row('unset/unreached-set', '+', [NOT_NULL], [], UNREACHABLE + local_set(1) + USE, ONE)
row('unset/unreached-set-in-block', '-', [NOT_NULL], [], UNREACHABLE + block(EMPTY, UNREACHABLE + local_set(1)) + USE,
    ONE)
row('unset/set-after-branch-in-block-forgotten', '-', [NOT_NULL], [], block(EMPTY, br(0) + SET) + USE, ONE)
row('unset/second-of-a-run', '-', [NOT_NULL], [], SET + USE_2, TWO)
row('unset/nullable-in-between', '+', [NOT_NULL], [], USE_2 + VALUE + local_set(3) + local_get(3) + DROP,
    [(1, NOT_NULL), (1, nullable(FUNC_I32)), (1, NOT_NULL)])
row('unset/not-null-cont', '-', [], [], local_get(0) + DROP, [(1, ref(CONT))])
row('unset/not-null-nofunc', '-', [], [], local_get(0) + DROP, [(1, ref(NOFUNC))])
row('locals/type-out-of-range', '-', [], [], b'', [(1, nullable(OUT_OF_RANGE))])
row('locals/none-of-a-type-out-of-range', '+', [], [], b'', [(0, nullable(OUT_OF_RANGE))])
row('locals/not-null-type-out-of-range', '-', [], [], b'', [(1, ref(OUT_OF_RANGE))])
