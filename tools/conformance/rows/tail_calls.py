"""Tail calls. They take what calls take, and what is called is to give what their own function gives."""

from assembler.instructions import (
    DROP, NOP, UNREACHABLE, block, br, i32_const, i64_const, if_, local_get, loop, ref_null, return_call,
    return_call_indirect, return_call_ref)
from assembler.types import CONTREF, EMPTY, FUNC, FUNCREF, I32, I64, NOFUNC, NULLFUNCREF, nullable, ref
from rows.sections import FunctionSection, local_gets
from surroundings import (
    CONT_EMPTY, FUNC_EMPTY, FUNC_I32, FUNC_I32_I64, FUNC_I32_TO_I64, FUNC_I64, NINE, NINE_FUNCREFS, OUT_OF_RANGE,
    SAME_FUNC_I32, SAME_NINE, TABLE_NAMES, func_index)

SECTION = FunctionSection('tail_calls')
row = SECTION.row
standard = SECTION.standard

# By a function's index.

standard('return_call', return_call(3), [I32], [I32])
standard('return_call/import', return_call(0), [I32], [I64])
row('return_call/of-nothing', '+', [], [], return_call(1))
row('return_call/not-declared', '+', [], [], return_call(4))
row('return_call/itself', '+', [I32], [I64, FUNCREF], local_get(0) + return_call(2))
row('return_call/itself-with-an-operand-of-another-type', '-', [I32], [I64], i64_const(0) + return_call(2))
row('return_call/out-of-range', '-', [], [], return_call(5))
row('return_call/greatest', '-', [], [], return_call(2 ** 32 - 1))
row('return_call/unreached-out-of-range', '-', [], [], UNREACHABLE + return_call(5))
row('return_call/of-nothing-for-a-result', '-', [], [I32], return_call(1))
row('return_call/unreached-of-nothing-for-a-result', '-', [], [I32], UNREACHABLE + return_call(1))
row('return_call/a-result-for-none', '-', [I32], [], local_get(0) + return_call(3))
row('return_call/unreached-a-result-for-none', '-', [], [], UNREACHABLE + return_call(3))
row('return_call/operands-beneath', '+', [I64, I32], [I64], local_get(0) + local_get(0) + local_get(1) + return_call(0))

# Where one stands, and what comes behind it.

CALL = local_get(0) + return_call(0)        # from [i32] to [i64]
for name, mark, body in [
        ('in-a-block', '+', block(EMPTY, CALL) + UNREACHABLE),
        ('in-a-block-that-gives-another-type', '+', block(I32, CALL) + DROP + i64_const(0)),
        ('in-a-block-that-gives-the-same', '+', block(I64, CALL)),
        ('in-a-loop', '+', loop(EMPTY, CALL) + UNREACHABLE),
        ('in-blocks-in-one-another', '+', block(I64, loop(I32, block(EMPTY, CALL) + i32_const(1)) + DROP + CALL)),
        ('in-a-branch', '+', local_get(0) + if_(I64, CALL, i64_const(0))),
        ('in-the-other-branch', '+', local_get(0) + if_(I64, i64_const(0), CALL)),
        ('in-both-branches', '+', local_get(0) + if_(I64, CALL, CALL)),
        ('in-a-branch-alone', '+', local_get(0) + if_(EMPTY, CALL) + i64_const(0)),
        ('in-both-branches-and-nothing-behind', '-', local_get(0) + if_(EMPTY, CALL, CALL)),
        ('a-block-gives-nothing', '-', block(EMPTY, CALL)),
        ('before-another', '+', CALL + CALL), ('before-one-of-what-is-made', '+', CALL + return_call(0)),
        ('before-one-of-another-operand', '-', CALL + local_get(0) + i64_const(0) + return_call(0)),
        ('before-one-of-other-results', '-', CALL + return_call(3)),
        ('before-nop', '+', CALL + NOP), ('before-drop', '+', CALL + DROP + DROP),
        ('before-a-result', '+', CALL + i64_const(0)), ('before-a-wrong-result', '-', CALL + i32_const(0)),
        ('before-two-results', '-', CALL + i64_const(0) + i64_const(0)),
        ('before-a-branch', '+', block(I64, CALL + br(0))),
        ('behind-a-branch', '+', block(I64, i64_const(0) + br(0) + CALL)),
        ('behind-a-branch-without-its-operand', '+', block(I64, i64_const(0) + br(0) + return_call(0)))]:
    row(f'return_call/{name}', mark, [I32], [I64], body)

# Of an element of a table.

standard('return_call_indirect', return_call_indirect(FUNC_I32_I64, 0), [I32, I64, I32], [I64])
row('return_call_indirect/of-nothing', '+', [I32], [], local_get(0) + return_call_indirect(FUNC_EMPTY, 0))
row('return_call_indirect/operands-beneath', '+', [I32, I64], [I64],
    local_get(1) + local_get(0) + local_get(0) + return_call_indirect(FUNC_I32_TO_I64, 0))
for table, table_name in enumerate(TABLE_NAMES):
    mark = '-' if table_name == 'contref' else '+'
    row(f'return_call_indirect/table-of-{table_name}', mark, [I32], [],
        local_get(0) + return_call_indirect(FUNC_EMPTY, table))
    row(f'return_call_indirect/unreached-table-of-{table_name}', mark, [I32], [],
        UNREACHABLE + return_call_indirect(FUNC_EMPTY, table))
row('return_call_indirect/other-type-than-the-table', '+', [I64, I32], [I64],
    local_gets(2) + return_call_indirect(FUNC_I64, 1))
for name, function_type, table in [
        ('type-out-of-range', OUT_OF_RANGE, 0), ('continuation-type', CONT_EMPTY, 0),
        ('table-out-of-range', FUNC_EMPTY, 5)]:
    call = return_call_indirect(function_type, table)
    row(f'return_call_indirect/{name}', '-', [I32], [], local_get(0) + call)
    row(f'return_call_indirect/unreached-{name}', '-', [I32], [], UNREACHABLE + call)

# Of a reference.

standard('return_call_ref', return_call_ref(FUNC_I32_I64), [I32, I64, nullable(FUNC_I32_I64)], [I64])
row('return_call_ref/of-nothing', '+', [nullable(FUNC_EMPTY)], [], local_get(0) + return_call_ref(FUNC_EMPTY))
row('return_call_ref/operands-beneath', '+', [I32, nullable(FUNC_I32)], [I32],
    local_get(1) + local_get(0) + local_get(0) + local_get(1) + return_call_ref(FUNC_I32))
CALL_REF = local_gets(2) + return_call_ref(FUNC_I32)
for name, mark, value_type in [
        ('not-null', '+', ref(FUNC_I32)), ('equivalent', '+', nullable(SAME_FUNC_I32)),
        ('other-function-type', '-', nullable(FUNC_I64)), ('funcref', '-', FUNCREF), ('nullfuncref', '+', NULLFUNCREF),
        ('contref', '-', CONTREF), ('number', '-', I32)]:
    row(f'return_call_ref/{name}', mark, [I32, value_type], [I32], CALL_REF)
row('return_call_ref/null', '+', [], [I32], i32_const(0) + ref_null(FUNC_I32) + return_call_ref(FUNC_I32))
for name, mark, heap in [
        ('null', '+', FUNC_I32), ('null-of-nofunc', '+', NOFUNC), ('null-of-func', '-', FUNC),
        ('null-of-other', '-', FUNC_I64)]:
    row(f'return_call_ref/unreached-{name}', mark, [], [I32], UNREACHABLE + ref_null(heap) + return_call_ref(FUNC_I32))
row('return_call_ref/out-of-range', '-', [], [], UNREACHABLE + return_call_ref(OUT_OF_RANGE))
row('return_call_ref/continuation-type', '-', [], [], UNREACHABLE + return_call_ref(CONT_EMPTY))
row('return_call_ref/continuation-type-of-null', '-', [], [], ref_null(CONT_EMPTY) + return_call_ref(CONT_EMPTY))
row('return_call_ref/operands-in-the-other-order', '-', [I32, nullable(FUNC_I32)], [I32],
    local_get(1) + local_get(0) + return_call_ref(FUNC_I32))

# What is called gives these, and the function those.

for name, mark, given, wanted in [
        ('two', '+', [I32, I64], [I32, I64]), ('in-the-other-order', '-', [I32, I64], [I64, I32]),
        ('one-too-few', '-', [I32], [I32, I64]), ('one-too-few-in-front', '-', [I64], [I32, I64]),
        ('one-too-many', '-', [I32, I64], [I32]), ('of-another-type', '-', [I32], [I64]),
        ('below', '+', [ref(FUNC_I32)], [FUNCREF]), ('above', '-', [FUNCREF], [ref(FUNC_I32)]),
        ('not-null-for-what-may-be-null', '+', [ref(FUNC_I32)], [nullable(FUNC_I32)]),
        ('what-may-be-null-for-not-null', '-', [nullable(FUNC_I32)], [ref(FUNC_I32)]),
        ('equivalent', '+', [nullable(FUNC_I32)], [nullable(SAME_FUNC_I32)]),
        ('least-for-a-type', '+', [NULLFUNCREF], [nullable(FUNC_I32)]),
        ('of-another-family', '-', [FUNCREF], [CONTREF]), ('a-number-for-a-reference', '-', [I32], [FUNCREF]),
        ('below-and-above', '-', [ref(FUNC_I32), FUNCREF], [FUNCREF, ref(FUNC_I32)]),
        ('nine-equivalent', '+', NINE, SAME_NINE), ('nine-below', '+', NINE, NINE_FUNCREFS),
        ('nine-above', '-', NINE_FUNCREFS, NINE), ('nine-for-eight', '-', NINE, NINE[1:]),
        ('eight-for-nine', '-', NINE[1:], NINE), ('nine-but-for-the-last', '-', [*NINE[1:], I32], NINE),
        ('nine-but-for-the-first', '-', [I32, *NINE[1:]], NINE)]:
    callee = func_index([], given)
    for kind, operand, call in [
            ('return_call_ref', nullable(callee), return_call_ref(callee)),
            ('return_call_indirect', I32, return_call_indirect(callee, 0))]:
        row(f'{kind}/results/{name}', mark, [operand], wanted, local_get(0) + call)
        row(f'{kind}/results/unreached-{name}', mark, [], wanted, UNREACHABLE + call)
        row(f'{kind}/results/in-a-block-{name}', mark, [operand], wanted,
            block(EMPTY, local_get(0) + call) + UNREACHABLE)
