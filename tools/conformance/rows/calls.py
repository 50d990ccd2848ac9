"""Calls, and the branches on references that may be null."""

from assembler.instructions import (
    DROP, I32_WRAP_I64, I64_ADD, I64_EXTEND_I32_S, RETURN, UNREACHABLE, block, br_on_non_null, br_on_null, call,
    call_indirect, call_ref, i32_const, i64_const, local_get, local_set, ref_null)
from assembler.types import CONTREF, EMPTY, FUNC, FUNCREF, I32, I64, NOFUNC, NULLFUNCREF, nullable, ref
from rows.samples import HEAP_TYPES
from rows.sections import FunctionSection, local_gets
from surroundings import (
    CONT_EMPTY, FUNC_EMPTY, FUNC_I32, FUNC_I32_I64, FUNC_I64, OUT_OF_RANGE, SAME_FUNC_I32, TABLE_NAMES, block_type)

SECTION = FunctionSection('calls')
row = SECTION.row
standard = SECTION.standard

# Calls.

standard('call/import', call(0), [I32], [I64])
standard('call/empty', call(1), [], [])
standard('call/defined', call(3), [I32], [I32])
standard('call/not-declared', call(4), [], [])
row('call/itself', '+', [I32], [I32], local_get(0) + call(2))
row('call/out-of-range', '-', [], [], call(5))
row('call/greatest', '-', [], [], call(2 ** 32 - 1))
row('call/unreached-out-of-range', '-', [], [], UNREACHABLE + call(5))
row('call/operands-beneath', '+', [I64, I32], [I64, I64], local_get(0) + local_get(1) + call(0))
standard('call_indirect', call_indirect(FUNC_I32_I64, 0), [I32, I64, I32], [I64])
standard('call_indirect/no-parameters', call_indirect(FUNC_EMPTY, 0), [I32], [])
for table, table_name in enumerate(TABLE_NAMES):
    mark = '-' if table_name == 'contref' else '+'
    row(f'call_indirect/table-of-{table_name}', mark, [I32], [], local_get(0) + call_indirect(FUNC_EMPTY, table))
    row(f'call_indirect/unreached-table-of-{table_name}', mark, [I32], [],
        UNREACHABLE + call_indirect(FUNC_EMPTY, table))
row('call_indirect/other-type-than-the-table', '+', [I64, I32], [I64], local_gets(2) + call_indirect(FUNC_I64, 1))
row('call_indirect/type-out-of-range', '-', [I32], [], local_get(0) + call_indirect(OUT_OF_RANGE, 0))
row('call_indirect/continuation-type', '-', [I32], [], local_get(0) + call_indirect(CONT_EMPTY, 0))
row('call_indirect/table-out-of-range', '-', [I32], [], local_get(0) + call_indirect(FUNC_EMPTY, 5))
row('call_indirect/unreached-type-out-of-range', '-', [I32], [], UNREACHABLE + call_indirect(OUT_OF_RANGE, 0))
row('call_indirect/unreached-continuation-type', '-', [I32], [], UNREACHABLE + call_indirect(CONT_EMPTY, 0))
row('call_indirect/unreached-table-out-of-range', '-', [I32], [], UNREACHABLE + call_indirect(FUNC_EMPTY, 5))
standard('call_ref', call_ref(FUNC_I32_I64), [I32, I64, nullable(FUNC_I32_I64)], [I64])
standard('call_ref/no-parameters', call_ref(FUNC_EMPTY), [nullable(FUNC_EMPTY)], [])
row('call_ref/not-null', '+', [I32, ref(FUNC_I32)], [I32], local_gets(2) + call_ref(FUNC_I32))
row('call_ref/equivalent', '+', [I32, nullable(SAME_FUNC_I32)], [I32], local_gets(2) + call_ref(FUNC_I32))
row('call_ref/other-function-type', '-', [I32, nullable(FUNC_I64)], [I32], local_gets(2) + call_ref(FUNC_I32))
row('call_ref/funcref', '-', [I32, FUNCREF], [I32], local_gets(2) + call_ref(FUNC_I32))
row('call_ref/nullfuncref', '+', [I32, NULLFUNCREF], [I32], local_gets(2) + call_ref(FUNC_I32))
row('call_ref/contref', '-', [I32, CONTREF], [I32], local_gets(2) + call_ref(FUNC_I32))
row('call_ref/null', '+', [], [I32], i32_const(0) + ref_null(FUNC_I32) + call_ref(FUNC_I32))
row('call_ref/unreached-null', '+', [], [I32], UNREACHABLE + ref_null(FUNC_I32) + call_ref(FUNC_I32))
row('call_ref/unreached-null-of-nofunc', '+', [], [I32], UNREACHABLE + ref_null(NOFUNC) + call_ref(FUNC_I32))
row('call_ref/unreached-null-of-func', '-', [], [I32], UNREACHABLE + ref_null(FUNC) + call_ref(FUNC_I32))
row('call_ref/unreached-null-of-other', '-', [], [I32], UNREACHABLE + ref_null(FUNC_I64) + call_ref(FUNC_I32))
row('call_ref/unreached-null-result', '-', [], [I64], UNREACHABLE + ref_null(FUNC_I32) + call_ref(FUNC_I32))
row('call_ref/out-of-range', '-', [], [], UNREACHABLE + call_ref(OUT_OF_RANGE))
row('call_ref/continuation-type', '-', [], [], UNREACHABLE + call_ref(CONT_EMPTY))
row('call_ref/continuation-type-of-null', '-', [], [], ref_null(CONT_EMPTY) + call_ref(CONT_EMPTY))
row('call_ref/operands-in-the-other-order', '-', [I32, nullable(FUNC_I32)], [I32],
    local_get(1) + local_get(0) + call_ref(FUNC_I32))

# Br_on_null, br_on_non_null.

for name, heap in HEAP_TYPES:
    row(f'br_on_null/{name}', '+', [nullable(heap)], [ref(heap)],
        block(EMPTY, local_get(0) + br_on_null(0) + RETURN) + UNREACHABLE)
    row(f'br_on_null/not-null-{name}', '+', [ref(heap)], [ref(heap)],
        block(EMPTY, local_get(0) + br_on_null(0) + RETURN) + UNREACHABLE)
    row(f'br_on_null/unreached-{name}', '+', [nullable(heap)], [ref(heap)],
        block(EMPTY, UNREACHABLE + local_get(0) + br_on_null(0) + RETURN) + UNREACHABLE)
    row(f'br_on_null/unreached-bottom-as-{name}', '+', [], [ref(heap)],
        block(EMPTY, UNREACHABLE + br_on_null(0) + RETURN) + UNREACHABLE)
    row(f'br_on_non_null/{name}', '+', [nullable(heap)], [ref(heap)],
        block(ref(heap), local_get(0) + br_on_non_null(0) + UNREACHABLE))
    row(f'br_on_non_null/not-null-{name}', '+', [ref(heap)], [ref(heap)],
        block(ref(heap), local_get(0) + br_on_non_null(0) + UNREACHABLE))
    row(f'br_on_non_null/nullable-label-{name}', '+', [nullable(heap)], [nullable(heap)],
        block(nullable(heap), local_get(0) + br_on_non_null(0) + UNREACHABLE))
    row(f'br_on_non_null/unreached-{name}', '+', [nullable(heap)], [ref(heap)],
        block(ref(heap), UNREACHABLE + local_get(0) + br_on_non_null(0) + UNREACHABLE))
    row(f'br_on_non_null/unreached-bottom-{name}', '+', [], [ref(heap)],
        block(ref(heap), UNREACHABLE + br_on_non_null(0) + UNREACHABLE))
row('br_on_null/is-no-number', '-', [I32], [], local_get(0) + br_on_null(0) + DROP)
row('br_on_null/nothing', '-', [], [], br_on_null(0) + DROP)
row('br_on_null/unreached-is-no-number', '-', [I32], [], UNREACHABLE + local_get(0) + br_on_null(0) + DROP)
row('br_on_null/out-of-range', '-', [FUNCREF], [], local_get(0) + br_on_null(1) + DROP)
row('br_on_null/unreached-out-of-range', '-', [FUNCREF], [], UNREACHABLE + br_on_null(1) + DROP)
row('br_on_null/keeps-the-reference', '-', [FUNCREF], [], local_get(0) + br_on_null(0))
row('br_on_null/label-operands-beneath', '+', [FUNCREF], [I32],
    block(I32, i32_const(0) + local_get(0) + br_on_null(0) + DROP))
row('br_on_null/label-operands-and-more-beneath', '+', [FUNCREF], [I32],
    block(I32,
          i64_const(0) + i32_const(0) + local_get(0) + br_on_null(0) + DROP + I64_EXTEND_I32_S + I64_ADD
          + I32_WRAP_I64))
row('br_on_null/label-operand-missing', '-', [FUNCREF], [I32],
    block(I32, local_get(0) + br_on_null(0) + DROP + i32_const(0)))
row('br_on_null/label-operand-wrong', '-', [FUNCREF], [I32],
    block(I32, i64_const(0) + local_get(0) + br_on_null(0) + DROP + DROP + i32_const(0)))
row('br_on_null/unreached-label-operand-made', '+', [FUNCREF], [I32],
    block(I32, UNREACHABLE + local_get(0) + br_on_null(0) + DROP))
row('br_on_null/unreached-label-operand-made-is-no-i64', '-', [FUNCREF], [I32],
    block(I32, UNREACHABLE + local_get(0) + br_on_null(0) + DROP + I32_WRAP_I64))
row('br_on_null/unreached-label-operand-wrong', '-', [FUNCREF], [I32],
    block(I32, UNREACHABLE + i64_const(0) + local_get(0) + br_on_null(0) + DROP + DROP + i32_const(0)))
row('br_on_null/label-takes-a-reference-too', '+', [FUNCREF], [FUNCREF],
    block(FUNCREF, local_get(0) + local_get(0) + br_on_null(0) + DROP))
row('br_on_null/gives-the-type-of-the-label', '-', [ref(FUNC_I32), FUNCREF], [FUNCREF],
    block(FUNCREF, local_get(0) + local_get(1) + br_on_null(0) + DROP + local_set(0) + local_get(1)))
row('br_on_null/unreached-bottom-is-no-number', '-', [], [I32],
    block(EMPTY, UNREACHABLE + br_on_null(0) + RETURN) + UNREACHABLE)
row('br_on_non_null/is-no-number', '-', [I32], [FUNCREF],
    block(FUNCREF, local_get(0) + br_on_non_null(0) + UNREACHABLE))
row('br_on_non_null/nothing', '-', [], [FUNCREF], block(FUNCREF, br_on_non_null(0) + UNREACHABLE))
row('br_on_non_null/label-takes-nothing', '-', [FUNCREF], [], local_get(0) + br_on_non_null(0))
row('br_on_non_null/label-takes-i32', '-', [FUNCREF], [I32], local_get(0) + br_on_non_null(0) + i32_const(0))
row('br_on_non_null/label-takes-i64-in-unreached', '-', [FUNCREF], [I64],
    UNREACHABLE + local_get(0) + br_on_non_null(0) + i64_const(0))
row('br_on_non_null/unreached-label-takes-nothing', '-', [], [], UNREACHABLE + br_on_non_null(0))
row('br_on_non_null/reference-not-last', '-', [FUNCREF], [FUNCREF, I32],
    block(block_type([], [FUNCREF, I32]), local_get(0) + i32_const(0) + br_on_non_null(0) + UNREACHABLE))
row('br_on_non_null/drops-the-reference', '-', [FUNCREF], [FUNCREF], block(FUNCREF, local_get(0) + br_on_non_null(0)))
row('br_on_non_null/falls-through-with-another', '+', [FUNCREF], [FUNCREF],
    block(FUNCREF, local_get(0) + br_on_non_null(0) + ref_null(NOFUNC)))
row('br_on_non_null/subtype', '+', [nullable(FUNC_I32)], [FUNCREF],
    block(FUNCREF, local_get(0) + br_on_non_null(0) + UNREACHABLE))
row('br_on_non_null/nullable-subtype-of-not-null-label', '+', [nullable(FUNC_I32)], [ref(FUNC)],
    block(ref(FUNC), local_get(0) + br_on_non_null(0) + UNREACHABLE))
row('br_on_non_null/supertype', '-', [FUNCREF], [ref(FUNC_I32)],
    block(ref(FUNC_I32), local_get(0) + br_on_non_null(0) + UNREACHABLE))
row('br_on_non_null/other-family', '-', [CONTREF], [FUNCREF],
    block(FUNCREF, local_get(0) + br_on_non_null(0) + UNREACHABLE))
row('br_on_non_null/operands-beneath', '+', [FUNCREF], [I32, ref(FUNC)],
    block(block_type([], [I32, ref(FUNC)]), i32_const(0) + local_get(0) + br_on_non_null(0) + UNREACHABLE))
row('br_on_non_null/operands-beneath-stay', '+', [FUNCREF], [I32],
    block(block_type([], [I32, ref(FUNC)]), i32_const(0) + local_get(0) + br_on_non_null(0) + RETURN) + UNREACHABLE)
row('br_on_non_null/operand-beneath-missing', '-', [FUNCREF], [],
    block(block_type([], [I32, ref(FUNC)]), local_get(0) + br_on_non_null(0) + UNREACHABLE) + UNREACHABLE)
row('br_on_non_null/operand-beneath-wrong', '-', [FUNCREF], [],
    block(block_type([], [I32, ref(FUNC)]), i64_const(0) + local_get(0) + br_on_non_null(0) + UNREACHABLE)
    + UNREACHABLE)
row('br_on_non_null/unreached-operand-beneath-made', '+', [FUNCREF], [I32],
    block(block_type([], [I32, ref(FUNC)]), UNREACHABLE + local_get(0) + br_on_non_null(0) + RETURN) + UNREACHABLE)
row('br_on_non_null/unreached-operand-beneath-wrong', '-', [FUNCREF], [],
    block(block_type([], [I32, ref(FUNC)]), UNREACHABLE + i64_const(0) + local_get(0) + br_on_non_null(0) + UNREACHABLE)
    + UNREACHABLE)
row('br_on_non_null/out-of-range', '-', [FUNCREF], [], local_get(0) + br_on_non_null(1))
row('br_on_non_null/unreached-out-of-range', '-', [FUNCREF], [], UNREACHABLE + br_on_non_null(1))
