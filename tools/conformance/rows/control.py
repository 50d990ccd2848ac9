"""Bodies, unreachable and nop, blocks and loops."""

from assembler.encoding import signed
from assembler.instructions import (
    DROP, I32_ADD, I32_EQZ, NOP, UNREACHABLE, block, i32_const, i64_const, local_get, local_set, loop)
from assembler.types import EMPTY, FUNCREF, I32, I64, nullable, ref
from rows.samples import SAMPLES
from rows.sections import FunctionSection
from surroundings import CONT_EMPTY, CONT_I32, FUNC_I32, OUT_OF_RANGE, block_type

SECTION = FunctionSection('control')
row = SECTION.row

# Unreachable, nop, ends.

row('empty-body', '+', [], [], b'')
row('empty-body/result', '-', [], [I32], b'')
row('body/one-result', '+', [I32], [I32], local_get(0))
row('body/two-results', '+', [I32, I64], [I64, I32], local_get(1) + local_get(0))
row('body/results-in-the-other-order', '-', [I32, I64], [I64, I32], local_get(0) + local_get(1))
row('body/a-result-too-many', '-', [I32], [I32], local_get(0) + local_get(0))
row('body/parameters-are-no-operands', '-', [I32], [I32], b'')
row('unreachable', '+', [], [], UNREACHABLE)
row('unreachable/any-results', '+', [], [I32, FUNCREF, ref(CONT_I32)], UNREACHABLE)
row('unreachable/operands-beneath', '+', [I32], [I64], local_get(0) + local_get(0) + UNREACHABLE)
row('unreachable/some-results-known', '+', [I64], [I32, I64], UNREACHABLE + local_get(0))
row('unreachable/known-result-wrong', '-', [I32], [I32, I64], UNREACHABLE + local_get(0))
row('unreachable/known-result-wrong-beneath', '-', [I32], [I64, I32], UNREACHABLE + local_get(0) + local_get(0))
row('unreachable/too-many-known', '-', [I32], [], UNREACHABLE + local_get(0))
row('unreachable/twice', '+', [I32], [I64], UNREACHABLE + local_get(0) + UNREACHABLE)
row('nop', '+', [I32], [I32], local_get(0) + NOP)
row('nop/result', '-', [], [I32], NOP)
row('nop/unreached', '+', [], [I32], UNREACHABLE + NOP)
row('nop/unreached-wrong-result', '-', [I64], [I32], UNREACHABLE + local_get(0) + NOP)

# Blocks.

for name, make in [('block', block), ('loop', loop)]:
    row(f'{name}/empty', '+', [], [], make(EMPTY, b''))
    for sample in SAMPLES:
        row(f'{name}/gives-{sample.name}', '+', [], [sample.type], make(sample.type, sample.constant))
        row(f'{name}/gives-{sample.name}-of-nothing', '-', [], [sample.type], make(sample.type, b''))
        row(f'{name}/gives-{sample.name}-of-wrong', '-', [], [sample.type], make(sample.type, sample.wrong_constant))
        row(f'{name}/gives-{sample.name}-and-wrong-result', '-', [], [sample.wrong_type],
            make(sample.type, sample.constant))
        row(f'{name}/unreached-gives-{sample.name}', '+', [], [sample.type],
            UNREACHABLE + make(sample.type, UNREACHABLE))
        row(f'{name}/unreached-gives-{sample.name}-of-nothing', '-', [], [sample.type],
            UNREACHABLE + make(sample.type, b''))
        row(f'{name}/unreached-gives-{sample.name}-and-wrong-result', '-', [], [sample.wrong_type],
            UNREACHABLE + make(sample.type, UNREACHABLE))
    row(f'{name}/takes', '+', [I32], [I32], local_get(0) + make(block_type([I32], [I32]), NOP))
    row(f'{name}/takes-and-gives-more', '+', [I32, I64], [I64, I32, I64],
        local_get(0) + local_get(1)
        + make(block_type([I32, I64], [I64, I32, I64]),
               local_set(1) + local_set(0) + local_get(1) + local_get(0) + local_get(1)))
    row(f'{name}/takes-of-nothing', '-', [I32], [I32], make(block_type([I32], [I32]), NOP))
    row(f'{name}/takes-wrong', '-', [I64], [I32], local_get(0) + make(block_type([I32], [I32]), NOP))
    row(f'{name}/takes-in-the-other-order', '-', [I32, I64], [],
        local_get(1) + local_get(0) + make(block_type([I32, I64], []), DROP + DROP))
    row(f'{name}/takes-a-subtype', '+', [ref(FUNC_I32)], [FUNCREF],
        local_get(0) + make(block_type([FUNCREF], [FUNCREF]), NOP))
    row(f'{name}/takes-a-subtype-and-forgets-it', '-', [ref(FUNC_I32)], [ref(FUNC_I32)],
        local_get(0) + make(block_type([FUNCREF], [ref(FUNC_I32)]), NOP))
    row(f'{name}/gives-a-supertype', '-', [ref(FUNC_I32)], [ref(FUNC_I32)], make(FUNCREF, local_get(0)))
    row(f'{name}/drops-what-it-takes', '+', [I32], [], local_get(0) + make(block_type([I32], []), DROP))
    row(f'{name}/leaves-what-it-takes', '-', [I32], [], local_get(0) + make(block_type([I32], []), NOP))
    row(f'{name}/drops-what-is-beneath', '-', [I32], [], local_get(0) + make(EMPTY, DROP))
    row(f'{name}/beneath-is-there-after', '+', [I32], [I32, I64], local_get(0) + make(I64, i64_const(1)))
    row(f'{name}/beneath-the-parameters', '+', [I32, I64], [I64, I32],
        local_get(1) + local_get(0) + make(block_type([I32], [I32]), NOP))
    row(f'{name}/unreached-takes', '+', [], [I32], UNREACHABLE + make(block_type([I32], [I32]), NOP))
    row(f'{name}/unreached-takes-wrong', '-', [I64], [I32],
        UNREACHABLE + local_get(0) + make(block_type([I32], [I32]), NOP))
    row(f'{name}/unreached-takes-too-few-known', '+', [I64], [I64],
        UNREACHABLE + local_get(0) + make(block_type([I32, I64], [I64]), local_set(0) + DROP + local_get(0)))
    row(f'{name}/unreached-begins-reachable', '-', [], [I32], UNREACHABLE + make(I32, I32_EQZ))
    row(f'{name}/ends-reachable', '-', [], [I32], make(EMPTY, UNREACHABLE))
    row(f'{name}/unreached-inside-then-its-type', '+', [], [I32], make(I32, UNREACHABLE))
    row(f'{name}/unreached-inside-then-drops-beneath', '+', [I32], [I32],
        local_get(0) + make(EMPTY, UNREACHABLE + DROP + DROP))
    row(f'{name}/type-out-of-range', '-', [], [], make(signed(OUT_OF_RANGE), NOP))
    row(f'{name}/continuation-type', '-', [], [], make(signed(CONT_EMPTY), NOP))
    row(f'{name}/value-out-of-range', '-', [], [], make(nullable(OUT_OF_RANGE), UNREACHABLE) + DROP)
    row(f'{name}/unreached-type-out-of-range', '-', [], [], UNREACHABLE + make(signed(OUT_OF_RANGE), UNREACHABLE))
    row(f'{name}/unreached-value-out-of-range', '-', [], [],
        UNREACHABLE + make(nullable(OUT_OF_RANGE), UNREACHABLE) + DROP)
    row(f'{name}/left-over', '-', [], [], make(EMPTY, i32_const(0)))
    row(f'{name}/unreached-inside-left-over', '-', [], [], make(EMPTY, UNREACHABLE + i32_const(0)))
row('nested/deep-results', '+', [], [I32], block(I32, loop(I32, block(I32, loop(I32, i32_const(0))))))
row('nested/wrong-at-the-bottom', '-', [], [I32], block(I32, loop(I32, block(I32, loop(I64, i64_const(0))))))
row('nested/values-at-each-level', '+', [I32], [I32],
    local_get(0) + block(I32, local_get(0) + block(I32, local_get(0) + local_get(0) + I32_ADD) + I32_ADD) + I32_ADD)
row('nested/parameters-at-each-level', '+', [I32], [I32],
    local_get(0)
    + block(block_type([I32], [I32]),
            loop(block_type([I32], [I32]), block(block_type([I32], [I32]), i32_const(1) + I32_ADD))))
