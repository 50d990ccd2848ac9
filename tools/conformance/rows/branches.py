"""If, the branches, and return."""

from assembler.encoding import signed
from assembler.instructions import (
    DROP, I32_ADD, I32_EQZ, I64_EXTEND_I32_S, NOP, REF_AS_NON_NULL, RETURN, UNREACHABLE, block, br, br_if, br_table,
    i32_const, i64_const, if_, local_get, local_set, loop, ref_null)
from assembler.types import EMPTY, FUNC, FUNCREF, I32, I64, NOFUNC, nullable, ref
from rows.samples import SAMPLES
from rows.sections import FunctionSection
from surroundings import CONT_EMPTY, CONT_I32, FUNC_I32, FUNC_I64, OUT_OF_RANGE, SAME_FUNC_I32, block_type

SECTION = FunctionSection('branches')
row = SECTION.row


# if.


def if_row(name, mark, parameters, results, before, shape, then, otherwise, after=b''):
    """A row of an if of this block type, with its condition; `before` makes what it takes."""
    row(name, mark, parameters, results, before + i32_const(1) + if_(shape, then, otherwise) + after)


if_row('if/empty', '+', [], [], b'', EMPTY, b'', None)
if_row('if/empty-else', '+', [], [], b'', EMPTY, b'', b'')
row('if/no-condition', '-', [], [], if_(EMPTY, b''))
row('if/condition-i64', '-', [], [], i64_const(1) + if_(EMPTY, b''))
row('if/condition-reference', '-', [], [], ref_null(FUNC) + if_(EMPTY, b''))
row('if/unreached', '+', [], [], UNREACHABLE + if_(EMPTY, b''))
row('if/unreached-condition', '+', [I32], [], UNREACHABLE + local_get(0) + if_(EMPTY, b''))
row('if/unreached-condition-i64', '-', [I64], [], UNREACHABLE + local_get(0) + if_(EMPTY, b''))
for sample in SAMPLES:
    if_row(f'if/gives-{sample.name}', '+', [], [sample.type], b'', sample.type, sample.constant, sample.constant)
    if_row(f'if/gives-{sample.name}-without-else', '-', [], [sample.type], b'', sample.type, sample.constant, None)
    if_row(f'if/gives-{sample.name}-in-then-alone', '-', [], [sample.type], b'', sample.type, sample.constant, b'')
    if_row(f'if/gives-{sample.name}-in-else-alone', '-', [], [sample.type], b'', sample.type, b'', sample.constant)
    if_row(f'if/gives-{sample.name}-and-wrong-then', '-', [], [sample.type], b'', sample.type, sample.wrong_constant,
           sample.constant)
    if_row(f'if/gives-{sample.name}-and-wrong-else', '-', [], [sample.type], b'', sample.type, sample.constant,
           sample.wrong_constant)
    if_row(f'if/gives-{sample.name}-then-unreached', '+', [], [sample.type], b'', sample.type, UNREACHABLE,
           sample.constant)
    if_row(f'if/gives-{sample.name}-else-unreached', '+', [], [sample.type], b'', sample.type, sample.constant,
           UNREACHABLE)
    if_row(f'if/keeps-{sample.name}-without-else', '+', [sample.type], [sample.type], local_get(0),
           block_type([sample.type], [sample.type]), NOP, None)
    row(f'if/unreached-gives-{sample.name}', '+', [], [sample.type],
        UNREACHABLE + if_(sample.type, sample.constant, sample.constant))
    row(f'if/unreached-gives-{sample.name}-without-else', '-', [], [sample.type],
        UNREACHABLE + if_(sample.type, UNREACHABLE))
    row(f'if/unreached-keeps-{sample.name}-without-else', '+', [], [sample.type],
        UNREACHABLE + if_(block_type([sample.type], [sample.type]), NOP))
for sample in SAMPLES:
    row(f'if/unreached-gives-{sample.name}-and-wrong-then', '-', [], [sample.type],
        UNREACHABLE + if_(sample.type, sample.wrong_constant, sample.constant))
    row(f'if/unreached-gives-{sample.name}-and-wrong-else', '-', [], [sample.type],
        UNREACHABLE + if_(sample.type, sample.constant, sample.wrong_constant))
    row(f'if/unreached-gives-{sample.name}-and-wrong-result', '-', [], [sample.wrong_type],
        UNREACHABLE + if_(sample.type, sample.constant, sample.constant))
if_row('if/subtype-without-else', '+', [ref(FUNC_I32)], [FUNCREF], local_get(0), block_type([ref(FUNC_I32)], [FUNCREF]),
       NOP, None)
if_row('if/supertype-without-else', '-', [FUNCREF], [ref(FUNC_I32)], local_get(0),
       block_type([FUNCREF], [ref(FUNC_I32)]), UNREACHABLE, None)
if_row('if/equivalent-without-else', '+', [nullable(FUNC_I32)], [nullable(SAME_FUNC_I32)], local_get(0),
       block_type([nullable(FUNC_I32)], [nullable(SAME_FUNC_I32)]), NOP, None)
if_row('if/fewer-results-without-else', '-', [I32], [], local_get(0), block_type([I32], []), DROP, None)
if_row('if/more-results-without-else', '-', [I32], [I32, I32], local_get(0), block_type([I32], [I32, I32]),
       i32_const(0), None)
if_row('if/parameters-in-both', '+', [I32, I64], [I64], local_get(0) + local_get(1), block_type([I32, I64], [I64]),
       local_set(1) + DROP + local_get(1), local_set(1) + I64_EXTEND_I32_S)
if_row('if/parameters-left-in-else', '-', [I32], [], local_get(0), block_type([I32], []), DROP, NOP)
if_row('if/beneath-is-there-after', '+', [I32], [I32, I32], local_get(0), I32, i32_const(0), i32_const(1))
if_row('if/else-takes-beneath', '-', [I32], [], local_get(0), EMPTY, b'', DROP)
if_row('if/else-begins-reachable', '-', [], [I32], b'', I32, UNREACHABLE, I32_EQZ)
if_row('if/ends-reachable', '-', [], [I32], b'', EMPTY, UNREACHABLE, UNREACHABLE)
if_row('if/type-out-of-range', '-', [], [], b'', signed(OUT_OF_RANGE), b'', None)
if_row('if/continuation-type', '-', [], [], b'', signed(CONT_EMPTY), b'', b'')
if_row('if/value-out-of-range', '-', [], [], b'', nullable(OUT_OF_RANGE), UNREACHABLE, UNREACHABLE, DROP)
if_row('if/then-left-over', '-', [], [], b'', EMPTY, i32_const(0), b'')
if_row('if/else-left-over', '-', [], [], b'', EMPTY, b'', i32_const(0))
if_row('if/without-else-left-over', '-', [], [], b'', EMPTY, i32_const(0), None)
if_row('if/nested-in-else', '+', [], [I32], b'', I32, i32_const(0), i32_const(1) + if_(I32, i32_const(2), i32_const(3)))
if_row('if/branch-from-then', '+', [], [I32], b'', I32, i32_const(0) + br(0), i32_const(1))
if_row('if/branch-from-else', '+', [], [I32], b'', I32, i32_const(0), i32_const(1) + br(0))
if_row('if/branch-without-the-result', '-', [], [I32], b'', I32, br(0), i32_const(1))
if_row('if/branch-without-else', '+', [I32], [I32], local_get(0), block_type([I32], [I32]), br(0), None)

# br.

row('br/body', '+', [], [], br(0))
row('br/body-with-result', '+', [I32], [I32], local_get(0) + br(0))
row('br/body-without-result', '-', [I32], [I32], br(0))
row('br/out-of-range', '-', [], [], br(1))
row('br/out-of-range-in-block', '-', [], [], block(EMPTY, br(2)))
row('br/greatest', '-', [], [], br(2 ** 32 - 1))
row('br/unreached-out-of-range', '-', [], [], UNREACHABLE + br(1))
row('br/unreached', '+', [], [I32], UNREACHABLE + br(0))
for sample in SAMPLES:
    row(f'br/block-{sample.name}', '+', [], [sample.type], block(sample.type, sample.constant + br(0)))
    row(f'br/block-{sample.name}-wrong', '-', [], [sample.type], block(sample.type, sample.wrong_constant + br(0)))
    row(f'br/block-{sample.name}-missing', '-', [], [sample.type], block(sample.type, br(0)))
    row(f'br/block-{sample.name}-beneath', '+', [], [sample.type],
        block(sample.type, sample.wrong_constant + sample.wrong_constant + sample.constant + br(0)))
    row(f'br/block-{sample.name}-not-on-top', '-', [], [sample.type],
        block(sample.type, sample.constant + sample.wrong_constant + br(0)))
    row(f'br/loop-{sample.name}', '+', [], [sample.type], loop(sample.type, br(0)))
    row(f'br/loop-{sample.name}-parameter', '+', [], [], sample.constant + loop(block_type([sample.type], []), br(0)))
    row(f'br/loop-{sample.name}-parameter-missing', '-', [], [],
        sample.constant + loop(block_type([sample.type], []), DROP + br(0)))
    row(f'br/loop-{sample.name}-parameter-wrong', '-', [], [],
        sample.constant + loop(block_type([sample.type], []), DROP + sample.wrong_constant + br(0)))
    row(f'br/outer-{sample.name}', '+', [], [sample.type],
        block(sample.type, block(EMPTY, sample.constant + br(1)) + sample.constant))
    row(f'br/outer-{sample.name}-missing', '-', [], [sample.type],
        block(sample.type, block(EMPTY, br(1)) + sample.constant))
    row(f'br/unreached-{sample.name}', '+', [], [sample.type], block(sample.type, UNREACHABLE + br(0)))
    row(f'br/unreached-{sample.name}-wrong', '-', [], [sample.type],
        block(sample.type, UNREACHABLE + sample.wrong_constant + br(0)))
    row(f'br/out-of-two-blocks-{sample.name}', '+', [], [sample.type],
        block(EMPTY, loop(EMPTY, sample.constant + br(2))) + UNREACHABLE)
row('br/then-any', '+', [], [I64], block(EMPTY, br(0) + i32_const(0) + i32_const(0) + I32_ADD + DROP) + i64_const(0))
row('br/then-wrong', '-', [], [], block(EMPTY, br(0) + i64_const(0) + I32_EQZ + DROP))
row('br/then-left-over', '-', [], [], block(EMPTY, br(0) + i64_const(0)))
row('br/two-values', '+', [], [I32, I64], block(block_type([], [I32, I64]), i32_const(0) + i64_const(0) + br(0)))
row('br/two-values-in-the-other-order', '-', [], [I32, I64],
    block(block_type([], [I32, I64]), i64_const(0) + i32_const(0) + br(0)))
row('br/one-of-two-values', '-', [], [I32, I64], block(block_type([], [I32, I64]), i64_const(0) + br(0)))
row('br/subtype', '+', [ref(FUNC_I32)], [FUNCREF], block(FUNCREF, local_get(0) + br(0)))
row('br/supertype', '-', [FUNCREF], [ref(FUNC_I32)], block(ref(FUNC_I32), local_get(0) + br(0)))
row('br/operand-of-an-outer-block', '-', [I32], [I32], local_get(0) + block(I32, br(0)))

# br_if.

row('br_if', '+', [], [], i32_const(0) + br_if(0))
row('br_if/no-condition', '-', [], [], br_if(0))
row('br_if/condition-i64', '-', [], [], i64_const(0) + br_if(0))
row('br_if/out-of-range', '-', [], [], i32_const(0) + br_if(1))
row('br_if/unreached-out-of-range', '-', [], [], UNREACHABLE + br_if(1))
row('br_if/unreached', '+', [], [I32], UNREACHABLE + br_if(0))
row('br_if/unreached-condition-i64', '-', [I64], [I32], UNREACHABLE + local_get(0) + br_if(0))
for sample in SAMPLES:
    row(f'br_if/keeps-{sample.name}', '+', [], [sample.type],
        block(sample.type, sample.constant + i32_const(0) + br_if(0)))
    row(f'br_if/{sample.name}-missing', '-', [], [sample.type],
        block(sample.type, i32_const(0) + br_if(0) + sample.constant))
    row(f'br_if/{sample.name}-wrong', '-', [], [sample.type],
        block(sample.type, sample.wrong_constant + i32_const(0) + br_if(0) + DROP + sample.constant))
    row(f'br_if/keeps-{sample.name}-and-beneath', '+', [], [sample.wrong_type, sample.type],
        sample.wrong_constant + block(sample.type, sample.constant + i32_const(0) + br_if(0)))
    row(f'br_if/unreached-makes-{sample.name}', '+', [], [sample.type], block(sample.type, UNREACHABLE + br_if(0)))
    row(f'br_if/unreached-makes-{sample.name}-and-no-other', '-', [], [],
        block(sample.type, UNREACHABLE + br_if(0) + local_set(0) + UNREACHABLE) + DROP, [(1, sample.wrong_type)])
    row(f'br_if/unreached-{sample.name}-wrong', '-', [], [sample.type],
        block(sample.type, UNREACHABLE + sample.wrong_constant + i32_const(0) + br_if(0)))
    row(f'br_if/loop-parameter-{sample.name}', '+', [], [sample.type],
        sample.constant + loop(block_type([sample.type], [sample.type]), i32_const(0) + br_if(0)))
row('br_if/gives-the-type-of-the-label', '-', [ref(FUNC_I32)], [FUNCREF],
    block(FUNCREF, local_get(0) + i32_const(0) + br_if(0) + local_set(0) + local_get(0)))
row('br_if/known-two-in-order', '+', [], [I32, I64],
    block(block_type([], [I32, I64]), i32_const(0) + i64_const(0) + i32_const(0) + br_if(0)))
row('br_if/still-reachable', '-', [], [I32], i32_const(0) + br_if(0))

# br_table.

row('br_table/default-alone', '+', [], [], i32_const(0) + br_table([], 0))
row('br_table/some', '+', [], [], block(EMPTY, loop(EMPTY, i32_const(0) + br_table([0, 1, 2, 1], 0))))
row('br_table/no-index', '-', [], [], br_table([0], 0))
row('br_table/index-i64', '-', [], [], i64_const(0) + br_table([0], 0))
row('br_table/default-out-of-range', '-', [], [], i32_const(0) + br_table([0], 1))
row('br_table/label-out-of-range', '-', [], [], i32_const(0) + br_table([0, 1], 0))
row('br_table/unreached-label-out-of-range', '-', [], [], UNREACHABLE + br_table([1], 0))
row('br_table/unreached-default-out-of-range', '-', [], [], UNREACHABLE + br_table([0], 1))
row('br_table/unreached', '+', [], [I64], UNREACHABLE + br_table([0], 0))
row('br_table/unreached-index-i64', '-', [I64], [], UNREACHABLE + local_get(0) + br_table([0], 0))
row('br_table/then-any', '+', [], [I64], block(EMPTY, i32_const(0) + br_table([], 0) + I32_ADD + DROP) + i64_const(0))
row('br_table/then-left-over', '-', [], [], i32_const(0) + br_table([], 0) + i32_const(0))
for sample in SAMPLES:
    row(f'br_table/one-{sample.name}', '+', [], [sample.type],
        block(sample.type, sample.constant + i32_const(0) + br_table([0, 1], 0)))
    row(f'br_table/one-{sample.name}-missing', '-', [], [sample.type],
        block(sample.type, i32_const(0) + br_table([0, 1], 0)))
    row(f'br_table/one-{sample.name}-wrong', '-', [], [sample.type],
        block(sample.type, sample.wrong_constant + i32_const(0) + br_table([0, 1], 0)))
    row(f'br_table/unreached-one-{sample.name}', '+', [], [sample.type],
        block(sample.type, UNREACHABLE + br_table([0, 1], 0)))
    row(f'br_table/unreached-one-{sample.name}-wrong', '-', [], [sample.type],
        block(sample.type, UNREACHABLE + sample.wrong_constant + i32_const(0) + br_table([0, 1], 0)))


def in_two_blocks(outer, inner, body):
    """Instructions in a block of type `inner`, which has label 0, in one of type `outer`, which has label 1."""
    return block(outer, block(inner, body) + UNREACHABLE) + DROP


row('br_table/sub-and-supertype', '+', [ref(FUNC_I32)], [],
    in_two_blocks(FUNCREF, nullable(FUNC_I32), local_get(0) + i32_const(0) + br_table([0], 1)))
row('br_table/sub-and-supertype-the-other-way', '+', [ref(FUNC_I32)], [],
    in_two_blocks(FUNCREF, nullable(FUNC_I32), local_get(0) + i32_const(0) + br_table([1], 0)))
row('br_table/not-the-smaller', '-', [FUNCREF], [],
    in_two_blocks(FUNCREF, nullable(FUNC_I32), local_get(0) + i32_const(0) + br_table([0], 1)))
row('br_table/not-the-smaller-default', '-', [FUNCREF], [],
    in_two_blocks(FUNCREF, nullable(FUNC_I32), local_get(0) + i32_const(0) + br_table([1], 0)))
row('br_table/two-unrelated-of-one-below', '+', [], [],
    in_two_blocks(nullable(FUNC_I32), nullable(FUNC_I64), ref_null(NOFUNC) + i32_const(0) + br_table([0], 1)))
row('br_table/two-unrelated-of-one-of-them', '-', [nullable(FUNC_I32)], [],
    in_two_blocks(nullable(FUNC_I32), nullable(FUNC_I64), local_get(0) + i32_const(0) + br_table([0], 1)))
row('br_table/integers-of-two-types', '-', [], [],
    in_two_blocks(I32, I64, i32_const(0) + i32_const(0) + br_table([0], 1)))
row('br_table/integers-of-two-types-default-first', '-', [], [],
    in_two_blocks(I32, I64, i32_const(0) + i32_const(0) + br_table([1], 0)))
row('br_table/unreached-integers-of-two-types', '+', [], [], in_two_blocks(I32, I64, UNREACHABLE + br_table([0], 1)))
row('br_table/unreached-integers-of-two-types-known', '-', [], [],
    in_two_blocks(I32, I64, UNREACHABLE + i32_const(0) + i32_const(0) + br_table([0], 1)))
row('br_table/unreached-integer-and-reference', '+', [], [],
    in_two_blocks(I32, FUNCREF, UNREACHABLE + i32_const(0) + br_table([0], 1)))
row('br_table/unreached-bottom-reference-for-both', '+', [], [],
    in_two_blocks(ref(CONT_I32), FUNCREF, UNREACHABLE + REF_AS_NON_NULL + i32_const(0) + br_table([0], 1)))
row('br_table/unreached-bottom-reference-and-integer', '-', [], [],
    in_two_blocks(I32, FUNCREF, UNREACHABLE + REF_AS_NON_NULL + i32_const(0) + br_table([0], 1)))
row('br_table/two-lengths', '-', [], [],
    block(I32, block(EMPTY, i32_const(0) + i32_const(0) + br_table([0], 1)) + UNREACHABLE) + DROP)
row('br_table/two-lengths-default-short', '-', [], [],
    block(I32, block(EMPTY, i32_const(0) + i32_const(0) + br_table([1], 0)) + UNREACHABLE) + DROP)
row('br_table/unreached-two-lengths', '-', [], [],
    block(I32, block(EMPTY, UNREACHABLE + br_table([0], 1)) + UNREACHABLE) + DROP)
row('br_table/unreached-two-lengths-default-short', '-', [], [],
    block(I32, block(EMPTY, UNREACHABLE + br_table([1], 0)) + UNREACHABLE) + DROP)
row('br_table/unreached-two-lengths-among-labels', '-', [], [],
    block(I32, block(EMPTY, UNREACHABLE + br_table([0, 1, 0], 0)) + UNREACHABLE) + DROP)
row('br_table/two-values', '+', [], [],
    block(block_type([], [I32, I64]),
          block(block_type([], [I32, I64]), i32_const(0) + i64_const(0) + i32_const(0) + br_table([0, 1], 1))
          + UNREACHABLE) + UNREACHABLE)
row('br_table/one-of-two-values', '-', [], [],
    block(block_type([], [I32, I64]), i64_const(0) + i32_const(0) + br_table([0], 0)) + UNREACHABLE)
row('br_table/unreached-one-of-two-values', '+', [], [],
    block(block_type([], [I32, I64]), UNREACHABLE + i64_const(0) + i32_const(0) + br_table([0], 0)) + UNREACHABLE)
row('br_table/unreached-one-of-two-values-wrong', '-', [], [],
    block(block_type([], [I32, I64]), UNREACHABLE + i32_const(0) + i32_const(0) + br_table([0], 0)) + UNREACHABLE)
row('br_table/loop-and-body', '+', [I32], [I32],
    local_get(0) + loop(block_type([I32], []), i32_const(0) + br_table([0, 1], 0)) + UNREACHABLE)

# return.

for sample in SAMPLES:
    row(f'return/{sample.name}', '+', [], [sample.type], sample.constant + RETURN)
    row(f'return/{sample.name}-missing', '-', [], [sample.type], RETURN)
    row(f'return/{sample.name}-wrong', '-', [], [sample.type], sample.wrong_constant + RETURN)
    row(f'return/{sample.name}-with-operands-beneath', '+', [], [sample.type],
        sample.wrong_constant + sample.wrong_constant + sample.constant + RETURN)
    row(f'return/{sample.name}-in-a-block', '+', [], [sample.type],
        block(EMPTY, sample.constant + RETURN) + UNREACHABLE)
    row(f'return/{sample.name}-in-a-block-from-beneath', '-', [], [sample.type],
        sample.constant + block(EMPTY, RETURN) + UNREACHABLE)
    row(f'return/unreached-{sample.name}', '+', [], [sample.type], UNREACHABLE + RETURN)
    row(f'return/unreached-{sample.name}-wrong', '-', [], [sample.type], UNREACHABLE + sample.wrong_constant + RETURN)
row('return/nothing', '+', [I32], [], local_get(0) + RETURN)
row('return/then-any', '+', [], [I64, I32], i64_const(0) + i32_const(0) + RETURN + I32_ADD + DROP)
row('return/then-too-much', '-', [], [], RETURN + i32_const(0))
row('return/two-in-order', '+', [], [I32, I64], i32_const(0) + i64_const(0) + RETURN)
row('return/two-in-the-other-order', '-', [], [I32, I64], i64_const(0) + i32_const(0) + RETURN)
row('return/subtype', '+', [ref(FUNC_I32)], [FUNCREF], local_get(0) + RETURN)
row('return/takes-no-label', '-', [], [I32], block(I64, i64_const(0) + RETURN) + UNREACHABLE)
