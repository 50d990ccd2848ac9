"""Stack switching: the handlers of resume."""

from assembler.instructions import (
    DROP, I64_EXTEND_I32_S, REF_AS_NON_NULL, RETURN, UNREACHABLE, block, i32_const, i64_const, local_get, local_set,
    loop, on, on_switch, ref_null, resume)
from assembler.types import (
    CONTREF, FUNC, FUNCREF, I32, I64, NULLCONTREF, NULLFUNCREF, conttype, functype, nullable, ref)
from rows.sections import FunctionSection, local_gets
from surroundings import (
    CONTINUATIONS, CONT_EMPTY, CONT_I32, CONT_I64, FUNC_I32, FUNC_I64, NINE, NINE_FUNCREFS,
    OUT_OF_RANGE, PAIR, SAME_FUNC_I32, SAME_NINE, SAME_PAIR,
    TAG_EMPTY, TAG_I32_I64, TAG_I32_TO_I64, TAG_TO_I32, TRIPLE, TYPES, block_type, cont_index, func_index, tag_index)

SECTION = FunctionSection('handling')
row = SECTION.row

# Handlers that lead to labels.
#
# TAG_I32_TO_I64 takes i32 and gives i64, and CONT_I32 ends with i32. So where the resumed one is a CONT_I32, the label
# of a handler for this tag takes i32 and a continuation from i64 to i32.

CONT_BACK = cont_index([I64], [I32])


def handled(name, mark, label, continuation, *handlers):
    """A row of a resume in a block whose label takes these types, and of one that is not reached."""
    parameters, results = CONTINUATIONS[continuation]
    shape = block_type([], label)
    instruction = resume(continuation, *handlers)
    inside = local_gets(len(parameters) + 1) + instruction + DROP * len(results) + UNREACHABLE
    row(name, mark, parameters + [nullable(continuation)], [], block(shape, inside) + DROP * len(label))
    row(f'{name}/unreached', mark, [], [],
        block(shape, UNREACHABLE + instruction + UNREACHABLE) + DROP * len(label))


handled('on/not-null', '+', [I32, ref(CONT_BACK)], CONT_I32, on(TAG_I32_TO_I64, 0))
handled('on/nullable', '+', [I32, nullable(CONT_BACK)], CONT_I32, on(TAG_I32_TO_I64, 0))
handled('on/argument-wrong', '-', [I64, ref(CONT_BACK)], CONT_I32, on(TAG_I32_TO_I64, 0))
handled('on/argument-missing', '-', [ref(CONT_BACK)], CONT_I32, on(TAG_I32_TO_I64, 0))
handled('on/argument-too-many', '-', [I32, I32, ref(CONT_BACK)], CONT_I32, on(TAG_I32_TO_I64, 0))
handled('on/continuation-takes-wrong', '-', [I32, ref(CONT_I32)], CONT_I32, on(TAG_I32_TO_I64, 0))
handled('on/continuation-takes-none', '-', [I32, ref(cont_index([], [I32]))], CONT_I32, on(TAG_I32_TO_I64, 0))
handled('on/continuation-takes-more', '-', [I32, ref(cont_index([I64, I64], [I32]))], CONT_I32, on(TAG_I32_TO_I64, 0))
handled('on/continuation-gives-wrong', '-', [I32, ref(cont_index([I64], [I64]))], CONT_I32, on(TAG_I32_TO_I64, 0))
handled('on/continuation-gives-none', '-', [I32, ref(cont_index([I64], []))], CONT_I32, on(TAG_I32_TO_I64, 0))
handled('on/continuation-gives-more', '-', [I32, ref(cont_index([I64], [I32, I32]))], CONT_I32, on(TAG_I32_TO_I64, 0))
handled('on/no-reference-on-top', '-', [ref(CONT_BACK), I32], CONT_I32, on(TAG_I32_TO_I64, 0))
handled('on/integer-on-top', '-', [I32], CONT_I32, on(TAG_I32_TO_I64, 0))
handled('on/nothing', '-', [], CONT_I32, on(TAG_I32_TO_I64, 0))
handled('on/contref', '-', [I32, CONTREF], CONT_I32, on(TAG_I32_TO_I64, 0))
handled('on/nullcontref', '-', [I32, NULLCONTREF], CONT_I32, on(TAG_I32_TO_I64, 0))
handled('on/funcref', '-', [I32, FUNCREF], CONT_I32, on(TAG_I32_TO_I64, 0))
handled('on/function-type', '-', [I32, ref(func_index([I64], [I32]))], CONT_I32, on(TAG_I32_TO_I64, 0))
SAME_CONT_BACK = TYPES.add(conttype(TYPES.add(functype([I64], [I32]))))
handled('on/equal-continuation-type', '+', [I32, ref(SAME_CONT_BACK)], CONT_I32, on(TAG_I32_TO_I64, 0))
handled('on/tag-out-of-range', '-', [I32, ref(CONT_BACK)], CONT_I32, on(OUT_OF_RANGE, 0))
handled('on/label-out-of-range', '-', [I32, ref(CONT_BACK)], CONT_I32, on(TAG_I32_TO_I64, 2))
handled('on/label-of-the-body', '-', [I32, ref(CONT_BACK)], CONT_I32, on(TAG_I32_TO_I64, 1))
handled('on/twice', '+', [I32, ref(CONT_BACK)], CONT_I32, on(TAG_I32_TO_I64, 0), on(TAG_I32_TO_I64, 0))
handled('on/second-wrong', '-', [I32, ref(CONT_BACK)], CONT_I32, on(TAG_I32_TO_I64, 0), on(TAG_EMPTY, 0))
handled('on/first-wrong', '-', [I32, ref(CONT_BACK)], CONT_I32, on(TAG_EMPTY, 0), on(TAG_I32_TO_I64, 0))
handled('on/empty-tag', '+', [ref(CONT_EMPTY)], CONT_EMPTY, on(TAG_EMPTY, 0))
handled('on/empty-tag-takes-an-argument', '-', [I32, ref(CONT_EMPTY)], CONT_EMPTY, on(TAG_EMPTY, 0))
handled('on/tag-with-results-alone', '+', [ref(cont_index([I32], []))], CONT_EMPTY, on(TAG_TO_I32, 0))
handled('on/tag-with-results-alone-wrong', '-', [ref(CONT_EMPTY)], CONT_EMPTY, on(TAG_TO_I32, 0))
handled('on/tag-with-two-parameters', '+', [I32, I64, ref(CONT_EMPTY)], CONT_EMPTY, on(TAG_I32_I64, 0))
handled('on/tag-with-two-parameters-in-the-other-order', '-', [I64, I32, ref(CONT_EMPTY)], CONT_EMPTY,
        on(TAG_I32_I64, 0))

# What the tag takes matches what the label takes.

TAG_FUNC_I32 = tag_index([ref(FUNC_I32)], [FUNCREF])
handled('on/argument-wider-at-the-label', '+', [FUNCREF, ref(cont_index([FUNCREF], []))], CONT_EMPTY,
        on(TAG_FUNC_I32, 0))
handled('on/argument-narrower-at-the-label', '-', [ref(FUNC_I32), ref(cont_index([FUNCREF], []))], CONT_EMPTY,
        on(tag_index([FUNCREF], [FUNCREF]), 0))

# What the continuation at the label takes matches what the tag gives, and what the resumed one gives matches what it
# gives.

handled('on/continuation-takes-narrower', '+', [ref(FUNC_I32), ref(cont_index([NULLFUNCREF], []))], CONT_EMPTY,
        on(TAG_FUNC_I32, 0))
TAG_TO_NULLFUNCREF = tag_index([], [NULLFUNCREF])
handled('on/continuation-parameter-narrower-matches', '+', [ref(cont_index([ref(FUNC_I32)], []))], CONT_EMPTY,
        on(tag_index([], [ref(FUNC_I32)]), 0))
handled('on/parameter-of-the-continuation-matches-the-tags-result', '+', [ref(cont_index([NULLFUNCREF], []))],
        CONT_EMPTY, on(tag_index([], [FUNCREF]), 0))
handled('on/parameter-of-the-continuation-is-wider', '-', [ref(cont_index([FUNCREF], []))], CONT_EMPTY,
        on(TAG_TO_NULLFUNCREF, 0))
CONT_TO_FUNC_I32 = cont_index([], [ref(FUNC_I32)])
handled('on/result-of-the-continuation-is-wider', '+', [ref(cont_index([], [FUNCREF]))], CONT_TO_FUNC_I32,
        on(TAG_EMPTY, 0))
handled('on/result-of-the-continuation-is-narrower', '-', [ref(cont_index([], [ref(FUNC_I32)]))],
        cont_index([], [FUNCREF]), on(TAG_EMPTY, 0))
handled('on/result-of-the-continuation-is-equivalent', '+', [ref(cont_index([], [nullable(SAME_FUNC_I32)]))],
        cont_index([], [nullable(FUNC_I32)]), on(TAG_EMPTY, 0))
row('on/two-labels', '+', [I32, ref(CONT_I32)], [],
    block(block_type([], [I32, ref(CONT_BACK)]),
          block(ref(cont_index([I32], [I32])),
                local_gets(2) + resume(CONT_I32, on(TAG_I32_TO_I64, 1), on(TAG_TO_I32, 0)) + RETURN) + UNREACHABLE)
    + UNREACHABLE)
row('on/two-labels-exchanged', '-', [I32, ref(CONT_I32)], [],
    block(block_type([], [I32, ref(CONT_BACK)]),
          block(ref(cont_index([I32], [I32])),
                local_gets(2) + resume(CONT_I32, on(TAG_I32_TO_I64, 0), on(TAG_TO_I32, 1)) + RETURN) + UNREACHABLE)
    + UNREACHABLE)
row('on/loop-takes-its-parameters', '+', [ref(CONT_EMPTY)], [],
    local_get(0) + loop(block_type([ref(CONT_EMPTY)], []), resume(CONT_EMPTY, on(TAG_EMPTY, 0))))
row('on/loop-takes-not-its-results', '-', [ref(CONT_EMPTY)], [],
    loop(ref(CONT_EMPTY), local_get(0) + resume(CONT_EMPTY, on(TAG_EMPTY, 0)) + UNREACHABLE) + DROP)
row('on/results-of-the-body', '+', [ref(CONT_EMPTY)], [ref(CONT_EMPTY)],
    local_get(0) + resume(CONT_EMPTY, on(TAG_EMPTY, 0)) + UNREACHABLE)
row('on/handler-written-out', '+', [ref(CONT_I32)], [I32],
    block(block_type([], [I32, ref(CONT_BACK)]),
          i32_const(1) + local_get(0) + resume(CONT_I32, on(TAG_I32_TO_I64, 0)) + RETURN) + local_set(1)
    + I64_EXTEND_I32_S + local_get(1) + REF_AS_NON_NULL + resume(CONT_BACK), [(1, nullable(CONT_BACK))])
row('on/operand-missing', '-', [ref(CONT_I32)], [],
    block(block_type([], [I32, ref(CONT_BACK)]), local_get(0) + resume(CONT_I32, on(TAG_I32_TO_I64, 0)) + UNREACHABLE)
    + UNREACHABLE)
row('on/operand-wrong', '-', [ref(CONT_I32)], [],
    block(block_type([], [I32, ref(CONT_BACK)]),
          i64_const(0) + local_get(0) + resume(CONT_I32, on(TAG_I32_TO_I64, 0)) + UNREACHABLE) + UNREACHABLE)
row('on/result-wrong', '-', [I32, ref(CONT_I32)], [I64],
    block(block_type([], [I32, ref(CONT_BACK)]), local_gets(2) + resume(CONT_I32, on(TAG_I32_TO_I64, 0)) + RETURN)
    + UNREACHABLE)
row('on/equal-groups', '+', [], [],
    block(ref(SAME_PAIR + 1), ref_null(PAIR + 1) + resume(PAIR + 1, on(TAG_EMPTY, 0)) + UNREACHABLE) + DROP)
row('on/longer-group', '-', [], [],
    block(ref(TRIPLE + 1), ref_null(PAIR + 1) + resume(PAIR + 1, on(TAG_EMPTY, 0)) + UNREACHABLE) + DROP)

# Handlers that let switch pass.


def switched(name, mark, continuation, *handlers):
    """A row of a resume of a parameter, and of one that is not reached."""
    parameters, results = CONTINUATIONS[continuation]
    operands = parameters + [nullable(continuation)]
    instruction = resume(continuation, *handlers)
    row(name, mark, operands, results, local_gets(len(operands)) + instruction)
    row(f'{name}/unreached', mark, operands, results, UNREACHABLE + instruction)


CONT_TO_FUNCREF = cont_index([], [FUNCREF])
CONT_TO_NULLFUNCREF = cont_index([], [NULLFUNCREF])
CONT_TO_SAME_FUNC_I32 = cont_index([], [ref(SAME_FUNC_I32)])
switched('on-switch/nothing', '+', CONT_EMPTY, on_switch(TAG_EMPTY))
switched('on-switch/equal-i32', '+', CONT_I32, on_switch(TAG_TO_I32))
switched('on-switch/other-integer', '-', CONT_I64, on_switch(TAG_TO_I32))
switched('on-switch/fewer', '-', CONT_EMPTY, on_switch(TAG_TO_I32))
switched('on-switch/more', '-', CONT_I32, on_switch(TAG_EMPTY))
switched('on-switch/parameters', '-', CONT_I64, on_switch(TAG_I32_TO_I64))
switched('on-switch/parameters-without-results', '-', CONT_EMPTY, on_switch(TAG_I32_I64))
switched('on-switch/equal-reference', '+', CONT_TO_FUNCREF, on_switch(tag_index([], [FUNCREF])))
switched('on-switch/matching-but-not-equal', '-', CONT_TO_NULLFUNCREF, on_switch(tag_index([], [FUNCREF])))
switched('on-switch/matched-but-not-equal', '-', CONT_TO_FUNCREF, on_switch(tag_index([], [NULLFUNCREF])))
switched('on-switch/equal-nullfuncref', '+', CONT_TO_NULLFUNCREF, on_switch(tag_index([], [NULLFUNCREF])))
switched('on-switch/not-null-and-nullable', '-', CONT_TO_FUNC_I32, on_switch(tag_index([], [nullable(FUNC_I32)])))
switched('on-switch/nullable-and-not-null', '-', cont_index([], [nullable(FUNC_I32)]),
         on_switch(tag_index([], [ref(FUNC_I32)])))
switched('on-switch/equivalent-index', '+', CONT_TO_SAME_FUNC_I32, on_switch(tag_index([], [ref(FUNC_I32)])))
switched('on-switch/other-index', '-', CONT_TO_FUNC_I32, on_switch(tag_index([], [ref(FUNC_I64)])))
switched('on-switch/index-and-func', '-', CONT_TO_FUNC_I32, on_switch(tag_index([], [ref(FUNC)])))
switched('on-switch/contref', '+', cont_index([], [CONTREF]), on_switch(tag_index([], [CONTREF])))
switched('on-switch/contref-and-nullcontref', '-', cont_index([], [NULLCONTREF]), on_switch(tag_index([], [CONTREF])))
switched('on-switch/two', '+', cont_index([], [I32, I64]), on_switch(tag_index([], [I32, I64])))
switched('on-switch/two-in-the-other-order', '-', cont_index([], [I64, I32]), on_switch(tag_index([], [I32, I64])))
switched('on-switch/one-of-two', '-', cont_index([], [I32, I64]), on_switch(TAG_TO_I32))
switched('on-switch/several', '+', CONT_I32, on_switch(TAG_TO_I32), on_switch(TAG_TO_I32))
switched('on-switch/second-wrong', '-', CONT_I32, on_switch(TAG_TO_I32), on_switch(TAG_EMPTY))
switched('on-switch/tag-out-of-range', '-', CONT_EMPTY, on_switch(OUT_OF_RANGE))
switched('on-switch/equal-groups', '+', cont_index([], [ref(PAIR + 1)]), on_switch(tag_index([], [ref(SAME_PAIR + 1)])))
switched('on-switch/longer-group', '-', cont_index([], [ref(PAIR + 1)]), on_switch(tag_index([], [ref(TRIPLE + 1)])))
handled('on-and-on-switch', '+', [I32, ref(CONT_BACK)], CONT_I32, on(TAG_I32_TO_I64, 0), on_switch(TAG_TO_I32))
handled('on-and-wrong-on-switch', '-', [I32, ref(CONT_BACK)], CONT_I32, on(TAG_I32_TO_I64, 0), on_switch(TAG_EMPTY))
handled('wrong-on-and-on-switch', '-', [I64, ref(CONT_BACK)], CONT_I32, on_switch(TAG_TO_I32), on(TAG_I32_TO_I64, 0))

# Rows of nine types.

TAG_OF_NINE = tag_index(NINE, NINE)
handled('on/nine-of-each', '+', [*NINE, ref(cont_index(NINE, NINE))], cont_index([], NINE), on(TAG_OF_NINE, 0))
handled('on/nine-equivalent-of-each', '+', [*SAME_NINE, ref(cont_index(SAME_NINE, SAME_NINE))], cont_index([], NINE),
        on(TAG_OF_NINE, 0))
handled('on/nine-arguments-wider-at-the-label', '+', [*NINE_FUNCREFS, ref(cont_index(NINE, []))], CONT_EMPTY,
        on(TAG_OF_NINE, 0))
handled('on/one-of-nine-arguments-narrower-at-the-label', '-', [*NINE_FUNCREFS[1:], ref(FUNC_I32), ref(CONT_EMPTY)],
        CONT_EMPTY, on(tag_index(NINE_FUNCREFS, []), 0))
handled('on/one-of-nine-results-of-the-tag-is-wider', '+', [ref(cont_index(NINE, []))], CONT_EMPTY,
        on(tag_index([], [*NINE[1:], FUNCREF]), 0))
handled('on/one-of-nine-results-of-the-tag-is-narrower', '-', [ref(cont_index(NINE_FUNCREFS, []))], CONT_EMPTY,
        on(tag_index([], [*NINE_FUNCREFS[1:], ref(FUNC_I32)]), 0))
handled('on/one-of-nine-results-of-the-continuation-is-narrower', '-',
        [ref(cont_index([], [*NINE_FUNCREFS[1:], ref(FUNC_I32)]))], cont_index([], NINE_FUNCREFS), on(TAG_EMPTY, 0))
switched('on-switch/nine-equal', '+', cont_index([], NINE), on_switch(tag_index([], NINE)))
switched('on-switch/nine-equivalent', '+', cont_index([], SAME_NINE), on_switch(tag_index([], NINE)))
switched('on-switch/one-of-nine-matching-but-not-equal', '-', cont_index([], NINE),
         on_switch(tag_index([], [*NINE[1:], FUNCREF])))
switched('on-switch/one-of-nine-matched-but-not-equal', '-', cont_index([], [*NINE[1:], FUNCREF]),
         on_switch(tag_index([], NINE)))
