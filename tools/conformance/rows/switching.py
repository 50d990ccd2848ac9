"""Stack switching: switch."""

from assembler.instructions import UNREACHABLE, i32_const, ref_null, switch
from assembler.types import CONT, CONTREF, FUNCREF, I32, I64, NOCONT, NULLCONTREF, nullable, ref
from rows.sections import FunctionSection, local_gets
from surroundings import (
    CONT_EMPTY, CONT_I32, CONT_I64, FUNC_EMPTY, FUNC_I32, NINE, NINE_FUNCREFS, OUT_OF_RANGE, SAME_FUNC_I32,
    SAME_NINE, TAG_EMPTY, TAG_TO_I32, cont_index, func_index, tag_index)

SECTION = FunctionSection('switching')
row = SECTION.row
standard = SECTION.standard

# The target is a continuation that takes some values and at last the one that switches, which is resumed with what it
# takes. What the target gives at last matches what the tag gives, and this what the one that switches gives at last.

TAG_TO_I64 = tag_index([], [I64])

BACK = cont_index([I64], [I32])
TARGET = cont_index([I32, ref(BACK)], [I32])
TARGET_OF_NULLABLE = cont_index([I32, nullable(BACK)], [I32])
standard('switch', switch(TARGET, TAG_TO_I32), [I32, nullable(TARGET)], [I64])
standard('switch/nullable-back', switch(TARGET_OF_NULLABLE, TAG_TO_I32), [I32, nullable(TARGET_OF_NULLABLE)], [I64])
row('switch/not-null', '+', [I32, ref(TARGET)], [I64], local_gets(2) + switch(TARGET, TAG_TO_I32))
row('switch/null', '+', [], [I64], i32_const(0) + ref_null(NOCONT) + switch(TARGET, TAG_TO_I32))
row('switch/contref', '-', [I32, CONTREF], [I64], local_gets(2) + switch(TARGET, TAG_TO_I32))
row('switch/other-continuation', '-', [I32, nullable(CONT_I32)], [I64], local_gets(2) + switch(TARGET, TAG_TO_I32))
row('switch/target-without-its-last-parameter', '-', [I32, ref(BACK), nullable(TARGET)], [I64],
    local_gets(3) + switch(TARGET, TAG_TO_I32))
row('switch/operands-beneath', '+', [FUNCREF, I32, nullable(TARGET)], [FUNCREF, I64],
    local_gets(3) + switch(TARGET, TAG_TO_I32))
row('switch/still-reachable', '-', [I32, nullable(TARGET)], [I64, I32], local_gets(2) + switch(TARGET, TAG_TO_I32))
row('switch/unreached-null', '+', [], [I64], UNREACHABLE + ref_null(TARGET) + switch(TARGET, TAG_TO_I32))
row('switch/unreached-null-of-cont', '-', [], [I64], UNREACHABLE + ref_null(CONT) + switch(TARGET, TAG_TO_I32))
TARGET_OF_NONE = cont_index([ref(CONT_EMPTY)], [])
standard('switch/no-values', switch(TARGET_OF_NONE, TAG_EMPTY), [nullable(TARGET_OF_NONE)], [])
TARGET_OF_TWO = cont_index([I32, I64, ref(cont_index([FUNCREF, I32], [I64]))], [I64])
standard('switch/two-values-each-way', switch(TARGET_OF_TWO, TAG_TO_I64), [I32, I64, nullable(TARGET_OF_TWO)],
         [FUNCREF, I32])


def switch_row(name, mark, target, tag, parameters=(), results=()):
    """A row of a switch to a parameter, behind these others, and of one that is not reached."""
    operands = [*parameters, nullable(target)]
    row(f'switch/{name}', mark, operands, results, local_gets(len(operands)) + switch(target, tag))
    row(f'switch/unreached-{name}', mark, [], results, UNREACHABLE + switch(target, tag))


switch_row('tag-with-parameters', '-', TARGET, tag_index([I32], [I32]), [I32], [I64])
switch_row('tag-with-other-results', '-', TARGET, TAG_TO_I64, [I32], [I64])
switch_row('tag-with-no-results', '-', TARGET, TAG_EMPTY, [I32], [I64])
switch_row('tag-with-more-results', '-', TARGET, tag_index([], [I32, I32]), [I32], [I64])
switch_row('tag-out-of-range', '-', TARGET, OUT_OF_RANGE, [I32], [I64])
switch_row('target-of-no-parameter', '-', CONT_EMPTY, TAG_EMPTY)
switch_row('target-ends-with-i32', '-', CONT_I32, TAG_TO_I32)
switch_row('target-ends-with-i64', '-', CONT_I64, TAG_TO_I64)
switch_row('target-ends-with-funcref', '-', cont_index([FUNCREF], []), TAG_EMPTY)
switch_row('target-ends-with-contref', '-', cont_index([CONTREF], []), TAG_EMPTY)
switch_row('target-ends-with-nullcontref', '-', cont_index([NULLCONTREF], []), TAG_EMPTY)
switch_row('target-ends-with-a-function', '-', cont_index([ref(FUNC_EMPTY)], []), TAG_EMPTY)
switch_row('continuation-is-not-last', '-', cont_index([ref(CONT_EMPTY), I32], []), TAG_EMPTY)
switch_row('target-is-a-function-type', '-', func_index([ref(CONT_EMPTY)], []), TAG_EMPTY)
row('switch/target-out-of-range', '-', [], [], UNREACHABLE + switch(OUT_OF_RANGE, TAG_EMPTY))
switch_row('back-gives-other-results', '-', cont_index([ref(cont_index([], [I64]))], [I32]), TAG_TO_I32)
switch_row('back-gives-none', '-', cont_index([ref(CONT_EMPTY)], [I32]), TAG_TO_I32)
switch_row('back-gives-more', '-', cont_index([ref(cont_index([], [I32, I32]))], [I32]), TAG_TO_I32)
switch_row('target-results-narrower-than-the-tag', '+', cont_index([ref(cont_index([], [FUNCREF]))], [ref(FUNC_I32)]),
           tag_index([], [FUNCREF]))
switch_row('target-results-wider-than-the-tag', '-', cont_index([ref(cont_index([], [FUNCREF]))], [FUNCREF]),
           tag_index([], [ref(FUNC_I32)]))
switch_row('back-results-wider-than-the-tag', '+', cont_index([ref(cont_index([], [FUNCREF]))], [ref(FUNC_I32)]),
           tag_index([], [ref(FUNC_I32)]))
switch_row('back-results-narrower-than-the-tag', '-',
           cont_index([ref(cont_index([], [ref(FUNC_I32)]))], [ref(FUNC_I32)]), tag_index([], [FUNCREF]))
switch_row('equivalent-results', '+', cont_index([ref(cont_index([], [ref(SAME_FUNC_I32)]))], [ref(FUNC_I32)]),
           tag_index([], [ref(FUNC_I32)]))

# Rows of nine types.

TAG_TO_NINE = tag_index([], NINE)
switch_row('nine-results-each-way', '+', cont_index([ref(cont_index([], NINE))], NINE), TAG_TO_NINE)
switch_row('nine-equivalent-results', '+', cont_index([ref(cont_index([], SAME_NINE))], NINE), TAG_TO_NINE)
switch_row('nine-back-results-wider-than-the-tag', '+', cont_index([ref(cont_index([], NINE_FUNCREFS))], NINE),
           TAG_TO_NINE)
switch_row('one-of-nine-back-results-narrower-than-the-tag', '-',
           cont_index([ref(cont_index([], [FUNCREF, *NINE[1:]]))], NINE_FUNCREFS), tag_index([], NINE_FUNCREFS))
switch_row('one-of-nine-target-results-wider-than-the-tag', '-',
           cont_index([ref(cont_index([], NINE_FUNCREFS))], [*NINE[1:], FUNCREF]), TAG_TO_NINE)
TARGET_OF_NINE = cont_index([*NINE, ref(CONT_EMPTY)], [])
switch_row('nine-parameters-beneath', '+', TARGET_OF_NINE, TAG_EMPTY, NINE)
row('switch/one-of-nine-parameters-beneath-is-wider', '-', [FUNCREF, *NINE[1:], nullable(TARGET_OF_NINE)], [],
    local_gets(10) + switch(TARGET_OF_NINE, TAG_EMPTY))
