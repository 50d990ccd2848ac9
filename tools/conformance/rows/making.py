"""Stack switching: how continuations are made and bound."""

from assembler.instructions import (
    DROP, REF_AS_NON_NULL, UNREACHABLE, cont_bind, cont_new, i32_const, local_get, ref_func, ref_null)
from assembler.types import CONT, CONTREF, FUNC, FUNCREF, I32, I64, NOCONT, NOFUNC, nullable, ref
from rows.sections import FunctionSection, local_gets
from surroundings import (
    CONT_EMPTY, CONT_I32, CONT_I32_I64, CONT_I64, FUNC_EMPTY, FUNC_I32, FUNC_I32_I64, FUNC_I64, NINE, NINE_FUNCREFS,
    OUT_OF_RANGE, PAIR,
    SAME_CONT_I32, SAME_FUNC_I32, SAME_PAIR, TRIPLE, TWO_CONTINUATIONS, cont_index)

SECTION = FunctionSection('making')
row = SECTION.row
standard = SECTION.standard

# cont.new.

for name, continuation, function in [
        ('no-parameters', CONT_EMPTY, FUNC_EMPTY), ('one-parameter', CONT_I32, FUNC_I32),
        ('two-parameters', CONT_I32_I64, FUNC_I32_I64)]:
    standard(f'cont.new/{name}', cont_new(continuation), [nullable(function)], [ref(continuation)])
row('cont.new/not-null', '+', [ref(FUNC_I32)], [ref(CONT_I32)], local_get(0) + cont_new(CONT_I32))
row('cont.new/of-a-function', '+', [], [ref(CONT_I32)], ref_func(3) + cont_new(CONT_I32))
row('cont.new/of-null', '+', [], [ref(CONT_I32)], ref_null(FUNC_I32) + cont_new(CONT_I32))
row('cont.new/of-null-of-nofunc', '+', [], [ref(CONT_I32)], ref_null(NOFUNC) + cont_new(CONT_I32))
row('cont.new/of-null-of-func', '-', [], [ref(CONT_I32)], ref_null(FUNC) + cont_new(CONT_I32))
row('cont.new/funcref', '-', [FUNCREF], [ref(CONT_I32)], local_get(0) + cont_new(CONT_I32))
row('cont.new/other-function-type', '-', [nullable(FUNC_I64)], [ref(CONT_I32)], local_get(0) + cont_new(CONT_I32))
row('cont.new/equal-function-type', '+', [nullable(SAME_FUNC_I32)], [ref(CONT_I32)], local_get(0) + cont_new(CONT_I32))
row('cont.new/as-equal-continuation-type', '+', [nullable(FUNC_I32)], [ref(SAME_CONT_I32)],
    local_get(0) + cont_new(CONT_I32))
row('cont.new/as-other-continuation-type', '-', [nullable(FUNC_I32)], [ref(CONT_I64)],
    local_get(0) + cont_new(CONT_I32))
row('cont.new/as-contref', '+', [nullable(FUNC_I32)], [CONTREF], local_get(0) + cont_new(CONT_I32))
row('cont.new/as-nullable', '+', [nullable(FUNC_I32)], [nullable(CONT_I32)], local_get(0) + cont_new(CONT_I32))
row('cont.new/as-funcref', '-', [nullable(FUNC_I32)], [FUNCREF], local_get(0) + cont_new(CONT_I32))
row('cont.new/a-continuation', '-', [nullable(CONT_I32)], [ref(CONT_I32)], local_get(0) + cont_new(CONT_I32))
row('cont.new/of-a-function-type', '-', [nullable(FUNC_I32)], [], local_get(0) + cont_new(FUNC_I32) + DROP)
row('cont.new/out-of-range', '-', [nullable(FUNC_I32)], [], local_get(0) + cont_new(OUT_OF_RANGE) + DROP)
row('cont.new/unreached-of-a-function-type', '-', [], [], UNREACHABLE + cont_new(FUNC_I32) + DROP)
row('cont.new/unreached-out-of-range', '-', [], [], UNREACHABLE + cont_new(OUT_OF_RANGE) + DROP)
row('cont.new/unreached-bottom-reference', '+', [], [ref(CONT_I32)], UNREACHABLE + REF_AS_NON_NULL + cont_new(CONT_I32))
row('cont.new/unreached-other-function-type', '-', [nullable(FUNC_I64)], [ref(CONT_I32)],
    UNREACHABLE + local_get(0) + cont_new(CONT_I32))
row('cont.new/equal-group', '+', [nullable(PAIR)], [ref(SAME_PAIR + 1)], local_get(0) + cont_new(SAME_PAIR + 1))
row('cont.new/equal-group-the-other-way', '+', [nullable(SAME_PAIR)], [ref(PAIR + 1)],
    local_get(0) + cont_new(SAME_PAIR + 1))
row('cont.new/longer-group', '-', [nullable(TRIPLE)], [ref(PAIR + 1)], local_get(0) + cont_new(PAIR + 1))
row('cont.new/shorter-group', '-', [nullable(PAIR)], [ref(TRIPLE + 1)], local_get(0) + cont_new(TRIPLE + 1))
row('cont.new/longer-group-itself', '+', [nullable(TRIPLE)], [ref(TRIPLE + 1)], local_get(0) + cont_new(TRIPLE + 1))
row('cont.new/second-of-one-group', '-', [nullable(TWO_CONTINUATIONS)], [ref(TWO_CONTINUATIONS + 1)],
    local_get(0) + cont_new(TWO_CONTINUATIONS + 2))

# cont.bind: the first continuation type takes what is bound and then what the second takes.

standard('cont.bind/first-of-two', cont_bind(CONT_I32_I64, CONT_I64), [I32, nullable(CONT_I32_I64)], [ref(CONT_I64)])
CONT_THREE = cont_index([I64, I32, FUNCREF], [I32])
CONT_LAST = cont_index([FUNCREF], [I32])
CONT_LAST_TWO = cont_index([I32, FUNCREF], [I32])
CONT_NONE = cont_index([], [I32])
standard('cont.bind/none-of-three', cont_bind(CONT_THREE, CONT_THREE), [nullable(CONT_THREE)], [ref(CONT_THREE)])
standard('cont.bind/one-of-three', cont_bind(CONT_THREE, CONT_LAST_TWO), [I64, nullable(CONT_THREE)],
         [ref(CONT_LAST_TWO)])
standard('cont.bind/two-of-three', cont_bind(CONT_THREE, CONT_LAST), [I64, I32, nullable(CONT_THREE)], [ref(CONT_LAST)])
standard('cont.bind/all-of-three', cont_bind(CONT_THREE, CONT_NONE), [I64, I32, FUNCREF, nullable(CONT_THREE)],
         [ref(CONT_NONE)])
row('cont.bind/no-parameters', '+', [ref(CONT_EMPTY)], [ref(CONT_EMPTY)],
    local_get(0) + cont_bind(CONT_EMPTY, CONT_EMPTY))
row('cont.bind/too-many', '-', [ref(CONT_I32)], [], local_get(0) + cont_bind(CONT_I32, CONT_I32_I64) + DROP)
row('cont.bind/too-many-of-none', '-', [ref(CONT_EMPTY)], [], local_get(0) + cont_bind(CONT_EMPTY, CONT_I32) + DROP)
row('cont.bind/unreached-too-many', '-', [], [], UNREACHABLE + cont_bind(CONT_I32, CONT_I32_I64) + DROP)
row('cont.bind/back-is-not-what-is-bound', '-', [I64, nullable(CONT_I32_I64)], [],
    local_gets(2) + cont_bind(CONT_I32_I64, cont_index([I32], [I64])) + DROP)
row('cont.bind/unreached-back-is-not-what-is-bound', '-', [], [],
    UNREACHABLE + cont_bind(CONT_I32_I64, cont_index([I32], [I64])) + DROP)
row('cont.bind/other-results', '-', [I32, nullable(CONT_I32_I64)], [],
    local_gets(2) + cont_bind(CONT_I32_I64, cont_index([I64], [I32])) + DROP)
row('cont.bind/unreached-other-results', '-', [], [],
    UNREACHABLE + cont_bind(CONT_I32_I64, cont_index([I64], [I32])) + DROP)
row('cont.bind/fewer-results', '-', [I32, nullable(CONT_I32_I64)], [],
    local_gets(2) + cont_bind(CONT_I32_I64, cont_index([I64], [])) + DROP)
row('cont.bind/equal-continuation-type', '+', [nullable(SAME_CONT_I32)], [ref(CONT_I32)],
    local_get(0) + cont_bind(CONT_I32, SAME_CONT_I32))
row('cont.bind/not-null-target', '+', [I32, ref(CONT_I32_I64)], [ref(CONT_I64)],
    local_gets(2) + cont_bind(CONT_I32_I64, CONT_I64))
row('cont.bind/of-null', '+', [], [ref(CONT_I64)], i32_const(0) + ref_null(NOCONT) + cont_bind(CONT_I32_I64, CONT_I64))
row('cont.bind/of-null-of-cont', '-', [], [ref(CONT_I64)],
    i32_const(0) + ref_null(CONT) + cont_bind(CONT_I32_I64, CONT_I64))
row('cont.bind/operands-in-the-other-order', '-', [I32, nullable(CONT_I32_I64)], [ref(CONT_I64)],
    local_get(1) + local_get(0) + cont_bind(CONT_I32_I64, CONT_I64))
row('cont.bind/operands-beneath', '+', [I64, I32, nullable(CONT_I32_I64)], [I64, ref(CONT_I64)],
    local_gets(3) + cont_bind(CONT_I32_I64, CONT_I64))
row('cont.bind/of-a-function-type', '-', [I32, nullable(FUNC_I32_I64)], [],
    local_gets(2) + cont_bind(FUNC_I32_I64, CONT_I64) + DROP)
row('cont.bind/to-a-function-type', '-', [I32, nullable(CONT_I32_I64)], [],
    local_gets(2) + cont_bind(CONT_I32_I64, FUNC_I64) + DROP)
row('cont.bind/of-out-of-range', '-', [], [], UNREACHABLE + cont_bind(OUT_OF_RANGE, CONT_I64) + DROP)
row('cont.bind/to-out-of-range', '-', [], [], UNREACHABLE + cont_bind(CONT_I32_I64, OUT_OF_RANGE) + DROP)
row('cont.bind/unreached-to-a-function-type', '-', [], [], UNREACHABLE + cont_bind(CONT_I32_I64, FUNC_I64) + DROP)
row('cont.bind/unreached-of-a-function-type', '-', [], [], UNREACHABLE + cont_bind(FUNC_I32_I64, CONT_I64) + DROP)
row('cont.bind/parameter-narrower', '+', [CONTREF, nullable(cont_index([CONTREF, FUNCREF], []))], [],
    local_gets(2) + cont_bind(cont_index([CONTREF, FUNCREF], []), cont_index([ref(FUNC_I32)], [])) + DROP)
row('cont.bind/parameter-wider', '-', [CONTREF, nullable(cont_index([CONTREF, ref(FUNC_I32)], []))], [],
    local_gets(2) + cont_bind(cont_index([CONTREF, ref(FUNC_I32)], []), cont_index([FUNCREF], [])) + DROP)
row('cont.bind/result-wider', '+', [nullable(cont_index([], [ref(FUNC_I32)]))], [],
    local_get(0) + cont_bind(cont_index([], [ref(FUNC_I32)]), cont_index([], [FUNCREF])) + DROP)
row('cont.bind/result-narrower', '-', [nullable(cont_index([], [FUNCREF]))], [],
    local_get(0) + cont_bind(cont_index([], [FUNCREF]), cont_index([], [ref(FUNC_I32)])) + DROP)
row('cont.bind/nine-of-ten-parameters-bound', '+', [*NINE, nullable(cont_index([*NINE, I32], NINE))], [],
    local_gets(10) + cont_bind(cont_index([*NINE, I32], NINE), cont_index([I32], NINE)) + DROP)
row('cont.bind/one-of-nine-bound-is-wider', '-', [FUNCREF, *NINE[1:], nullable(cont_index([*NINE, I32], []))], [],
    local_gets(10) + cont_bind(cont_index([*NINE, I32], []), CONT_I32) + DROP)
row('cont.bind/nine-parameters-narrower', '+', [I32, nullable(cont_index([I32, *NINE_FUNCREFS], []))], [],
    local_gets(2) + cont_bind(cont_index([I32, *NINE_FUNCREFS], []), cont_index(NINE, [])) + DROP)
row('cont.bind/one-of-nine-parameters-wider', '-', [I32, nullable(cont_index([I32, *NINE], []))], [],
    local_gets(2) + cont_bind(cont_index([I32, *NINE], []), cont_index([*NINE[1:], FUNCREF], [])) + DROP)
row('cont.bind/nine-results-wider', '+', [nullable(cont_index([], NINE))], [],
    local_get(0) + cont_bind(cont_index([], NINE), cont_index([], NINE_FUNCREFS)) + DROP)
row('cont.bind/one-of-nine-results-narrower', '-', [nullable(cont_index([], NINE_FUNCREFS))], [],
    local_get(0) + cont_bind(cont_index([], NINE_FUNCREFS), cont_index([], [*NINE_FUNCREFS[1:], ref(FUNC_I32)])) + DROP)
row('cont.bind/subtype-bound', '+', [ref(FUNC_I32), nullable(cont_index([FUNCREF], []))], [ref(CONT_EMPTY)],
    local_gets(2) + cont_bind(cont_index([FUNCREF], []), CONT_EMPTY))
row('cont.bind/supertype-bound', '-', [FUNCREF, nullable(cont_index([ref(FUNC_I32)], []))], [ref(CONT_EMPTY)],
    local_gets(2) + cont_bind(cont_index([ref(FUNC_I32)], []), CONT_EMPTY))
