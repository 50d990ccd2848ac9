"""Stack switching: suspend, and resume without handlers."""

from assembler.instructions import (
    UNREACHABLE, cont_bind, cont_new, i32_const, i64_const, local_get, ref_func, ref_null, resume, suspend)
from assembler.types import CONT, CONTREF, I32, I64, NOCONT, NULLCONTREF, nullable, ref
from rows.sections import FunctionSection, local_gets
from surroundings import (
    CONT_EMPTY, CONT_I32, CONT_I32_I64, CONT_I64, FUNC_EMPTY, FUNC_I32, FUNC_I32_I64, OUT_OF_RANGE, SAME_CONT_I32,
    TAG_EMPTY, TAG_I32_I64, TAG_I32_TO_I64, TAG_TO_I32)

SECTION = FunctionSection('suspending')
row = SECTION.row
standard = SECTION.standard

# Suspend.

standard('suspend/import', suspend(TAG_I32_TO_I64), [I32], [I64])
standard('suspend/empty', suspend(TAG_EMPTY), [], [])
standard('suspend/result-alone', suspend(TAG_TO_I32), [], [I32])
standard('suspend/parameters-alone', suspend(TAG_I32_I64), [I32, I64], [])
row('suspend/out-of-range', '-', [], [], suspend(OUT_OF_RANGE))
row('suspend/unreached-out-of-range', '-', [], [], UNREACHABLE + suspend(OUT_OF_RANGE))
row('suspend/operands-in-the-other-order', '-', [I32, I64], [], local_get(1) + local_get(0) + suspend(TAG_I32_I64))
row('suspend/operands-beneath', '+', [I64, I32], [I64, I64], local_gets(2) + suspend(TAG_I32_TO_I64))
row('suspend/still-reachable', '-', [], [I32], suspend(TAG_EMPTY))

# Resume without clauses.

standard('resume/no-parameters', resume(CONT_EMPTY), [nullable(CONT_EMPTY)], [])
standard('resume/one-parameter', resume(CONT_I32), [I32, nullable(CONT_I32)], [I32])
standard('resume/two-parameters', resume(CONT_I32_I64), [I32, I64, nullable(CONT_I32_I64)], [I64])
row('resume/not-null', '+', [I32, ref(CONT_I32)], [I32], local_gets(2) + resume(CONT_I32))
row('resume/equal-continuation-type', '+', [I32, nullable(SAME_CONT_I32)], [I32], local_gets(2) + resume(CONT_I32))
row('resume/other-continuation-type', '-', [I32, nullable(CONT_I64)], [I32], local_gets(2) + resume(CONT_I32))
row('resume/contref', '-', [I32, CONTREF], [I32], local_gets(2) + resume(CONT_I32))
row('resume/nullcontref', '+', [I32, NULLCONTREF], [I32], local_gets(2) + resume(CONT_I32))
row('resume/function', '-', [I32, nullable(FUNC_I32)], [I32], local_gets(2) + resume(CONT_I32))
row('resume/null', '+', [], [I32], i32_const(0) + ref_null(CONT_I32) + resume(CONT_I32))
row('resume/unreached-null', '+', [], [I32], UNREACHABLE + ref_null(CONT_I32) + resume(CONT_I32))
row('resume/unreached-null-of-nocont', '+', [], [I32], UNREACHABLE + ref_null(NOCONT) + resume(CONT_I32))
row('resume/unreached-null-of-cont', '-', [], [I32], UNREACHABLE + ref_null(CONT) + resume(CONT_I32))
row('resume/unreached-null-of-other', '-', [], [I32], UNREACHABLE + ref_null(CONT_I64) + resume(CONT_I32))
row('resume/unreached-null-result', '-', [], [I64], UNREACHABLE + ref_null(CONT_I32) + resume(CONT_I32))
row('resume/out-of-range', '-', [], [], UNREACHABLE + resume(OUT_OF_RANGE))
row('resume/of-a-function-type', '-', [nullable(FUNC_EMPTY)], [], local_get(0) + resume(FUNC_EMPTY))
row('resume/unreached-of-a-function-type', '-', [], [], UNREACHABLE + resume(FUNC_EMPTY))
row('resume/operands-in-the-other-order', '-', [I32, nullable(CONT_I32)], [I32],
    local_get(1) + local_get(0) + resume(CONT_I32))
row('resume/new', '+', [], [I32], i32_const(7) + ref_func(3) + cont_new(CONT_I32) + resume(CONT_I32))
row('resume/bound', '+', [ref(FUNC_I32_I64)], [I64],
    i64_const(1) + i32_const(2) + local_get(0) + cont_new(CONT_I32_I64) + cont_bind(CONT_I32_I64, CONT_I64)
    + resume(CONT_I64))
