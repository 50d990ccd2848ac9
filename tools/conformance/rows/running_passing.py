"""Runs in which continuations are kept in globals, tables and locals, asked about, and passed on."""

from assembler.instructions import (
    DROP, REF_AS_NON_NULL, REF_IS_NULL, RETURN, block, br_on_non_null, br_on_null, cont_bind, global_get, global_set,
    i32_const, local_get, local_set, local_tee, on, ref_null, resume, select, suspend, table_copy, table_fill,
    table_get, table_grow, table_set)
from assembler.modules import table
from assembler.types import CONTREF, EMPTY, NOCONT, limits, nullable, ref
from rows.runs import RunSection, printed
from rows.switching_modules import PRINT, Plain, caught

KEEPING = RunSection('keeping')
PASSING = RunSection('passing')

# How a continuation is put somewhere, and how it is got from there.
KEPT_WAYS = {
    'a-global': (lambda kept: kept + global_set(0), global_get(0)),
    'a-table': (lambda kept: i32_const(2) + kept + table_set(0), i32_const(2) + table_get(0)),
    'a-table-by-fill': (lambda kept: i32_const(1) + kept + i32_const(3) + table_fill(0), i32_const(3) + table_get(0)),
    'a-table-by-grow': (lambda kept: kept + i32_const(3) + table_grow(0) + PRINT, i32_const(6) + table_get(0)),
    'a-table-by-copy': (
        lambda kept: i32_const(1) + kept + table_set(0) + i32_const(0) + i32_const(1) + i32_const(1) + table_copy(1, 0),
        i32_const(0) + table_get(1)),
    'a-local': (lambda kept: kept + local_set(0), local_get(0)),
    'a-local-by-tee': (lambda kept: kept + local_tee(0) + DROP, local_get(0)),
}


def _keeping_rows():
    for name, (keep, given) in KEPT_WAYS.items():
        for times in (1, 2):
            module = Plain()
            kept_type = nullable(module.nothing)
            module.variable(kept_type, ref_null(NOCONT))
            module.variable(CONTREF, ref_null(NOCONT))
            module.table(table(kept_type, limits(4, 9)))
            module.table(table(kept_type, limits(1)))
            function = module.suspending(printed(1), printed(2))
            body = module.resumed(module.fresh(function), local_set(0) + keep(local_get(0)))
            KEEPING.told(f'{name}/resumed-{times}-times', module.main(
                [], body + printed(3) + (given + resume(module.nothing)) * times, [(1, kept_type)]))
    module = Plain()
    kept_type = nullable(module.nothing)
    function = module.suspending(printed(1), printed(2))
    for condition in (0, 1):
        selected = local_get(0) + ref_null(NOCONT) + i32_const(condition) + select(kept_type)
        KEEPING.told(f'a-select-by-{condition}', module.main([], module.resumed(
            module.fresh(function), local_set(0) + selected + resume(module.nothing)), [(1, kept_type)]))


def _test_rows():
    """What is asked of a reference to a continuation that is live, consumed or none."""
    module = Plain()
    nothing = module.nothing
    function = module.function([], [], printed(2))
    for name, given in [
            ('live', module.fresh(function) + local_set(0)), ('none', b''),
            ('consumed', module.fresh(function) + local_tee(0) + resume(nothing))]:
        tested = local_get(0) + REF_IS_NULL + PRINT
        KEEPING.told(f'{name}/is-null', module.main([], given + tested, [(1, nullable(nothing))]))
        KEEPING.told(f'{name}/is-null-as-contref', module.main(
            [], given + local_get(0) + local_set(1) + local_get(1) + REF_IS_NULL + PRINT,
            [(1, nullable(nothing)), (1, CONTREF)]))
        KEEPING.told(f'{name}/as-non-null', module.main(
            [], given + local_get(0) + REF_AS_NON_NULL + DROP + printed(3), [(1, nullable(nothing))]))
        KEEPING.told(f'{name}/br_on_null', module.main(
            [], given + block(EMPTY, local_get(0) + br_on_null(0) + resume(nothing) + printed(4)) + printed(5),
            [(1, nullable(nothing))]))
        KEEPING.told(f'{name}/br_on_non_null', module.main(
            [], given + block(module.arrow([], [ref(nothing)]), local_get(0) + br_on_non_null(0) + printed(6) + RETURN)
            + resume(nothing) + printed(7), [(1, nullable(nothing))]))


def _passing_rows():
    """Continuations that are arguments, are bound, or are results of others, or of tags."""
    module = Plain()
    nothing, kept = module.nothing, nullable(module.nothing)
    taking = module.function([kept], [], printed(1) + local_get(0) + resume(nothing) + printed(2))
    takes = module.cont_of(taking)
    function = module.function([], [], printed(3))
    PASSING.told('as-an-argument', module.main([], module.fresh(function) + module.fresh(taking) + resume(takes)))
    bound = module.fresh(function) + module.fresh(taking) + cont_bind(takes, nothing)
    PASSING.told('as-a-bound-argument', module.main([], bound + resume(nothing)))
    chain = bound
    for _ in range(20):
        chain += module.fresh(taking) + cont_bind(takes, nothing)
    PASSING.told('as-a-bound-argument-twenty-deep', module.main([], chain + resume(nothing)))
    PASSING.told('as-a-bound-argument-twice', module.main(
        [], module.fresh(function) + local_tee(0) + module.fresh(taking) + cont_bind(takes, nothing) + local_get(0)
        + module.fresh(taking) + cont_bind(takes, nothing) + resume(nothing) + resume(nothing), [(1, kept)]))
    giving = module.function([], [kept], printed(4) + module.fresh(function))
    PASSING.told('as-a-result', module.main(
        [], module.fresh(giving) + resume(module.cont_of(giving)) + resume(nothing) + printed(5)))
    suspended = module.suspending(printed(6), printed(7))
    giving = module.function([], [kept], module.resumed(module.fresh(suspended), RETURN) + ref_null(NOCONT))
    PASSING.told('as-a-result/suspended', module.main(
        [], module.fresh(giving) + resume(module.cont_of(giving)) + resume(nothing) + printed(5)))


def _tag_rows():
    """Tags that take continuations, and that give them."""
    module = Plain()
    nothing, kept = module.nothing, nullable(module.nothing)
    exchange = module.tag([kept], [kept])
    first, second = (module.function([], [], printed(number)) for number in (1, 2))
    function = module.function([], [], module.fresh(first) + suspend(exchange) + resume(nothing) + printed(3))
    back = module.cont([kept], [])
    for name, given in [
            ('another', local_get(1) + resume(nothing) + module.fresh(second)), ('the-same', local_get(1)),
            ('the-same-that-is-consumed', local_get(1) + resume(nothing) + local_get(1)),
            ('null', ref_null(NOCONT))]:
        PASSING.told(f'by-a-tag/{name}', module.main([], caught(
            module, [kept, ref(back)], module.fresh(function) + resume(nothing, on(exchange, 0)),
            local_set(0) + local_set(1) + given + local_get(0) + resume(back) + printed(4)),
            [(1, nullable(back)), (1, kept)]))
    own = module.own_cont([], [])
    itself = module.function_of(own - 1, local_get(0) + REF_IS_NULL + PRINT + local_get(0) + local_get(0) + resume(own))
    PASSING.told('to-itself', module.main(
        [], module.fresh(itself) + local_tee(0) + local_get(0) + resume(own), [(1, nullable(own))]))
    PASSING.told('to-itself-bound', module.main(
        [], module.fresh(itself) + local_tee(0) + local_get(0) + cont_bind(own, nothing) + resume(nothing),
        [(1, nullable(own))]))


_keeping_rows()
_test_rows()
_passing_rows()
_tag_rows()
