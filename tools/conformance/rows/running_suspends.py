"""Runs of suspend and resume: what passes through them, where they lead to, and how what is resumed ends."""

from assembler.instructions import (
    DROP, I32_ADD, I32_MUL, I32_WRAP_I64, RETURN, UNREACHABLE, access, block, br, br_if, br_table, call, call_ref,
    cont_new, global_get, global_set, i32_const, i64_const, if_, local_get, local_set, local_tee, loop, memory_grow,
    memory_size, numeric, on, ref_func, ref_null, resume, suspend)
from assembler.types import EMPTY, I32, I64, NOCONT, limits, nullable, ref
from rows.runs import RunSection, printed
from rows.switching_modules import LESS, MAIN, PRINT, Plain, SwitchingModule, caught

VALUES = RunSection('values')
LABELS = RunSection('labels')
ENDS = RunSection('ends')

PRINT_I64 = I32_WRAP_I64 + PRINT


def _value_rows():
    module = Plain()
    function = module.suspending(printed(1), printed(2))
    VALUES.told('none', module.main([], module.resumed(
        module.fresh(function), printed(3) + resume(module.nothing) + printed(4)) + printed(5)))
    VALUES.told('none/not-resumed', module.main([], module.resumed(
        module.fresh(function), printed(3) + DROP) + printed(5)))
    VALUES.told('nothing-suspended', module.main([], module.resumed(
        module.fresh(module.function([], [], printed(6))), printed(3) + DROP) + printed(5)))
    VALUES.told('a-function-of-nothing', module.main([], module.fresh(module.function([], [], b''))
                                                     + resume(module.nothing)))


def _argument_rows():
    """The tag takes i32 and i64, and gives i64 and i32. What is resumed takes two numbers and gives three."""
    module = SwitchingModule()
    tag = module.tag([I32, I64], [I64, I32])
    back = module.cont([I64, I32], [I32, I64, I32])
    body = printed(1) + local_get(0) + i64_const(7) + suspend(tag) + PRINT + PRINT_I64 + local_get(1) + i64_const(8)
    function = module.function([I32, I32], [I32, I64, I32], body + i32_const(9))
    three = PRINT + PRINT_I64 + PRINT
    start = i32_const(5) + i32_const(6) + module.fresh(function) + resume(module.cont_of(function), on(tag, 0)) + three
    resumed = local_set(0) + PRINT_I64 + PRINT + i64_const(10) + i32_const(11) + local_get(0) + resume(back) + three
    VALUES.told('arguments-and-results', module.main(
        [], caught(module, [I32, I64, ref(back)], start, resumed), [(1, nullable(back))]))
    results = module.function([I32, I32], [I32, I64, I32], local_get(1) + i64_const(2) + local_get(0))
    VALUES.told('results-of-what-is-resumed', module.main(
        [I64, I32, I64, I32], i64_const(4) + i32_const(5) + i32_const(6) + module.fresh(results)
        + resume(module.cont_of(results))))
    many = module.tag([I32] * 20, [I32] * 20)
    numbers = b''.join(map(i32_const, range(20)))
    function = module.function([], [], numbers + suspend(many) + PRINT * 20)
    back = module.cont([I32] * 20, [])
    given = b''.join(map(i32_const, range(100, 120)))
    start = module.fresh(function) + resume(module.cont_of(function), on(many, 0))
    VALUES.told('twenty-arguments-and-results', module.main(
        [], caught(module, [I32] * 20 + [ref(back)], start, local_set(0) + PRINT * 20 + given + local_get(0)
                   + resume(back)), [(1, nullable(back))]))


def _reference_rows():
    """The tag takes a reference to a function and gives one."""
    module = SwitchingModule()
    number = module.func([], [I32])
    tag = module.tag([ref(number)], [nullable(number)])
    back = module.cont([nullable(number)], [])
    first, second = module.function([], [I32], i32_const(11)), module.function([], [I32], i32_const(12))
    body = ref_func(first) + suspend(tag) + call_ref(number) + PRINT
    function = module.function([], [], body)
    for name, given in [('a-function', ref_func(second)), ('null', ref_null(number))]:
        VALUES.told(f'references/{name}', module.main([], caught(
            module, [ref(number), ref(back)], module.fresh(function) + resume(module.cont([], []), on(tag, 0)),
            local_set(0) + call_ref(number) + PRINT + given + local_get(0) + resume(back)), [(1, nullable(back))]))


def _nested_rows():
    """Suspended within blocks and frames, each with operands beneath. The tag takes and gives a number."""
    module = SwitchingModule()
    tag = module.tag([I32], [I32])
    back = module.cont([I32], [I32])
    asked = block(I32, i32_const(1) + block(I32, i32_const(2) + i32_const(3) + suspend(tag) + I32_MUL) + I32_ADD)
    inner = module.function([I32], [I32], local_get(0) + asked + I32_ADD + local_tee(0) + PRINT + local_get(0))
    called = local_get(0) + i32_const(10) + local_get(0) + call(inner) + I32_MUL + I32_ADD
    middle = module.function([I32], [I32], loop(I32, called) + local_tee(0) + PRINT + local_get(0))
    outer = module.function([I32], [I32], i32_const(1000) + local_get(0) + call(middle) + I32_ADD)
    start = i32_const(4) + module.fresh(outer) + resume(back, on(tag, 0)) + PRINT
    VALUES.told('through-blocks-and-frames', module.main([], caught(
        module, [I32, ref(back)], start, local_set(0) + PRINT + i32_const(20) + local_get(0) + resume(back) + PRINT),
        [(1, nullable(back))]))
    VALUES.told('unhandled-in-blocks-and-frames', module.main(
        [I32], i32_const(4) + module.fresh(outer) + resume(back)))
    down = local_get(0) + if_(
        I32, local_get(0) + LESS + call(module.next_function) + local_get(0) + suspend(tag) + I32_ADD, i32_const(0))
    deep = module.function([I32], [I32], down)
    each = loop(module.arrow([I32, ref(back)], []), local_set(0) + local_set(1) + block(
        module.arrow([], [I32, ref(back)]), local_get(1) + PRINT + local_get(1) + i32_const(2) + I32_MUL
        + local_get(0) + resume(back, on(tag, 0)) + PRINT + RETURN) + br(0))
    start = block(module.arrow([], [I32, ref(back)]), i32_const(30) + module.fresh(deep) + resume(back, on(tag, 0))
                  + PRINT + RETURN)
    VALUES.told('by-thirty-frames', module.main([], start + each, [(1, nullable(back)), (1, I32)]))


def _label_rows():
    """Where the label of a clause leads to."""
    module = Plain()
    nothing, clause = module.nothing, module.plain_tag
    twice = module.function([], [], printed(1) + suspend(clause) + printed(2) + suspend(clause) + printed(3))
    again = loop(module.arrow([ref(nothing)], []), printed(4) + resume(nothing, on(clause, 0)))
    LABELS.told('a-loop', module.main([], module.fresh(twice) + again + printed(5)))
    given = module.function([], [ref(nothing)], module.fresh(twice) + resume(nothing, on(clause, 0)) + UNREACHABLE)
    LABELS.told('the-function', module.main([], call(given) + printed(6) + DROP))
    deep = module.function([], [ref(nothing)], block(EMPTY, loop(EMPTY, i32_const(7) + block(
        EMPTY, module.fresh(twice) + resume(nothing, on(clause, 3))) + DROP)) + UNREACHABLE)
    LABELS.told('the-function-from-blocks', module.main([], call(deep) + printed(8) + DROP))
    for label in range(3):
        inside = i32_const(9) + module.fresh(twice) + resume(nothing, on(clause, label)) + UNREACHABLE
        shape = module.arrow([], [ref(nothing)])
        body = inside
        for number in range(3):
            body = i32_const(60 + number) + block(shape, body) + printed(number) + DROP + PRINT + module.fresh(twice)
        LABELS.told(f'block-{label}-of-three', module.main([], body + DROP))
    kept = i32_const(21) + block(module.arrow([], [ref(nothing)]), i32_const(22) + i32_const(23) + module.fresh(twice)
                                 + resume(nothing, on(clause, 0)) + UNREACHABLE)
    LABELS.told('operands-beneath-are-dropped', module.main([I32], kept + DROP))
    last = module.function([], [], printed(1))
    LABELS.told('operands-beneath-stay', module.main(
        [I32, I32], i32_const(24) + i32_const(25) + module.fresh(last) + resume(nothing)))
    LABELS.told('operands-beneath-stay-on-a-way-around', module.main(
        [I32, I32], i32_const(24) + i32_const(25) + module.resumed(module.fresh(twice), DROP)))


def _ending_rows():
    """How what was resumed ends: by a branch or a return, from within, or by a trap."""
    module = Plain()
    for name, body in [
            ('return', block(EMPTY, i32_const(1) + loop(EMPTY, i32_const(2) + RETURN) + DROP) + UNREACHABLE),
            ('br', i32_const(1) + block(EMPTY, i32_const(2) + br(1)) + UNREACHABLE),
            ('br_if', i32_const(2) + br_if(0) + UNREACHABLE),
            ('br_table', block(EMPTY, i32_const(5) + br_table([0], 1)) + UNREACHABLE)]:
        function = module.function([], [], printed(3) + body)
        ENDS.told(f'by-{name}', module.main([], module.fresh(function) + resume(module.nothing) + printed(4)))
        function = module.suspending(printed(3), body)
        ENDS.told(f'by-{name}/after-a-suspend', module.main([], module.resumed(
            module.fresh(function), resume(module.nothing)) + printed(4)))
    for name, trap in [
            ('unreachable', UNREACHABLE), ('divide-by-zero', i32_const(1) + i32_const(0) + numeric('i32.div_u') + DROP),
            ('null-reference', ref_null(NOCONT) + resume(module.nothing))]:
        function = module.suspending(printed(3), trap + printed(4))
        ENDS.told(f'by-a-trap/{name}', module.main([I32], module.resumed(
            module.fresh(function), printed(5) + resume(module.nothing)) + i32_const(6)))


def _shared_rows():
    """What one store holds, and what each frame has for itself."""
    module = Plain()
    count = module.variable(I32, i32_const(3))
    more = global_get(count) + i32_const(1) + I32_ADD + global_set(count)
    stored = i32_const(8) + i32_const(77) + access('i32.store', 2, 0)
    loaded = i32_const(8) + access('i32.load', 2, 0) + PRINT
    function = module.function(
        [], [], i32_const(41) + local_set(0) + more + stored + i32_const(1) + memory_grow(0) + DROP
        + suspend(module.plain_tag) + local_get(0) + PRINT + global_get(count) + PRINT + loaded, [(1, I32)])
    ENDS.told('globals-memory-and-locals', module.main(
        [], i32_const(42) + local_set(0) + module.resumed(
            module.fresh(function), global_get(count) + PRINT + loaded + memory_size(0) + PRINT + more
            + i32_const(8) + i32_const(78) + access('i32.store', 2, 0) + local_get(0) + PRINT
            + resume(module.nothing)) + local_get(0) + PRINT, [(1, I32)], memories=[limits(1)]))
    module = Plain()
    count = module.variable(I32, i32_const(3))
    again = global_get(count) + if_(EMPTY, global_get(count) + LESS + global_set(count) + ref_func(MAIN)
                                    + cont_new(module.nothing) + resume(module.nothing))
    ENDS.told('main-in-a-continuation', module.main([], global_get(count) + PRINT + again + printed(9)))


_value_rows()
_argument_rows()
_reference_rows()
_nested_rows()
_label_rows()
_ending_rows()
_shared_rows()
