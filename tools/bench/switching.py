"""Programs for `run` that switch stacks, and one of plain calls to set beside them.

Each is a function from a number of repeats to a module, as in `runs.py`.
"""

from assembler.encoding import signed
from assembler.instructions import (
    DROP, I32_ADD, I32_EQZ, RETURN, UNREACHABLE, block, br, br_if, call, cont_new, global_get, global_set, i32_const,
    if_, local_get, local_set, local_tee, loop, numeric, on, on_switch, ref_func, ref_null, resume, suspend, switch,
    table_get, table_set)
from assembler.modules import code, export, global_, module, table
from assembler.segments import declared_functions
from assembler.types import EMPTY, I32, NOCONT, conttype, functype, limits, nullable, rec_group, ref

I32_SUB, I32_REM_U = numeric('i32.sub'), numeric('i32.rem_u')

MAIN, ONE, NOTHING, COROUTINE, YIELDED = range(5)   # types: of main, of a number, of nothing, of coroutines, of a yield
TYPES = [functype([], [I32]), functype([I32], []), functype([], []), conttype(NOTHING),
         functype([], [I32, ref(COROUTINE)])]
REPEATS, RESULT, KEPT = range(3)                    # locals of main
LOCALS = [(2, I32), (1, nullable(COROUTINE))]
YIELD, STOP = range(2)                              # tags: of a number, and of nothing
RING = 1000                                         # coroutines in a ring
MOST_LIVE = 65536                                   # continuations that may be live


def plain_calls_in_a_loop(repeats):
    """Calls of a function that adds one to a global: what a suspend or a fresh coroutine is set beside."""
    return _program(_repeated(repeats, call(1)) + global_get(0), [_adding_one()], NOTHING)


def plain_calls_beside_a_full_store(repeats):
    """The same where as many continuations are live as may be."""
    return _program(
        _filled(MOST_LIVE) + _repeated(repeats, call(1)) + global_get(0), [_adding_one()], NOTHING)


def a_generator(repeats):
    """A generator of all numbers, whose handle stands right around it."""
    return _generating(repeats, 1)


def a_generator_beside_a_full_store(repeats):
    """The same where as many continuations are live as may be, its own among them."""
    return _generating(repeats, 1, _filled(MOST_LIVE - 1))


def a_generator_below_ten_handles(repeats):
    """The same with nine handles between them that have no clause for its tag."""
    return _generating(repeats, 10)


def a_generator_below_a_hundred_handles(repeats):
    """The same with ninety-nine of them."""
    return _generating(repeats, 100)


def _filled(count):
    """Makes so many continuations that stay live."""
    return _counting_down(REPEATS, count, _fresh(1) + DROP)


def _generating(repeats, depth, before=b''):
    numbers = loop(EMPTY, local_get(0) + suspend(YIELD) + _more(local_get(0)) + local_set(0) + br(0))
    passing = [_fresh(function) + resume(COROUTINE) for function in range(1, depth)]
    take = block(signed(YIELDED), local_get(KEPT) + resume(COROUTINE, on(YIELD, 0)) + UNREACHABLE) + local_set(KEPT)
    add = local_get(RESULT) + I32_ADD + local_set(RESULT)
    main = before + _fresh(depth) + local_set(KEPT) + _repeated(repeats, take + add) + local_get(RESULT)
    return _program(main, [numbers, *passing], NOTHING, [(1, I32)])


def fresh_coroutines(repeats):
    """Coroutines that are made and run to their end, each of which adds one to a global."""
    return _program(_repeated(repeats, _fresh(1) + resume(COROUTINE)) + global_get(0), [_adding_one()], NOTHING)


def coroutines_that_stay_live(repeats):
    """Coroutines that are suspended and never resumed, at most as many as may be live."""
    if repeats > MOST_LIVE:
        raise ValueError(f'{repeats} continuations that are live are too many')
    begin = block(signed(len(TYPES)), _fresh(1) + resume(COROUTINE, on(STOP, 0)) + UNREACHABLE) + local_set(KEPT)
    main = _repeated(repeats, begin + _more(local_get(RESULT)) + local_set(RESULT)) + local_get(RESULT)
    return _program(main, [suspend(STOP)], NOTHING, types=[*TYPES, functype([], [ref(COROUTINE)])])


def a_ring_of_coroutines(repeats):
    """A thousand coroutines, each of which switches to the next one, once in a repeat.

    What switches is kept in a table by what it switches to, which takes its place before it goes on.
    """
    here, left, total = range(3)                    # globals
    of_ring, ring = 3, 4                            # types
    keep = global_get(here) + local_get(0) + table_set(0)
    go_on = _after(global_get(here)) + global_set(here)
    add = global_get(total) + global_get(here) + I32_ADD + global_set(total)
    count = global_get(left) + i32_const(1) + I32_SUB + global_set(left)
    end = global_get(left) + I32_EQZ + if_(EMPTY, RETURN)
    away = _after(global_get(here)) + table_get(0) + switch(ring, STOP) + local_set(0)
    coroutine = loop(EMPTY, keep + go_on + add + count + end + away + br(0))
    make = local_get(KEPT) + ref_func(1) + cont_new(ring) + table_set(0)
    main = (_counting_down(KEPT, RING - 1, make) + i32_const(0) + ref_func(1) + cont_new(ring) + table_set(0)
            + i32_const(RING) + global_set(here) + i32_const(RING * repeats) + global_set(left)
            + ref_null(NOCONT) + _after(global_get(here)) + table_get(0) + resume(ring, on_switch(STOP))
            + global_get(total))
    return module(
        types=[*TYPES[:3], rec_group([functype([nullable(ring)], []), conttype(of_ring)])], functions=[MAIN, of_ring],
        tables=[table(nullable(ring), limits(RING + 1))], tags=[ONE, NOTHING],
        globals=[global_(I32, i32_const(0), mutable=True)] * 3, exports=[export('main', 'func', 0)],
        elements=[declared_functions([1])], codes=[code(main, [(3, I32)]), code(coroutine)])


def _after(place):
    """The place in the ring that comes next."""
    return _more(place) + i32_const(RING) + I32_REM_U


def _more(number):
    return number + i32_const(1) + I32_ADD


def _adding_one():
    return _more(global_get(0)) + global_set(0)


def _fresh(function):
    return ref_func(function) + cont_new(COROUTINE)


def _repeated(repeats, work):
    return _counting_down(REPEATS, repeats, work)


def _counting_down(counter, start, work):
    """Do this with a local that counts down to zero, but not at zero."""
    down = local_get(counter) + i32_const(1) + I32_SUB + local_tee(counter)
    return i32_const(start) + local_set(counter) + loop(EMPTY, work + down + br_if(0))


def _program(main, others, kind, runs=(), types=None):
    """A module with this main and functions of one type, to all of which it may refer."""
    return module(
        types=types or TYPES, functions=[MAIN] + [kind] * len(others), tags=[ONE, NOTHING],
        globals=[global_(I32, i32_const(0), mutable=True)], exports=[export('main', 'func', 0)],
        elements=[declared_functions(range(1, len(others) + 1))],
        codes=[code(main, LOCALS)] + [code(body, runs) for body in others])


RUNS = {run.__name__.replace('_', ' '): run for run in (
    plain_calls_in_a_loop, plain_calls_beside_a_full_store, a_generator, a_generator_beside_a_full_store,
    a_generator_below_ten_handles, a_generator_below_a_hundred_handles,
    fresh_coroutines, a_ring_of_coroutines, coroutines_that_stay_live)}
MOST_REPEATS = {'coroutines that stay live': MOST_LIVE}
