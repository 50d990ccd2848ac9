"""Runs of switch: what passes through it, rings of coroutines, and what its target may be."""

from assembler.instructions import (
    DROP, I32_ADD, I32_WRAP_I64, REF_IS_NULL, RETURN, block, br, br_if, call, cont_bind, global_get, global_set,
    i32_const, i64_const, if_, local_get, local_set, loop, numeric, on, on_switch, ref_null, resume, suspend, switch,
    table_get, table_set)
from assembler.modules import table
from assembler.types import EMPTY, I32, I64, NOCONT, limits, nullable, ref
from rows.runs import RunSection, printed
from rows.switching_modules import LESS, PRINT, SwitchingModule

VALUES = RunSection('values')
TARGETS = RunSection('targets')
RINGS = RunSection('rings')

REMAINDER = numeric('i32.rem_u')


class Switches(SwitchingModule):
    """A module with a type of continuations that take one of their own type, and a tag of nothing for switches."""

    def __init__(self):
        super().__init__()
        self.own = self.own_cont([], [])
        self.plain_tag = self.tag()

    def own_function(self, body, local_runs=()):
        """A function whose continuations take one of their own type."""
        return self.function_of(self.own - 1, body, local_runs)

    def begun(self, function, *clauses):
        """Resume one of these functions, with null and a clause for the switch."""
        given = ref_null(NOCONT) + self.fresh(function)
        return given + resume(self.own, *clauses, on_switch(self.plain_tag))

    def switched(self, given):
        """Switch to what is given, and leave who switched back."""
        return given + switch(self.own, self.plain_tag)


def _value_rows():
    """The tag gives a number. What switches takes i64 and i32, and its target i32 twice and the continuation."""
    module = SwitchingModule()
    tag = module.tag([], [I32])
    back = module.cont([I64, I32], [I32])
    target_type = module.cont([I32, I32, nullable(back)], [I32])
    target = module.function(
        [I32, I32, nullable(back)], [I32], local_get(0) + PRINT + local_get(1) + PRINT + i64_const(3) + i32_const(4)
        + local_get(2) + resume(back) + PRINT + i32_const(5))
    switched = i32_const(6) + i32_const(7) + module.fresh(target) + switch(target_type, tag)
    function = module.function([], [I32], i32_const(8) + block(I32, switched + PRINT + I32_WRAP_I64) + PRINT + PRINT
                               + i32_const(9))
    numbered = module.cont([], [I32])
    VALUES.told('both-ways', module.main([I32], module.fresh(function) + resume(numbered, on_switch(tag))))
    VALUES.told('unhandled', module.main([I32], module.fresh(function) + resume(numbered)))
    VALUES.told('without-a-continuation', module.main([I32], block(I32, switched + DROP + I32_WRAP_I64)))
    caller = module.function([], [I32], i32_const(10) + call(function) + I32_ADD + i32_const(11) + I32_ADD)
    VALUES.told('from-a-callee', module.main([I32], module.fresh(caller) + resume(numbered, on_switch(tag))))
    left = module.function([I32, I32, nullable(back)], [I32], local_get(1))
    switched = i32_const(6) + i32_const(7) + module.fresh(left) + switch(target_type, tag)
    gone = module.function([], [I32], switched + DROP + DROP + i32_const(12))
    VALUES.told('who-switches-is-left', module.main(
        [I32], i32_const(100) + module.fresh(gone) + resume(numbered, on_switch(tag)) + I32_ADD))


def _back_rows():
    """Two that switch to one another."""
    for turns in (0, 1, 2, 3):
        module = Switches()
        other = module.own_function(b''.join(
            printed(20 + turn) + module.switched(local_get(0)) + local_set(0) for turn in range(turns)) + printed(29))
        first = b''.join(printed(10 + turn) + module.switched(local_get(1)) + local_set(1) for turn in range(turns))
        function = module.own_function(
            module.fresh(other) + local_set(1) + first + printed(19) + local_get(1) + REF_IS_NULL + PRINT,
            [(1, nullable(module.own))])
        VALUES.told(f'there-and-back-{turns}-times', module.main([], module.begun(function) + printed(30)))
        VALUES.told(f'there-and-back-{turns}-times-unhandled', module.main(
            [], ref_null(NOCONT) + module.fresh(function) + resume(module.own) + printed(30)))


def _targets(module):
    """Targets, each with what makes it: each switches back once, and prints when it is switched to again."""
    own, nothing = module.own, module.cont([], [])
    label = module.arrow([], [ref(own)])
    ask = module.tag([], [nullable(own)])
    ask_twice = module.tag([], [I32, nullable(own)])
    bound_type = module.cont([I32, nullable(own)], [])
    fresh = module.own_function(printed(20) + module.switched(local_get(0)) + DROP + printed(21))
    bound = module.function([I32, nullable(own)], [], local_get(0) + PRINT + module.switched(local_get(1)) + DROP
                            + printed(22))
    asking = module.function([], [], printed(23) + module.switched(suspend(ask)) + DROP + printed(24))
    around = module.function([], [], printed(25) + module.fresh(asking) + resume(nothing) + printed(26))
    asking_twice = module.function(
        [], [], printed(27) + module.switched(suspend(ask_twice)) + DROP + PRINT + printed(28))

    def suspended(function):
        return block(label, module.fresh(function) + resume(nothing, on(ask, 0)) + RETURN)

    both = block(module.arrow([], [ref(bound_type)]), module.fresh(asking_twice) + resume(nothing, on(ask_twice, 0))
                 + RETURN)
    return {
        'fresh': module.fresh(fresh), 'suspended': suspended(asking), 'with-a-handle': suspended(around),
        'bound': i32_const(40) + module.fresh(bound) + cont_bind(bound_type, own),
        'suspended-and-bound': i32_const(41) + both + cont_bind(bound_type, own),
        'bound-without-arguments': module.fresh(fresh) + cont_bind(own, own),
    }


def _target_rows():
    for name in _targets(Switches()):
        module = Switches()
        target = _targets(module)[name]
        twice = module.switched(module.switched(target) + printed(10))
        function = module.own_function(twice + DROP + printed(11))
        TARGETS.told(name, module.main([], module.begun(function) + printed(30)))
        TARGETS.told(f'{name}/unhandled', module.main(
            [], ref_null(NOCONT) + module.fresh(function) + resume(module.own) + printed(30)))


def _left_rows():
    """What remains where one that was switched to ends, or suspends."""
    module = Switches()
    own, other = module.own, module.tag()
    ending = module.own_function(printed(20))
    suspending = module.own_function(printed(21) + suspend(other) + printed(22))
    for name, target, clauses in [
            ('ends', ending, []), ('suspends', suspending, [on(other, 0)]), ('suspends-unhandled', suspending, [])]:
        function = module.own_function(printed(10) + module.switched(module.fresh(target)) + DROP + printed(11))
        inside = module.begun(function, *clauses) + printed(30) + RETURN
        TARGETS.told(f'target-{name}', module.main([], block(
            module.arrow([], [ref(module.cont([], []))]), inside) + resume(module.cont([], [])) + printed(31)))
    kept = module.variable(nullable(own), ref_null(NOCONT))
    keeping = module.own_function(local_get(0) + global_set(kept) + printed(23))
    function = module.own_function(printed(10) + module.switched(module.fresh(keeping)) + DROP + printed(11))
    for name, behind in [
            ('resumed-later', ref_null(NOCONT) + global_get(kept) + resume(own)),
            ('resumed-twice', (ref_null(NOCONT) + global_get(kept) + resume(own)) * 2)]:
        TARGETS.told(f'who-switched-is-{name}', module.main([], module.begun(function) + behind + printed(31)))


def ring(count, turns):
    """So many coroutines, each of which switches to the next one, for so many turns in all. Table 0 holds them.

    Function 2 is the coroutine, which knows its number, and main makes them. Global 0 has what is left of the turns.
    """
    module = Switches()
    left = module.variable(I32, i32_const(turns))
    module.table(table(nullable(module.own), limits(count)))
    number = module.variable(I32, i32_const(0))
    beginning = module.cont([I32, nullable(module.own)], [])

    def after(by):
        return local_get(0) + i32_const(by) + I32_ADD + i32_const(count) + REMAINDER

    came = local_set(1) + after(count - 1) + local_get(1) + table_set(0)
    gone = module.switched(after(1) + table_get(0))
    turn = global_get(left) + LESS + global_set(left) + local_get(2) + local_get(0) + I32_ADD + i32_const(1)
    turn += I32_ADD + local_set(2)
    body = local_get(1) + REF_IS_NULL + if_(EMPTY, b'', after(count - 1) + local_get(1) + table_set(0)) + loop(
        EMPTY, turn + global_get(left) + if_(EMPTY, gone + came + br(1))) + local_get(2) + PRINT
    function = module.function([I32, nullable(module.own)], [], body, [(1, I32)])
    made = global_get(number) + global_get(number) + module.fresh(function) + cont_bind(beginning, module.own)
    made += table_set(0) + global_get(number) + i32_const(1) + I32_ADD + global_set(number)
    making = loop(EMPTY, made + global_get(number) + i32_const(count) + numeric('i32.lt_u') + br_if(0))
    started = ref_null(NOCONT) + i32_const(0) + table_get(0) + resume(module.own, on_switch(module.plain_tag))
    return module.main([], making + started + printed(-1))


def _ring_rows():
    for count, turns in [(1, 1), (2, 5), (3, 1), (3, 3), (3, 4), (3, 10), (3, 5000), (100, 5000), (1000, 5000)]:
        RINGS.told(f'{count}-coroutines-and-{turns}-turns', ring(count, turns))
    RINGS.told('1-coroutine-that-switches-to-itself', ring(1, 2))


_value_rows()
_back_rows()
_target_rows()
_left_rows()
_ring_rows()
