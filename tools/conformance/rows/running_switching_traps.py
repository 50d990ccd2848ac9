"""Runs in which stack switching traps: each trap of each instruction, and which one where two apply."""

from itertools import product

from assembler.instructions import (
    DROP, UNREACHABLE, block, br_on_null, call, cont_bind, cont_new, global_get, global_set, i32_const, i64_const,
    local_get, local_set, loop, on, on_switch, ref_null, resume, suspend, switch)
from assembler.types import EMPTY, I32, I64, NOCONT, NOFUNC, nullable, ref
from rows.runs import RunSection, printed
from rows.switching_modules import Plain, SwitchingModule, caught

NULLS = RunSection('nulls')
CONSUMED = RunSection('consumed')
UNHANDLED = RunSection('unhandled')

GIVEN = i32_const(3) + i64_const(4)


class Uses(SwitchingModule):
    """A module of continuations that take i32, i64 and a continuation, and what each instruction does with one.

    Local 0 is one of these; function 2 is what they are made of, and goes on in the continuation where there is one.
    """

    def __init__(self):
        super().__init__()
        self.nothing = self.cont([], [])
        self.back = self.cont([nullable(self.nothing)], [])
        self.taken = self.cont([I32, I64, nullable(self.nothing)], [])
        self.plain_tag = self.tag()
        back = block(EMPTY, local_get(2) + br_on_null(0) + resume(self.nothing))
        self.fresh_one = self.fresh(self.function([I32, I64, nullable(self.nothing)], [], printed(2) + back))

    def use(self, name, reference):
        """An instruction that takes a continuation, with all that it takes besides."""
        return {
            'cont.bind': GIVEN + reference + cont_bind(self.taken, self.back) + DROP,
            'resume': GIVEN + ref_null(NOCONT) + reference + resume(self.taken),
            'switch': GIVEN + reference + switch(self.taken, self.plain_tag),
        }[name]

    def under(self, clauses, function_body):
        """Do this in a continuation that is resumed with these clauses."""
        function = self.function([], [], function_body, [(1, nullable(self.taken))])
        inside = self.fresh(function) + resume(self.nothing, *clauses)
        return caught(self, [ref(self.nothing)], inside, printed(8) + DROP)


USES = ('cont.bind', 'resume', 'switch')


def _clauses(tag):
    return {'no-clauses': [], 'a-label': [on(tag, 0)], 'a-switch': [on_switch(tag)],
            'both': [on_switch(tag), on(tag, 0)]}


def _null_rows():
    for name in USES:
        for clauses in _clauses(0):
            for kind, null in [('nocont', ref_null(NOCONT)), ('its-type', None), ('a-local', local_get(0))]:
                module = Uses()
                reference = ref_null(module.taken) if null is None else null
                NULLS.told(f'null/{name}/{clauses}/of-{kind}', module.main([], module.under(
                    _clauses(module.plain_tag)[clauses], printed(1) + module.use(name, reference) + printed(7))))
        module = Uses()
        NULLS.told(f'null/{name}/in-main', module.main(
            [], printed(1) + module.use(name, ref_null(NOCONT)) + printed(7)))
    for kind, null in [('nofunc', ref_null(NOFUNC)), ('its-type', None), ('a-local', local_get(0))]:
        module = Uses()
        function_type = module.func([I32, I64, nullable(module.nothing)], [])
        made = (ref_null(function_type) if null is None else null) + cont_new(module.taken) + DROP
        NULLS.told(f'null/cont.new/in-main/of-{kind}', module.main(
            [], printed(1) + made + printed(7), [(1, nullable(function_type))]))
    module = Uses()
    made = ref_null(NOFUNC) + cont_new(module.taken) + DROP
    NULLS.told('null/cont.new/in-a-continuation', module.main([], module.under([], printed(1) + made + printed(7))))
    module = Uses()
    clause = on(module.plain_tag, 0)
    NULLS.told('null/resume/with-a-clause', module.main([], caught(
        module, [ref(module.nothing)], ref_null(NOCONT) + resume(module.nothing, clause), DROP)))


def _consumed_rows():
    """A continuation that is consumed by one instruction, and then taken by another."""
    for (first, second), clauses in product(product(USES, USES), ('no-clauses', 'a-switch', 'both')):
        if (first, clauses) == ('switch', 'no-clauses'):
            continue        # the first one traps
        module = Uses()
        body = module.fresh_one + local_set(0) + printed(1) + module.use(first, local_get(0)) + printed(6)
        body += module.use(second, local_get(0)) + printed(7)
        CONSUMED.told(f'{second}-after-{first}/{clauses}', module.main(
            [], module.under(_clauses(module.plain_tag)[clauses], body)))


def _running_rows():
    """A continuation that is taken again while it runs, and one that has ended, suspended or trapped since."""
    for name in USES:
        module = Uses()
        kept = module.variable(nullable(module.taken), ref_null(NOCONT))
        function = module.function([I32, I64, nullable(module.nothing)], [], printed(5) + module.use(
            name, global_get(kept)) + printed(6))
        start = module.fresh(function) + global_set(kept) + GIVEN + ref_null(NOCONT) + global_get(kept)
        CONSUMED.told(f'{name}-while-it-runs', module.main(
            [], start + resume(module.taken, on_switch(module.plain_tag)) + printed(7)))
        module = Uses()
        function = module.function([I32, I64, nullable(module.nothing)], [], printed(5) + suspend(0) + printed(6))
        start = module.fresh(function) + local_set(0) + GIVEN + ref_null(NOCONT) + local_get(0)
        CONSUMED.told(f'{name}-while-it-is-suspended', module.main([], caught(
            module, [ref(module.nothing)], start + resume(module.taken, on(0, 0)),
            DROP + module.use(name, local_get(0)) + printed(7)), [(1, nullable(module.taken))]))


def _suspended_twice_rows():
    """A suspended continuation that is resumed, and then once more: at its end, and where it has suspended again."""
    module = Plain()
    nothing = module.nothing
    for name, function in [
            ('that-has-ended', module.suspending(printed(1), printed(2))),
            ('that-has-suspended-again', module.function([], [], (printed(3) + suspend(0)) * 2 + printed(4)))]:
        again = module.resumed(local_get(0), DROP)
        CONSUMED.told(f'a-suspended-one-{name}', module.main([], module.resumed(
            module.fresh(function), local_set(0) + again + printed(5) + again), [(1, nullable(nothing))]))


def _unhandled_rows():
    for action in ('suspend', 'switch'):
        for name, clauses in (_clauses(0) | {
                'a-label-of-another-tag': [on(1, 0)], 'a-switch-of-another-tag': [on_switch(1)]}).items():
            module = Uses()
            module.tag()
            done = suspend(0) if action == 'suspend' else module.use('switch', module.fresh_one)
            UNHANDLED.told(f'{action}/under-{name}', module.main(
                [], module.under(clauses, printed(1) + done + printed(7))))
            callee = module.function([], [], printed(3) + block(EMPTY, loop(EMPTY, done)) + printed(4))
            UNHANDLED.told(f'{action}/under-{name}/in-a-callee', module.main(
                [], module.under(clauses, i32_const(9) + call(callee) + DROP + printed(7))))
        module = Uses()
        done = suspend(0) if action == 'suspend' else module.use('switch', module.fresh_one)
        ending = module.function([], [], printed(2))
        both = [on(0, 0), on_switch(0)]
        ended = caught(module, [ref(module.nothing)], module.fresh(ending) + resume(module.nothing, *both), DROP)
        UNHANDLED.told(f'{action}/behind-a-handle', module.main([], ended + done + printed(7)))
        UNHANDLED.told(f'{action}/in-main', module.main([], printed(1) + done + printed(7)))
        UNHANDLED.told(f'{action}/in-the-start-function', module.main(
            [], printed(7), start=module.function([], [], printed(1) + done)))
        handler = caught(module, [ref(module.nothing)], module.fresh(module.function([], [], suspend(0)))
                         + resume(module.nothing, *both), DROP + printed(3) + done)
        UNHANDLED.told(f'{action}/where-a-clause-led', module.main([], handler + printed(7)))


def _tag_rows():
    """The tag that is named, by its index, and with what it takes."""
    for tag in range(4):
        module = SwitchingModule()
        types = [([], []), ([I32], []), ([I64, I32], [I32]), ([], [])]
        for parameters, results in types:
            module.tag(parameters, results)
        given = {1: i32_const(1), 2: i64_const(1) + i32_const(2)}.get(tag, b'')
        UNHANDLED.told(f'tag-{tag}', module.main([], given + suspend(tag) + UNREACHABLE))
    module = SwitchingModule()
    for _ in range(300):
        module.tag()
    UNHANDLED.told('tag-299', module.main([], suspend(299)))


_null_rows()
_consumed_rows()
_running_rows()
_suspended_twice_rows()
_unhandled_rows()
_tag_rows()
