"""Runs in which continuations are made and bound, and are of types that are equivalent and not equal."""

from assembler.instructions import (
    DROP, I32_ADD, I32_WRAP_I64, RETURN, block, call, cont_bind, cont_new, i32_const, i64_const, local_get, local_set,
    on, on_switch, ref_func, resume, suspend, switch, table_get, table_set)
from assembler.modules import table
from assembler.types import I32, I64, conttype, functype, limits, nullable, ref
from rows.runs import RunSection, printed
from rows.switching_modules import PRINT, Plain, SwitchingModule

MAKING = RunSection('making')
BINDING = RunSection('binding')
EQUIVALENCE = RunSection('equivalence')

THREE = i32_const(1) + i64_const(2) + i32_const(3)


def _making_rows():
    module = Plain()
    nothing = module.nothing
    function = module.function([], [], printed(2))
    MAKING.told('never-resumed', module.main([], module.fresh(function) + DROP + printed(1)))
    MAKING.told('many', module.main([], (module.fresh(function) + DROP) * 10))
    MAKING.told('of-a-reference-in-a-local', module.main(
        [], ref_func(function) + local_set(0) + (local_get(0) + cont_new(nothing) + resume(nothing)) * 2,
        [(1, nullable(module.func([], [])))]))
    MAKING.told('of-a-reference-in-a-table', module.main(
        [], i32_const(0) + ref_func(function) + table_set(0) + i32_const(0) + table_get(0) + cont_new(nothing)
        + resume(nothing), tables=[table(nullable(module.func([], [])), limits(1))]))
    module = SwitchingModule()
    printer = module.cont([I32], [])
    nothing = module.cont([], [])
    made = ref_func(0) + cont_new(printer)
    MAKING.told('of-a-printer', module.main([], i32_const(5) + made + resume(printer) + printed(6)))
    MAKING.told('of-a-printer/bound', module.main(
        [], i32_const(5) + made + cont_bind(printer, nothing) + resume(nothing) + printed(6)))
    MAKING.told('of-a-printer/left', module.main([], made + DROP + printed(6)))
    many = module.function([I32, I64, I32], [I32, I64, I32], local_get(2) + local_get(1) + local_get(0))
    MAKING.told('with-parameters', module.main([I32, I64, I32], THREE + module.fresh(many)
                                               + resume(module.cont_of(many))))
    wide = module.function([], [I32] * 1000, i32_const(3) * 1000)
    MAKING.told('with-a-thousand-results', module.main(
        [I32], module.fresh(wide) + resume(module.cont_of(wide)) + I32_ADD * 999))
    wide = module.function([I32] * 1000, [I32], b''.join(map(local_get, range(1000))) + I32_ADD * 999)
    MAKING.told('with-a-thousand-parameters', module.main(
        [I32], i32_const(2) * 1000 + module.fresh(wide) + resume(module.cont_of(wide))))


class Three(SwitchingModule):
    """A module of a function that prints its three arguments, and of one that suspends for three and prints them."""

    def __init__(self):
        super().__init__()
        self.types_left = [self.cont([I32, I64, I32][count:], []) for count in range(4)]
        shown = local_get(0) + PRINT + local_get(1) + I32_WRAP_I64 + PRINT + local_get(2) + PRINT
        self.fresh_three = self.fresh(self.function([I32, I64, I32], [], shown))
        self.ask = self.tag([], [I32, I64, I32])
        kept = local_set(2) + local_set(1) + local_set(0)
        asking = self.function([], [], suspend(self.ask) + kept + shown, [(1, I32), (1, I64), (1, I32)])
        self.asking = block(self.arrow([], [ref(self.types_left[0])]), self.fresh(asking) + resume(
            self.cont([], []), on(self.ask, 0)) + RETURN)

    def bound(self, given, counts):
        """Bind so many more arguments one time after the other, and resume with those that are left."""
        arguments, place = [i32_const(51), i64_const(52), i32_const(53)], 0
        body = given + local_set(0)
        for count in counts:
            target = place + count
            body += b''.join(arguments[place:target]) + local_get(place)
            body += cont_bind(self.types_left[place], self.types_left[target]) + local_set(target)
            place = target
        body += b''.join(arguments[place:]) + local_get(place) + resume(self.types_left[place])
        return self.main([], body + printed(9), [(1, nullable(left)) for left in self.types_left])


def _binding_rows():
    """Three arguments, of which so many are bound at a time and the others are given at last."""
    for counts in [[0], [1], [2], [3], [1, 1], [1, 2], [2, 1], [1, 1, 1], [0, 0, 0], [1, 0, 1], [0, 3, 0]]:
        name = '-'.join(map(str, counts))
        BINDING.told(f'fresh/{name}', Three().bound(Three().fresh_three, counts))
        BINDING.told(f'suspended/{name}', Three().bound(Three().asking, counts))


def _bound_in_blocks_rows():
    """A suspended continuation that is bound: arguments go above what stands in the block where it suspended."""
    module = SwitchingModule()
    ask = module.tag([], [I32, I32])
    left = [module.cont([I32] * count, [I32]) for count in (2, 1, 0)]
    asked = block(I32, i32_const(2) + suspend(ask) + PRINT + PRINT)
    asking = module.function([], [I32], i32_const(1) + asked + I32_ADD)
    begun = block(module.arrow([], [ref(left[0])]), module.fresh(asking) + resume(left[2], on(ask, 0)) + RETURN)
    bound = i32_const(61) + begun + cont_bind(left[0], left[1]) + local_set(0)
    again = i32_const(62) + local_get(0) + cont_bind(left[1], left[2]) + resume(left[2])
    BINDING.told('operands-where-it-suspended', module.main([I32], bound + again, [(1, nullable(left[1]))]))
    BINDING.told('the-bound-one-again', module.main(
        [I32], bound + again + DROP + again, [(1, nullable(left[1]))]))
    module = Plain()
    function = module.suspending(printed(1), printed(2))
    rebound = cont_bind(module.nothing, module.nothing)
    BINDING.told('of-nothing', module.main([], module.resumed(
        module.fresh(function) + rebound * 3, printed(3) + rebound * 2 + resume(module.nothing))))


def _equivalence_rows():
    """A type of continuations, an equal one, and two in equal groups."""
    module = SwitchingModule()
    number = module.func([], [I32])
    first = module.types.add(conttype(number))
    second = module.types.add(conttype(module.types.add(functype([], [I32]))))
    groups = []
    for _ in range(2):
        start = module.types.count
        module.types.add(functype([], [I32]), conttype(start), functype([ref(start + 1)], [I32]))
        groups.append(start)
    taker = module.function([nullable(second)], [I32], local_get(0) + resume(first))
    function = module.function([], [I32], i32_const(7))
    made = ref_func(function) + cont_new(first)
    EQUIVALENCE.told('made-as-one-and-resumed-as-the-other', module.main([I32], made + resume(second)))
    EQUIVALENCE.told('bound-between', module.main(
        [I32], made + cont_bind(second, first) + cont_bind(first, second) + resume(first)))
    EQUIVALENCE.told('passed-to-a-function', module.main([I32], made + call(taker)))
    EQUIVALENCE.told('passed-to-a-continuation', module.main(
        [I32], made + module.fresh(taker) + resume(module.cont([nullable(first)], [I32]))))
    in_group = module.function_of(groups[0], i32_const(8))
    grouped = ref_func(in_group) + cont_new(groups[1] + 1)
    EQUIVALENCE.told('of-equal-groups', module.main([I32], grouped + resume(groups[0] + 1)))
    grouped_taker = module.function_of(groups[1] + 2, local_get(0) + resume(groups[0] + 1))
    EQUIVALENCE.told('of-equal-groups/passed-to-a-function', module.main([I32], grouped + call(grouped_taker)))
    EQUIVALENCE.told('of-a-group-bound-to-one-that-is-alone', module.main(
        [I32], grouped + cont_bind(groups[0] + 1, second) + resume(first)))


def _equivalent_label_rows():
    """A label that takes an equal type, a tag of an equal type, and a switch between equal types."""
    module = SwitchingModule()
    function_type = module.func([I32], [I32])
    first = module.types.add(conttype(function_type))
    same_func = module.types.add(functype([I32], [I32]))
    second = module.types.add(conttype(same_func))
    tag = module.tag([I32], [I32])
    same_tag = module.tag([I32], [I32])
    asking = module.function_of(same_func, local_get(0) + suspend(tag) + PRINT + i32_const(8))
    for name, label, clauses in [
            ('one', first, [on(tag, 0)]), ('the-other', second, [on(tag, 0)]),
            ('a-tag-of-the-same-type', first, [on(same_tag, 0)]),
            ('a-tag-of-the-same-type-first', second, [on(same_tag, 0), on(tag, 0)])]:
        EQUIVALENCE.told(f'label/{name}', module.main([I32], block(
            module.arrow([], [I32, ref(label)]), i32_const(3) + ref_func(asking) + cont_new(first)
            + resume(second, *clauses) + RETURN) + resume(first)))
    to_number = module.tag([], [I32])
    of_first, of_second = (module.cont([ref(of)], [I32]) for of in (first, second))
    target = module.function([ref(first)], [I32], i32_const(4) + local_get(0) + resume(second) + PRINT + i32_const(5))
    switching = module.function([], [I32], module.fresh(target) + switch(of_second, to_number) + PRINT + i32_const(6))
    EQUIVALENCE.told('switch', module.main(
        [I32], module.fresh(switching) + resume(module.cont([], [I32]), on_switch(to_number))))
    EQUIVALENCE.told('switch/bound', module.main([I32], module.fresh(module.function(
        [], [I32], module.fresh(target) + cont_bind(of_first, of_second) + switch(of_first, to_number) + PRINT
        + i32_const(6))) + resume(module.cont([], [I32]), on_switch(to_number))))


_making_rows()
_binding_rows()
_bound_in_blocks_rows()
_equivalence_rows()
_equivalent_label_rows()
