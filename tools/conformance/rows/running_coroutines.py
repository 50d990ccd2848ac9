"""Runs of generators and of start functions that switch stacks, and runs that are cut at each reduction."""

from assembler.instructions import (
    DROP, I32_ADD, I32_MUL, REF_IS_NULL, RETURN, UNREACHABLE, block, br, br_if, call, cont_bind, cont_new, global_get,
    global_set, i32_const, if_, local_get, local_set, local_tee, loop, numeric, on, on_switch, ref_func, ref_null,
    resume, suspend, switch)
from assembler.types import EMPTY, I32, NOCONT, nullable, ref
from rows.runs import RunSection, printed
from rows.switching_modules import LESS, PRINT, Plain, SwitchingModule

GENERATORS = RunSection('generators')
STARTS = RunSection('starts')
STEPS = RunSection('steps')

MORE = i32_const(1) + I32_ADD
REMAINDER = numeric('i32.rem_u')


class Generating(SwitchingModule):
    """A module of generators, which suspend with tag 0 and one number after the other, and of what takes these.

    Tag 0 takes a number, and gives nothing.
    """

    def __init__(self):
        super().__init__()
        self.yielded = self.tag([I32], [])
        self.nothing = self.cont([], [])
        self.kept = [(1, nullable(self.nothing)), (2, I32)]

    def counting(self, count):
        """Makes a generator of the numbers below this one."""
        step = local_get(0) + suspend(self.yielded) + local_get(0) + MORE + local_tee(0)
        body = loop(EMPTY, step + i32_const(count) + numeric('i32.lt_u') + br_if(0)) if count else b''
        return self.fresh(self.function([], [], body, [(1, I32)]))

    def each(self, given, body, continuation=0, number=1):
        """Take all numbers of what is given, and do this with each, which is in a local as the continuation is."""
        label = self.arrow([], [I32, ref(self.nothing)])
        resumed = local_get(continuation) + resume(self.nothing, on(self.yielded, 0)) + br(2)
        return given + local_set(continuation) + block(EMPTY, loop(EMPTY, block(label, resumed) + local_set(
            continuation) + local_set(number) + body + br(0)))

    def changed(self, given, change):
        """Makes a generator of what comes of each number that is given, which is in local 1."""
        return self.fresh(self.function([], [], self.each(given, change), self.kept))

    def summed(self, given):
        """The module whose main prints and gives the sum of the numbers."""
        body = self.each(given, local_get(1) + local_get(2) + I32_ADD + local_set(2))
        return self.main([I32], body + local_get(2), self.kept)


def _generator_rows():
    for count in (0, 1, 2, 10, 4000):
        module = Generating()
        GENERATORS.told(f'sum-of-{count}', module.summed(module.counting(count)))
    module = Generating()
    shown = module.each(module.counting(5), local_get(1) + PRINT)
    GENERATORS.told('shown-each', module.main([], shown, module.kept))
    stopped = module.each(module.counting(5), local_get(1) + PRINT + local_get(1) + i32_const(2) + numeric('i32.eq')
                          + br_if(1))
    GENERATORS.told('left-at-2', module.main([], stopped + printed(9), module.kept))
    squares = local_get(1) + local_get(1) + I32_MUL + suspend(module.yielded)
    odd = local_get(1) + i32_const(2) + REMAINDER + if_(EMPTY, local_get(1) + suspend(module.yielded))
    GENERATORS.told('squares', module.summed(module.changed(module.counting(10), squares)))
    GENERATORS.told('squares-of-odd', module.summed(module.changed(module.changed(module.counting(10), odd), squares)))
    GENERATORS.told('odd-squares', module.summed(module.changed(module.changed(module.counting(10), squares), odd)))
    twice = local_get(1) + suspend(module.yielded) + local_get(1) + suspend(module.yielded)
    GENERATORS.told('each-twice-and-twice-again', module.summed(
        module.changed(module.changed(module.counting(5), twice), twice)))
    given = module.counting(1000)
    for _ in range(5):
        given = module.changed(given, local_get(1) + MORE + suspend(module.yielded))
    GENERATORS.told('a-thousand-numbers-through-five', module.summed(given))


def _two_rows():
    """Two generators by turns, and one that goes through a tree by recursion."""
    module = Generating()
    label = module.arrow([], [I32, ref(module.nothing)])
    body = b''
    for local in (0, 1):
        body += block(label, local_get(local) + resume(module.nothing, on(module.yielded, 0)) + RETURN)
        body += local_set(local) + PRINT
    start = module.counting(4) + local_set(0) + module.counting(6) + local_set(1)
    GENERATORS.told('two-by-turns', module.main(
        [], start + loop(EMPTY, body + br(0)), [(2, nullable(module.nothing))]))
    module = Generating()
    tree = module.next_function
    half = local_get(0) + LESS + call(tree)
    module.function([I32], [], local_get(0) + if_(
        EMPTY, half + local_get(0) + suspend(module.yielded) + half))
    given = i32_const(6) + module.fresh(tree) + cont_bind(module.cont_of(tree), module.nothing)
    GENERATORS.told('a-tree', module.summed(given))
    shown = module.each(i32_const(3) + module.fresh(tree) + cont_bind(module.cont_of(tree), module.nothing),
                        local_get(1) + PRINT)
    GENERATORS.told('a-tree-shown', module.main([], shown, module.kept))


def _start_rows():
    """Start functions that suspend and resume, and what they leave to main."""
    module = Plain()
    kept = module.variable(nullable(module.nothing), ref_null(NOCONT))
    function = module.suspending(printed(1), printed(2))
    begun = module.resumed(module.fresh(function), printed(3) + global_set(kept))
    resumed = global_get(kept) + resume(module.nothing)
    for name, start, main in [
            ('suspends-and-resumes', begun + resumed, b''), ('leaves-it-to-main', begun, resumed),
            ('leaves-it-unresumed', begun, b''), ('and-main-both-resume', begun + resumed, resumed),
            ('leaves-a-fresh-one', module.fresh(function) + global_set(kept), module.resumed(
                global_get(kept), printed(4) + resume(module.nothing))),
            ('and-main-each-suspend', begun + resumed, begun + printed(5) + resumed),
            ('leaves-nothing', b'', resumed)]:
        STARTS.told(f'start-{name}', module.main(
            [], printed(6) + main + printed(7), start=module.function([], [], printed(8) + start + printed(9))))
    starting = module.next_function
    made = ref_func(starting) + cont_new(module.nothing) + global_set(kept)
    module.function([], [], printed(8) + global_get(kept) + REF_IS_NULL + if_(EMPTY, made))
    STARTS.told('start-function-in-a-continuation', module.main([], resumed + printed(9) + resumed, start=starting))


def _step_rows():
    """Modules whose runs are cut at each reduction."""
    module = Plain()
    function = module.suspending(printed(1), printed(2))
    STEPS.each_step('suspend-and-resume', module.main([], module.resumed(
        module.fresh(function), printed(3) + resume(module.nothing))))
    module = Generating()
    STEPS.each_step('loop-over-a-generator', module.summed(module.counting(3)))
    module = SwitchingModule()
    tag = module.tag([I32], [I32])
    number = module.cont([I32], [I32])
    function = module.function([I32], [I32], local_get(0) + suspend(tag))
    bound = module.cont([], [I32])
    STEPS.each_step('bind', module.main([I32], block(
        module.arrow([], [I32, ref(number)]), i32_const(5) + module.fresh(function) + cont_bind(number, bound)
        + resume(bound, on(tag, 0)) + RETURN) + resume(number)))
    module = SwitchingModule()
    own, tag = module.own_cont([], []), module.tag()
    other = module.function_of(own - 1, printed(2) + local_get(0) + switch(own, tag) + DROP)
    function = module.function_of(own - 1, printed(1) + module.fresh(other) + switch(own, tag) + DROP)
    STEPS.each_step('switch', module.main(
        [], ref_null(NOCONT) + module.fresh(function) + resume(own, on_switch(tag)) + printed(3)))
    module = Plain()
    function = module.suspending(b'', suspend(module.plain_tag))
    STEPS.each_step('trap', module.main([], module.resumed(module.fresh(function), resume(module.nothing))))
    module = Plain()
    function = module.function([], [], printed(1))
    STEPS.each_step('consumed', module.main(
        [], module.fresh(function) + local_tee(0) + resume(module.nothing) + local_get(0) + resume(module.nothing),
        [(1, nullable(module.nothing))]))
    module = Plain()
    STEPS.each_step('start', module.main([], printed(2), start=module.function([], [], module.fresh(module.function(
        [], [], printed(1))) + resume(module.nothing))))


def _without_statistics_rows():
    """The same module without statistics, and statistics where nothing switches, or where there is no run."""
    module = Plain()
    function = module.suspending(printed(1), printed(2))
    given = module.main([], module.resumed(module.fresh(function), printed(3) + resume(module.nothing)))
    STEPS.counted_row('without-statistics', given)
    plain = SwitchingModule()
    STEPS.told('statistics/nothing-made', plain.main([I32], i32_const(4)))
    STEPS.told('statistics/nothing-made/no-reductions', plain.main([I32], i32_const(4)), 0)
    STEPS.told('statistics/unreachable', plain.main([I32], printed(5) + UNREACHABLE))
    STEPS.told('statistics/no-entry', given.replace(b'\x04main', b'\x04mein'))
    STEPS.told('statistics/no-printer', given.replace(b'print_i32', b'print_u32'))
    STEPS.row('statistics/malformed', given[:-1], valid=False, stats=True)
    STEPS.row('statistics/invalid', plain.main([I32], b''), valid=False, stats=True)


_generator_rows()
_two_rows()
_start_rows()
_step_rows()
_without_statistics_rows()
