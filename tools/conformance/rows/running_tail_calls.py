"""Runs of tail calls. What each comes to was worked out by hand, and the second reader agrees."""

from itertools import product

from assembler.instructions import (
    DROP, I32_ADD, UNREACHABLE, block, call, call_ref, cont_bind, i32_const, i64_const, if_, local_get, local_set, loop,
    numeric, on, on_switch, ref_func, ref_null, resume, return_call, return_call_indirect, return_call_ref, suspend,
    switch)
from assembler.modules import code, table
from assembler.segments import active_functions
from assembler.types import EMPTY, FUNCREF, I32, I64, NOCONT, final_type, functype, limits, nullable, ref
from rows.decoding import spelled
from rows.runs import FIRST_TYPE, RunSection, main_module, printed
from rows.running_subtyping import BELOW, LOW, MISMATCH, NAMES, NEXT, OF_LOW, TOP, TYPES, gives, known, prints
from rows.switching_modules import LESS, MAIN, PRINT, Plain

CALLS = RunSection('calls')
PRINTING = RunSection('printing')
TRAPS = RunSection('traps')
SWITCHING = RunSection('switching')
LIMITS = RunSection('limits')
STEPS = RunSection('steps')

PRINTER = 0
KINDS = ['return_call', 'return_call_indirect', 'return_call_ref']
I32_SUB = numeric('i32.sub')
GREATEST_FRAMES = ['err | limit frames', 'status 9']


class Tails(Plain):
    """A module whose table 0 has each function at the place of its index, then null."""

    def tail(self, kind, function, parameters, results):
        """A tail call of a function of this type, whose arguments are on top."""
        function_type = self.func(parameters, results)
        return {
            'return_call': return_call(function),
            'return_call_indirect': i32_const(function) + return_call_indirect(function_type, 0),
            'return_call_ref': ref_func(function) + return_call_ref(function_type)}[kind]

    def tailed(self, kind, body, front=b''):
        """A function that does nothing but what stands in front and a tail call of one with this body."""
        callee = self.function([], [], body)
        return self.function([], [], front + self.tail(kind, callee, [], []))

    def main(self, results, body, local_runs=(), **sections):
        count = self.next_function
        given = {'tables': [table(FUNCREF, limits(count + 1))], 'elements': [active_functions(range(count))]}
        return super().main(results, body, local_runs, **given | sections)


def _result_rows(kind):
    """The callee's result, its arguments, and what becomes of operands."""
    module = Tails()
    number = module.function([], [I32], i32_const(11))
    tail = module.tail(kind, number, [], [I32])
    caller = module.function([], [I32], tail)
    CALLS.known(f'{kind}/of-main', gives(11), module.main([I32], tail))
    CALLS.known(f'{kind}/behind-a-call', gives(12), module.main([I32], call(caller) + i32_const(1) + I32_ADD))
    CALLS.known(f'{kind}/behind-a-tail-call', gives(11), module.main(
        [I32], module.tail(kind, caller, [], [I32])))
    module = Tails()
    swapped = module.function([I32, I64], [I64, I32], local_get(1) + local_get(0))
    tail = i32_const(3) + i64_const(4) + module.tail(kind, swapped, [I32, I64], [I64, I32])
    caller = module.function([], [I64, I32], i32_const(8) + i64_const(9) + tail)
    CALLS.known(f'{kind}/arguments-in-order', gives(4, 3), module.main([I64, I32], tail))
    CALLS.known(f'{kind}/operands-beneath', gives(1, 4, 3, 2), module.main(
        [I32, I64, I32, I32], i32_const(1) + call(caller) + i32_const(2)))
    CALLS.known(f'{kind}/operands-beneath-in-main', gives(4, 3), module.main(
        [I64, I32], i32_const(8) + i64_const(9) + tail))
    module = Tails()
    less = module.function([I32, I32], [I32], local_get(0) + local_get(1) + I32_SUB)
    tail = i32_const(7) + i32_const(3) + module.tail(kind, less, [I32, I32], [I32])
    nested = block(EMPTY, i32_const(1) + if_(EMPTY, loop(EMPTY, block(I64, i64_const(5) + tail) + DROP)))
    for name, body in [
            ('a-block', block(EMPTY, tail)), ('a-loop', loop(EMPTY, tail)),
            ('an-if', i32_const(1) + if_(EMPTY, tail)), ('an-else', i32_const(0) + if_(EMPTY, UNREACHABLE, tail)),
            ('nested-ones', nested)]:
        caller = module.function([], [I32], i32_const(6) + body + UNREACHABLE)
        CALLS.known(f'{kind}/out-of-{name}', gives(4), module.main([I32], body + UNREACHABLE))
        CALLS.known(f'{kind}/out-of-{name}-of-a-callee', gives(2, 4), module.main(
            [I32] * 2, i32_const(2) + block(I32, call(caller))))


def _repeated_rows(kind):
    """A function that tail calls itself, to sum the numbers from one on, and two that tail call one another."""
    module = Tails()
    itself = module.next_function
    again = local_get(0) + LESS + local_get(0) + local_get(1) + I32_ADD
    module.function([I32, I32], [I32], local_get(0) + if_(
        I32, again + module.tail(kind, itself, [I32, I32], [I32]), local_get(1)))
    for times, total in [(0, 0), (1, 1), (10, 55), (30000, 450015000)]:
        CALLS.known(f'{kind}/of-itself-{times}-times', gives(total), module.main(
            [I32], i32_const(times) + i32_const(0) + call(itself)))
    module = Tails()
    even = module.next_function
    for callee, last in [(even + 1, 1), (even, 0)]:
        module.function([I32], [I32], local_get(0) + if_(
            I32, local_get(0) + LESS + module.tail(kind, callee, [I32], [I32]), i32_const(last)))
    for number in (7, 8, 25001):
        CALLS.known(f'{kind}/of-one-another-{number}-times', gives(1 - number % 2), module.main(
            [I32], i32_const(number) + call(even)))


def _local_rows(kind):
    """A callee with more parameters and locals than its caller, and one with fewer."""
    module = Tails()
    many = module.function([I32] * 4, [I32], local_get(0) + local_get(3) + local_get(9) + I32_ADD + I32_SUB
                           + i32_const(77) + local_set(0), [(6, I32)])
    few = module.function([I32], [I32], local_get(0) + local_get(1) + I32_ADD, [(1, I32)])
    more = b''.join(i32_const(number) for number in (10, 20, 30, 4)) + module.tail(kind, many, [I32] * 4, [I32])
    to_more = module.function([], [I32], more)
    fewer = local_get(5) + module.tail(kind, few, [I32], [I32])
    to_fewer = module.function([I32], [I32], b''.join(
        i32_const(9) + local_set(local) for local in range(1, 7)) + fewer, [(6, I32)])
    for name, wanted, body in [('more', 6, call(to_more)), ('fewer', 9, i32_const(1) + call(to_fewer))]:
        CALLS.known(f'{kind}/{name}-locals', gives(wanted, 5), module.main(
            [I32] * 2, i32_const(5) + local_set(0) + body + local_get(0), [(1, I32)]))


def _printer_rows(kind):
    module = Tails()
    tail = module.tail(kind, PRINTER, [I32], [])
    middle = module.function([], [], i32_const(9) + i32_const(2) + tail)
    nested = module.function([], [], block(EMPTY, loop(EMPTY, i32_const(2) + tail)) + UNREACHABLE)
    PRINTING.known(f'{kind}/from-main', prints(5), module.main([], i32_const(5) + tail))
    PRINTING.known(f'{kind}/from-main-with-operands-beneath', prints(4, 5), module.main(
        [], printed(4) + i32_const(6) + block(EMPTY, i32_const(5) + tail) + UNREACHABLE))
    for name, function in [('the-middle', middle), ('nested-blocks', nested)]:
        PRINTING.known(f'{kind}/from-{name}', prints(1, 2, 3), module.main(
            [], printed(1) + call(function) + printed(3)))
        PRINTING.known(f'{kind}/from-{name}-above-an-operand', ['out | 2', '| = 4'], module.main(
            [I32], i32_const(4) + call(function)))
        PRINTING.known(f'{kind}/from-{name}-that-was-tail-called', prints(1, 2), module.main(
            [], printed(1) + module.tail(kind, function, [], [])))
    PRINTING.known(f'{kind}/from-the-start-function', prints(2, 3), module.main([], printed(3), start=middle))
    callee = module.function([], [], printed(7))
    start = module.function([], [], printed(6) + module.tail(kind, callee, [], []))
    CALLS.known(f'{kind}/in-the-start-function', ['out | 6', '| 7', '| = 8'], module.main(
        [I32], i32_const(8), start=start))


def _other_printer_rows():
    for item, value, wanted in [('print_i64', i64_const(2 ** 40), ['out | 1099511627776']),
                                ('print_byte', i32_const(65), ['out 41'])]:
        PRINTING.known(item, wanted, main_module([], value + return_call(0), printing=[item]))


def _trap_rows():
    """What was printed before stands, and nothing behind is done."""
    module = Tails()
    number, fails = module.function([], [I32], i32_const(11)), module.function([], [I32], UNREACHABLE)
    of_number, other = module.func([], [I32]), module.func([I32], [I32])
    null = fails + 2
    cases = {
        'undefined': ('undefined element', i32_const(null + 1) + return_call_indirect(of_number, 0)),
        'undefined-at-the-greatest': ('undefined element', i32_const(-1) + return_call_indirect(of_number, 0)),
        'null-element': ('null element', i32_const(null) + return_call_indirect(of_number, 0)),
        'wrong-type': ('call type mismatch', i32_const(1) + i32_const(number) + return_call_indirect(other, 0)),
        'printer-of-wrong-type': ('call type mismatch', i32_const(PRINTER) + return_call_indirect(of_number, 0)),
        'null-reference': ('null reference', ref_null(of_number) + return_call_ref(of_number)),
        'in-the-callee': ('unreachable', return_call(fails))}
    for name, (trap, tail) in cases.items():
        caller = printed(2) + block(EMPTY, tail) + UNREACHABLE
        TRAPS.known(f'{name}/in-main', ['out | 2', f'err | trap {trap}', 'status 1'], _with_places(
            module, caller, null))
        TRAPS.counted_row(f'{name}/counted', _with_places(module, tail, null))
    for name in ('null-element', 'null-reference'):
        trap, tail = cases[name]
        caller = module.function([], [I32], printed(2) + tail)
        TRAPS.known(f'{name}/in-a-callee', ['out | 1', '| 2', f'err | trap {trap}', 'status 1'], _with_places(
            module, printed(1) + call(caller) + printed(3), null))


def _with_places(module, body, null):
    """Such a module whose main has this body, and whose last place holds null."""
    return module.main([I32], body, tables=[table(FUNCREF, limits(null + 1))])


def _subtyping_rows():
    """Up and down a chain of types, as of calls that aren't tail calls."""
    for named, called in product(range(5), repeat=2):
        name, fits = f'{NAMES[called]}-as-{NAMES[named]}', NAMES[called] in BELOW[NAMES[named]]
        known(CALLS, f'return_call_indirect/{name}', gives(11 + called) if fits else MISMATCH, [I32],
              i32_const(called) + return_call_indirect(FIRST_TYPE + named, 0))
    for place, name in enumerate(NAMES, 1):
        known(CALLS, f'return_call_ref/{name}-as-top', gives(10 + place), [I32],
              ref_func(place) + return_call_ref(TOP))
    types = [*TYPES, functype([], [ref(LOW)]), final_type(functype([], [nullable(TOP)]))]
    functions = [(FIRST_TYPE + number, code(i32_const(11 + number))) for number in range(5)]
    functions += [(NEXT, code(ref_func(OF_LOW))), (NEXT + 1, code(return_call(6)))]
    known(CALLS, 'return_call/results-below', gives(13), [I32], call(7) + call_ref(TOP), types=types,
          functions=functions)


def _counted_rows(kind):
    module = Tails()
    number = module.function([I32], [I32], local_get(0))
    tail = i32_const(5) + module.tail(kind, number, [I32], [I32])
    caller = module.function([], [I32], block(EMPTY, tail) + UNREACHABLE)
    STEPS.counted_row(f'{kind}/counted/of-main', module.main([I32], tail))
    STEPS.counted_row(f'{kind}/counted/from-a-callee', module.main([I32], call(caller)))
    STEPS.counted_row(f'{kind}/counted/of-a-printer', module.main(
        [], i32_const(5) + module.tail(kind, PRINTER, [I32], [])))
    STEPS.each_step(f'{kind}/each', module.main([I32], i32_const(1) + call(caller) + I32_ADD))


def _switching_rows(kind):
    """Tail calls in continuations: of their outermost frames, before a suspend and behind it."""
    module = Tails()
    suspends = printed(1) + suspend(module.plain_tag) + printed(2)
    nothing = module.tailed(kind, suspends)
    nested = module.function([], [], printed(7) + call(nothing) + printed(8))
    callee = module.function([], [], printed(4))
    last = module.tail(kind, callee, [], [])
    behind = module.suspending(printed(1), i32_const(9) + last)
    twice = module.tailed(kind, suspends, front=printed(6) + suspend(module.plain_tag))
    plain = module.tailed(kind, printed(5))
    printing = module.function([], [], printed(1) + i32_const(2) + module.tail(kind, PRINTER, [I32], []))
    resumed = printed(3) + resume(module.nothing)
    once = module.resumed(module.fresh(twice), resumed + printed(9))
    again = module.resumed(module.fresh(twice), local_set(0) + module.resumed(local_get(0), resumed))
    for name, wanted, body in [
            ('of-a-fresh-continuation', [5, 9], module.fresh(plain) + resume(module.nothing)),
            ('that-suspends', [1, 3, 2, 9], module.resumed(module.fresh(nothing), resumed)),
            ('that-suspends-and-is-left', [1, 3, 9], module.resumed(module.fresh(nothing), printed(3) + DROP)),
            ('that-suspends-in-a-callee', [7, 1, 3, 2, 8, 9], module.resumed(module.fresh(nested), resumed)),
            ('behind-a-suspend', [1, 3, 4, 9], module.resumed(module.fresh(behind), resumed)),
            ('behind-a-suspend-and-suspends-again', [6, 1, 3, 2, 9], again),
            ('of-a-printer-at-last', [1, 2, 9], module.fresh(printing) + resume(module.nothing)),
            ('behind-what-was-suspended', [1, 3, 4], module.resumed(module.fresh(nothing), printed(3) + last))]:
        given = module.main([], body + printed(9), [(1, nullable(module.nothing))])
        SWITCHING.known(f'{kind}/{name}', prints(*wanted), given)
        SWITCHING.told(f'{kind}/{name}/statistics', given)
    given = module.main([], once, [(1, nullable(module.nothing))])
    wanted = ['out | 6', '| 3', '| 1', 'err | trap unhandled 0', 'status 1']
    SWITCHING.known(f'{kind}/suspends-without-a-handle', wanted, given)
    STEPS.each_step(f'{kind}/in-a-continuation', module.main([], module.resumed(module.fresh(behind), resumed)))
    STEPS.each_step(f'{kind}/of-a-printer-in-a-continuation', module.main(
        [], module.fresh(printing) + resume(module.nothing) + printed(9)))


def _value_rows(kind):
    """Arguments and results of continuations whose function tail calls. The tag takes and gives a number."""
    module = Tails()
    tag = module.tag([I32], [I32])
    number = module.cont([I32], [I32])
    callee = module.function([I32, I32], [I32], local_get(0) + suspend(tag) + local_get(1) + I32_SUB)
    function = module.function([I32], [I32], i64_const(6) + local_get(0) + i32_const(2) + module.tail(
        kind, callee, [I32, I32], [I32]))
    bound = module.cont([], [I32])
    begun = i32_const(5) + module.fresh(function) + cont_bind(number, bound) + resume(bound, on(tag, 0))
    caught = block(module.arrow([], [I32, ref(number)]), begun + UNREACHABLE)
    body = caught + local_set(0) + PRINT + i32_const(30) + local_get(0) + resume(number)
    SWITCHING.known(f'{kind}/arguments-and-results', ['out | 5', '| = 28'], module.main(
        [I32], body, [(1, nullable(number))]))


def _switch_rows(kind):
    """A switch from a function that was tail called, to one whose function tail calls a printer."""
    module = Tails()
    own, tag = module.own_cont([], []), module.tag()
    other = module.function_of(own - 1, printed(2) + local_get(0) + switch(own, tag) + DROP)
    leaves = module.function_of(own - 1, i32_const(2) + module.tail(kind, PRINTER, [I32], []))
    for name, target, wanted in [('and-back', other, [1, 2, 4, 3]), ('to-one-that-ends', leaves, [1, 2, 3])]:
        switching = module.function([I32], [], local_get(0) + PRINT + module.fresh(target) + switch(own, tag) + DROP
                                    + printed(4))
        first = module.function_of(own - 1, i32_const(1) + module.tail(kind, switching, [I32], []))
        given = module.main([], ref_null(NOCONT) + module.fresh(first) + resume(own, on_switch(tag)) + printed(3))
        SWITCHING.known(f'{kind}/switch-{name}', prints(*wanted), given)
        SWITCHING.told(f'{kind}/switch-{name}/statistics', given)


def _limit_rows(kind):
    """With 20,000 frames a tail call goes on, and a call doesn't."""
    module = Tails()
    LIMITS.known(f'{kind}/main-of-itself', ['err | running', 'status 10'], module.main(
        [], module.tail(kind, MAIN, [], [])), steps=30000)
    last = module.function([], [], printed(8))
    deeper = module.function([], [], printed(7) + call(last))
    for name, callee, wanted in [
            ('a-tail-call', last, prints(8)), ('of-a-printer', None, prints(8)),
            ('a-call-of-the-callee', deeper, ['out | 7', *GREATEST_FRAMES])]:
        down = module.next_function
        bottom = i32_const(8) + module.tail(kind, PRINTER, [I32], []) if callee is None else module.tail(
            kind, callee, [], [])
        module.function([I32], [], local_get(0) + if_(EMPTY, local_get(0) + LESS + call(down), bottom))
        LIMITS.known(f'{kind}/at-20000-frames/{name}', wanted, module.main([], i32_const(19998) + call(down)))
        LIMITS.known(f'{kind}/past-20000-frames/{name}', GREATEST_FRAMES, module.main(
            [], i32_const(19999) + call(down)))


def _continuation_limit_rows(kind):
    """The outermost frame of a continuation is replaced where frames are full, and frames that are gone don't count."""
    module = Tails()
    ends = module.tailed(kind, printed(8))
    deeper = module.tailed(kind, printed(7) + call(ends))
    printing = module.function([], [], i32_const(2) + module.tail(kind, PRINTER, [I32], []))
    for name, function, wanted in [
            ('a-tail-call', ends, prints(8)), ('of-a-printer', printing, prints(2)),
            ('a-call-of-the-callee', deeper, ['out | 7', *GREATEST_FRAMES])]:
        down = module.next_function
        bottom = module.fresh(function) + resume(module.nothing)
        module.function([I32], [], local_get(0) + if_(EMPTY, local_get(0) + LESS + call(down), bottom))
        for levels, shown in [(19997, wanted), (19998, GREATEST_FRAMES)]:
            LIMITS.known(f'{kind}/in-a-continuation-of-frame-{levels + 3}/{name}', shown, module.main(
                [], i32_const(levels) + call(down)))
    down = module.next_function
    module.function([I32], [], local_get(0) + if_(EMPTY, local_get(0) + LESS + call(down), printed(8)))
    thrice = (module.fresh(printing) + resume(module.nothing)) * 3
    for levels, shown in [(19998, prints(2, 2, 2, 8)), (19999, ['out | 2', '| 2', '| 2', *GREATEST_FRAMES])]:
        LIMITS.known(f'{kind}/behind-printers-at-last-{levels + 2}-frames', shown, module.main(
            [], thrice + i32_const(levels) + call(down)))


def _spelled_rows():
    """Function main, which takes and gives nothing, tail calls itself."""
    LIMITS.known('spelled', ['err | running', 'status 10'], spelled(
        '01 04 01 60 00 00 03 02 01 00 07 08 01 04 6D 61 69 6E 00 00 0A 06 01 04 00 12 00 0B'), steps=30000)


for each_kind in KINDS:
    _result_rows(each_kind)
    _repeated_rows(each_kind)
    _local_rows(each_kind)
    _printer_rows(each_kind)
    _counted_rows(each_kind)
    _switching_rows(each_kind)
    _value_rows(each_kind)
    _switch_rows(each_kind)
    _limit_rows(each_kind)
    _continuation_limit_rows(each_kind)
_other_printer_rows()
_trap_rows()
_subtyping_rows()
_spelled_rows()
