"""Traces of runs: those that are cut at each reduction, those that end with each trap and limit, and those of the
modules that other rows run."""

from random import Random

from assembler.instructions import (
    DROP, REF_AS_NON_NULL, UNREACHABLE, access, br_if, call, call_indirect, call_ref, cont_bind, cont_new, global_get,
    global_set, i32_const, i64_const, local_get, local_set, local_tee, loop, numeric, on, on_switch, ref_func,
    ref_null, resume, suspend, switch, table_get)
from assembler.modules import table
from assembler.segments import active_functions, declared_functions
from assembler.types import EMPTY, FUNC, FUNCREF, I32, NOCONT, NOFUNC, limits, nullable
from rows import (
    running_clauses, running_continuations, running_coroutines, running_passing, running_subtyping, running_suspends,
    running_switches, running_switching_traps, running_tail_calls)
from rows.linking_samples import bytes_of
from rows.runs import main_module
from rows.running_switching_limits import EACH, Deep, deep_resume, deep_switch, filling, suspending_chain
from rows.switching_modules import LESS, Plain
from rows.trace_definition import said_of
from rows.trace_mutations import changed_lines
from rows.trace_samples import (
    EVERY, EVERY_TRACE, PLAIN, PLAIN_TRACE, TWICE, TWICE_TRACE, TraceSection, accepts, trace_lines)
from tracing.calls import outcome_of_trace

STEPS = TraceSection('steps')
TRAPS = TraceSection('traps')
LIMITS = TraceSection('limits')
LONG = TraceSection('long traces')
OTHERS = TraceSection('modules of other rows')

MOST_LINES = 60         # of a trace of a module of other rows


def _cut(right, steps):
    """The lines of a trace of so many reductions, of which this is the whole one."""
    *events, end = right
    if int(end.split(' ')[1]) <= steps:
        return right
    return [*(line for line in events if int(line.split(' ')[0]) <= steps), f'end {steps} running']


def _step_rows():
    """Runs of each number of reductions up to one more than are needed, each with its own trace, with that of one more,
    and with the whole one."""
    for name, given, right in [
            ('each-event', EVERY, EVERY_TRACE), ('resumed-twice', TWICE, TWICE_TRACE),
            ('nothing-made', PLAIN, PLAIN_TRACE)]:
        for steps in range(int(right[-1].split(' ')[1]) + 2):
            lines, next_lines = _cut(right, steps), _cut(right, steps + 1)
            STEPS.traced(f'{name}/{steps}-reductions/trace', given, steps, lines)
            STEPS.audited(f'{name}/{steps}-reductions/audit', given, lines, steps)
            if STEPS.rows[-1].wanted[0] != _accepting(lines):
                raise ValueError(f'{name}: {STEPS.rows[-1]}')
            if lines != next_lines:
                STEPS.refused(f'{name}/{steps}-reductions/the-trace-of-one-more', given, next_lines,
                              f'differs {len(lines) - 1}', steps)
                STEPS.refused(f'{name}/{steps}-reductions/of-all', given, lines, f'differs {len(lines) - 1}')


def _accepting(lines):
    """The line that accepts a trace, in which what is made and consumed is counted by the words."""
    kinds = [line.split(' ')[1] for line in lines]
    made = sum(kinds.count(kind) for kind in ('new', 'bind', 'suspend', 'switch'))
    consumed = sum(kinds.count(kind) for kind in ('bind', 'resume', 'switch'))
    return accepts(made, consumed)[0]


class Trapping(Plain):
    """A module of what traps. In table 0 stand function 2, which gives a number, and null; memory 0 has one page.

    Global 0 is null, or a continuation that is consumed; tags 1 to 300 take nothing.
    """

    def __init__(self):
        super().__init__()
        self.number = self.func([], [I32])
        self.function([], [I32], i32_const(5))
        self.table(table(FUNCREF, limits(2)))
        self.kept = self.variable(nullable(self.nothing), ref_null(NOCONT))
        for _ in range(300):
            self.tag()

    def main(self, results, body, local_runs=(), **sections):
        elements = [active_functions([2]), declared_functions(range(self.next_function))]
        return super().main(results, body, local_runs, memories=[limits(1)], elements=elements, **sections)

    def bodies(self):
        """What traps, each with the trap and with how many reductions it takes."""
        own = self.own_cont([], [])
        taken = global_get(self.kept)
        return {
            'unreachable': (UNREACHABLE, 'unreachable', 1),
            'div_u': (i32_const(1) + i32_const(0) + numeric('i32.div_u') + DROP, 'divide by zero', 3),
            'rem_s': (i64_const(1) + i64_const(0) + numeric('i64.rem_s') + DROP, 'divide by zero', 3),
            'div_s': (i32_const(-2 ** 31) + i32_const(-1) + numeric('i32.div_s') + DROP, 'integer overflow', 3),
            'load': (i32_const(65536) + access('i32.load8_u', 0, 0) + DROP, 'memory out of bounds', 2),
            'table.get': (i32_const(2) + table_get(0) + DROP, 'table out of bounds', 2),
            'call_indirect-past-the-end': (i32_const(2) + call_indirect(self.number, 0) + DROP, 'undefined element', 2),
            'call_indirect-of-null': (i32_const(1) + call_indirect(self.number, 0) + DROP, 'null element', 2),
            'call_indirect-of-another-type': (
                i32_const(0) + call_indirect(self.func([], []), 0), 'call type mismatch', 2),
            'call_ref': (ref_null(self.number) + call_ref(self.number) + DROP, 'null reference', 2),
            'ref.as_non_null': (ref_null(FUNC) + REF_AS_NON_NULL + DROP, 'null reference', 2),
            'cont.new': (ref_null(NOFUNC) + cont_new(self.nothing) + DROP, 'null reference', 2),
            'cont.bind-of-null': (
                ref_null(NOCONT) + cont_bind(self.nothing, self.nothing) + DROP, 'null reference', 2),
            'resume-of-null': (ref_null(NOCONT) + resume(self.nothing), 'null reference', 2),
            'switch-to-null': (ref_null(NOCONT) + switch(own, 1) + DROP, 'null reference', 2),
            'cont.bind': (taken + cont_bind(self.nothing, self.nothing) + DROP, 'consumed continuation', 2),
            'resume': (taken + resume(self.nothing), 'consumed continuation', 2),
            'suspend': (suspend(0), 'unhandled 0', 1), 'suspend-for-tag-300': (suspend(300), 'unhandled 300', 1)}


def _trap_rows():
    """Each trap in main, where no event was or one was, and in a continuation."""
    for name in Trapping().bodies():
        module = Trapping()
        body, trap, steps = module.bodies()[name]
        idle = module.function([], [], b'')
        consumed = module.fresh(idle) + global_set(module.kept) + global_get(module.kept) + resume(module.nothing)
        events = ['3 new 0', '6 resume 0', '10 exit', f'end {10 + steps} trap {trap}']
        _known(TRAPS, f'{name}/in-main', module.main([], consumed + body), events)
        if trap != 'consumed continuation':
            _known(TRAPS, f'{name}/alone', module.main([], body), [f'end {1 + steps} trap {trap}'])
        inside = module.function([], [], body)
        begun = module.fresh(inside) + resume(module.nothing, on_switch(1))
        events = [*events[:3], '12 new 1', '13 resume 1', f'end {14 + steps} trap {trap}']
        _known(TRAPS, f'{name}/in-a-continuation', module.main([], consumed + begun), events)
    module = Plain()
    own = module.own_cont([], [])
    other = module.function_of(own - 1, b'')
    given = module.main([], module.fresh(other) + local_tee(0) + switch(own, 0) + DROP, [(1, nullable(own))])
    _known(TRAPS, 'switch', given, ['3 new 0', 'end 5 trap unhandled 0'])


def _known(section, name, given, lines):
    """The trace of a run that is known, and its audit."""
    section.traced(f'{name}/trace', given, wanted=lines)
    section.audited(f'{name}/audit', given, lines)
    if section.rows[-1].wanted[0] != _accepting(lines):
        raise ValueError(f'{name}: {section.rows[-1]}')


def _limit_rows():
    """What passes a limit is no event, though it would have been one."""
    endless = main_module([], call(0))
    _known(LIMITS, 'frames', endless, ['end 20001 limit frames'])
    for steps, end in [(20000, 'end 20000 running'), (20001, 'end 20001 limit frames')]:
        LIMITS.traced(f'frames/{steps}-reductions', endless, steps, [end])
        LIMITS.audited(f'frames/{steps}-reductions/audit', endless, [end], steps, accepts(0, 0))
    for name, made in [('resume', deep_resume), ('switch', deep_switch)]:
        for outer in (10000, 10001):
            LIMITS.both(f'frames-by-a-{name}/{10000 + outer}', made(0, 1, 10000, outer))
    module = Plain()
    deeper = ref_func(module.next_function) + cont_new(module.nothing) + resume(module.nothing)
    module.function([], [], deeper)
    pairs = [(f'{4 * number + 3} new {number}', f'{4 * number + 4} resume {number}') for number in range(1000)]
    events = [event for pair in pairs for event in pair]
    LIMITS.traced('handles', module.main([], deeper), wanted=[*events, '4003 new 1000', 'end 4004 limit handles'])


def _live_rows():
    """As many continuations as may be, and a suspend, which passes the limit, or traps. Their whole traces have more
    than 65,536 lines, and aren't written here."""
    for name, clauses in [('a-limit', [on(0, 0)]), ('a-trap', [on_switch(0)])]:
        module, filled, inside = filling(65536, clauses)
        full = module.main([], inside(filled + suspend(module.plain_tag)))
        LIMITS.both(f'conts/{name}/200-reductions', full, 200)
        lines = trace_lines(full, 200)
        LIMITS.refused(f'conts/{name}', full, lines, f'differs {len(lines) - 1}')


def _long_rows():
    """Addresses of three digits, and reductions of six."""
    module = Deep()
    one = module.fresh(module.function([], [], b''))
    LONG.both('300-are-made', module.main([], module.repeated(300, one + DROP)))
    module = Plain()
    idle = module.function([], [], b'')
    looped = i32_const(40000) + local_set(0) + loop(
        EMPTY, local_get(0) + LESS + local_tee(0) + br_if(0))
    given = module.main([], looped + module.fresh(idle) + resume(module.nothing), [(1, I32)])
    _known(LONG, 'behind-40000-times', given, ['240006 new 0', '240007 resume 0', '240011 exit', 'end 240013 ended'])
    LONG.both('suspended-100-times', suspending_chain(EACH, 2, 100))


# Sections of rows of runs that switch stacks.
OTHER_SECTIONS = {
    'suspends': [running_suspends.VALUES, running_suspends.LABELS, running_suspends.ENDS],
    'clauses': [running_clauses.DEPTHS, running_clauses.LISTS, running_clauses.INNER, running_clauses.AGAIN],
    'switches': [running_switches.VALUES, running_switches.TARGETS, running_switches.RINGS],
    'continuations': [
        running_continuations.MAKING, running_continuations.BINDING, running_continuations.EQUIVALENCE],
    'passing': [running_passing.KEEPING, running_passing.PASSING],
    'traps': [running_switching_traps.NULLS, running_switching_traps.CONSUMED, running_switching_traps.UNHANDLED],
    'coroutines': [running_coroutines.GENERATORS, running_coroutines.STARTS, running_coroutines.STEPS],
    'subtyping': [running_subtyping.SWITCHING], 'tail-calls': [running_tail_calls.SWITCHING]}


def _other_modules():
    """The modules of these rows that can be run, each once, by names."""
    found = {}
    for topic, sections in OTHER_SECTIONS.items():
        for row in (row for section in sections for row in section.rows):
            found.setdefault(bytes_of(row.given), f'{topic}/{row.name.removesuffix("/0-reductions")}')
    return [(name, given) for given, name in found.items() if outcome_of_trace(given, 0)[2] == 0]


def _other_rows():
    """Of each module in which something happens the trace, or what is in front of a long one; of each third one an
    audit of it, and of each third one an audit of it with a change by chance."""
    for number, (name, given) in enumerate(_other_modules()):
        lines, steps = trace_lines(given), None
        if len(lines) > MOST_LINES:
            steps = int(lines[MOST_LINES // 2].split(' ')[0])
            lines = _cut(lines, steps)
        if len(lines) > 1:
            OTHERS.traced(f'{name}/trace', given, steps, lines)
            if number % 3 == 0:
                OTHERS.audited(f'{name}/audit', given, lines, steps)
            if number % 3 == 1:
                _changed_row(name, given, lines, steps)


def _changed_row(name, given, lines, steps):
    """An audit of a trace with a change by chance."""
    ways = [(way, other) for way, other in changed_lines(lines) if other != lines]
    way, other = Random(name).choice(ways)
    OTHERS.refused(f'{name}/{way}', given, other, said_of(other, lines), steps)


_step_rows()
_trap_rows()
_limit_rows()
_live_rows()
_long_rows()
_other_rows()
