"""Runs of stack switching at the limits: 20,000 frames, 1,000 handles, 65,536 live continuations; and deep chains."""

from assembler.instructions import (
    DROP, I32_EQZ, RETURN, block, br, br_if, call, cont_bind, cont_new, global_get, global_set, i32_const, if_,
    local_get, local_set, loop, numeric, on, on_switch, ref_func, ref_null, resume, suspend, switch)
from assembler.types import EMPTY, I32, NOCONT, NOFUNC, nullable, ref
from rows.runs import RunSection, printed
from rows.switching_modules import LESS, Plain, caught

HANDLES = RunSection('handles')
FRAMES = RunSection('frames')
LIVE = RunSection('live')
CHAINS = RunSection('chains')

REMAINDER = numeric('i32.rem_u')
GREATEST_LIVE = 65536


# At which levels a handle stands, by the level in local 0.
NOWHERE, EACH = None, i32_const(1)


def multiples(number):
    return local_get(0) + i32_const(number) + REMAINDER + I32_EQZ


def lowest(count):
    return local_get(0) + i32_const(count) + numeric('i32.le_u')


class Deep(Plain):
    """A module with functions that go down so many levels, each of a frame, and some of a handle. Global 0 counts."""

    def __init__(self):
        super().__init__()
        self.counter = self.variable(I32, i32_const(0))
        self.number = self.cont([I32], [])

    def down(self, handles, bottom):
        """A function that takes how many levels are left, and at the bottom does this."""
        this = self.next_function
        deeper = local_get(0) + LESS + call(this)
        if handles is not NOWHERE:
            handled = local_get(0) + LESS + ref_func(this) + cont_new(self.number) + resume(self.number)
            deeper = handles + if_(EMPTY, handled, deeper)
        return self.function([I32], [], local_get(0) + if_(EMPTY, deeper, bottom))

    def begun(self, function, levels):
        """Makes a continuation that goes down so many levels."""
        return i32_const(levels) + self.fresh(function) + cont_bind(self.number, self.nothing)

    def repeated(self, times, body):
        """Do this so many times."""
        count = i32_const(times) + global_set(self.counter)
        less = global_get(self.counter) + LESS + global_set(self.counter) + global_get(self.counter)
        return count + loop(EMPTY, body + less + br_if(0))


def _handle_rows():
    """A level has a handle, so that there are as many as levels."""
    for levels in (999, 1000, 1001, 1002):
        module = Deep()
        function = module.down(EACH, printed(5))
        HANDLES.told(f'{levels}-in-one-another', module.main([], i32_const(levels) + call(function) + printed(6)))
    for name, bottom in [
            ('null', ref_null(NOCONT)), ('consumed', global_get(1)), ('fresh', None)]:
        module = Deep()
        kept = module.variable(nullable(module.nothing), ref_null(NOCONT))
        last = module.fresh(module.function([], [], printed(7)))
        function = module.down(EACH, (last if bottom is None else bottom) + resume(module.nothing))
        consumed = last + global_set(kept) + global_get(kept) + resume(module.nothing)
        HANDLES.told(f'at-the-greatest-number/{name}', module.main([], consumed + i32_const(1000) + call(function)))
    module = Deep()
    function = module.down(EACH, printed(5))
    HANDLES.told('1000-ten-times', module.main(
        [], module.repeated(10, i32_const(1000) + call(function)) + printed(6)))


def captured(module, handles, levels, tag_results=()):
    """Suspends at the bottom of so many levels, and leaves the continuation of all of them in local 0."""
    tag = module.tag([], tag_results)
    function = module.down(handles, suspend(tag) + DROP * len(tag_results) + printed(5))
    taken = module.cont(list(tag_results), [])
    given = module.begun(function, levels) + resume(module.nothing, on(tag, 0))
    return caught(module, [ref(taken)], given, local_set(0)), taken


def deep_resume(captured_handles, outer_handles, captured_frames, outer_frames):
    """A module that captures a continuation of so many handles and frames, and resumes it under so many more.

    Main goes down in a continuation; at the bottom it resumes what global 1 has. Main's frame is among the outer ones,
    and the handle of the resume is among the outer handles.
    """
    module = Deep()
    kept = module.variable(nullable(module.nothing), ref_null(NOCONT))
    suspended, _ = captured(module, lowest(captured_handles), captured_frames - 1)
    bottom = printed(6) + global_get(kept) + resume(module.nothing) + printed(7)
    function = module.down(lowest(outer_handles - 1), bottom)
    return module.main([], suspended + local_get(0) + global_set(kept) + i32_const(outer_frames - 2)
                       + call(function) + printed(8), [(1, nullable(module.nothing))])


def deep_switch(captured_handles, outer_handles, captured_frames, outer_frames, traps=False):
    """The same with a switch to what was captured: at the bottom, all but so many handles and frames are left."""
    module = Deep()
    taken = nullable(module.nothing)
    suspended, target_type = captured(module, lowest(captured_handles), captured_frames - 1, [taken])
    kept = module.variable(nullable(target_type), ref_null(NOCONT))
    of_switch = module.tag()
    switching = module.function([], [], printed(6) + global_get(kept) + switch(target_type, of_switch) + printed(7))
    clauses = [] if traps else [on_switch(of_switch)]
    bottom = module.fresh(switching) + resume(module.nothing, *clauses)
    function = module.down(lowest(outer_handles - 1), bottom)
    return module.main([], suspended + local_get(0) + global_set(kept) + i32_const(outer_frames - 2)
                       + call(function) + printed(8), [(1, nullable(target_type))])


def _capture_rows():
    """What is captured has its handles and frames at once where it goes on."""
    ways = [
        ('at-both-limits', 500, 500, 10000, 10000), ('a-handle-too-many', 500, 501, 10000, 10000),
        ('a-frame-too-many', 500, 500, 10000, 10001), ('a-frame-and-a-handle-too-many', 501, 500, 10001, 10000),
        ('many-frames-and-handles-too-many', 999, 999, 19000, 19000), ('captured-handles-alone', 999, 1, 2000, 2),
        ('captured-handles-alone-and-one-more', 999, 2, 2000, 3)]
    for name, *numbers in ways:
        FRAMES.told(f'resumed/{name}', deep_resume(*numbers))
        FRAMES.told(f'switched-to/{name}', deep_switch(*numbers))
    FRAMES.told('switched-to/unhandled-and-too-many', deep_switch(999, 999, 19000, 19000, traps=True))


def _frame_rows():
    """Frames spread over handles: main has one, and so has each level, the last of which is none."""
    for name, handles, levels in [
            ('20000-with-a-handle-for-each-20', multiples(20), 19998),
            ('20001-with-a-handle-for-each-20', multiples(20), 19999), ('20001-without-handles', NOWHERE, 19999)]:
        module = Deep()
        function = module.down(handles, printed(5))
        FRAMES.told(name, module.main(
            [], i32_const(levels) + call(function) + printed(6)))
    module = Deep()
    function = module.down(multiples(20), printed(5))
    suspended, _ = captured(module, multiples(20), 19998)
    FRAMES.told('20000-suspended-and-resumed', module.main(
        [], suspended + local_get(0) + resume(module.nothing) + printed(6), [(1, nullable(module.nothing))]))
    FRAMES.told('20000-suspended-and-as-many-again', module.main(
        [], suspended + i32_const(19998) + call(function) + local_get(0) + resume(module.nothing) + printed(6),
        [(1, nullable(module.nothing))]))
    ended = module.resumed(module.begun(function, 1), DROP)
    FRAMES.told('20001-in-what-is-called-behind-a-handle', module.main(
        [], ended + i32_const(19999) + call(function), [(1, nullable(module.nothing))]))


def filling(live, clauses=()):
    """A module, and what makes so many continuations that nothing resumes, and what does something in a continuation
    that is resumed with these clauses."""
    module = Deep()
    at_a_time = 64
    one = module.fresh(module.function([], [], printed(1))) + DROP
    filler = module.function([], [], module.repeated(live // at_a_time, one * at_a_time))

    def inside(body, local_runs=()):
        given = module.fresh(module.function([], [], body, local_runs))
        return caught(module, [ref(module.nothing)], given + resume(module.nothing, *clauses), printed(2) + DROP)

    return module, call(filler) + one * (live % at_a_time), inside


def _live_rows():
    """Continuations that are made and not resumed, and what instructions do where there are as many as may be."""
    module, filled, _ = filling(GREATEST_LIVE)
    new = module.fresh(2)
    for name, behind in [
            ('made', b''), ('one-more', new + DROP), ('null', ref_null(NOFUNC) + cont_new(module.nothing) + DROP),
            ('resume-of-null', ref_null(NOCONT) + resume(module.nothing))]:
        LIVE.told(f'as-many-as-may-be/{name}', module.main([], filled + printed(3) + behind + printed(4)))
    module, filled, _ = filling(GREATEST_LIVE - 1)
    kept = filled + new + local_set(0) + printed(3)
    bound = local_get(0) + cont_bind(module.nothing, module.nothing)
    resumed = local_get(0) + resume(module.nothing)
    for name, behind in [
            ('bind', bound + DROP), ('bind-and-one-more', bound + DROP + new + DROP),
            ('resume-and-one-more', resumed + new + DROP), ('resume-and-two-more', resumed + (new + DROP) * 2),
            ('bind-of-one-that-is-consumed', resumed + new + DROP + bound + DROP)]:
        LIVE.told(f'as-many-as-may-be/{name}', module.main(
            [], kept + behind + printed(4), [(1, nullable(module.nothing))]))


def _live_inside_rows():
    """The same in a continuation, which suspends or switches there."""
    for name, live, clauses in [
            ('suspend', GREATEST_LIVE, [on(0, 0)]), ('suspend-with-one-less', GREATEST_LIVE - 1, [on(0, 0)]),
            ('suspend-unhandled', GREATEST_LIVE, [on_switch(0)])]:
        module, filled, inside = filling(live, clauses)
        LIVE.told(f'as-many-as-may-be/{name}', module.main(
            [], inside(filled + printed(3) + suspend(module.plain_tag)) + printed(4)))
    for name, clauses, more in [
            ('switch', [on_switch(0)], b''), ('switch-and-one-more', [on_switch(0)], None),
            ('switch-unhandled', [on(0, 0)], b'')]:
        module, filled, inside = filling(GREATEST_LIVE - 1, clauses)
        target_type = module.cont([nullable(module.nothing)], [])
        target = module.function([nullable(module.nothing)], [], printed(5) + (
            module.fresh(2) + DROP if more is None else more) + printed(6))
        LIVE.told(f'as-many-as-may-be/{name}', module.main([], inside(
            filled + printed(3) + module.fresh(target) + switch(target_type, module.plain_tag)) + printed(4)))


def suspending_chain(handles, levels, rounds):
    """So many levels that are suspended at the bottom and resumed as one piece, so many times."""
    module = Deep()
    function = module.down(handles, module.repeated(rounds, suspend(module.plain_tag)))
    again = block(module.arrow([], [ref(module.nothing)]), local_get(0) + resume(
        module.nothing, on(module.plain_tag, 0)) + printed(3) + RETURN) + local_set(0) + br(0)
    return module.main(
        [], module.begun(function, levels) + local_set(0) + loop(EMPTY, again), [(1, nullable(module.nothing))])


def switching_chains(levels, turns):
    """Two chains of so many handles, each of which switches to the other at its bottom, so many times in all."""
    module = Deep()
    own = module.own_cont([], [])
    other = module.variable(nullable(own), ref_null(NOCONT))
    body = global_get(module.counter) + LESS + global_set(module.counter) + global_get(module.counter) + I32_EQZ
    body += br_if(1) + global_get(other) + switch(own, module.plain_tag) + global_set(other) + br(0)
    function = module.down(EACH, block(EMPTY, loop(EMPTY, body)))
    first = module.function_of(own - 1, i32_const(levels) + call(function) + printed(1))
    second = module.function_of(own - 1, local_get(0) + global_set(other) + i32_const(levels) + call(function)
                                + printed(2))
    begun = ref_null(NOCONT) + module.fresh(first) + resume(own, on_switch(module.plain_tag))
    return module.main([], i32_const(turns) + global_set(module.counter) + module.fresh(second) + global_set(other)
                       + begun + printed(3))


def _chain_rows():
    for name, handles, levels in [
            ('1000-segments', EACH, 999), ('1000-segments-of-20-frames', multiples(20), 19998),
            ('20000-frames-in-one-segment', NOWHERE, 19998), ('one-segment', NOWHERE, 0)]:
        CHAINS.told(f'suspended-5000-times/{name}', suspending_chain(handles, levels, 5000))
    CHAINS.told('suspended-100000-times/1000-segments', suspending_chain(EACH, 999, 100000))
    for levels in (0, 1, 499, 999):
        CHAINS.told(f'switched-5000-times/{levels}-handles-each', switching_chains(levels, 5000))
    CHAINS.told('switched-once/1000-handles-each', switching_chains(1000, 3))


_handle_rows()
_capture_rows()
_frame_rows()
_live_rows()
_live_inside_rows()
_chain_rows()
