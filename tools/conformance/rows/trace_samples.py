"""Rows of traces: the calls of `trace` and `audit`, and runs whose traces are known.

What a row is to come to is what the second writer or the second auditor says when the row is made; where it is known by
hand, the two are to agree.
"""

from typing import NamedTuple

from assembler.instructions import (
    DROP, block, br, cont_bind, local_get, local_set, on, on_switch, resume, suspend, switch)
from assembler.types import EMPTY, I32, nullable, ref
from rows.linking_samples import SharedPieces, bytes_of, says
from rows.runs import main_module, printed, wanted_lines
from rows.sections import Section
from rows.switching_modules import Plain, SwitchingModule
from rows.text_samples import text_fields
from tracing.calls import USAGE, outcome_of_call

PIECES = SharedPieces()
GREATEST_INPUT = 16777216
USAGE_LINES = says(USAGE, 2)
READ_FAULT = says('read fault', 6)
LIMIT_INPUT = says('limit input', 9)
TRACE = 't'             # the name of the file that has the trace


class TraceRow(NamedTuple):
    """A call of `trace` or `audit` on some files."""

    name: str
    words: list             # the command first
    files: dict             # the bytes, or words that spell them, by name
    wanted: list            # the lines that say what it comes to
    more: tuple = ()        # further lines of the row

    @property
    def fields(self):
        """The lines of the row."""
        words = ['words stackwasm', *(word or "''" for word in self.words)]
        files = [line for name, given in self.files.items() for line in _file_lines(name, given)]
        return [' '.join(words), *files, *self.more, *self.wanted]


def _file_lines(name, given):
    """The lines that say what a file holds: a trace line by line, and a module by its sections."""
    if name == TRACE and isinstance(given, bytes):
        return text_fields(f'file {name}', given)
    return [f'file {name} {PIECES.spelled(given)}'.rstrip()]


class TraceSection(Section):
    """Rows of `trace` and `audit`. Traces are given as bytes, or by their lines without their ends."""

    def call(self, name, words, files, wanted=None, more=()):
        """A call of these words with these files by name. What it comes to may be known."""
        said = wanted_lines(*outcome_of_call(words, {each: bytes_of(given) for each, given in files.items()}))
        if wanted is None and any(word in line for line in said for word in ('malformed', 'invalid', 'usage')):
            raise ValueError(f'{name}: {said}')
        if wanted is not None and said != wanted:
            raise ValueError(f'{name}: {said} and not {wanted}')
        self.add(TraceRow(name, words, files, said, more))

    def add(self, row):
        """A row of which nobody is asked."""
        for file, given in row.files.items():
            if file != TRACE:
                PIECES.note(given)
        self.rows.append(row)

    def traced(self, name, given, steps=None, wanted=None):
        """The trace of a run, of so many reductions at most where this is told; its lines may be known."""
        known = None if wanted is None else wanted_lines(trace(wanted), b'', 0)
        self.call(name, ['trace', 'x', *_options(steps)], {'x': given}, known)

    def audited(self, name, given, told, steps=None, wanted=None):
        """What is said of a trace that is told of a run."""
        self.call(name, ['audit', 'x', TRACE, *_options(steps)], {'x': given, TRACE: trace(told)}, wanted)

    def refused(self, name, given, told, said, steps=None):
        """A trace of which this is said, and which is refused so."""
        self.audited(name, given, told, steps, says(said, 13))

    def both(self, name, given, steps=None):
        """A run's trace, which is audited too."""
        self.traced(f'{name}/trace', given, steps)
        self.audited(f'{name}/audit', given, trace_lines(given, steps), steps)
        if not self.rows[-1].wanted[0].startswith('out | ok trace'):
            raise ValueError(f'{name}: {self.rows[-1].wanted}')


def _options(steps):
    return [] if steps is None else ['--steps', str(steps)]


def trace(told):
    """The bytes of a trace, which may be given by its lines."""
    return told if isinstance(told, bytes) else ''.join(f'{line}\n' for line in told).encode()


def trace_lines(given, steps=None):
    """The lines of the trace of a run, by the second writer."""
    out, err, status = outcome_of_call(['trace', 'x', *_options(steps)], {'x': given})
    if err or status:
        raise ValueError(f'{err!r}, {status}')
    return out.decode().splitlines()


def accepts(made, consumed):
    """The lines of a call that finds a trace right, in which so many are made and consumed."""
    return wanted_lines(f'ok trace made {made} consumed {consumed} live {made - consumed}\n'.encode(), b'', 0)


def _every_event():
    """A module whose run has each kind of event, in 30 reductions. It prints, and its tags for these are 1 and 2."""
    module = SwitchingModule()
    nothing, own = module.cont([], []), module.own_cont([], [])
    _, asked, switched = module.tag(), module.tag(), module.tag()
    asking = module.function([], [], suspend(asked) + printed(7))
    ending = module.function_of(own - 1, b'')
    switching = module.function([], [], module.fresh(ending) + switch(own, switched) + DROP)
    begun = module.fresh(asking) + cont_bind(nothing, nothing) + resume(nothing, on(asked, 0)) + br(1)
    return module.main([], block(EMPTY, block(module.arrow([], [ref(nothing)]), begun) + resume(nothing)) + (
        module.fresh(switching) + resume(nothing, on_switch(switched))))


EVERY = _every_event()
EVERY_TRACE = [
    '5 new 0', '6 bind 0 1', '7 resume 1', '9 suspend 1 2', '11 resume 2', '16 exit', '19 new 3', '20 resume 3',
    '23 new 4', '24 switch 4 2 5', '28 exit', 'end 30 ended']
EVERY_ACCEPTED = accepts(6, 5)


def _used_twice(taken):
    """A module that makes one continuation, does this with it, and resumes it from local 0."""
    module = Plain()
    made = module.fresh(module.function([], [], b''))
    again = local_get(0) + resume(module.nothing)
    return module.main([], made + local_set(0) + local_get(0) + taken(module) + again, [(1, nullable(module.nothing))])


TWICE = _used_twice(lambda module: resume(module.nothing))
TWICE_TRACE = ['3 new 0', '6 resume 0', '10 exit', 'end 12 trap consumed continuation']
BOUND = _used_twice(lambda module: cont_bind(module.nothing, module.nothing) + DROP)
BOUND_TRACE = ['3 new 0', '6 bind 0 1', 'end 9 trap consumed continuation']
PLAIN = main_module([I32], printed(3, 4) + local_get(0), [(1, I32)], printing=['print_i32'])
PLAIN_TRACE = ['end 8 ended']
