"""Runs of ten million reductions, and of ten million tail calls."""

from assembler.instructions import call, i32_const, if_, local_get, numeric, return_call
from assembler.modules import code, export, module
from assembler.types import EMPTY, I32, functype
from rows.samples import EMPTY_FUNC
from rows.sections import CallRow, Section, spelled

SECTION = Section('long_runs')


def calls(once, twice):
    """A module of functions that give nothing: so many call the next one once, so many behind these call it twice, and
    the last one calls none. Main is the first."""
    last = once + twice
    codes = [code(call(index + 1) * (1 if index < once else 2)) for index in range(last)]
    return module(
        types=[EMPTY_FUNC], functions=[0] * (last + 1), exports=[export('main', 'func', 0)], codes=[*codes, code(b'')])


def tail_calls(count):
    """A module of a function that tail calls itself until what it takes is none, and of main, which tail calls it.

    There are so many tail calls. Each but main's takes six reductions, with those that lead to it. Main takes three,
    and what is left at last takes six.
    """
    again = local_get(0) + i32_const(1) + numeric('i32.sub') + return_call(1)
    return module(
        types=[functype([], [I32]), functype([I32], [I32])], functions=[0, 1], exports=[export('main', 'func', 0)],
        codes=[code(i32_const(count - 1) + return_call(1)), code(local_get(0) + if_(EMPTY, again) + i32_const(42))])


def row(name, called, steps=10000000, wanted=('err | running', 'status 10')):
    SECTION.rows.append(CallRow(name, f'run x --steps {steps}', spelled(called), wanted))


# 4,194,303 frames in all, of three reductions each.
row('ten-million-reductions-of-calls', calls(0, 21))

# The same behind 19,900 frames that wait: all but the first 19,901 reductions happen there. With steps that cost in
# proportion to the frames that wait, this would take two hundred thousand million steps, and could not end in its time.
row('a-step-costs-the-same-at-any-depth', calls(19900, 21))

row('ten-million-tail-calls', tail_calls(10000000), 3 + 6 * 9999999 + 6, ('out | = 42',))
