"""Runs of scripts: what the module of the second compiler comes to by the second reader of execution, and whether a run
follows its script as the second reader of the meaning of scripts says.
"""

from functools import lru_cache
from typing import NamedTuple

from executing import USUAL_STEPS
from executing.instantiating import instantiated
from executing.numbers import signed
from executing.running import run
from reader import answer
from reader.module_decoding import decode
from script_compiler import built
from script_evaluator import evaluation_of
from script_reader import read

GREATEST_RUN = 2500000      # reductions that are taken in due time
GREATEST_FILE = 100000      # bytes of a module that are judged in due time
FASTEST = 64                # reductions for each step of a script, at most
GREATEST_PLACES, GREATEST_HANDLES, GREATEST_KEPT = 20000, 1000, 65536
RUNNING = 'running'
VALID = 'ok module'
STATUSES = {'fault': 1, 'lex': 5, 'parse': 5, 'deep': 5, 'rule': 5, 'limit': 9, RUNNING: 10}
FAULTS = {
    'unreachable': 'failed', 'divide by zero': 'divzero', 'integer overflow': 'overflow',
    'consumed continuation': 'reused', 'table out of bounds': 'empty', 'null reference': 'empty'}


class ScriptRun(NamedTuple):
    """A run of a script: what is printed, how it ends, and how many reductions it took."""

    printed: bytes
    end: str
    taken: int


def outcome_of_script(data, steps=USUAL_STEPS):
    """What running these bytes of a script for so many reductions is to come to: out, err and the status; nothing where
    this takes too long."""
    module = built(data)
    if isinstance(module, str):
        return b'', f'{module}\n'.encode(), STATUSES[module.split()[0]]
    came_to = _run_of(data, min(steps, GREATEST_RUN))
    if came_to.end == RUNNING and steps > GREATEST_RUN:
        return None
    if came_to.end.startswith('='):
        return came_to.printed + f'{came_to.end}\n'.encode(), b'', 0
    return came_to.printed, f'{came_to.end}\n'.encode(), STATUSES[came_to.end.split()[0]]


def contradiction(data, steps=USUAL_STEPS):
    """What the second reader of the meaning of scripts says against the run of a script for so many reductions, if it
    says anything; the run isn't too long."""
    if isinstance(built(data), str):
        return None
    came_to = _run_of(data, min(steps, GREATEST_RUN))
    evaluation = evaluation_of(data)
    is_limit = came_to.end.startswith('limit')
    if not is_limit and not _is_in_time(evaluation, min(steps // FASTEST - 1, came_to.taken + 1), came_to):
        return f'the run is late, or goes wrong: {came_to}'
    stretch = evaluation.stretch_of(came_to.printed, came_to.taken + 1)
    if stretch is None:
        return f'this is not what the script prints: {came_to}'
    if is_limit:
        return None if _passes(came_to.end, stretch) else f'no such limit is passed: {came_to}'
    if came_to.end == RUNNING:
        return None
    end, output = evaluation.end_after(came_to.taken), bytes(evaluation.output)
    return None if (end, output) == (came_to.end, came_to.printed) else f'{end} behind {output!r} and not {came_to}'


def _is_in_time(evaluation, steps, came_to):
    """Whether a run shows what the script shows after so many steps, if these are any."""
    if steps < 0:
        return True
    end = evaluation.end_after(steps)
    return came_to.printed.startswith(evaluation.output_after(steps)) and end in (None, came_to.end)


def _passes(limit, stretch):
    """Whether a configuration may meet a limit."""
    if limit == 'limit frames':
        return stretch.places > GREATEST_PLACES
    if limit == 'limit handles':
        return stretch.hands > GREATEST_HANDLES
    return limit == 'limit conts' and stretch.kept >= GREATEST_KEPT


@lru_cache(maxsize=None)
def _module_of(data):
    """The module of a script, decoded, where the second reader finds it valid."""
    module = built(data)
    if len(module) <= GREATEST_FILE and answer(module) != VALID:
        raise ValueError('the second reader says that what the second compiler gives is not valid')
    return decode(module)


@lru_cache(maxsize=None)
def _run_of(data, steps):
    module = _module_of(data)
    came_to = run(module, *instantiated(module), steps)
    if came_to.values is not None:
        value, = came_to.values
        return ScriptRun(came_to.printed, f'= {signed(64, value)}', came_to.taken)
    kind, _, told = came_to.line.partition(' ')
    if kind == 'trap':
        return ScriptRun(came_to.printed, f'fault {_fault(data, told)}', came_to.taken)
    return ScriptRun(came_to.printed, came_to.line, came_to.taken)


def _fault(data, trap):
    """The fault of a script that a trap of its module is; tags stand in the order of the effects, and that of groups is
    the last."""
    kind, _, tag = trap.partition(' ')
    if kind != 'unhandled':
        return FAULTS[trap]
    _, declarations = read(data)
    operations = [each.name for each in declarations if each.kind == 'effect'] + ['group']
    return f'unhandled {operations[int(tag)]}'


def reductions_of(data):
    """How many reductions the run of a script takes until it ends."""
    return _run_of(data, GREATEST_RUN).taken
