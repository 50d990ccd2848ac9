"""A second reader of execution: it runs modules, and counts their reductions and their continuations.

It rests on the standard and on the explainer of stack switching, and shares nothing with the assembler. Modules are
read and judged by `reader`.
"""

from typing import NamedTuple

from executing.ends import Exceeded, Trap
from executing.instantiating import Refused, entry, function_types, instantiated
from executing.numbers import WIDTHS, signed
from executing.running import run
from executing.stores import Store
from reader import answer
from reader.byte_source import Malformed
from reader.module_decoding import Module, decode

USUAL_STEPS = 100000000
GREATEST_FILE = 16777216        # bytes
GREATEST_JUDGED = 100000        # bytes; a module that is larger is taken for valid
VALID = 'ok module'
STATUSES = {'malformed': 3, 'invalid': 4, 'limit': 9}


class Unstarted(Exception):
    """A file that isn't run: the line that is said of it, and the status."""

    def __init__(self, line, status):
        super().__init__(line)
        self.line = line
        self.status = status


class Start(NamedTuple):
    """Where the run of a module begins: its store, and the address of its main."""

    module: Module
    store: Store
    main: int


def outcome_of(module_bytes, steps=USUAL_STEPS, stats=False):
    """What running these bytes for so many reductions is to come to: out, err and the status. Where statistics are
    asked for, they are told of a run."""
    try:
        start = start_of(module_bytes)
    except Unstarted as unstarted:
        return refusal(unstarted.line, unstarted.status)
    return told(run(*start, steps), results_of_main(start.module), stats)


def start_of(module_bytes):
    """Where the run of these bytes begins. What is in the way is raised."""
    said = said_before_a_run(module_bytes)
    if said != VALID:
        raise Unstarted(said, STATUSES[said.split()[0]])
    module = decode(module_bytes)
    try:
        return Start(module, *instantiated(module))
    except Refused as refused:
        raise Unstarted(f'{refused}', 4) from None
    except Exceeded as limit:
        raise Unstarted(f'limit {limit}', 9) from None
    except Trap as trap:
        raise Unstarted(f'trap {trap}', 1) from None


def said_before_a_run(module_bytes):
    """What is said of the bytes where they aren't a module that may be run."""
    if len(module_bytes) > GREATEST_FILE:
        return 'limit input'
    if len(module_bytes) <= GREATEST_JUDGED:
        return answer(module_bytes)
    try:
        decode(module_bytes)
    except Malformed as fault:
        return f'malformed {fault}'
    return VALID


def steps_of(module_bytes):
    """How many reductions the run of a module takes that can be run."""
    module = decode(module_bytes)
    return run(module, *instantiated(module), USUAL_STEPS).taken


def refusal(line, status):
    """What is written where this line alone is said, and the status."""
    return b'', f'{line}\n'.encode(), status


def _statistics(outcome):
    """The line of how many reductions were taken, and how many continuations there are."""
    live = outcome.made - outcome.consumed
    return f'stats steps {outcome.taken} made {outcome.made} consumed {outcome.consumed} live {live}\n'.encode()


def results_of_main(module):
    """The types of the values that a run gives, which is that of the module's main."""
    return module.types[function_types(module)[entry(module)]].results


def told(outcome, results, stats):
    """What is written of an outcome, and the status: what was printed, and then each value, signed, by its type, or the
    line; and the statistics, where these are asked for."""
    statistics = _statistics(outcome) if stats else b''
    if outcome.values is None:
        return outcome.printed, f'{outcome.line}\n'.encode() + statistics, outcome.status
    lines = ''.join(
        f'= {signed(WIDTHS[value_type], value)}\n' for value_type, value in zip(results, outcome.values, strict=True))
    return outcome.printed + lines.encode(), statistics, outcome.status
