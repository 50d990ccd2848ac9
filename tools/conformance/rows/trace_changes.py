"""Traces that are refused: sound and unsound ones, several faults in one, and right ones with one change or some."""

from itertools import permutations, product
from random import Random

from rows.running_switches import ring
from rows.trace_definition import said_of
from rows.trace_mutations import changed_lines
from rows.trace_samples import (
    BOUND, BOUND_TRACE, EVERY, EVERY_TRACE, PLAIN, PLAIN_TRACE, TWICE, TWICE_TRACE, TraceSection, accepts, trace_lines)

RIGHT = TraceSection('right traces')
SOUNDNESS = TraceSection('soundness')
ORDER = TraceSection('order')
CHANGES = TraceSection('changes')
CHANCE = TraceSection('by chance')

END = 'end 0 running'
RING = ring(3, 4)
RINGS_TRACE = trace_lines(RING)


def _row(section, name, given, lines, right):
    """An audit of lines of which the definition says something; those of a right trace are left out."""
    said = said_of(lines, right)
    if said is not None:
        section.refused(name, given, lines, said)


def _right_rows():
    """Right traces, and each told of another run."""
    for name, given, lines, counts in [
            ('each-event', EVERY, EVERY_TRACE, (6, 5)), ('resumed-twice', TWICE, TWICE_TRACE, (1, 1)),
            ('bound', BOUND, BOUND_TRACE, (2, 1)), ('nothing-made', PLAIN, PLAIN_TRACE, (0, 0)),
            ('a-ring', RING, RINGS_TRACE, None)]:
        RIGHT.traced(f'{name}/trace', given, wanted=lines)
        RIGHT.audited(f'{name}/audit', given, lines, wanted=None if counts is None else accepts(*counts))
    runs = {
        'each-event': (EVERY, EVERY_TRACE), 'resumed-twice': (TWICE, TWICE_TRACE), 'bound': (BOUND, BOUND_TRACE),
        'nothing-made': (PLAIN, PLAIN_TRACE), 'a-ring': (RING, RINGS_TRACE)}
    for (name, (given, right)), (other_name, (_, other)) in permutations(runs.items(), 2):
        _row(RIGHT, f'{name}/the-trace-of-{other_name}', given, other, right)


def _soundness_rows():
    """Records that may stand behind one another, and such that may not, which is said whatever the run is."""
    for records, line in [
            (['1 resume 0'], 0), (['1 new 1'], 0), (['1 new 0', '2 new 0'], 1), (['1 new 0', '2 new 2'], 1),
            (['1 new 0', '2 new 1', '3 new 2', '4 new 4'], 3), (['1 bind 0 0'], 0), (['1 bind 0 1'], 0),
            (['1 new 0', '2 bind 0 0'], 1), (['1 new 0', '2 bind 0 2'], 1), (['1 new 0', '2 bind 1 1'], 1),
            (['1 new 0', '2 bind 1 0'], 1), (['1 new 0', '2 bind 0 1', '3 resume 0'], 2),
            (['1 new 0', '2 bind 0 1', '3 bind 0 2'], 2), (['1 new 0', '2 bind 0 1', '3 resume 2'], 2),
            (['1 new 0', '2 bind 0 1', '3 resume 1', '4 resume 1'], 3),
            (['1 new 0', '2 bind 0 1', '3 bind 1 1'], 2), (['1 new 0', '2 resume 1'], 1),
            (['1 new 0', '2 resume 0', '3 resume 0'], 2), (['1 new 0', '2 resume 0', '3 bind 0 1'], 2),
            (['1 new 0', '2 resume 0', '3 switch 0 0 1'], 2), (['1 new 0', '2 switch 0 0 0'], 1),
            (['1 new 0', '2 switch 1 0 1'], 1), (['1 new 0', '2 switch 0 1 2'], 1), (['1 switch 0 0 0'], 0),
            (['1 switch 0 0 1'], 0), (['1 new 0', '2 switch 0 0 1', '3 resume 0'], 2),
            (['1 new 0', '2 switch 0 0 1', '3 switch 0 0 2'], 2), (['1 new 0', '2 switch 0 0 1', '3 switch 1 0 1'], 2),
            (['1 suspend 0 1'], 0), (['1 suspend 1 0', '2 suspend 1 0'], 1), (['1 new 0', '2 suspend 0 0'], 1),
            (['1 new 0', '2 suspend 1 2'], 1), (['1 suspend 0 0', '2 resume 0', '3 resume 0'], 2),
            (['1 new 0', '2 resume 0', '3 suspend 0 1', '4 resume 0'], 3), (['1 exit', '2 resume 0'], 1),
            (['1 new 0', '2 exit', '3 new 0'], 2), (['1 exit', '2 new 1'], 1), ([f'1 new {2 ** 64 - 1}'], 0),
            ([f'1 resume {2 ** 64 - 1}'], 0), (['1 new 0', f'2 bind {2 ** 32} 1'], 1),
            (['1 new 0', f'2 bind 0 {2 ** 32 + 1}'], 1), (['1 new 0', f'2 resume {2 ** 32}'], 1)]:
        SOUNDNESS.refused(f'unsound/{_joined(records)}', TWICE, [*records, END], f'unsound {line}')
    for records in [
            [], ['1 exit'], ['1 exit', '1 exit'], ['1 suspend 0 0'], ['1 suspend 0 0', '2 resume 0'],
            ['1 suspend 4294967295 0'], ['1 new 0', '2 new 1', '3 new 2'], ['2 new 0', '1 new 1'],
            ['0 new 0', '0 new 1'], [f'{2 ** 64 - 1} new 0', '0 resume 0'], ['1 new 0', '2 resume 0', '3 suspend 0 1'],
            ['1 new 0', '2 switch 0 0 1', '3 switch 1 0 2', '4 resume 2'], ['1 new 0', '2 bind 0 1', '3 bind 1 2'],
            ['1 new 0', '2 new 1', '3 resume 0', '4 resume 1'], ['1 new 0', '2 new 1', '3 resume 1', '4 resume 0'],
            ['1 new 0', '2 resume 0', '3 exit', '4 exit'], ['1 new 0', '1 resume 0']]:
        SOUNDNESS.refused(f'sound/{_joined(records)}', TWICE, [*records, END], 'differs 0')


def _joined(records):
    return ', '.join(records) or 'nothing'


def _raised(line, place, by):
    """A line with the number that stands in this place raised."""
    words = line.split(' ')
    words[place] = str(int(words[place]) + by)
    return ' '.join(words)


# How a line that ends with an address is made wrong so that this is said of it; the address is raised past all.
FAULTS = {
    'trace': lambda line: f'{line} ', 'unsound': lambda line: _raised(line, -1, 90),
    'differs': lambda line: _raised(line, 0, 1000)}


def _faulty(*faults):
    """The lines of the trace of each event with these faults, each by its kind and its line."""
    lines = list(EVERY_TRACE)
    for kind, number in faults:
        lines[number] = FAULTS[kind](lines[number])
    return lines


def _order_rows():
    """Faults in one trace: a line that is none goes before one that isn't sound, and this before one that differs."""
    ranks = list(FAULTS)
    for kinds, places in product(product(FAULTS, FAULTS), [(0, 3), (3, 0), (2, 9), (9, 2), (7, 8), (8, 7), (4, 4)]):
        faults = list(zip(kinds, places))
        if places[0] == places[1] and (kinds[0] == kinds[1] or kinds[0] == 'trace'):
            continue        # this is no longer a line with two faults
        kind, number = min(faults, key=lambda fault: (ranks.index(fault[0]), fault[1]))
        ORDER.refused(f'{kinds[0]}-{places[0]}-and-{kinds[1]}-{places[1]}', EVERY, _faulty(*faults), f'{kind} {number}')


def _three_fault_rows():
    """The same of three lines, and of two of them."""
    for places in permutations((1, 4, 9)):
        faults = list(zip(FAULTS, places))
        name = '-and-'.join(f'{kind}-{number}' for kind, number in faults)
        ORDER.refused(name, EVERY, _faulty(*faults), f'trace {places[0]}')
        ORDER.refused(f'{name}/without-the-first', EVERY, _faulty(*faults[1:]), f'unsound {places[1]}')


def _end_order_rows():
    """A fault, and what is wrong with where the trace ends, or with how the run does."""
    for fault in ('unsound', 'differs'):
        for number in (0, 4, 9):
            lines = _faulty((fault, number))
            name = f'{fault}-{number}'
            ORDER.refused(f'{name}/and-no-end', EVERY, lines[:-1], 'trace 11')
            ORDER.refused(f'{name}/and-a-line-behind-the-end', EVERY, [*lines, '31 exit'], 'trace 12')
            ORDER.refused(f'{name}/and-two-ends', EVERY, [*lines, lines[-1]], 'trace 12')
            ORDER.refused(f'{name}/and-another-end', EVERY, [*lines[:-1], 'end 30 running'], f'{fault} {number}')
            ORDER.refused(f'{name}/and-no-such-end', EVERY, [*lines[:-1], 'end 30 gone'], 'trace 11')
            for steps, cut in [(8, 3), (0, 0)]:     # the line that ends a run of so many reductions
                first = number if fault == 'unsound' else min(number, cut)
                ORDER.refused(f'{name}/and-{steps}-reductions', EVERY, lines, f'{fault} {first}', steps)
    ORDER.refused('an-end-in-front-of-what-is-unsound', TWICE, ['end 0 running', '1 resume 5', END], 'trace 1')
    ORDER.refused('an-end-in-front-of-what-is-no-line', TWICE, ['end 0 running', 'x', END], 'trace 1')
    ORDER.refused('no-line-in-front-of-two-ends', TWICE, ['x', END, END], 'trace 0')
    ORDER.refused('unsound-in-the-last-record', TWICE, [*TWICE_TRACE[:-1], '11 resume 0', END], 'unsound 3')


def _change_rows():
    """Right traces with one change."""
    for name, lines in changed_lines(EVERY_TRACE):
        _row(CHANGES, f'each-event/{name}', EVERY, lines, EVERY_TRACE)
    for run, given, right in [('resumed-twice', TWICE, TWICE_TRACE), ('bound', BOUND, BOUND_TRACE)]:
        for name, lines in changed_lines(right):
            _row(CHANGES, f'{run}/{name}', given, lines, right)
    for name, lines in changed_lines(RINGS_TRACE):
        if any(way in name for way in ('left-out', 'doubled', 'behind', 'in-place', 'raised')):
            _row(CHANGES, f'a-ring/{name}', RING, lines, RINGS_TRACE)


def _chance_rows():
    """Some changes of lines, one after the other."""
    random = Random(20)
    for number in range(150):
        given, right = random.choice([(EVERY, EVERY_TRACE), (RING, RINGS_TRACE)])
        lines = right
        for _ in range(random.randrange(1, 5)):
            ways = [each for name, each in changed_lines(lines) if number % 3 == 0 or _is_well_spelled(name)]
            lines = random.choice(ways)
        _row(CHANCE, f'{number}', given, lines, right)


def _is_well_spelled(name):
    """Whether a change leaves lines that are right by themselves."""
    return not any(way in name for way in ('blank', 'zero', '/as-', 'digit', 'at-the-end'))


_right_rows()
_soundness_rows()
_order_rows()
_three_fault_rows()
_end_order_rows()
_change_rows()
_chance_rows()
