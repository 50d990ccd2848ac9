"""The trace of a run: a line for each event, and how the run ends."""

from executing.events import Notes
from executing.running import begun, outcome_after
from tracing.lines import EVENTS


def trace_of(start, steps):
    """The trace of so many reductions at most from where a run begins."""
    notes = Notes()
    outcome = outcome_after(begun(*start), steps, notes.reduced)
    lines = [*map(_line_of, notes.events), f'end {outcome.taken} {outcome.line or "ended"}']
    return ''.join(f'{line}\n' for line in lines).encode()


def _line_of(event):
    """The line of an event, by the form of its kind."""
    numbers = {'S': event.reduction, 'A': event.consumed, 'B': event.made, 'T': event.tag}
    return ' '.join(str(numbers.get(word, word)) for word in EVENTS[event.kind].split(' '))
