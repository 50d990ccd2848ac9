"""What a trace tells of each continuation: when and how it was made, and when and how it was consumed."""

from dataclasses import dataclass
from typing import NamedTuple

# Which of an event's numbers is the address that is consumed, the tag, and the address that is made.
FORMS = {
    'new': ('made',),
    'bind': ('consumed', 'made'),
    'resume': ('consumed',),
    'suspend': ('tag', 'made'),
    'switch': ('consumed', 'tag', 'made'),
    'exit': (),
}


class NoTrace(Exception):
    """Lines that are no trace whose continuations are used once."""


class Event(NamedTuple):
    """A line of a trace: the reduction's number, the event's name and its numbers, `None` where it has none."""

    step: int
    name: str
    consumed: int | None
    tag: int | None
    made: int | None


@dataclass
class Life:
    """A continuation: the places among the events at which it was made and consumed; the last is `None` while it is
    live."""

    made: int
    consumed: int | None = None


class Trace(NamedTuple):
    """The events, the life of each continuation by its address, and how the run ended."""

    events: list
    lives: list
    end: str


def lives_of(lines):
    """The trace that these lines are."""
    if not lines or not lines[-1].startswith('end '):
        raise NoTrace('no line tells how the run ended')
    events = [_event(number, line) for number, line in enumerate(lines[:-1])]
    lives = []
    for place, event in enumerate(events):
        if event.consumed is not None:
            _consume(lives, event.consumed, place)
        if event.made is not None:
            if event.made != len(lives):
                raise NoTrace(f'line {place} makes continuation {event.made}, which is not the next')
            lives.append(Life(place))
    return Trace(events, lives, lines[-1].removeprefix('end '))


def _consume(lives, address, place):
    if address >= len(lives) or lives[address].consumed is not None:
        raise NoTrace(f'line {place} consumes continuation {address}, which is not live')
    lives[address].consumed = place


def _event(number, line):
    step, *words = line.split(' ')
    name, numbers = (words[0], words[1:]) if words else ('', [])
    form = FORMS.get(name)
    if form is None or len(form) != len(numbers) or not all(word.isdecimal() for word in [step, *numbers]):
        raise NoTrace(f'line {number} is no event')
    told = dict(zip(form, map(int, numbers)))
    return Event(int(step), name, told.get('consumed'), told.get('tag'), told.get('made'))
