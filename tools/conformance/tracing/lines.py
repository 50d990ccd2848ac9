"""The lines of traces: how each is spelled, and what it says.

A form is what a line is, word by word. S stands for a number of reductions, A for the address that is consumed, B for
the one that is made, and T for the number of a tag.
"""

import re
from typing import NamedTuple

NUMBER = re.compile('0|[1-9][0-9]*')
MOST_DIGITS = 20        # of a number below any of these
ENDS = {'S': 2 ** 64, 'A': 2 ** 64, 'B': 2 ** 64, 'T': 2 ** 32}
TRAPS = [
    'unreachable', 'divide by zero', 'integer overflow', 'memory out of bounds', 'table out of bounds',
    'undefined element', 'null element', 'call type mismatch', 'null reference', 'consumed continuation', 'unhandled T']
LIMITS = ['frames', 'handles', 'conts']
EVENTS = {
    'new': 'S new B', 'bind': 'S bind A B', 'resume': 'S resume A', 'suspend': 'S suspend T B',
    'switch': 'S switch A T B', 'exit': 'S exit'}
LAST = [
    'end S ended', *(f'end S trap {kind}' for kind in TRAPS), *(f'end S limit {name}' for name in LIMITS),
    'end S running']


class Line(NamedTuple):
    """What a line says of continuations: which address it consumes and which one it makes, if it does so; and whether
    it ends the trace."""

    consumed: int | None = None
    made: int | None = None
    is_end: bool = False


def _read(form, words):
    """The numbers for which the letters of a form stand in these words; nothing where they aren't of the form."""
    wanted = form.split(' ')
    if len(wanted) != len(words):
        return None
    numbers = {}
    for letter, word in zip(wanted, words):
        if letter in ENDS and _is_number(word, ENDS[letter]):
            numbers[letter] = int(word)
        elif letter in ENDS or letter != word:
            return None
    return numbers


def _is_number(word, end):
    """Whether a word is a number below this end, without a sign or a zero in front."""
    return len(word) <= MOST_DIGITS and bool(NUMBER.fullmatch(word)) and int(word) < end


def line_of(line):
    """What a line says, without its line feed; nothing where it is none."""
    words = line.split(' ')
    if words[0] == 'end':
        return Line(is_end=True) if any(_read(form, words) is not None for form in LAST) else None
    numbers = _read(EVENTS.get(words[1], ''), words) if len(words) > 1 else None
    return None if numbers is None else Line(numbers.get('A'), numbers.get('B'))
