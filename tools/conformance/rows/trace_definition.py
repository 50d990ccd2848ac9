"""What is said of a trace, by a plain definition, which looks at all records in front of each one.

The second auditor is to say the same.
"""

from rows.trace_mutations import is_right

# Where an address stands among the words of a line, by the kind of the event.
CONSUMED = {'bind': 2, 'resume': 2, 'switch': 2}
MADE = {'new': 2, 'bind': 3, 'suspend': 3, 'switch': 4}


def _address(places, line):
    """The address that stands in a line in the place that its kind has, if it has one."""
    words = line.split(' ')
    return int(words[places[words[1]]]) if words[1] in places else None


def _is_sound(front, line):
    """Whether a record may stand behind those in front."""
    made = [address for each in front if (address := _address(MADE, each)) is not None]
    consumed = [address for each in front if (address := _address(CONSUMED, each)) is not None]
    taken, new = _address(CONSUMED, line), _address(MADE, line)
    return (taken is None or taken in made and taken not in consumed) and new in (None, len(made))


def said_of(lines, right):
    """What is said against a trace, by the first fault of the first kind, if there is any; the right one is given."""
    ends = [number for number, line in enumerate(lines) if line.startswith('end ')]
    last = ends[0] + 1 if ends else len(lines)
    for number, line in enumerate(lines[:last]):
        if not is_right(line):
            return f'trace {number}'
    if not ends or last < len(lines):
        return f'trace {last}'
    for number, line in enumerate(lines):
        if not _is_sound(lines[:number], line):
            return f'unsound {number}'
    for number, line in enumerate(lines):
        if line != right[number]:
            return f'differs {number}'
    return None
