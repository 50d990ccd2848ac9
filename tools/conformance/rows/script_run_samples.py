"""Rows of runs of scripts. What a run is to come to is what the second readers say when the row is made: of the module
of the second compiler, and of the meaning of the script, which the run is to follow."""

from executing import USUAL_STEPS, outcome_of
from following import STATUSES, contradiction, outcome_of_script, reductions_of
from rows.runs import wanted_lines
from rows.script_samples import spelled_script
from rows.sections import CallRow, Section, spelled
from script_compiler import built


class ScriptRunRow:
    """A call of `run` on a script."""

    def __init__(self, name, command, data, wanted):
        self.name, self.command, self.data, self.wanted = name, command, data, wanted

    @property
    def fields(self):
        """The lines of the row."""
        return [f'words stackwasm {self.command}', f'file x{spelled_script(self.data)}', *self.wanted]


class PlainRow:
    """A call without a file."""

    def __init__(self, name, words, wanted):
        self.name, self.words, self.wanted = name, words, wanted

    @property
    def fields(self):
        """The lines of the row."""
        return [f'words stackwasm {self.words}', *self.wanted]


def came_to(name, data, steps):
    """What the run of a script for so many reductions comes to, by all second readers."""
    outcome = outcome_of_script(data, steps)
    if outcome is None:
        raise ValueError(f'{name}: this takes too long')
    said = contradiction(data, steps)
    if said:
        raise ValueError(f'{name}: {said}')
    return outcome


def outcome_by_hand(end, *printed):
    """What a run comes to that prints these numbers, and ends so."""
    lines = ''.join(f'{number}\n' for number in printed)
    if end.startswith('='):
        return f'{lines}{end}\n'.encode(), b'', 0
    return lines.encode(), f'{end}\n'.encode(), STATUSES[end.split()[0]]


class ScriptRunSection(Section):
    """Rows of runs of scripts."""

    def row(self, name, text, steps=None, stats=False):
        """A run of a script, of so many reductions at most where this is told, and what it comes to."""
        data = data_of(text)
        outcome = came_to(name, data, USUAL_STEPS if steps is None else steps)
        self._add(name, data, steps, stats, outcome)
        return outcome

    def is_known(self, name, text, end, *printed, steps=None, stats=False):
        """The same, of which it is known what is printed, and how it ends."""
        outcome = self.row(name, text, steps, stats)
        if outcome != outcome_by_hand(end, *printed):
            raise ValueError(f'{name}: {outcome}')

    def is_clear(self, name, text, end, *printed, steps=None):
        """The same, which is too long for the second readers."""
        self._add(name, data_of(text), steps, False, outcome_by_hand(end, *printed))

    def module(self, name, text, steps=None):
        """A run of the module of a script: its out and its status are those of the script."""
        data = data_of(text)
        given = built(data)
        number = USUAL_STEPS if steps is None else steps
        out, err, status = outcome_of(given, number)
        of_script, _, status_of_script = came_to(name, data, number)
        if (out, status) != (of_script, status_of_script):
            raise ValueError(f'{name}: {out!r}, {status}')
        self.rows.append(CallRow(name, _command(steps), spelled(given), wanted_lines(out, err, status)))

    def whole(self, name, text, end=None, *printed):
        """A run of a script and one of its module, and both cut in the middle; maybe it is known how it ends."""
        if end is None:
            self.row(name, text)
        else:
            self.is_known(name, text, end, *printed)
        self.module(f'{name}/module', text)
        reductions = reductions_of(data_of(text))
        for steps in sorted({reductions // 2, reductions - 1}):
            self.row(f'{name}/{steps}-reductions', text, steps)
        self.module(f'{name}/module/{reductions // 2}-reductions', text, reductions // 2)

    def each_step(self, name, text):
        """Runs of each number of reductions up to a few more than are needed."""
        for steps in range(reductions_of(data_of(text)) + 4):
            self.row(f'{name}/{steps}-reductions', text, steps)
            if steps % 5 == 0:
                self.module(f'{name}/module/{steps}-reductions', text, steps)

    def _add(self, name, data, steps, stats, outcome):
        command = _command(steps) + (' --stats' if stats else '')
        self.rows.append(ScriptRunRow(name, command, data, wanted_lines(*outcome)))


def data_of(text):
    """The bytes of a script: text ends with one end of a line, and bytes stay as they are."""
    return text if isinstance(text, bytes) else (text.strip() + '\n').encode()


def _command(steps):
    return 'run x' if steps is None else f'run x --steps {steps}'
