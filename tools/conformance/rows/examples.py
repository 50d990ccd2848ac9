"""The scripts of `examples/`, each checked and run. What a run prints and gives was worked out by hand from what the
script means, and the second compiler and the second reader of execution are to come to the same."""

from pathlib import Path
from typing import NamedTuple

from executing import outcome_of
from rows.script_samples import spelled_script
from rows.sections import Section, answered
from script_compiler import built

SECTION = Section('examples')
FOLDER = Path(__file__).resolve().parents[3] / 'examples'


class ExampleRow(NamedTuple):
    """A call on a script, and the lines that say what it comes to."""

    name: str
    command: str
    data: bytes
    wanted: list

    @property
    def fields(self):
        """The lines of the row."""
        return [f'words stackwasm {self.command} x', f'file x{spelled_script(self.data)}', *self.wanted]


def gives(name, value, *printed):
    """A script whose main gives this value, when these numbers were printed."""
    data = (FOLDER / f'{name}.script').read_bytes()
    first, *more = [*map(str, printed), f'= {value}']
    wanted = ('\n'.join([first, *more, '']).encode(), b'', 0)
    if outcome_of(built(data)) != wanted:
        raise ValueError(f'{name}: {outcome_of(built(data))}')
    SECTION.rows.append(ExampleRow(f'{name}/run', 'run', data, [f'out | {first}', *(f'| {line}' for line in more)]))
    SECTION.rows.append(ExampleRow(f'{name}/check', 'check', data, answered('ok script')))


gives('generator', 28, 4, 2, 5, 1, 0, 2, 1, 3, 2)
gives('state', 3, 6, 1, 8, 11, 11, 26, 3, 2, 13)
gives('exceptions', 3, 3, -1, 1000, 2, -1)
gives('scheduler', 9, 11, 21, 31, 12, 22, 32, 13, 33, 14)
gives('async', 17, 5, 10, 7)
gives('pipeline', 100, 2, 12, 5, 5, 19, 2, 12, 30, 56, 8)
gives('search', 19, 2413)
gives('coroutines', 55, 1, 4, 9, 16, 25)
gives('round_robin', 9, 11, 21, 31, 12, 22, 32, 13, 33, 14)

LACKING = {path.stem for path in FOLDER.glob('*.script')} - {row.name.split('/')[0] for row in SECTION.rows}
if LACKING:
    raise ValueError(f'examples without rows: {", ".join(sorted(LACKING))}')
