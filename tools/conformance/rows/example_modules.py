"""The modules of `examples/modules/`: of each text its module, what is said of that, what a run of it prints and gives,
and its text again. What a run prints and gives was worked out by hand, and the second reader of execution is to come to
the same. The page beside a text is to show all its lines."""

from pathlib import Path

from assembler.canonical import canonical
from executing import outcome_of
from rows.runs import wanted_lines
from rows.sections import VALID, CallRow, ModuleRow, spelled
from rows.text_samples import TextSection
from text_reader import reading_of

SECTION = TextSection('modules')
FOLDER = Path(__file__).resolve().parents[3] / 'examples' / 'modules'
FENCE = '```\n'
COMMENT = ';;'


def gives(name, value, *printed):
    """A module whose main gives this value, when these numbers were printed."""
    text = (FOLDER / f'{name}.text').read_bytes()
    if _shown(name) != text.decode():
        raise ValueError(f'{name}: the page shows other lines than the text has')
    reading = reading_of(text)
    if reading.said != VALID:
        raise ValueError(f'{name}: {reading.said}')
    module = canonical(reading.module)
    wanted = (''.join(f'{line}\n' for line in [*printed, f'= {value}']).encode(), b'', 0)
    if outcome_of(module) != wanted:
        raise ValueError(f'{name}: {outcome_of(module)}')
    SECTION.assembled(f'module/{name}/asm', text, module)
    SECTION.rows.append(ModuleRow(f'module/{name}/check', VALID, module))
    SECTION.rows.append(CallRow(f'module/{name}/run', 'run x', spelled(module), wanted_lines(*wanted)))
    SECTION.dumped(f'module/{name}/dump', module, text)


def _shown(name):
    """The lines of a text that its page shows, without their comments: those under each heading but the last, which
    has pictures and what is printed."""
    parts = (FOLDER / f'{name}.md').read_text().rpartition('\n## ')[0].split(FENCE)
    lines = ''.join(parts[1::2]).splitlines()
    return ''.join(f'{line.partition(COMMENT)[0].rstrip()}\n' for line in lines)


gives('generator', 30, 1, 4, 9, 16)
gives('coroutines', 22, 1, 2, 4, 5, 10, 11)
gives('scheduler', 3, 11, 21, 31, 12, 32, 13, 14)
gives('bound_arguments', 150, 1, 2, 10, 20, 30, 3, 40, 50)
gives('exceptions', -1, 3, 6, -3, 0, 12)

LACKING = {path.stem for path in FOLDER.glob('*.text')} - {row.name.split('/')[1] for row in SECTION.rows}
if LACKING:
    raise ValueError(f'modules without rows: {", ".join(sorted(LACKING))}')
