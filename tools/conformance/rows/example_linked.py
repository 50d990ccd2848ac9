"""The files of `examples/linked/`: of each text its module, and what the two come to when they are linked. What is
printed and given was worked out by hand, and the second reader of linking is to come to the same. The page beside the
texts is to show all their lines."""

from pathlib import Path

from assembler.canonical import canonical
from rows.linking_samples import LinkSection
from rows.runs import wanted_lines
from rows.sections import VALID
from text_reader import reading_of

SECTION = LinkSection('example')
FOLDER = Path(__file__).resolve().parents[3] / 'examples' / 'linked'
FENCE = '```\n'
COMMENT = ';;'


def _module(name):
    """The module of a text, all whose lines are on the page."""
    text = (FOLDER / f'{name}.text').read_bytes()
    if _shown(name) != text.decode():
        raise ValueError(f'{name}: the page shows other lines than the text has')
    reading = reading_of(text)
    if reading.said != VALID:
        raise ValueError(f'{name}: {reading.said}')
    return canonical(reading.module)


def _shown(name):
    """The lines of a text that the page shows, without their comments: each piece stands behind a mark with the name."""
    page = (FOLDER / 'README.md').read_text()
    pieces = [piece.split(FENCE)[1] for piece in page.split(f'<!-- {name} -->\n')[1:]]
    return ''.join(f'{line.partition(COMMENT)[0].rstrip()}\n' for line in ''.join(pieces).splitlines())


LIBRARY, PROGRAM = _module('library'), _module('program')
PRINTED = b''.join(b'%d\n' % number for number in [1, 2, 4, 8, 16]) + b'= 31\n'
SECTION.row('a library and a program', LIBRARY, PROGRAM, wanted=wanted_lines(PRINTED, b'', 0))
SECTION.row('a library and a program, with statistics', LIBRARY, PROGRAM, stats=True)
SECTION.row('the program alone', PROGRAM, wanted=wanted_lines(b'', b'file 0 no import 0\n', 4))
SECTION.row('the program before the library', PROGRAM, LIBRARY, wanted=wanted_lines(b'', b'no entry\n', 4))
