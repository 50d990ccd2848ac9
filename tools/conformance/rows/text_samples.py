"""Rows of texts of modules: how texts are spelled, and the calls of `dump` and `asm`.

What a row says is known when it is made, and the second reader is to agree.
"""

from assembler.canonical import canonical
from reader import answer
from reader.module_decoding import decode
from rows.sections import VALID, Section, answered, spelled
from text_reader import reading_of
from text_reader.expressions import flat
from text_reader.writing import text_of


class TextRow:
    """A call of `dump` or `asm`."""

    def __init__(self, name, command, file, wanted):
        self.name, self.command, self.file, self.wanted = name, command, file, wanted

    @property
    def fields(self):
        """The lines of the row."""
        return [f'words stackwasm {self.command} x', *self.file, *self.wanted]


def text(lines):
    """The text of these lines, which are a list, or stand behind one another with semicolons between."""
    all_lines = lines.split('; ') if isinstance(lines, str) else lines
    return ''.join(f'{line}\n' for line in all_lines).encode()


def text_fields(key, data):
    """The lines that say what a file holds or what is written: lines of text, as far as they are such, and digits for
    all in front of them."""
    *lines, rest = data.split(b'\n')
    place = 0 if not rest else len(lines)
    for number, line in enumerate(lines):
        if not _is_plain(line):
            place = max(place, number + 1)
    digits = [(line + b'\n').hex().upper() for line in lines[:place]]
    front = ' '.join([key, *digits, *([rest.hex().upper()] if rest else [])])
    plain = [f'| {line.decode()}' for line in lines[place:]]
    return [front, *plain] if digits or not plain else [f'{front} {plain[0]}', *plain[1:]]


def _is_plain(line):
    """Whether a line can stand as it is: with a sign at least, no blanks around, and no signs that aren't seen."""
    return bool(line) and line == line.strip() and all(0x20 <= byte < 0x7f for byte in line)


def _module_fields(key, data):
    return [f'{key} {spelled(data)}']


def text_of_bytes(module):
    """The text of a module that is valid."""
    return text_of(decode(module))


class TextSection(Section):
    """Rows of texts of modules. Texts are given by their lines, as `text` takes them, or as bytes."""

    def dumped(self, name, module, lines):
        """A module, and its text."""
        data, known = _bytes(lines), text_of_bytes(module)
        if answer(module) != VALID or known != data:
            raise ValueError(f'{name}: {answer(module)}, {known!r}')
        self.rows.append(TextRow(name, 'dump', _module_fields('file x', module), text_fields('out', data)))

    def assembled(self, name, lines, module):
        """A text, and its module as it is written."""
        data = _bytes(lines)
        reading = reading_of(data)
        if reading.said != VALID or flat(reading.module) != flat(decode(module)):
            raise ValueError(f'{name}: {reading.said}, {reading.module}')
        if canonical(reading.module) != module:
            raise ValueError(f'{name}: {canonical(reading.module).hex().upper()}')
        self.rows.append(TextRow(name, 'asm', text_fields('file x', data), _module_fields('out', module)))

    def both(self, name, module, lines):
        """A module in its canonical spelling and its text, each from the other."""
        self.dumped(f'{name}/dump', module, lines)
        self.assembled(f'{name}/asm', lines, module)

    def spelled_both(self, name, module, front, *lines):
        """The same of a module that is large, and so is given by words, as the front of its text is. Lines follow."""
        more = [f'| {line}' for line in lines]
        self.rows.append(TextRow(f'{name}/dump', 'dump', [f'file x {module}'], [f'out {front}', *more]))
        self.rows.append(TextRow(f'{name}/asm', 'asm', [f'file x {front}', *more], [f'out {module}']))

    def refused(self, name, said, lines):
        """A text of which this is said by `asm`."""
        data = _bytes(lines)
        if reading_of(data).said != said:
            raise ValueError(f'{name}: {reading_of(data).said} and not {said}')
        self.rows.append(TextRow(name, 'asm', text_fields('file x', data), answered(said)))

    def wrong(self, name, line, lines):
        """A text whose least wrong line has this number."""
        self.refused(name, f'text {line}', lines)

    def is_right(self, lines):
        """Refuse lines that are no text."""
        said = reading_of(_bytes(lines)).said
        if said.startswith('text'):
            raise ValueError(f'{lines}: {said}')

    def not_dumped(self, name, said, data):
        """A file of which this is said by `dump`."""
        if answer(data) != said:
            raise ValueError(f'{name}: {answer(data)} and not {said}')
        self.rows.append(TextRow(name, 'dump', [f'file x {spelled(data)}'.rstrip()], answered(said)))


def _bytes(lines):
    return lines if isinstance(lines, bytes) else text(lines)
