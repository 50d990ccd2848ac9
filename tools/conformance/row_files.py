"""Files of rows: how they are spelled, and how they are read.

`crates/conformance/src/reading.rt` reads them too; the format stands in README.md.
"""

from dataclasses import dataclass, field


def text_of(row_file):
    """The text of a file of rows."""
    lines = [f'# {row_file.heading}', '# Written by tools/conformance.']
    lines += [f'piece {name} {spelled}' for name, spelled in row_file.pieces]
    for section in row_file.sections:
        for row in section.rows:
            lines += ['', f'row {row.name}', *row.fields]
    return '\n'.join(lines) + '\n'


@dataclass
class ReadRow:
    """A call of the program, and what it is to come to."""

    name: str
    words: list = field(default_factory=list)
    files: dict = field(default_factory=dict)
    fails: list = field(default_factory=list)
    out: bytes = b''
    err: bytes = b''
    status: int = 0


class UnreadLine(Exception):
    """A line that is none of a file of rows."""


class _Reader:
    """The rows of a file, line by line."""

    def __init__(self):
        self.rows = []
        self.pieces = {}
        self.last = None        # what a line that begins with `|` is added to

    def line(self, line):
        if not line or line.startswith('#'):
            return
        key, _, rest = line.partition(' ')
        if key == 'piece':
            name, _, spelled = rest.partition(' ')
            self.pieces[name] = self._bytes(spelled)
        elif key == 'row':
            self.rows.append(ReadRow(rest))
        elif key == '|' and self.last is not None:
            self.last(rest.encode() + b'\n')
        else:
            self._field(key, rest)

    def _field(self, key, rest):
        row = self.rows[-1]
        self.last = None
        if key == 'words':
            row.words += ['' if word == "''" else word for word in rest.split()]
        elif key == 'word':
            row.words.append(rest)
        elif key == 'fails':
            row.fails.append(rest)
        elif key == 'status':
            row.status = int(rest)
        elif key == 'file':
            name, _, spelled = rest.partition(' ')
            row.files[name] = self._bytes(spelled)
            self.last = lambda more: row.files.update({name: row.files[name] + more})
        elif key in ('out', 'err'):
            self.last = lambda more: setattr(row, key, getattr(row, key) + more)
            self.last(self._bytes(rest))
        else:
            raise UnreadLine(f'{key} {rest}')

    def _bytes(self, spelled):
        """Words of digits or pieces, each maybe repeated; behind `|` stands a line of text."""
        words, bar, text = spelled.partition('|')
        read = b''.join(map(self._word, words.split()))
        return read + (text.removeprefix(' ').encode() + b'\n' if bar else b'')

    def _word(self, word):
        piece, _, times = word.partition('*')
        once = self.pieces[piece[1:]] if piece.startswith('@') else bytes.fromhex(piece)
        return once * int(times or 1)


def rows_of(text):
    """The rows of a file, as they are read."""
    reader = _Reader()
    for line in text.split('\n'):
        reader.line(line)
    return reader.rows
