"""The tool's own rows, in the format of `tools/conformance`, and whether they come out."""

import errno
import os
from pathlib import Path

from calls import call
from row_files import rows_of

ROWS = Path(__file__).resolve().with_name('explain.rows')


def compared():
    """What differs from the rows, to out, with the status."""
    rows = rows_of(ROWS.read_text())
    differences = [lines for lines in map(_differences, rows) if lines]
    lines = [*sum(differences, []), f'{len(rows)} rows, of which {len(differences)} came out otherwise']
    return ''.join(f'{line}\n' for line in lines).encode(), b'', 1 if differences else 0


def _differences(row):
    """The lines that name a row and tell what came instead, where something did."""
    program, *words = row.words
    got, wanted = call(words, lambda name: _contents(row, name)), (row.out, row.err, row.status)
    if program == 'explain' and got == wanted:
        return []
    return [f'{row.name}:', *_shown('wanted', wanted), *_shown('got', got)]


def _contents(row, name):
    if name not in row.files:
        raise FileNotFoundError(errno.ENOENT, os.strerror(errno.ENOENT))
    return row.files[name]


def _shown(name, outcome):
    out, err, status = outcome
    text = (out + err).decode('utf-8', 'replace')
    return [f'  {name}, with status {status}:', *(f'    {line}' for line in text.splitlines())]
