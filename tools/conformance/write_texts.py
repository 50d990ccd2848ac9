#!/usr/bin/env python3
"""Writes files of rows for the program `conformance`, and the files that name them and count their rows.

Before, the second reader judges every row that it can, also of the files that are kept by hand. Where it and a row
disagree nothing is written, and the row is named.
"""

import argparse
import sys
from pathlib import Path

from judging import faults, is_judged
from row_files import rows_of, text_of
from rows import FILES
from table_coverage import lacking_lines, table_lines

ROOT = Path(__file__).resolve().parents[2]
CRATE = ROOT / 'crates' / 'conformance'
DATA = CRATE / 'data'


def all_texts():
    """The text of every file of rows, by the file's name: those that are written here, and those kept by hand."""
    written = {f'{row_file.name}.rows': text_of(row_file) for row_file in FILES}
    kept = {path.name: path.read_text() for path in DATA.glob('*.rows') if path.name not in written}
    return dict(sorted((written | kept).items()))


def contents_of(texts, rows):
    """What each file is to hold, by its path: the rows, the names of the files of rows, and what the program prints."""
    counts = [f'{name}: {len(rows[name])} rows, of which 0 came out otherwise' for name in texts]
    contents = {DATA / name: text for name, text in texts.items()}
    contents[CRATE / 'args'] = ''.join(f'{name}\n' for name in texts)
    contents[CRATE / 'stdout'] = ''.join(f'{line}\n' for line in counts)
    return contents


def check(contents):
    """Name the files that hold something else, and give the status."""
    stale = [path for path, text in contents.items() if not path.is_file() or path.read_text() != text]
    for path in stale:
        print(f'differs: {path.relative_to(ROOT)}')
    if not stale:
        print(f'{len(contents)} files hold what would be written.')
    return 1 if stale else 0


def write(contents):
    """Write the files, and give the status."""
    for path, text in contents.items():
        path.write_text(text)
    print(f'{len(contents)} files written to {CRATE.relative_to(ROOT)}.')
    return 0


def coverage():
    """Name the lines of the typing table that lack a row, and give the status."""
    lacking = lacking_lines()
    for line, ways in lacking.items():
        print(f'{line}: no row that is ' + ', nor one that is '.join(' and '.join(way) for way in ways))
    if not lacking:
        print(f'Each of the {len(table_lines())} lines has rows accepted and refused, reached and unreached.')
    return 1 if lacking else 0


def main():
    """Do what the arguments ask for, and give the status."""
    parser = argparse.ArgumentParser(description='Write files of rows for the program `conformance`.')
    modes = parser.add_mutually_exclusive_group()
    modes.add_argument('--check', action='store_true', help='write nothing, and name the files that would change')
    modes.add_argument(
        '--coverage', action='store_true', help='write nothing, and name the lines of the typing table without a row')
    arguments = parser.parse_args()
    if arguments.coverage:
        return coverage()
    texts = all_texts()
    rows = {name: rows_of(text) for name, text in texts.items()}
    found = [fault for name in texts for fault in faults(name, rows[name])]
    if found:
        print('\n'.join(found), file=sys.stderr)
        return 1
    judged = sum(is_judged(row) for name in texts for row in rows[name])
    print(f'{sum(map(len, rows.values()))} rows, of which the second reader judges {judged}.')
    contents = contents_of(texts, rows)
    return check(contents) if arguments.check else write(contents)


if __name__ == '__main__':
    sys.exit(main())
