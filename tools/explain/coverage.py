"""Which refusals among the rows of `crates/conformance/data` get a place."""

import re
from collections import Counter
from pathlib import Path

from explaining import explanation
from row_files import rows_of
from script_reader import is_script

DATA = Path(__file__).resolve().parents[2] / 'crates' / 'conformance' / 'data'
GREATEST_FILE = 100000      # bytes; what the second readers read in due time
TEXT_PLACE = re.compile(r'[1-9][0-9]*:[1-9][0-9]*: ')
INSTRUCTION = re.compile(r'(instruction [0-9]+|the end) of the ')
BEFORE = 'before its first instruction'
BYTE = re.compile(r'byte 0x')


def coverage():
    """How many refusals there are of each kind, and which of them lack a place, to out, with the status."""
    counts, lacking, large = Counter(), [], 0
    for name, row in _checks():
        data = row.files[row.words[2]]
        if len(data) > GREATEST_FILE:
            large += 1
            continue
        kind, fault = _judged(data, row)
        counts[kind] += 1
        if fault:
            lacking.append(f'{name}: {row.name}: {fault}')
    lines = [*lacking, *(f'{kind}: {count}' for kind, count in sorted(counts.items()))]
    lines.append(f'left out, of more than {GREATEST_FILE:,} bytes: {large}')
    lines.append(f'without a place, or said otherwise: {len(lacking)}')
    return ''.join(f'{line}\n' for line in lines).encode(), b'', 1 if lacking else 0


def _checks():
    """Each row that is a check of a file that is there, or whose file has an invalid function, and in which nothing
    fails, with the name of its file of rows."""
    for path in sorted(DATA.glob('*.rows')):
        for row in rows_of(path.read_text()):
            program, command, name, *more = [*row.words, None, None, None][:max(3, len(row.words))]
            is_check = command == 'check' and not more or row.err.startswith(b'invalid function')
            if program == 'stackwasm' and is_check and name in row.files and not row.fails:
                yield path.name, row


def _judged(data, row):
    """The kind of what is said of a file, and what is wrong with it."""
    (line, *more), accepted = explanation(data)
    wanted = (row.out or row.err).decode().rstrip('\n')
    if accepted:
        said, _, _ = line.partition(':')
        return said, None if said == wanted else f'accepted, and the row says {wanted}'
    kind = _kind(line, data)
    if line != wanted:
        return kind, f'{line}, and the row says {wanted}'
    is_placed, way = _placed(kind, more)
    return f'{kind}, {way}' if way else kind, None if is_placed else f'{line}: no place'


def _kind(line, data):
    """The kind of a refusal: of limits and of invalid modules two words, of scripts and other modules one."""
    first, *more = line.split()
    of = 'script' if is_script(data) else 'module'
    return ' '.join([f'{of}: {first}', *more[:1]]) if first in ('limit', 'invalid', 'malformed') else f'{of}: {first}'


def _placed(kind, lines):
    """Whether the lines of a refusal tell its place, and how, where there are several ways."""
    if kind.startswith('script'):
        return TEXT_PLACE.match(lines[0]) is not None, None
    if kind.startswith('module: malformed'):
        return any(map(BYTE.match, lines)), None
    if kind == 'module: invalid function':
        return _function_placed(lines)
    return bool(lines), None


def _function_placed(lines):
    if not lines or not lines[0].startswith('function '):
        return False, None
    if BEFORE in lines:
        return True, BEFORE
    return any(map(INSTRUCTION.match, lines)), 'at an instruction or the end'
