#!/usr/bin/env python3
"""Tries what `wat.py` writes: an assembler from outside is to make the same module of it.

The texts are those of which rows of `asm` say that they are a valid module, and those of `examples/modules`. What the
assembler gives is decoded by the second reader of `tools/conformance`, and compared with the tree of the text.
"""

import argparse
import re
import subprocess
import sys
import tempfile
from collections import Counter
from pathlib import Path

ROOT = Path(__file__).resolve().parents[2]
sys.path.insert(0, str(ROOT / 'tools' / 'conformance'))

from reader.byte_source import Malformed
from reader.module_decoding import decode
from row_files import rows_of
from text_reader.expressions import flat
from text_reader.reading import module_of

from items import module

ROWS = ROOT / 'crates' / 'conformance' / 'data'
MODULES = ROOT / 'examples' / 'modules'
ASSEMBLER = 'wasm-tools parse {wat} -o {wasm}'
SAME = 'the same module'
OTHER = 'another module'


def texts_of(paths):
    """Texts of valid modules, by their names."""
    texts = {path.name: path.read_bytes() for path in sorted(MODULES.glob('*.text'))}
    for path in paths:
        for row in rows_of(path.read_text()):
            if row.words[1:2] == ['asm'] and not row.status and not row.fails:
                texts[f'{path.stem}: {row.name}'] = row.files[row.words[2]]
    return texts


def outcome(text, assembler, folder):
    """What comes of a text: the same module, another one, or why the assembler refuses it."""
    wat, wasm = folder / 'x.wat', folder / 'x.wasm'
    wat.write_text(module(text.decode('latin-1')))
    wasm.unlink(missing_ok=True)
    call = subprocess.run(
        assembler.format(wat=wat, wasm=wasm), shell=True, capture_output=True, encoding='utf-8', errors='replace')
    if call.returncode or not wasm.is_file():
        return refusal(call.stderr)
    try:
        made = decode(wasm.read_bytes())
    except Malformed as fault:
        return f'malformed, wanted: {fault.wanted}'
    return SAME if flat(made) == flat(module_of(text)) else OTHER


def refusal(said):
    """The first line of what is said that tells a reason, without numbers and places."""
    lines = [line for line in said.splitlines() if line.strip()] or ['']
    reason = next((line for line in lines if 'error' in line.lower()), lines[0])
    return f'refused: {re.sub("[0-9]+", "N", re.sub("[^ ]*/x[.]wa[^ ]*", "", reason)).strip()}'


def main():
    """Try all texts, print how many come to what, and give the status."""
    parser = argparse.ArgumentParser(description='Try what wat.py writes with an assembler from outside.')
    parser.add_argument('--assembler', default=ASSEMBLER, help='a command with {wat} and {wasm} for the files')
    parser.add_argument('--rows', nargs='+', type=Path, default=sorted(ROWS.glob('text*.rows')), help='files of rows')
    parser.add_argument('--names', action='store_true', help='name the texts that do not come to the same module')
    arguments = parser.parse_args()
    texts, counts = texts_of(arguments.rows), Counter()
    with tempfile.TemporaryDirectory() as folder:
        for name, text in texts.items():
            came_to = outcome(text, arguments.assembler, Path(folder))
            counts[came_to] += 1
            if arguments.names and came_to != SAME:
                print(f'{name}: {came_to}')
    print(f'{len(texts)} texts')
    for came_to, count in counts.most_common():
        print(f'{count} {came_to}')
    return 0 if counts[SAME] == len(texts) else 1


if __name__ == '__main__':
    sys.exit(main())
