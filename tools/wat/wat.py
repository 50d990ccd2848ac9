#!/usr/bin/env python3
"""Writes a module that is given as text in the text format of WebAssembly, with the proposal of stack switching."""

import sys
from pathlib import Path

from items import module
from lines import Unread

USAGE = 'usage: wat.py FILE.text'


def main(words):
    """Write what the one file named is, and give the status."""
    if len(words) != 1:
        print(USAGE, file=sys.stderr)
        return 2
    try:
        told = module(Path(words[0]).read_bytes().decode('latin-1'))
    except OSError as fault:
        print(f'{words[0]}: {fault.strerror}', file=sys.stderr)
        return 1
    except Unread as fault:
        print(fault, file=sys.stderr)
        return 1
    sys.stdout.write(told)
    return 0


if __name__ == '__main__':
    sys.exit(main(sys.argv[1:]))
