"""Shows whether each line of the typing table has rows.

A line wants rows of functions that are valid and that are not, in code that is reached and in code that is not. A row
counts for each instruction in its body, and as not reached where its name tells so.
"""

from collections import defaultdict
from itertools import product

from reader.byte_source import ByteSource
from reader.instructions import BLOCKS, PLAIN, PREFIXED, all_instructions
from reader.module_decoding import read_code
from rows import FILES
from rows.sections import FunctionSection

WANTED = set(product(['accepted', 'refused'], ['reached', 'unreached']))


def table_lines():
    """The lines of the table: the instructions, an if with and without else, and the handlers of resume."""
    instructions = [name for name, *_ in [*PLAIN.values(), *PREFIXED.values()]]
    return [*BLOCKS.values(), 'if', 'if with else', *instructions, 'handler on', 'handler switch']


def _lines_of(instruction):
    """The lines of the table to which an instruction belongs."""
    if instruction.name == 'if' and instruction.immediates[-1] is not None:
        return ['if with else']
    if instruction.name == 'resume':
        return ['resume', *(f'handler {kind}' for kind, *_ in instruction.immediates[-1])]
    return [instruction.name]


def lacking_lines():
    """The lines of the table that lack a row, each with what is lacking."""
    shown = defaultdict(set)
    for section in (section for row_file in FILES for section in row_file.sections):
        if isinstance(section, FunctionSection):
            for row in section.rows:
                accepted = 'accepted' if row.mark == '+' else 'refused'
                way = (accepted, 'unreached' if 'unreached' in row.name else 'reached')
                for instruction in all_instructions(read_code(ByteSource(row.code)).body):
                    for line in _lines_of(instruction):
                        shown[line].add(way)
    return {line: sorted(WANTED - shown[line]) for line in table_lines() if WANTED - shown[line]}
