"""Instructions of the memory and of data segments."""

from assembler.instructions import (
    LOADS, STORES, UNREACHABLE, access, data_drop, i32_const, memory_copy, memory_fill, memory_grow, memory_init,
    memory_size)
from assembler.types import I32
from rows.sections import FunctionSection, local_gets

LOAD_ROWS = FunctionSection('loads')
STORE_ROWS = FunctionSection('stores')
MEMORY_AND_DATA = FunctionSection('memory_and_data')


def add_accesses(section, name, operands, results, width):
    """Rows of a load or a store, whose width in bytes has this exponent."""
    section.standard(name, access(name, width, 0), operands, results)
    gets = local_gets(len(operands))
    section.row(
        f'{name}/least-alignment-greatest-offset', '+', operands, results, gets + access(name, 0, 2 ** 32 - 1))
    section.row(f'{name}/alignment-above-the-width', '-', operands, results, gets + access(name, width + 1, 0))
    section.row(f'{name}/offset-of-33-bits', '-', operands, results, gets + access(name, width, 2 ** 32))
    section.row(f'{name}/unreached-alignment', '-', operands, results, UNREACHABLE + access(name, width + 1, 0))
    section.row(f'{name}/unreached-offset', '-', operands, results, UNREACHABLE + access(name, 0, 2 ** 64 - 1))


for name, (_, value_type, width) in LOADS.items():
    add_accesses(LOAD_ROWS, name, [I32], [value_type], width)
for name, (_, value_type, width) in STORES.items():
    add_accesses(STORE_ROWS, name, [I32, value_type], [], width)
LOAD_ROWS.row('i32.load/alignment-of-63', '-', [I32], [I32], local_gets(1) + access('i32.load', 63, 0))

# Memories and data segments.

MEMORY_AND_DATA.standard('memory.size', memory_size(0), [], [I32])
MEMORY_AND_DATA.standard('memory.grow', memory_grow(0), [I32], [I32])
MEMORY_AND_DATA.standard('memory.fill', memory_fill(0), [I32] * 3, [])
MEMORY_AND_DATA.standard('memory.copy', memory_copy(0, 0), [I32] * 3, [])
MEMORY_AND_DATA.standard('memory.init', memory_init(0, 0), [I32] * 3, [])
MEMORY_AND_DATA.standard('data.drop', data_drop(0), [], [])
MEMORY_AND_DATA.row('memory.init/active-segment', '+', [], [], i32_const(0) * 3 + memory_init(1, 0))
MEMORY_AND_DATA.row('data.drop/active-segment', '+', [], [], data_drop(1))
for name, instruction, count, results in [
        ('memory.size', memory_size(1), 0, [I32]), ('memory.grow', memory_grow(1), 1, [I32]),
        ('memory.fill', memory_fill(1), 3, []), ('memory.copy-to', memory_copy(1, 0), 3, []),
        ('memory.copy-from', memory_copy(0, 1), 3, []), ('memory.init-memory', memory_init(0, 1), 3, []),
        ('memory.init-segment', memory_init(2, 0), 3, []), ('data.drop', data_drop(2), 0, []),
        ('memory.init-greatest', memory_init(2 ** 32 - 1, 0), 3, [])]:
    MEMORY_AND_DATA.row(f'{name}/out-of-range', '-', [I32] * count, results, local_gets(count) + instruction)
    MEMORY_AND_DATA.row(f'{name}/unreached-out-of-range', '-', [I32] * count, results, UNREACHABLE + instruction)
