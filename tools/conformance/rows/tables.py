"""Instructions of tables and of element segments."""

from assembler.instructions import (
    UNREACHABLE, elem_drop, i32_const, table_copy, table_fill, table_get, table_grow, table_init, table_set, table_size)
from assembler.types import FUNCREF, I32, nullable, ref
from rows.sections import FunctionSection, local_gets
from surroundings import ELEMENT_NAMES, FUNC_EMPTY, FUNC_I32, FUNC_I64, SAME_FUNC_I32, TABLES, TABLE_NAMES

SECTION = FunctionSection('tables')
row = SECTION.row
standard = SECTION.standard

# Tables.

for table, (name, ref_type) in enumerate(zip(TABLE_NAMES, TABLES, strict=True)):
    standard(f'table.get/{name}', table_get(table), [I32], [ref_type])
    standard(f'table.set/{name}', table_set(table), [I32, ref_type], [])
    standard(f'table.grow/{name}', table_grow(table), [ref_type, I32], [I32])
    standard(f'table.fill/{name}', table_fill(table), [I32, ref_type, I32], [], wrong_operands=[1])
standard('table.size', table_size(2), [], [I32])
standard('table.init', table_init(0, 0), [I32] * 3, [])
standard('table.copy', table_copy(0, 1), [I32] * 3, [])
standard('elem.drop', elem_drop(5), [], [])

# The tables that may be copied, as destination and source.
COPIED = {(0, 0), (0, 1), (0, 3), (0, 4), (1, 1), (1, 3), (2, 2), (3, 3), (4, 4)}
for destination, destination_name in enumerate(TABLE_NAMES):
    for source, source_name in enumerate(TABLE_NAMES):
        names = f'{destination_name}-from-{source_name}'
        instruction = table_copy(destination, source)
        if (destination, source) in COPIED:
            row(f'table.copy/{names}', '+', [], [], i32_const(0) * 3 + instruction)
        else:
            row(f'table.copy/{names}', '-', [], [], i32_const(0) * 3 + instruction)
            row(f'table.copy/unreached-{names}', '-', [], [], UNREACHABLE + instruction)

# The segments that a table may be filled from, as segment and table.
FILLED = {(0, 0), (1, 0), (2, 0), (3, 0), (3, 1), (4, 2), (5, 0), (5, 1), (5, 3)}
for segment, segment_name in enumerate(ELEMENT_NAMES):
    for table, table_name in enumerate(TABLE_NAMES):
        mark = '+' if (segment, table) in FILLED else '-'
        row(f'table.init/{table_name}-from-{segment_name}', mark, [], [], i32_const(0) * 3 + table_init(segment, table))

for name, instruction, operands, results in [
        ('table.get', table_get(5), [I32], [FUNCREF]), ('table.set', table_set(5), [I32, FUNCREF], []),
        ('table.grow', table_grow(5), [FUNCREF, I32], [I32]), ('table.fill', table_fill(5), [I32, FUNCREF, I32], []),
        ('table.size', table_size(5), [], [I32]), ('table.init-segment', table_init(6, 0), [I32] * 3, []),
        ('table.init-table', table_init(0, 5), [I32] * 3, []), ('table.copy-to', table_copy(5, 0), [I32] * 3, []),
        ('table.copy-from', table_copy(0, 5), [I32] * 3, []), ('elem.drop', elem_drop(6), [], [])]:
    row(f'{name}/out-of-range', '-', operands, results, local_gets(len(operands)) + instruction)
    row(f'{name}/unreached-out-of-range', '-', operands, results, UNREACHABLE + instruction)

row('table.set/subtype', '+', [I32, ref(FUNC_I32)], [], local_gets(2) + table_set(0))
row('table.set/supertype', '-', [I32, FUNCREF], [], local_gets(2) + table_set(1))
row('table.set/equivalent', '+', [I32, nullable(SAME_FUNC_I32)], [], local_gets(2) + table_set(1))
row('table.set/other-function-type', '-', [I32, nullable(FUNC_I64)], [], local_gets(2) + table_set(1))
row('table.set/null-in-not-null', '-', [I32, nullable(FUNC_EMPTY)], [], local_gets(2) + table_set(4))
row('table.get/not-null-as-nullable', '+', [I32], [FUNCREF], local_gets(1) + table_get(4))
