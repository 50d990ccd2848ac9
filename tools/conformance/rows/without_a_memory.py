"""Instructions that want a memory, where there is none."""

from assembler.instructions import (
    DROP, LOADS, STORES, UNREACHABLE, access, data_drop, i32_const, local_get, memory_copy, memory_fill, memory_grow,
    memory_init, memory_size)
from assembler.modules import as_memory, code, imported, module
from assembler.segments import passive_data
from assembler.types import I32, functype, limits
from rows.sections import ModuleSection, VALID, local_gets

SECTION = ModuleSection('without_a_memory')
INVALID = 'invalid function 0'


def row(name, answer, body, parameters=(), **sections):
    """A module with one function of these parameters and instructions, and these further sections."""
    SECTION.row(
        name, answer, module(types=[functype(parameters, [])], functions=[0], codes=[code(body)], **sections))


for name, (_, _, width) in LOADS.items():
    row(f'{name}/no-memory', INVALID, local_get(0) + access(name, width, 0) + DROP, [I32])
    row(f'{name}/unreached-no-memory', INVALID, UNREACHABLE + access(name, width, 0))
for name, (_, value_type, width) in STORES.items():
    row(f'{name}/no-memory', INVALID, local_gets(2) + access(name, width, 0), [I32, value_type])
    row(f'{name}/unreached-no-memory', INVALID, UNREACHABLE + access(name, width, 0))
for name, instruction, count in [
        ('memory.size', memory_size(0), 0), ('memory.grow', memory_grow(0), 1), ('memory.fill', memory_fill(0), 3),
        ('memory.copy', memory_copy(0, 0), 3)]:
    row(f'{name}/no-memory', INVALID, i32_const(0) * count + instruction + UNREACHABLE)
    row(f'{name}/unreached-no-memory', INVALID, UNREACHABLE + instruction + UNREACHABLE)

SEGMENT = {'data_count': 1, 'datas': [passive_data('a')]}
row('memory.init/no-memory', INVALID, i32_const(0) * 3 + memory_init(0, 0), **SEGMENT)
row('memory.init/unreached-no-memory', INVALID, UNREACHABLE + memory_init(0, 0), **SEGMENT)
row('data.drop/needs-none', VALID, data_drop(0), **SEGMENT)

LOAD = i32_const(0) + access('i32.load', 2, 0) + DROP
row('i32.load/imported-memory', VALID, LOAD, imports=[imported(as_memory(limits(0)))])
row('i32.load/own-memory', VALID, LOAD, memories=[limits(0)])
