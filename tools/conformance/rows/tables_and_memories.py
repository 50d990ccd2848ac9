"""Modules of tables, of memories and of tags."""

from assembler.instructions import NOP, global_get, i32_const, ref_func, ref_null
from assembler.modules import as_global, as_table, as_tag, code, global_, imported, module, table
from assembler.types import (
    CONT, CONTREF, FUNC, FUNCREF, I32, I64, NOFUNC, NULLCONTREF, NULLFUNCREF, functype, limits, nullable, ref)
from rows.samples import MODULE_TYPES
from rows.sections import ModuleSection, VALID

SECTION = ModuleSection('tables_and_memories')
INVALID_TABLE = 'invalid table 0'
INVALID_MEMORY = 'invalid memory'
INVALID_TAG = 'invalid tag 0'

# Tables.


def tables_row(name, answer, *tables, **sections):
    """A module of these tables."""
    SECTION.row(f'tables/{name}', answer, module(types=MODULE_TYPES[:2], tables=tables, **sections))


ONE_FUNCTION = {'functions': [0], 'codes': [code(b'')]}
tables_row('funcref', VALID, table(FUNCREF, limits(0)))
for name, ref_type in [
        ('nullfuncref', NULLFUNCREF), ('contref', CONTREF), ('nullcontref', NULLCONTREF), ('function', nullable(0)),
        ('continuation', nullable(1))]:
    tables_row(name, VALID, table(ref_type, limits(1, 2)))
for name, heap in [('func', FUNC), ('nofunc', NOFUNC), ('cont', CONT), ('function', 0), ('continuation', 1)]:
    tables_row(f'not-null-{name}-without-a-value', INVALID_TABLE, table(ref(heap), limits(0)))
tables_row('out-of-range', INVALID_TABLE, table(nullable(2), limits(0)))
tables_row('greatest', VALID, table(FUNCREF, limits(2 ** 32 - 1)))
tables_row('too-great', INVALID_TABLE, table(FUNCREF, limits(2 ** 32)))
tables_row('greatest-maximum', VALID, table(FUNCREF, limits(0, 2 ** 32 - 1)))
tables_row('maximum-too-great', INVALID_TABLE, table(FUNCREF, limits(0, 2 ** 32)))
tables_row('minimum-above-the-maximum', INVALID_TABLE, table(FUNCREF, limits(1, 0)))
tables_row('minimum-is-the-maximum', VALID, table(FUNCREF, limits(7, 7)))
tables_row('greatest-of-64-bits', INVALID_TABLE, table(FUNCREF, limits(2 ** 64 - 1)))
tables_row('value-of-null', VALID, table(FUNCREF, limits(0), ref_null(FUNC)))
tables_row('value-of-a-function', VALID, table(ref(0), limits(3), ref_func(0)), **ONE_FUNCTION)
tables_row('value-for-funcref', VALID, table(FUNCREF, limits(3), ref_func(0)), **ONE_FUNCTION)
tables_row('value-of-null-for-not-null', INVALID_TABLE, table(ref(0), limits(0), ref_null(0)))
tables_row('value-of-another-type', INVALID_TABLE, table(FUNCREF, limits(0), ref_null(CONT)))
tables_row('value-i32', INVALID_TABLE, table(FUNCREF, limits(0), i32_const(0)))
tables_row('value-of-none', INVALID_TABLE, table(FUNCREF, limits(0), b''))
tables_row('two-values', INVALID_TABLE, table(FUNCREF, limits(0), ref_null(FUNC) * 2))
tables_row('value-not-constant', INVALID_TABLE, table(FUNCREF, limits(0), ref_null(FUNC) + NOP))
tables_row('value-out-of-range', INVALID_TABLE, table(FUNCREF, limits(0), ref_func(0)))
tables_row('value-of-an-imported-global', VALID, table(ref(0), limits(0), global_get(0)),
           imports=[imported(as_global(ref(0)))])
tables_row('value-of-a-variable', INVALID_TABLE, table(FUNCREF, limits(0), global_get(0)),
           imports=[imported(as_global(FUNCREF, mutable=True))])
tables_row('value-of-a-global-of-the-module', VALID, table(FUNCREF, limits(0), global_get(0)),
           globals=[global_(FUNCREF, ref_null(FUNC))])
tables_row('two-fail', 'invalid table 1', table(FUNCREF, limits(0)), table(ref(0), limits(0)),
           table(FUNCREF, limits(1, 0)))
tables_row('many', VALID, *[table(FUNCREF, limits(0))] * 200)
tables_row('after-imported-ones', INVALID_TABLE, table(ref(0), limits(0)),
           imports=[imported(as_table(FUNCREF, limits(0)))])

# Memories.


def memories_row(name, answer, *memories):
    """A module of these memories."""
    SECTION.row(f'memories/{name}', answer, module(memories=memories))


memories_row('one', VALID, limits(0))
memories_row('none', VALID)
memories_row('greatest', VALID, limits(65536))
memories_row('too-great', INVALID_MEMORY, limits(65537))
memories_row('greatest-maximum', VALID, limits(0, 65536))
memories_row('maximum-too-great', INVALID_MEMORY, limits(0, 65537))
memories_row('minimum-above-the-maximum', INVALID_MEMORY, limits(2, 1))
memories_row('minimum-is-the-maximum', VALID, limits(2, 2))
memories_row('of-2^32', INVALID_MEMORY, limits(2 ** 32))
memories_row('maximum-of-2^32', INVALID_MEMORY, limits(0, 2 ** 32))
memories_row('maximum-of-64-bits', INVALID_MEMORY, limits(0, 2 ** 64 - 1))
memories_row('two', INVALID_MEMORY, limits(0), limits(0))


# Tags.


def tags_row(name, answer, *tags, **sections):
    """A module of tags of these types."""
    types = [*MODULE_TYPES[:2], functype([I32], [I64])]
    SECTION.row(f'tags/{name}', answer, module(types=types, tags=tags, **sections))


tags_row('empty', VALID, 0)
tags_row('parameters-and-results', VALID, 2)
tags_row('continuation-type', INVALID_TAG, 1)
tags_row('out-of-range', INVALID_TAG, 3)
tags_row('two-fail', 'invalid tag 1', 0, 1, 3)
tags_row('after-imported-ones', INVALID_TAG, 1, imports=[imported(as_tag(0))])
