"""Modules of types and of imports."""

from assembler.modules import as_func, as_global, as_memory, as_table, as_tag, imported, module
from assembler.types import CONTREF, FUNCREF, I32, I64, conttype, functype, limits, nullable, rec_group, ref
from rows.samples import EMPTY_FUNC, MODULE_TYPES
from rows.sections import ModuleSection, VALID
from surroundings import OUT_OF_RANGE

SECTION = ModuleSection('types_and_imports')
INVALID_TYPE = 'invalid type 0'
INVALID_IMPORT = 'invalid import 0'

# Types.


def types_row(name, answer, *types):
    """A module of these types."""
    SECTION.row(f'types/{name}', answer, module(types=types))


types_row('function', VALID, functype([I32], [I32]))
types_row('reference-to-itself', VALID, functype([nullable(0)], [ref(0)]))
types_row('reference-to-the-next', INVALID_TYPE, functype([nullable(1)], []), EMPTY_FUNC)
types_row('result-that-is-the-next', INVALID_TYPE, functype([], [ref(1)]), EMPTY_FUNC)
types_row('reference-to-the-next-of-its-group', VALID, rec_group([functype([nullable(1)], []), EMPTY_FUNC]))
types_row('reference-past-its-group', 'invalid type 1', rec_group([EMPTY_FUNC, functype([nullable(2)], [])]),
          EMPTY_FUNC)
types_row('reference-far-out', INVALID_TYPE, functype([nullable(OUT_OF_RANGE)], []))
types_row('continuation', VALID, EMPTY_FUNC, conttype(0))
types_row('continuation-of-itself', INVALID_TYPE, conttype(0))
types_row('continuation-of-the-next', INVALID_TYPE, conttype(1), EMPTY_FUNC)
types_row('continuation-of-the-next-of-its-group', VALID, rec_group([conttype(1), EMPTY_FUNC]))
types_row('continuation-of-a-continuation', 'invalid type 2', EMPTY_FUNC, conttype(0), conttype(1))
types_row('continuation-of-a-continuation-of-its-group', INVALID_TYPE,
          rec_group([conttype(1), conttype(2), EMPTY_FUNC]))
types_row('continuation-out-of-range', INVALID_TYPE, conttype(5))
types_row('empty-group', VALID, rec_group([]))
types_row('empty-group-in-front', INVALID_TYPE, rec_group([]), functype([nullable(1)], []))
types_row('function-and-its-continuation', VALID, rec_group([functype([], [ref(1)]), conttype(0)]))
types_row('two-fail', 'invalid type 1', EMPTY_FUNC, functype([nullable(7)], []), functype([nullable(8)], []))
types_row('two-of-a-group-fail', 'invalid type 1', rec_group([EMPTY_FUNC, conttype(1), conttype(2)]))
types_row('equal-ones', VALID, EMPTY_FUNC, EMPTY_FUNC, conttype(0), conttype(1))


# Imports.


def imports_row(name, answer, *imports, **sections):
    """A module of these imports."""
    SECTION.row(f'imports/{name}', answer, module(types=MODULE_TYPES[:2], imports=imports, **sections))


imports_row('function', VALID, imported(as_func(0)))
imports_row('function-of-a-continuation-type', INVALID_IMPORT, imported(as_func(1)))
imports_row('function-out-of-range', INVALID_IMPORT, imported(as_func(2)))
imports_row('table', VALID, imported(as_table(FUNCREF, limits(0))))
imports_row('table-of-continuations', VALID, imported(as_table(nullable(1), limits(0, 0))))
imports_row('table-not-null', VALID, imported(as_table(ref(0), limits(3))))
imports_row('table-out-of-range', INVALID_IMPORT, imported(as_table(nullable(2), limits(0))))
imports_row('table-greatest', VALID, imported(as_table(FUNCREF, limits(2 ** 32 - 1, 2 ** 32 - 1))))
imports_row('table-too-great', INVALID_IMPORT, imported(as_table(FUNCREF, limits(2 ** 32))))
imports_row('table-maximum-too-great', INVALID_IMPORT, imported(as_table(FUNCREF, limits(0, 2 ** 32))))
imports_row('table-minimum-above-the-maximum', INVALID_IMPORT, imported(as_table(FUNCREF, limits(2, 1))))
imports_row('memory', VALID, imported(as_memory(limits(0))))
imports_row('memory-greatest', VALID, imported(as_memory(limits(65536, 65536))))
imports_row('memory-too-great', INVALID_IMPORT, imported(as_memory(limits(65537))))
imports_row('memory-maximum-too-great', INVALID_IMPORT, imported(as_memory(limits(0, 65537))))
imports_row('memory-minimum-above-the-maximum', INVALID_IMPORT, imported(as_memory(limits(2, 1))))
imports_row('two-memories', 'invalid memory', imported(as_memory(limits(0))), imported(as_memory(limits(0)), 'y'))
imports_row('memory-beside-its-own', 'invalid memory', imported(as_memory(limits(0))), memories=[limits(0)])
imports_row('global', VALID, imported(as_global(I32)))
imports_row('global-variable', VALID, imported(as_global(ref(1), mutable=True)))
imports_row('global-out-of-range', INVALID_IMPORT, imported(as_global(nullable(2))))
imports_row('tag', VALID, imported(as_tag(0)))
imports_row('tag-of-a-continuation-type', INVALID_IMPORT, imported(as_tag(1)))
imports_row('tag-out-of-range', INVALID_IMPORT, imported(as_tag(2)))
imports_row('of-one-name', VALID, imported(as_func(0)), imported(as_func(0)))
imports_row('two-fail', 'invalid import 1', imported(as_func(0)), imported(as_func(1)), imported(as_tag(1)))
imports_row('of-each-kind', VALID, imported(as_func(0)), imported(as_table(CONTREF, limits(1))),
            imported(as_memory(limits(1))), imported(as_global(I64, mutable=True)), imported(as_tag(0)))
