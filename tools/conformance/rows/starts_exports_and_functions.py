"""Modules of starts, of exports and of functions."""

from assembler.instructions import DROP, I64_EQZ, UNREACHABLE, i32_const, local_get
from assembler.modules import (
    as_func, as_global, as_memory, as_table, as_tag, code, export, global_, imported, module, table)
from assembler.types import FUNCREF, I32, I64, conttype, functype, limits, nullable, ref
from rows.samples import EMPTY_FUNC, MODULE_TYPES
from rows.sections import ModuleSection, VALID

SECTION = ModuleSection('starts_exports_and_functions')
INVALID_START = 'invalid start'
INVALID_EXPORT = 'invalid export 0'
INVALID_FUNCTION = 'invalid function 0'


# Starts.


def start_row(name, answer, start, **sections):
    """A module with this start, and with functions of types 0, 1 and 2, where no others are given."""
    types = [EMPTY_FUNC, functype([I32], []), functype([], [I32]), conttype(0)]
    given = {'functions': [0, 1, 2], 'codes': [code(b''), code(b''), code(i32_const(0))]}
    SECTION.row(f'start/{name}', answer, module(types=types, start=start, **given | sections))


start_row('function', VALID, 0)
start_row('parameters', INVALID_START, 1)
start_row('results', INVALID_START, 2)
start_row('out-of-range', INVALID_START, 3)
start_row('import', VALID, 0, functions=[], codes=[], imports=[imported(as_func(0))])
start_row('import-with-parameters', INVALID_START, 0, imports=[imported(as_func(1))])
start_row('first-of-the-module', VALID, 1, imports=[imported(as_func(1))])


# Exports.


def exports_row(name, answer, *exports, **sections):
    """A module of these exports, each given by name, kind and index, and of one thing of each kind, where no others are
    given.
    """
    given = {
        'types': [EMPTY_FUNC], 'functions': [0], 'tables': [table(FUNCREF, limits(0))], 'memories': [limits(0)],
        'tags': [0], 'globals': [global_(I32, i32_const(0))], 'codes': [code(b'')]}
    entries = [export(*entry) for entry in exports]
    SECTION.row(f'exports/{name}', answer, module(exports=entries, **given | sections))


for name, kind, extern_type in [
        ('function', 'func', as_func(0)), ('table', 'table', as_table(FUNCREF, limits(0))),
        ('memory', 'memory', as_memory(limits(0))), ('global', 'global', as_global(I32)), ('tag', 'tag', as_tag(0))]:
    exports_row(name, VALID, ('a', kind, 0))
    exports_row(f'{name}-out-of-range', INVALID_EXPORT, ('a', kind, 1))
    if kind == 'memory':    # of which there is one at most
        exports_row('memory-imported', VALID, ('a', kind, 0), imports=[imported(extern_type)], memories=[])
    else:
        exports_row(f'{name}-behind-an-import', VALID, ('a', kind, 1), imports=[imported(extern_type)])
exports_row('one-name-twice', 'invalid export 1', ('a', 'func', 0), ('a', 'func', 0))
exports_row('one-name-of-two-kinds', 'invalid export 2', ('a', 'func', 0), ('b', 'table', 0), ('a', 'memory', 0))
exports_row('one-thing-of-two-names', VALID, ('a', 'func', 0), ('b', 'func', 0))
exports_row('empty-name', VALID, ('', 'func', 0))
exports_row('empty-name-twice', 'invalid export 1', ('', 'func', 0), ('', 'table', 0))
exports_row('longer-name', VALID, ('a', 'func', 0), ('aa', 'func', 0))
exports_row('two-pairs', 'invalid export 2', ('a', 'func', 0), ('b', 'func', 0), ('b', 'table', 0), ('a', 'table', 0))
exports_row('two-fail', 'invalid export 1', ('a', 'func', 0), ('b', 'func', 9), ('a', 'func', 0))
exports_row('doubled-before-one-out-of-range', 'invalid export 1', ('a', 'func', 0), ('a', 'func', 0), ('b', 'func', 9))
exports_row('name-of-one-that-fails', INVALID_EXPORT, ('a', 'func', 9), ('a', 'func', 0))
exports_row('other-letters', VALID, ('main', 'func', 0), ('Main', 'func', 0))


# Functions.


def functions_row(name, answer, functions, codes, **sections):
    """A module of functions of these types and codes."""
    SECTION.row(
        f'functions/{name}', answer, module(types=MODULE_TYPES, functions=functions, codes=codes, **sections))


functions_row('one', VALID, [0], [code(b'')])
functions_row('continuation-type', INVALID_FUNCTION, [1], [code(b'')])
functions_row('unreachable-of-continuation-type', INVALID_FUNCTION, [1], [code(UNREACHABLE)])
functions_row('out-of-range', 'invalid function 1', [0, 3], [code(b''), code(UNREACHABLE)])
functions_row('local-out-of-range', INVALID_FUNCTION, [0], [code(b'', [(1, nullable(3))])])
functions_row('local-of-the-last-type', VALID, [0], [code(b'', [(1, nullable(2))])])
functions_row('two-fail', 'invalid function 1', [0, 0, 0], [code(b''), code(i32_const(0)), code(DROP)])
functions_row('result-missing', INVALID_FUNCTION, [2], [code(b'')])
functions_row('local-out-of-range-unreached', INVALID_FUNCTION, [0], [code(UNREACHABLE, [(3, ref(9))])])
functions_row('imports-are-not-counted', INVALID_FUNCTION, [0], [code(DROP)],
              imports=[imported(as_func(0)), imported(as_func(0))])
functions_row('locals-of-many-runs', VALID, [0],
              [code(local_get(5) + I64_EQZ + DROP, [(2, I32), (0, I64), (3, FUNCREF), (1, I64)])])
