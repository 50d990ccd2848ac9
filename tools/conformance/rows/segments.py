"""Modules of element segments and of data segments, and what declares functions."""

from assembler.instructions import (
    DROP, I32_ADD, I32_DIV_S, I32_MUL, NOP, block, call, cont_new, global_get, i32_const, i64_const, ref_func, ref_null)
from assembler.modules import as_memory, as_table, code, export, global_, imported, module, table
from assembler.segments import (
    active_data, active_data_in, active_expressions, active_expressions_in, active_functions, active_functions_in,
    declared_expressions, declared_functions, passive_data, passive_expressions, passive_functions)
from assembler.types import CONTREF, FUNC, FUNCREF, I32, NOCONT, limits, nullable, ref
from rows.samples import EMPTY_FUNC, MODULE_FUNCTIONS, MODULE_TYPES
from rows.sections import ModuleSection, VALID

SECTION = ModuleSection('segments')
INVALID_ELEMENT = 'invalid element 0'
INVALID_DATA = 'invalid data 0'


# Element segments.


def elements_row(name, answer, *elements, **sections):
    """A module of these element segments, and of tables of funcref, contref and type 2, where no others are given."""
    tables = [table(FUNCREF, limits(9)), table(CONTREF, limits(9)), table(nullable(2), limits(9))]
    given = MODULE_FUNCTIONS | {'tables': tables}
    SECTION.row(f'elements/{name}', answer, module(types=MODULE_TYPES, elements=elements, **given | sections))


elements_row('active-functions', VALID, active_functions([0, 1]))
elements_row('passive-functions', VALID, passive_functions([0, 1]))
elements_row('active-functions-in-a-table', VALID, active_functions_in(0, [0]))
elements_row('declarative-functions', VALID, declared_functions([1]))
elements_row('active-expressions', VALID, active_expressions([ref_func(0), ref_null(FUNC)]))
elements_row('passive-expressions', VALID, passive_expressions(nullable(2), [ref_func(1)]))
elements_row('active-expressions-in-a-table', VALID, active_expressions_in(1, CONTREF, [ref_null(NOCONT)]))
elements_row('declarative-expressions', VALID, declared_expressions(ref(0), [ref_func(0)]))
elements_row('none', VALID, active_functions([]))
elements_row('none-of-a-type', VALID, passive_expressions(ref(1), []))
elements_row('active-function-out-of-range', INVALID_ELEMENT, active_functions([2]))
elements_row('passive-function-out-of-range', INVALID_ELEMENT, passive_functions([0, 2]))
elements_row('declarative-function-out-of-range', INVALID_ELEMENT, declared_functions([9]))
elements_row('functions-in-a-table-of-continuations', INVALID_ELEMENT, active_functions_in(1, []))
elements_row('functions-in-a-table-of-one-type', INVALID_ELEMENT, active_functions_in(2, [1]))
elements_row('one-type-in-its-table', VALID, active_expressions_in(2, ref(2), [ref_func(1)]))
elements_row('other-type-in-the-table', INVALID_ELEMENT, active_expressions_in(2, ref(0), []))
elements_row('one-type-in-funcref', VALID, active_expressions_in(0, nullable(0), []))
elements_row('continuations-in-funcref', INVALID_ELEMENT, active_expressions_in(0, CONTREF, []))
elements_row('nullable-in-a-table-not-null', INVALID_ELEMENT, active_expressions_in(0, nullable(0), []),
             tables=[table(ref(0), limits(1), ref_func(0))])
elements_row('functions-in-a-table-of-non-null-functions', VALID, active_functions_in(0, [1]),
             tables=[table(ref(FUNC), limits(1), ref_func(0))])
elements_row('expressions-in-a-table-not-null', INVALID_ELEMENT, active_expressions([]),
             tables=[table(ref(FUNC), limits(1), ref_func(0))])
elements_row('table-out-of-range', INVALID_ELEMENT, active_functions_in(3, []))
elements_row('no-table', INVALID_ELEMENT, active_functions([]), tables=[])
elements_row('passive-without-a-table', VALID, passive_functions([0]), tables=[])
elements_row('imported-table', VALID, active_functions([0]), tables=[],
             imports=[imported(as_table(FUNCREF, limits(0)))])
elements_row('offset-i64', INVALID_ELEMENT, active_functions([], i64_const(0)))
elements_row('offset-of-none', INVALID_ELEMENT, active_functions([], b''))
elements_row('offset-of-two', INVALID_ELEMENT, active_functions([], i32_const(0) * 2))
elements_row('offset-not-constant', INVALID_ELEMENT, active_functions([], i32_const(0) + NOP))
elements_row('offset-a-block', INVALID_ELEMENT, active_functions([], block(I32, i32_const(0))))
elements_row('offset-a-sum', VALID, active_functions([], i32_const(1) + i32_const(2) + I32_ADD))
elements_row('offset-a-quotient', INVALID_ELEMENT, active_functions([], i32_const(1) + i32_const(2) + I32_DIV_S))
elements_row('offset-a-reference', INVALID_ELEMENT, active_functions([], ref_null(FUNC)))
elements_row('offset-a-global', VALID, active_functions([], global_get(0)), globals=[global_(I32, i32_const(0))])
elements_row('offset-a-variable', INVALID_ELEMENT, active_functions([], global_get(0)),
             globals=[global_(I32, i32_const(0), mutable=True)])
elements_row('offset-a-global-out-of-range', INVALID_ELEMENT, active_functions([], global_get(0)))
elements_row('item-of-other-type', INVALID_ELEMENT, passive_expressions(nullable(2), [ref_func(0)]))
elements_row('item-null-of-not-null', INVALID_ELEMENT, passive_expressions(ref(2), [ref_null(2)]))
elements_row('item-i32', INVALID_ELEMENT, passive_expressions(FUNCREF, [i32_const(0)]))
elements_row('item-of-none', INVALID_ELEMENT, passive_expressions(FUNCREF, [b'']))
elements_row('item-of-two', INVALID_ELEMENT, passive_expressions(FUNCREF, [ref_null(FUNC) * 2]))
elements_row('item-not-constant', INVALID_ELEMENT, passive_expressions(FUNCREF, [ref_null(FUNC), ref_null(FUNC) + NOP]))
elements_row('item-a-global', VALID, passive_expressions(FUNCREF, [global_get(0)]),
             globals=[global_(ref(0), ref_func(0))])
elements_row('item-a-variable', INVALID_ELEMENT, passive_expressions(FUNCREF, [global_get(0)]),
             globals=[global_(ref(0), ref_func(0), mutable=True)])
elements_row('item-a-continuation', INVALID_ELEMENT, passive_expressions(CONTREF, [ref_func(0) + cont_new(1)]))
elements_row('item-null-of-a-type-out-of-range', INVALID_ELEMENT, passive_expressions(FUNCREF, [ref_null(3)]))
elements_row('item-a-function-out-of-range', INVALID_ELEMENT, passive_expressions(FUNCREF, [ref_func(2)]))
elements_row('item-a-block', INVALID_ELEMENT, passive_expressions(FUNCREF, [block(FUNCREF, ref_func(0))]))
elements_row('items-of-each-form', VALID,
             passive_expressions(FUNCREF, [ref_func(1), ref_null(FUNC), global_get(0), ref_null(2), ref_func(0)]),
             globals=[global_(ref(0), ref_func(0))])
elements_row('items-of-each-form-and-one-that-does-not-fit', INVALID_ELEMENT,
             passive_expressions(ref(FUNC), [ref_func(1), global_get(0), ref_func(0), ref_null(FUNC)]),
             globals=[global_(ref(0), ref_func(0))])
elements_row('type-out-of-range', INVALID_ELEMENT, passive_expressions(nullable(3), []))
elements_row('declarative-type-out-of-range', INVALID_ELEMENT, declared_expressions(ref(3), []))
elements_row('two-fail', 'invalid element 1', passive_functions([0]), active_functions([], b''), passive_functions([7]))


# What declares a function, which a body may then refer to.


def declares_row(name, answer, **sections):
    """A module of a function that refers to itself, and of these sections."""
    SECTION.row(
        f'elements/{name}', answer,
        module(types=[EMPTY_FUNC], functions=[0], codes=[code(ref_func(0) + DROP)], **sections))


for flag, elements in enumerate([
        active_functions([0]), passive_functions([0]), active_functions_in(0, [0]), declared_functions([0]),
        active_expressions([ref_func(0)]), passive_expressions(FUNCREF, [ref_func(0)]),
        active_expressions_in(0, FUNCREF, [ref_func(0)]), declared_expressions(FUNCREF, [ref_func(0)])]):
    declares_row(f'declares-{flag}', VALID, tables=[table(FUNCREF, limits(1))], elements=[elements])
declares_row('function-alone-is-not-declared', 'invalid function 0', start=0)
SECTION.row('elements/body-declares-none', 'invalid function 0',
            module(types=[EMPTY_FUNC], functions=[0, 0], codes=[code(ref_func(1) + DROP), code(call(1))]))
declares_row('export-declares', VALID, exports=[export('f', 'func', 0)])
declares_row('export-of-a-global-declares-none', 'invalid function 0', globals=[global_(I32, i32_const(0))],
             exports=[export('f', 'global', 0)])
declares_row('global-declares', VALID, globals=[global_(FUNCREF, ref_func(0))])
declares_row('table-declares', VALID, tables=[table(FUNCREF, limits(1), ref_func(0))])


# Data segments.


def data_row(name, answer, *data, **sections):
    """A module of these data segments, and of a memory, where no others are given."""
    SECTION.row(f'data/{name}', answer, module(datas=data, **{'memories': [limits(1)]} | sections))


data_row('active', VALID, active_data('a'))
data_row('passive', VALID, passive_data(''))
data_row('active-in-memory', VALID, active_data_in(0, 'a'))
data_row('memory-out-of-range', INVALID_DATA, active_data_in(1, 'a'))
data_row('no-memory', INVALID_DATA, active_data('a'), memories=[])
data_row('passive-without-a-memory', VALID, passive_data('a'), memories=[])
data_row('imported-memory', VALID, active_data('a'), memories=[], imports=[imported(as_memory(limits(0)))])
data_row('offset-i64', INVALID_DATA, active_data('a', i64_const(0)))
data_row('offset-of-none', INVALID_DATA, active_data('a', b''))
data_row('offset-not-constant', INVALID_DATA, active_data('a', i32_const(0) + NOP))
data_row('offset-a-product', VALID, active_data('a', i32_const(3) * 2 + I32_MUL))
data_row('offset-a-global', VALID, active_data('a', global_get(0)), globals=[global_(I32, i32_const(0))])
data_row('offset-a-variable', INVALID_DATA, active_data('a', global_get(0)),
         globals=[global_(I32, i32_const(0), mutable=True)])
data_row('two-fail', 'invalid data 1', passive_data('a'), active_data('a', b''), active_data_in(3, 'a'))
data_row('counted', VALID, passive_data('a'), passive_data('b'), data_count=2)
