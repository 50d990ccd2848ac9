"""Modules of globals, and what a constant expression may have."""

from assembler.instructions import (
    DROP, I32_ADD, I32_EXTEND8_S, I32_MUL, I32_WRAP_I64, I64_EXTEND_I32_S, NOP, OTHER_BINARY, REF_AS_NON_NULL,
    REF_IS_NULL, RETURN, SELECT, SUMS, UNARY, UNREACHABLE, access, block, br, br_if, br_table, call, call_ref,
    cont_bind, cont_new, elem_drop, global_get, global_set, i32_const, i64_const, if_, local_get, loop, memory_size,
    numeric, ref_func, ref_null, resume, return_call, return_call_ref, select, suspend, table_get, table_size)
from assembler.modules import as_global, global_, imported, module, table
from assembler.segments import passive_expressions
from assembler.types import CONT, CONTREF, EMPTY, FUNC, FUNCREF, I32, I64, NOCONT, NOFUNC, limits, nullable, ref
from rows.samples import MODULE_FUNCTIONS, MODULE_TYPES
from rows.sections import ModuleSection, VALID, wrong_type
from surroundings import OUT_OF_RANGE

SECTION = ModuleSection('constant_expressions')
INVALID_GLOBAL = 'invalid global 0'


def globals_row(name, answer, *defined, **sections):
    """A module of these globals."""
    SECTION.row(
        f'globals/{name}', answer, module(types=MODULE_TYPES, globals=defined, **MODULE_FUNCTIONS, **sections))


globals_row('i32.const', VALID, global_(I32, i32_const(-1)))
globals_row('i64.const', VALID, global_(I64, i64_const(-1), mutable=True))
for name, heap in [
        ('func', FUNC), ('nofunc', NOFUNC), ('cont', CONT), ('nocont', NOCONT), ('function', 0), ('continuation', 1)]:
    globals_row(f'ref.null-{name}', VALID, global_(nullable(heap), ref_null(heap)))
globals_row('ref.null-out-of-range', INVALID_GLOBAL, global_(FUNCREF, ref_null(OUT_OF_RANGE)))
globals_row('ref.null-for-not-null', INVALID_GLOBAL, global_(ref(0), ref_null(0)))
globals_row('ref.null-of-subtype', VALID, global_(nullable(0), ref_null(NOFUNC)))
globals_row('ref.null-of-supertype', INVALID_GLOBAL, global_(nullable(0), ref_null(FUNC)))
globals_row('ref.func', VALID, global_(ref(0), ref_func(0)))
globals_row('ref.func-as-funcref', VALID, global_(FUNCREF, ref_func(0)))
globals_row('ref.func-as-other', INVALID_GLOBAL, global_(ref(2), ref_func(0)))
globals_row('ref.func-of-second', VALID, global_(ref(2), ref_func(1)))
globals_row('ref.func-out-of-range', INVALID_GLOBAL, global_(FUNCREF, ref_func(2)))
for prefix, value_type, const, other_const in [
        ('i32.', I32, i32_const, i64_const), ('i64.', I64, i64_const, i32_const)]:
    for name in SUMS:
        instruction = numeric(prefix + name)
        globals_row(prefix + name, VALID, global_(value_type, const(1) + const(2) + instruction))
        globals_row(f'{prefix}{name}-nested', VALID,
                    global_(value_type, const(1) + const(2) + const(3) + instruction * 2))
        globals_row(f'{prefix}{name}-of-one', INVALID_GLOBAL, global_(value_type, const(1) + instruction))
        globals_row(f'{prefix}{name}-of-other-type', INVALID_GLOBAL,
                    global_(value_type, const(1) + other_const(1) + instruction))
        globals_row(f'{prefix}{name}-as-other-type', INVALID_GLOBAL,
                    global_(wrong_type(value_type), const(1) + const(2) + instruction))
    for name in OTHER_BINARY:
        globals_row(prefix + name, INVALID_GLOBAL, global_(value_type, const(1) + const(2) + numeric(prefix + name)))
    for name in UNARY:
        globals_row(prefix + name, INVALID_GLOBAL, global_(value_type, const(1) + numeric(prefix + name)))
    globals_row(f'{prefix}eqz', INVALID_GLOBAL, global_(I32, const(1) + numeric(f'{prefix}eqz')))
    globals_row(f'{prefix}eq', INVALID_GLOBAL, global_(I32, const(1) + const(1) + numeric(f'{prefix}eq')))
globals_row('wrap', INVALID_GLOBAL, global_(I32, i64_const(1) + I32_WRAP_I64))
globals_row('extend', INVALID_GLOBAL, global_(I64, i32_const(1) + I64_EXTEND_I32_S))
globals_row('extend8', INVALID_GLOBAL, global_(I32, i32_const(1) + I32_EXTEND8_S))
IMPORTS = {'imports': [imported(as_global(I32)), imported(as_global(I32, mutable=True)), imported(as_global(ref(0)))]}
globals_row('constant-import', VALID, global_(I32, global_get(0)), **IMPORTS)
globals_row('variable-import', INVALID_GLOBAL, global_(I32, global_get(1)), **IMPORTS)
globals_row('reference-import', VALID, global_(FUNCREF, global_get(2), mutable=True), **IMPORTS)
globals_row('import-of-other-type', INVALID_GLOBAL, global_(I64, global_get(0)), **IMPORTS)
globals_row('import-in-a-sum', VALID, global_(I32, global_get(0) + global_get(0) + I32_ADD), **IMPORTS)
globals_row('lower-constant', VALID, global_(I32, i32_const(1)), global_(I32, global_get(0)))
globals_row('lower-variable', 'invalid global 1', global_(I32, i32_const(1), mutable=True), global_(I32, global_get(0)))
globals_row('itself', INVALID_GLOBAL, global_(I32, global_get(0)))
globals_row('higher', INVALID_GLOBAL, global_(I32, global_get(1)), global_(I32, i32_const(1)))
globals_row('itself-behind-imports', INVALID_GLOBAL, global_(I32, global_get(3)), **IMPORTS)
globals_row('lower-behind-imports', VALID, global_(I32, i32_const(0)), global_(I32, global_get(3)), **IMPORTS)
globals_row('higher-behind-imports', INVALID_GLOBAL, global_(I32, global_get(4)), global_(I32, i32_const(0)), **IMPORTS)
globals_row('third-of-second', VALID, global_(I32, i32_const(0)), global_(I32, global_get(0)),
            global_(I32, global_get(1) + global_get(0) + I32_MUL, mutable=True))
globals_row('past-all', INVALID_GLOBAL, global_(I32, global_get(9)))
# Expressions that are refused where there is a memory, a table, a tag and an element segment.

SPACES = {
    'memories': [limits(1)], 'tables': [table(FUNCREF, limits(1))], 'tags': [0],
    'elements': [passive_expressions(FUNCREF, [])]}

REFUSED = [
    ('not-constant-nop', I32, i32_const(0) + NOP), ('not-constant-nop-in-front', I32, NOP + i32_const(0)),
    ('not-constant-unreachable', I32, UNREACHABLE), ('not-constant-block', I32, block(I32, i32_const(0))),
    ('not-constant-loop', I32, loop(I32, i32_const(0))),
    ('not-constant-if', I32, i32_const(1) + if_(I32, i32_const(0), i32_const(1))),
    ('not-constant-if-without-else', I32, i32_const(0) + i32_const(1) + if_(EMPTY, b'')),
    ('not-constant-call', I32, i32_const(0) + call(1)), ('not-constant-local.get', I32, local_get(0)),
    ('not-constant-drop', I32, i32_const(0) * 2 + DROP), ('not-constant-select', I32, i32_const(0) * 3 + SELECT),
    ('not-constant-select-of', I32, i32_const(0) * 3 + select(I32)),
    ('not-constant-return', I32, i32_const(0) + RETURN), ('not-constant-br', I32, i32_const(0) + br(0)),
    ('not-constant-br_if', I32, i32_const(0) * 2 + br_if(0)),
    ('not-constant-ref.is_null', I32, ref_null(FUNC) + REF_IS_NULL),
    ('not-constant-ref.as_non_null', FUNCREF, ref_null(FUNC) + REF_AS_NON_NULL),
    ('not-constant-cont.new', CONTREF, ref_func(0) + cont_new(1)),
    ('not-constant-cont.bind', CONTREF, ref_null(1) + cont_bind(1, 1)),
    ('not-constant-resume', I32, ref_null(1) + resume(1) + i32_const(0)),
    ('not-constant-global.set', I32, i32_const(0) * 2 + global_set(0)),
    ('not-constant-call_ref', I32, i32_const(0) + ref_null(2) + call_ref(2)),
    ('not-constant-return_call', I32, i32_const(0) + return_call(1)),
    ('not-constant-return_call_ref', I32, i32_const(0) + ref_null(2) + return_call_ref(2)),
    ('two-values', I32, i32_const(0) * 2), ('no-value', I32, b''), ('i64-as-i32', I32, i64_const(0)),
    ('i32-as-i64', I64, i32_const(0)), ('i32-as-reference', FUNCREF, i32_const(0)),
    ('reference-as-i32', I32, ref_null(FUNC)),
    ('not-constant-br_table', I32, i32_const(0) * 2 + br_table([], 0)),
    ('not-constant-suspend', I32, i32_const(0) + suspend(0)), ('not-constant-memory.size', I32, memory_size(0)),
    ('not-constant-table.size', I32, table_size(0)),
    ('not-constant-table.get', FUNCREF, i32_const(0) + table_get(0)),
    ('not-constant-i32.load', I32, i32_const(0) + access('i32.load', 2, 0)),
    ('not-constant-elem.drop', I32, i32_const(0) + elem_drop(0))]
for name, value_type, expression in REFUSED:
    globals_row(name, INVALID_GLOBAL, global_(value_type, expression), **SPACES)
globals_row('out-of-range', INVALID_GLOBAL, global_(nullable(OUT_OF_RANGE), ref_null(NOFUNC)))
globals_row('not-null-out-of-range', INVALID_GLOBAL, global_(ref(OUT_OF_RANGE), ref_func(0)))
globals_row('two-fail', 'invalid global 1', global_(I32, i32_const(0)), global_(I32, i64_const(0)), global_(I32, NOP))
