"""Instructions of references, and the matching of reference types."""

from assembler.instructions import (
    DROP, REF_AS_NON_NULL, REF_IS_NULL, UNREACHABLE, call_ref, i32_const, local_get, local_set, ref_func, ref_null,
    resume)
from assembler.types import CONT, CONTREF, FUNC, FUNCREF, I32, I64, NOCONT, NOFUNC, nullable, ref
from rows.samples import HEAP_TYPES
from rows.sections import FunctionSection
from surroundings import (
    CONT_I32, CONT_I64, FUNC_EMPTY, FUNC_I32, FUNC_I32_TO_I64, FUNC_I64, OUT_OF_RANGE, PAIR, SAME_CONT_I32,
    SAME_FUNC_I32, SAME_PAIR, TRIPLE, TWO_CONTINUATIONS)

REFERENCES = FunctionSection('references')
MATCHING = FunctionSection('matching')
row = REFERENCES.row
standard = REFERENCES.standard

# References.

for name, heap in HEAP_TYPES:
    standard(f'ref.null/{name}', ref_null(heap), [], [nullable(heap)])
    row(f'ref.null/{name}-is-nullable', '-', [], [ref(heap)], ref_null(heap))
    row(f'ref.null/unreached-{name}-is-nullable', '-', [], [ref(heap)], UNREACHABLE + ref_null(heap))
    standard(f'ref.is_null/{name}', REF_IS_NULL, [nullable(heap)], [I32])
    row(f'ref.is_null/not-null-{name}', '+', [ref(heap)], [I32], local_get(0) + REF_IS_NULL)
    row(f'ref.as_non_null/{name}', '+', [nullable(heap)], [ref(heap)], local_get(0) + REF_AS_NON_NULL)
    row(f'ref.as_non_null/not-null-{name}', '+', [ref(heap)], [ref(heap)], local_get(0) + REF_AS_NON_NULL)
    row(f'ref.as_non_null/{name}-wrong-result', '-', [nullable(heap)], [I32], local_get(0) + REF_AS_NON_NULL)
    row(f'ref.as_non_null/unreached-{name}', '+', [nullable(heap)], [ref(heap)],
        UNREACHABLE + local_get(0) + REF_AS_NON_NULL)
    row(f'ref.as_non_null/unreached-bottom-as-{name}', '+', [], [ref(heap)], UNREACHABLE + REF_AS_NON_NULL)
    row(f'ref.as_non_null/unreached-bottom-as-nullable-{name}', '+', [], [nullable(heap)],
        UNREACHABLE + REF_AS_NON_NULL)
row('ref.null/out-of-range', '-', [], [], ref_null(OUT_OF_RANGE) + DROP)
row('ref.null/unreached-out-of-range', '-', [], [], UNREACHABLE + ref_null(OUT_OF_RANGE) + DROP)
row('ref.as_non_null/i32', '-', [I32], [], local_get(0) + REF_AS_NON_NULL + DROP)
row('ref.as_non_null/nothing', '-', [], [], REF_AS_NON_NULL + DROP)
row('ref.as_non_null/unreached-i64', '-', [I64], [], UNREACHABLE + local_get(0) + REF_AS_NON_NULL + DROP)
row('ref.as_non_null/unreached-bottom-as-i32', '-', [], [I32], UNREACHABLE + REF_AS_NON_NULL)
row('ref.as_non_null/unreached-bottom-as-i64', '-', [], [I64], UNREACHABLE + REF_AS_NON_NULL)
row('ref.as_non_null/unreached-bottom-twice', '+', [], [ref(CONT_I32)], UNREACHABLE + REF_AS_NON_NULL + REF_AS_NON_NULL)
row('ref.as_non_null/unreached-bottom-then-is-null', '+', [], [I32], UNREACHABLE + REF_AS_NON_NULL + REF_IS_NULL)
row('ref.as_non_null/unreached-bottom-then-is-null-as-i64', '-', [], [I64], UNREACHABLE + REF_AS_NON_NULL + REF_IS_NULL)
row('ref.as_non_null/unreached-bottom-set', '+', [ref(FUNC_I32), ref(CONT_I32)], [],
    UNREACHABLE + REF_AS_NON_NULL + local_set(0) + UNREACHABLE + REF_AS_NON_NULL + local_set(1))
row('ref.as_non_null/unreached-bottom-set-i32', '-', [I32], [], UNREACHABLE + REF_AS_NON_NULL + local_set(0))
row('ref.as_non_null/unreached-bottom-called', '+', [], [I32], UNREACHABLE + REF_AS_NON_NULL + call_ref(FUNC_I32))
row('ref.as_non_null/unreached-bottom-resumed', '+', [], [I32], UNREACHABLE + REF_AS_NON_NULL + resume(CONT_I32))
row('ref.is_null/unreached-known-i64', '-', [I64], [I32, I32],
    UNREACHABLE + local_get(0) + REF_IS_NULL + i32_const(0))
row('ref.as_non_null/keeps-nothing-null', '-', [FUNCREF], [ref(FUNC_I32)], local_get(0) + REF_AS_NON_NULL)
row('ref.is_null/i32', '-', [I32], [I32], local_get(0) + REF_IS_NULL)
row('ref.is_null/i64', '-', [I64], [I32], local_get(0) + REF_IS_NULL)
row('ref.is_null/unreached-i32', '-', [I32], [I32], UNREACHABLE + local_get(0) + REF_IS_NULL)
row('ref.is_null/unreached-result', '-', [], [I64], UNREACHABLE + REF_IS_NULL)
row('ref.func/exported-import', '+', [], [ref(FUNC_I32_TO_I64)], ref_func(0))
row('ref.func/in-an-element', '+', [], [ref(FUNC_EMPTY)], ref_func(1))
row('ref.func/in-a-global', '+', [], [ref(FUNC_I32)], ref_func(3))
row('ref.func/not-declared', '-', [], [ref(FUNC_EMPTY)], ref_func(4))
row('ref.func/itself-not-declared', '-', [], [], ref_func(2) + DROP)
row('ref.func/out-of-range', '-', [], [], ref_func(5) + DROP)
row('ref.func/unreached-not-declared', '-', [], [], UNREACHABLE + ref_func(4) + DROP)
row('ref.func/unreached-out-of-range', '-', [], [], UNREACHABLE + ref_func(5) + DROP)
row('ref.func/as-funcref', '+', [], [FUNCREF], ref_func(1))
row('ref.func/as-equivalent', '+', [], [ref(SAME_FUNC_I32)], ref_func(3))
row('ref.func/as-other', '-', [], [ref(FUNC_I64)], ref_func(3))
row('ref.func/as-contref', '-', [], [CONTREF], ref_func(3))
row('ref.func/unreached', '+', [], [ref(FUNC_I32)], UNREACHABLE + ref_func(3))
row('ref.func/unreached-as-other', '-', [], [ref(FUNC_I64)], UNREACHABLE + ref_func(3))

# The matching of reference types, by a parameter that is given back.

FUNCTIONS = {'function': FUNC_I32, 'same-function': SAME_FUNC_I32, 'other-function': FUNC_I64}
CONTINUATIONS = {'continuation': CONT_I32, 'same-continuation': SAME_CONT_I32, 'other-continuation': CONT_I64}
HEAPS = {'func': FUNC, 'nofunc': NOFUNC, 'cont': CONT, 'nocont': NOCONT} | FUNCTIONS | CONTINUATIONS

# The heap types that match others, by name.
MATCHES = {
    ('nofunc', 'func'), ('nocont', 'cont'), ('function', 'same-function'), ('same-function', 'function'),
    ('continuation', 'same-continuation'), ('same-continuation', 'continuation')}
MATCHES |= {(name, name) for name in HEAPS}
MATCHES |= {(name, 'func') for name in FUNCTIONS} | {('nofunc', name) for name in FUNCTIONS}
MATCHES |= {(name, 'cont') for name in CONTINUATIONS} | {('nocont', name) for name in CONTINUATIONS}

for name, heap in HEAPS.items():
    for other_name, other in HEAPS.items():
        mark = '+' if (name, other_name) in MATCHES else '-'
        MATCHING.row(f'{name}/is-{other_name}', mark, [nullable(heap)], [nullable(other)], local_get(0))
    MATCHING.row(f'{name}/not-null-is-nullable', '+', [ref(heap)], [nullable(heap)], local_get(0))
    MATCHING.row(f'{name}/nullable-is-not-not-null', '-', [nullable(heap)], [ref(heap)], local_get(0))
    MATCHING.row(f'{name}/unreached-nullable-is-not-not-null', '-', [nullable(heap)], [ref(heap)],
                 UNREACHABLE + local_get(0))
    MATCHING.row(f'{name}/is-no-number', '-', [nullable(heap)], [I32], local_get(0))

for name, mark, heap, other in [
        ('equal', '+', PAIR, SAME_PAIR), ('equal-continuations', '+', PAIR + 1, SAME_PAIR + 1),
        ('longer', '-', PAIR, TRIPLE), ('longer-continuations', '-', PAIR + 1, TRIPLE + 1),
        ('third-alone', '-', TRIPLE + 2, FUNC_EMPTY), ('each-other', '-', PAIR, PAIR + 1),
        ('two-positions', '-', TWO_CONTINUATIONS + 1, TWO_CONTINUATIONS + 2),
        ('other-third', '-', TRIPLE, TWO_CONTINUATIONS)]:
    MATCHING.row(f'groups/{name}', mark, [nullable(heap)], [nullable(other)], local_get(0))
