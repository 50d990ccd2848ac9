"""Runs of instructions of tables and of element segments. Elements are told by what the functions give to which they
refer."""

from assembler.instructions import (
    DROP, REF_IS_NULL, call_indirect, call_ref, elem_drop, i32_const, ref_func, ref_null, table_copy, table_fill,
    table_get, table_grow, table_init, table_set, table_size)
from assembler.modules import code, table
from assembler.segments import (
    active_expressions_in, active_functions, active_functions_in, declared_functions, passive_expressions,
    passive_functions)
from assembler.types import FUNC, FUNCREF, I32, functype, limits, nullable, ref
from rows.runs import FIRST_TYPE, RunSection, printed

ELEMENTS = RunSection('elements')
GROWING = RunSection('growing')
BULK = RunSection('bulk')

GIVES_I32 = FIRST_TYPE
TYPES = [functype([], [I32])]
FIRST, SECOND, THIRD = 1, 2, 3      # functions, which give 11, 12 and 13
FUNCTIONS = [(GIVES_I32, code(i32_const(number))) for number in (11, 12, 13)]
TEN = table(FUNCREF, limits(10))
NAMED = declared_functions([FIRST, SECOND, THIRD])
GREATEST = 2 ** 32 - 1


def _as_signed(number):
    return number - 2 ** 32 if number >= 2 ** 31 else number


def _sections(tables, elements):
    return {'types': TYPES, 'functions': FUNCTIONS, 'tables': tables, 'elements': elements}


ONE_TABLE = _sections([TEN], [NAMED])


def put(place, function, index=0):
    """Put a reference into a table."""
    return i32_const(_as_signed(place)) + ref_func(function) + table_set(index)


def told(place, index=0):
    """What the function at a place of a table gives."""
    return i32_const(place) + call_indirect(GIVES_I32, index)


def is_null(place, index=0):
    return i32_const(place) + table_get(index) + REF_IS_NULL


def bulk(instruction, *numbers):
    return b''.join(i32_const(_as_signed(number)) for number in numbers) + instruction


def filled(place, reference, count, index=0):
    """A fill of a table by a reference."""
    return i32_const(_as_signed(place)) + reference + i32_const(_as_signed(count)) + table_fill(index)


def grown(count, reference=ref_null(FUNC), index=0):
    return reference + i32_const(_as_signed(count)) + table_grow(index)


def _element_rows():
    ELEMENTS.counted('get', [I32], is_null(0), **ONE_TABLE)
    ELEMENTS.counted('set', [I32], put(3, SECOND) + told(3), **ONE_TABLE)
    body = put(0, FIRST) + put(9, THIRD) + told(0) + told(9) + is_null(0) + is_null(1) + is_null(8) + is_null(9)
    ELEMENTS.main('ends', [I32] * 6, body, **ONE_TABLE)
    over = put(4, FIRST) + put(4, SECOND) + told(4) + i32_const(4) + ref_null(FUNC) + table_set(0) + is_null(4)
    ELEMENTS.main('set-again', [I32] * 2, over, **ONE_TABLE)
    moved = put(2, THIRD) + i32_const(5) + i32_const(2) + table_get(0) + table_set(0) + told(5)
    ELEMENTS.main('get-and-set', [I32], moved, **ONE_TABLE)
    for place in (10, 11, 2 ** 31, GREATEST):
        ELEMENTS.main(f'get-at-{place}', [], i32_const(_as_signed(place)) + table_get(0) + DROP, **ONE_TABLE)
        ELEMENTS.main(f'set-at-{place}', [], put(place, FIRST), **ONE_TABLE)
    ELEMENTS.counted('get/trap', [], i32_const(10) + table_get(0) + DROP, **ONE_TABLE)
    ELEMENTS.counted('set/trap', [], put(10, FIRST), **ONE_TABLE)
    nothing = _sections([table(FUNCREF, limits(0))], [NAMED])
    ELEMENTS.main('get-of-no-element', [], i32_const(0) + table_get(0) + DROP, **nothing)
    ELEMENTS.main('set-of-no-element', [], put(0, FIRST), **nothing)
    other = _sections([TEN, table(FUNCREF, limits(2))], [NAMED])
    ELEMENTS.main(
        'of-two-tables', [I32] * 3, put(1, FIRST) + put(1, SECOND, 1) + told(1) + told(1, 1) + is_null(0, 1), **other)
    ELEMENTS.main('past-the-smaller-of-two-tables', [], put(2, FIRST, 1), **other)


def _initial_rows():
    """Tables that begin with a reference, and tables of one function type."""
    given = ref_func(SECOND)
    ELEMENTS.main(
        'initial', [I32] * 2, told(0) + told(2), **_sections([table(ref(GIVES_I32), limits(3), given)], [NAMED]))
    ELEMENTS.main(
        'initial-null', [I32], is_null(1), **_sections([table(FUNCREF, limits(2), ref_null(FUNC))], [NAMED]))
    typed = _sections([table(nullable(GIVES_I32), limits(4))], [NAMED])
    ELEMENTS.main(
        'of-a-function-type', [I32] * 3,
        put(1, THIRD) + i32_const(1) + table_get(0) + call_ref(GIVES_I32) + is_null(0) + told(1), **typed)


def _growing_rows():
    GROWING.counted('size', [I32], table_size(0), **ONE_TABLE)
    GROWING.counted('by-one', [I32] * 3, grown(1) + table_size(0) + is_null(10), **ONE_TABLE)
    GROWING.main(
        'with-a-function', [I32] * 4, grown(2, ref_func(THIRD)) + told(10) + told(11) + is_null(9), **ONE_TABLE)
    GROWING.counted(
        'past-the-maximum', [I32] * 2, grown(1) + table_size(0), **_sections([table(FUNCREF, limits(1, 1))], [NAMED]))
    for name, given, counts in [
            ('to-the-maximum', limits(1, 3), [2, 0, 1, 0]), ('past-the-maximum-at-once', limits(1, 3), [3, 2]),
            ('step-by-step', limits(0, 3), [1, 1, 1, 1]), ('of-nothing', limits(0, 0), [0, 1]),
            ('by-none', limits(0), [0, 0]), ('by-the-greatest-number', limits(1), [GREATEST, 2 ** 31, 0]),
            ('to-the-most', limits(1), [1048575, 0, 1]), ('past-the-most', limits(1), [1048576, 0]),
            ('past-the-most-below-a-maximum', limits(1, 2 ** 32 - 1), [1048576, 1048575, 1]),
            ('from-the-most', limits(1048576), [0, 1])]:
        GROWING.main(
            f'grow/{name}', [I32] * (len(counts) + 1), b''.join(map(grown, counts)) + table_size(0),
            **_sections([table(FUNCREF, given)], [NAMED]))
    GROWING.main('not-past-the-new-end', [I32], grown(2) + DROP + is_null(12), **ONE_TABLE)
    GROWING.main('keeps-what-is-there', [I32] * 2, put(9, FIRST) + grown(5) + told(9), **ONE_TABLE)
    two = _sections([TEN, table(FUNCREF, limits(2))], [NAMED])
    GROWING.main('the-second-of-two', [I32] * 3, grown(3, index=1) + table_size(0) + table_size(1), **two)


def _range_rows(name, operation, sections):
    """An operation on a place of a table of ten and a count: ranges that end with it, and that pass its end."""
    for place, count in [
            (10, 0), (11, 0), (GREATEST, 0), (9, 2), (10, 1), (0, 11), (GREATEST, 1), (GREATEST, GREATEST),
            (1, GREATEST), (2 ** 31, 2 ** 31)]:
        BULK.main(f'{name}/{count}-at-{place}', [], operation(place, count), **sections)


def _fill_rows():
    body = filled(4, ref_func(FIRST), 2) + is_null(3) + told(4) + told(5) + is_null(6)
    BULK.counted('fill/some', [I32] * 4, body, **ONE_TABLE)
    BULK.main('fill/none', [I32], filled(4, ref_func(FIRST), 0) + is_null(4), **ONE_TABLE)
    BULK.main('fill/all', [I32] * 2, filled(0, ref_func(SECOND), 10) + told(0) + told(9), **ONE_TABLE)
    nulls = filled(0, ref_func(SECOND), 10) + filled(2, ref_null(FUNC), 3) + told(1) + is_null(2) + is_null(4) + told(5)
    BULK.main('fill/by-null', [I32] * 4, nulls, **ONE_TABLE)
    _range_rows('fill', lambda place, count: filled(place, ref_func(FIRST), count), ONE_TABLE)
    BULK.counted('fill/trap', [], filled(9, ref_null(FUNC), 2), **ONE_TABLE)


IN_FRONT = _sections([TEN, table(FUNCREF, limits(4))], [active_functions([FIRST, SECOND, THIRD]), NAMED])


def _copy_rows():
    same = table_copy(0, 0)
    for name, numbers, places in [
            ('apart', (5, 0, 3), (0, 5, 6, 7)), ('forward', (1, 0, 3), (0, 1, 2, 3)),
            ('backward', (0, 1, 2), (0, 1, 2)), ('onto-itself', (1, 1, 2), (0, 1, 2)), ('none', (1, 0, 0), (0, 1, 2)),
            ('to-the-end', (7, 0, 3), (7, 8, 9))]:
        BULK.main(
            f'copy/{name}', [I32] * len(places), bulk(same, *numbers) + b''.join(map(told, places)), **IN_FRONT)
    BULK.main('copy/of-nulls', [I32] * 2, bulk(same, 0, 7, 2) + is_null(1) + told(2), **IN_FRONT)
    other = bulk(table_copy(1, 0), 1, 0, 3) + is_null(0, 1) + told(1, 1) + told(3, 1) + told(0)
    BULK.counted('copy/to-another', [I32] * 4, other, **IN_FRONT)
    BULK.main(
        'copy/from-another', [I32] * 2, put(2, SECOND, 1) + bulk(table_copy(0, 1), 4, 2, 2) + told(4) + is_null(5),
        **IN_FRONT)
    BULK.main('copy/past-the-end-of-the-other', [], bulk(table_copy(1, 0), 2, 0, 3), **IN_FRONT)
    BULK.main('copy/from-past-the-end-of-the-other', [], bulk(table_copy(0, 1), 0, 2, 3), **IN_FRONT)
    BULK.main('copy/none-from-past-the-end-of-the-other', [], bulk(table_copy(0, 1), 0, 5, 0), **IN_FRONT)
    _range_rows('copy/to', lambda place, count: bulk(same, place, 0, count), IN_FRONT)
    _range_rows('copy/from', lambda place, count: bulk(same, 0, place, count), IN_FRONT)


PASSIVE = _sections([TEN, table(FUNCREF, limits(4))], [
    passive_functions([FIRST, SECOND, THIRD]), active_functions([THIRD, THIRD]), declared_functions([SECOND]),
    passive_expressions(FUNCREF, [ref_func(SECOND), ref_null(FUNC)])])
ENDS = [(4, 0), (3, 1), (0, 4), (1, 3), (GREATEST, 0), (1, GREATEST), (GREATEST, 1)]


def _init_rows():
    init = table_init(0, 0)
    for name, numbers, places in [
            ('whole', (5, 0, 3), (0, 5, 6, 7)), ('part', (5, 1, 2), (1, 5, 6)), ('over-others', (1, 0, 1), (0, 1)),
            ('none', (0, 2, 0), (0, 1)), ('none-at-the-end', (0, 3, 0), (0, 1)), ('to-the-end', (7, 0, 3), (7, 9))]:
        BULK.main(
            f'init/{name}', [I32] * len(places), bulk(init, *numbers) + b''.join(map(told, places)), **PASSIVE)
    BULK.counted('init/once', [], bulk(init, 5, 0, 3), **PASSIVE)
    BULK.main(
        'init/another-table', [I32] * 2, bulk(table_init(0, 1), 1, 0, 3) + told(1, 1) + is_null(0, 1), **PASSIVE)
    BULK.main(
        'init/by-expressions', [I32] * 2, bulk(table_init(3, 0), 0, 0, 2) + told(0) + is_null(1), **PASSIVE)
    _range_rows('init/to', lambda place, count: bulk(init, place, 0, count), PASSIVE)
    for start, count in ENDS:
        BULK.main(f'init/{count}-from-{start}', [], bulk(init, 0, start, count), **PASSIVE)
    BULK.counted('init/trap', [], bulk(init, 0, 1, 3), **PASSIVE)


def _drop_rows():
    drop = elem_drop(0)
    BULK.counted('drop/twice', [], drop + drop, **PASSIVE)
    for name, segment, dropped in [
            ('dropped', 0, drop), ('active', 1, b''), ('declarative', 2, b''), ('active-dropped', 1, elem_drop(1))]:
        for place, start, count in [(0, 0, 0), (10, 0, 0), (0, 1, 0), (0, 0, 1), (11, 0, 0)]:
            BULK.main(
                f'init/{name}/{count}-from-{start}-to-{place}', [],
                dropped + bulk(table_init(segment, 0), place, start, count), **PASSIVE)
    BULK.main('drop/leaves-the-other', [I32], drop + bulk(table_init(3, 0), 4, 0, 1) + told(4), **PASSIVE)
    BULK.main('drop/leaves-what-was-copied', [I32], bulk(table_init(0, 0), 4, 2, 1) + drop + told(4), **PASSIVE)


def _segment_rows():
    """What active element segments put into tables."""
    two = [TEN, table(FUNCREF, limits(3))]
    for name, elements in [
            ('in-order', [active_functions([FIRST, FIRST, FIRST]), active_functions([SECOND], i32_const(1))]),
            ('in-two-tables', [active_functions([FIRST, SECOND, THIRD]), active_functions_in(1, [THIRD])]),
            ('by-expressions', [
                active_functions([FIRST, SECOND, THIRD]),
                active_expressions_in(1, FUNCREF, [ref_func(SECOND), ref_null(FUNC)])]),
            ('empty', [active_functions([FIRST, SECOND, THIRD]), active_functions([])])]:
        BULK.main(
            f'active/{name}', [I32] * 6,
            told(0) + told(1) + told(2) + is_null(0, 1) + is_null(1, 1) + is_null(2, 1), **_sections(two, elements))


def _trap_rows():
    """What was printed before a trap stands. Functions are numbered behind the one that prints."""
    sections = {
        'types': TYPES, 'functions': FUNCTIONS, 'tables': [TEN], 'elements': [declared_functions([2])],
        'printing': ['print_i32']}
    for name, body in [
            ('get', i32_const(10) + table_get(0) + DROP), ('set', put(10, 2)), ('fill', filled(10, ref_func(2), 1)),
            ('copy', bulk(table_copy(0, 0), 10, 0, 1)), ('init', bulk(table_init(0, 0), 0, 0, 1))]:
        BULK.main(f'printed-before/{name}', [], printed(1, 2) + body + printed(3), **sections)


_element_rows()
_initial_rows()
_growing_rows()
_fill_rows()
_copy_rows()
_init_rows()
_drop_rows()
_segment_rows()
_trap_rows()
