"""Runs of instructions of the memory and of data segments."""

from assembler.instructions import (
    LOADS, STORES, access, data_drop, i32_const, i64_const, memory_copy, memory_fill, memory_grow, memory_init,
    memory_size)
from assembler.modules import global_
from assembler.segments import active_data, passive_data
from assembler.types import I32, I64, limits
from rows.runs import RunSection, printed

LOADING = RunSection('loading')
STORING = RunSection('storing')
GROWING = RunSection('growing')
BULK = RunSection('bulk')

PAGE = 65536
LOW = bytes([0x81, 0x92, 0xa3, 0x34, 0x45, 0x56, 0x67, 0x78, 0x89, 0x9a, 0x2b, 0xbc])     # at the beginning
HIGH = bytes([0x11, 0x22, 0xb3, 0xc4, 0xd5, 0xe6, 0xf7, 0x88])                            # at the end of the page
ONE_PAGE = {'memories': [limits(1)]}
FILLED_PAGE = ONE_PAGE | {'datas': [active_data(LOW), active_data(HIGH, i32_const(PAGE - len(HIGH)))]}
GREATEST = 2 ** 32 - 1


def at(address, instruction, offset=0, alignment=0):
    """A load at an address, which is given as an unsigned number."""
    return i32_const(_as_signed(address)) + access(instruction, alignment, offset)


def _as_signed(number):
    return number - 2 ** 32 if number >= 2 ** 31 else number


def stored(address, instruction, number, offset=0):
    """A store of a number at an address."""
    value_type = STORES[instruction][1]
    constant = i32_const(number) if value_type == I32 else i64_const(number)
    return i32_const(_as_signed(address)) + constant + access(instruction, 0, offset)


def bulk(instruction, place, second, count):
    """A bulk operation on these three operands."""
    return b''.join(i32_const(_as_signed(number)) for number in (place, second, count)) + instruction


def bytes_at(*addresses):
    """The bytes at these addresses, and their types."""
    return [I32] * len(addresses), b''.join(at(address, 'i32.load8_u') for address in addresses)


def _load_rows(name, value_type, size):
    last = PAGE - size
    places = [(address, 0) for address in (0, 1, 2, 3, 4, 9, PAGE - 8, last)]
    places += [(0, 1), (0, last), (1, last - 1), (last, 0), (PAGE - 100, 100 - size)]
    LOADING.main(
        f'{name}/within', [value_type] * len(places), b''.join(at(place, name, offset) for place, offset in places),
        **FILLED_PAGE)
    LOADING.main(
        f'{name}/aligned', [value_type] * 2,
        at(8, name, alignment=LOADS[name][2]) + at(1, name, alignment=LOADS[name][2]), **FILLED_PAGE)
    LOADING.counted(f'{name}/at-the-last-place', [value_type], at(last, name), **FILLED_PAGE)
    beyond = [
        (last + 1, 0), (last, 1), (0, last + 1), (PAGE, 0), (PAGE - 1, 1), (GREATEST, 0), (GREATEST, 1), (0, GREATEST),
        (GREATEST, GREATEST), (2 ** 31, 2 ** 31), (1, GREATEST), (2 ** 31, 0)]
    for place, offset in dict.fromkeys(beyond):
        LOADING.main(f'{name}/at-{place}-and-{offset}', [value_type], at(place, name, offset), **FILLED_PAGE)
    LOADING.main(f'{name}/from-no-page', [value_type], at(0, name), memories=[limits(0)])
    LOADING.counted(f'{name}/trap', [value_type], at(last + 1, name), **FILLED_PAGE)


def _store_rows(name, value_type, size):
    last = PAGE - size
    body = stored(16, name, -2) + stored(32, name, 0x7123456789abcdef % 2 ** (31 if value_type == I32 else 63))
    body += stored(48, name, 0, 1) + stored(0, name, -1, last)
    loads = b''.join(at(address, 'i64.load') for address in (9, 16, 24, 32, 40, 48, 56, PAGE - 16, PAGE - 8))
    STORING.main(
        f'{name}/within', [I64] * 9, bulk(memory_fill(0), 0, 0x55, 64) + body + loads, **FILLED_PAGE)
    STORING.counted(f'{name}/once', [], stored(last, name, 5), **FILLED_PAGE)
    beyond = [
        (last + 1, 0), (last, 1), (0, last + 1), (PAGE, 0), (GREATEST, 0), (GREATEST, 1), (0, GREATEST),
        (GREATEST, GREATEST)]
    for place, offset in dict.fromkeys(beyond):
        STORING.main(f'{name}/at-{place}-and-{offset}', [], stored(place, name, -1, offset), **FILLED_PAGE)
    STORING.main(f'{name}/to-no-page', [], stored(0, name, 0), memories=[limits(0)])
    STORING.counted(f'{name}/trap', [], stored(last + 1, name, 5), **FILLED_PAGE)


def grown(pages):
    return i32_const(_as_signed(pages)) + memory_grow(0)


def _growing_rows():
    GROWING.counted('size', [I32], memory_size(0), **ONE_PAGE)
    GROWING.main('size-of-no-page', [I32], memory_size(0), memories=[limits(0)])
    GROWING.counted('by-one', [I32] * 2, grown(1) + memory_size(0), **ONE_PAGE)
    GROWING.counted('past-the-maximum', [I32] * 2, grown(2) + memory_size(0), memories=[limits(1, 2)])
    for name, given, pages in [
            ('to-the-maximum', limits(1, 3), [2, 0, 1, 0]), ('step-by-step', limits(0, 3), [1, 1, 1, 1]),
            ('with-minimum-and-maximum-alike', limits(2, 2), [0, 1]), ('of-nothing', limits(0, 0), [0, 1, 0]),
            ('by-none', limits(0), [0, 0]), ('by-the-greatest-number', limits(1), [GREATEST, 2 ** 31, 2 ** 16, 0]),
            ('to-256', limits(1), [255, 1, 0]), ('past-256', limits(1), [256, 255]),
            ('past-256-below-a-maximum', limits(1, 65536), [256, 65535, 255, 1]),
            ('from-256', limits(256), [0, 1]), ('from-256-to-a-maximum', limits(256, 300), [1, 44, 0])]:
        GROWING.main(
            f'grow/{name}', [I32] * (len(pages) + 1), b''.join(map(grown, pages)) + memory_size(0), memories=[given])
    kept = stored(PAGE - 8, 'i64.store', -1) + grown(1) + at(PAGE - 8, 'i64.load') + at(PAGE - 4, 'i64.load')
    GROWING.main('grow/keeps-what-is-there', [I32, I64, I64], kept, **ONE_PAGE)
    GROWING.main(
        'grow/reaches-to-the-new-end', [I32, I32],
        grown(1) + stored(2 * PAGE - 4, 'i32.store', 77) + at(2 * PAGE - 4, 'i32.load'), **ONE_PAGE)
    GROWING.main('grow/not-past-the-new-end', [I32, I32], grown(1) + at(2 * PAGE - 3, 'i32.load'), **ONE_PAGE)
    GROWING.main(
        'grow/refused-reaches-no-further', [I32, I32], grown(2) + at(PAGE, 'i32.load8_u'), memories=[limits(1, 2)])


def _fill_rows():
    results, loads = bytes_at(9, 10, 12, 13)
    fill = memory_fill(0)
    BULK.counted('fill/some', results, bulk(fill, 10, 7, 3) + loads, **ONE_PAGE)
    BULK.main('fill/low-byte', results, bulk(fill, 10, 0x1ff, 3) + loads, **ONE_PAGE)
    BULK.main('fill/of-minus-one', results, bulk(fill, 10, GREATEST, 1) + loads, **ONE_PAGE)
    BULK.main('fill/none', results, bulk(fill, 10, 7, 0) + loads, **ONE_PAGE)
    results, loads = bytes_at(0, 1, PAGE - 2, PAGE - 1)
    BULK.main('fill/all', results, bulk(fill, 0, 9, PAGE) + loads, **ONE_PAGE)
    BULK.main('fill/the-last', results, bulk(fill, PAGE - 1, 9, 1) + loads, **ONE_PAGE)
    _range_rows('fill', lambda place, count: bulk(fill, place, 3, count), ONE_PAGE)


def _range_rows(name, operation, sections):
    """An operation on a place of one page and a count: ranges that end with it, and that pass its end."""
    for place, count in [
            (PAGE, 0), (PAGE + 1, 0), (GREATEST, 0), (PAGE - 1, 2), (PAGE, 1), (0, PAGE + 1), (GREATEST, 1),
            (GREATEST, GREATEST), (1, GREATEST), (2 ** 31, 2 ** 31)]:
        BULK.main(f'{name}/{count}-at-{place}', [], operation(place, count), **sections)


def _copy_rows():
    copy = memory_copy(0, 0)
    for name, place, start, count in [
            ('apart', 20, 0, 6), ('forward', 2, 0, 6), ('backward', 0, 2, 6), ('onto-itself', 1, 1, 6),
            ('none', 20, 0, 0), ('from-the-end', 0, PAGE - 6, 6), ('to-the-end', PAGE - 6, 0, 6), ('one', 3, 9, 1)]:
        addresses = [*range(10), *range(19, 27), *range(PAGE - 7, PAGE)]
        results, loads = bytes_at(*addresses)
        BULK.main(f'copy/{name}', results, bulk(copy, place, start, count) + loads, **FILLED_PAGE)
    BULK.counted('copy/once', [], bulk(copy, 4, 0, 4), **FILLED_PAGE)
    _range_rows('copy/to', lambda place, count: bulk(copy, place, 0, count), FILLED_PAGE)
    _range_rows('copy/from', lambda place, count: bulk(copy, 0, place, count), FILLED_PAGE)
    BULK.main('copy/none-in-no-page', [], bulk(copy, 0, 0, 0), memories=[limits(0)])
    BULK.main('copy/none-past-no-page', [], bulk(copy, 1, 0, 0), memories=[limits(0)])


SEGMENT = ONE_PAGE | {'data_count': 2, 'datas': [passive_data('abcdef'), active_data('xyz')]}


def _init_rows():
    init = memory_init(0, 0)
    for name, place, start, count in [
            ('whole', 8, 0, 6), ('part', 8, 2, 3), ('none', 8, 3, 0), ('none-at-the-end', 8, 6, 0),
            ('at-the-end-of-the-page', PAGE - 6, 0, 6)]:
        results, loads = bytes_at(0, 1, 2, 3, *range(7, 15), *range(PAGE - 7, PAGE))
        BULK.main(f'init/{name}', results, bulk(init, place, start, count) + loads, **SEGMENT)
    BULK.counted('init/once', [], bulk(init, 8, 0, 6), **SEGMENT)
    _range_rows('init/to', lambda place, count: bulk(init, place, 0, count), SEGMENT)
    for start, count in [(7, 0), (6, 1), (0, 7), (1, 6), (GREATEST, 0), (1, GREATEST), (GREATEST, 1)]:
        BULK.main(f'init/{count}-from-{start}', [], bulk(init, 0, start, count), **SEGMENT)
    BULK.counted('init/trap', [], bulk(init, 0, 1, 6), **SEGMENT)


def _drop_rows():
    drop = data_drop(0)
    BULK.counted('drop/twice', [], drop + drop, **SEGMENT)
    for name, segment, dropped in [('dropped', 0, drop), ('active', 1, b''), ('active-dropped', 1, data_drop(1))]:
        for place, start, count in [(0, 0, 0), (PAGE, 0, 0), (0, 1, 0), (0, 0, 1), (PAGE + 1, 0, 0)]:
            BULK.main(
                f'init/{name}/{count}-from-{start}-to-{place}', [],
                dropped + bulk(memory_init(segment, 0), place, start, count), **SEGMENT)
    results, loads = bytes_at(0, 1, 2)
    BULK.main('drop/leaves-the-other', results, data_drop(1) + bulk(memory_init(0, 0), 1, 1, 1) + loads, **SEGMENT)
    BULK.main(
        'drop/leaves-what-was-copied', results, bulk(memory_init(0, 0), 0, 3, 3) + drop + loads, **SEGMENT)


def _segment_rows():
    """What active data segments put into the memory."""
    results, loads = bytes_at(*range(6))
    for name, datas in [
            ('in-order', [active_data('abcd'), active_data('xy', i32_const(1))]), ('empty', [active_data('')]),
            ('passive', [passive_data('abc')]), ('in-memory-0', [b'\x02\x00\x41\x02\x0b\x02ab'])]:
        BULK.main(f'active/{name}', results, loads, **ONE_PAGE, datas=datas)
    BULK.main(
        'active/at-a-global', results, loads, globals=[global_(I32, i32_const(3))], **ONE_PAGE,
        datas=[active_data('ab', b'\x23\x00')])
    BULK.main(
        'active/at-a-sum', results, loads, **ONE_PAGE,
        datas=[active_data('ab', i32_const(5) + i32_const(-2) + b'\x6a')])


def _trap_rows():
    """What was printed before a trap stands."""
    for name, body in [
            ('load', at(PAGE, 'i32.load8_u') + b'\x1a'), ('store', stored(PAGE, 'i32.store8', 1)),
            ('fill', bulk(memory_fill(0), PAGE, 0, 1)), ('copy', bulk(memory_copy(0, 0), PAGE, 0, 1))]:
        BULK.main(f'printed-before/{name}', [], printed(1, 2) + body + printed(3), printing=['print_i32'], **ONE_PAGE)


for each, (_, loaded_type, exponent) in LOADS.items():
    _load_rows(each, loaded_type, 1 << exponent)
for each, (_, stored_type, exponent) in STORES.items():
    _store_rows(each, stored_type, 1 << exponent)
_growing_rows()
_fill_rows()
_copy_rows()
_init_rows()
_drop_rows()
_segment_rows()
_trap_rows()
