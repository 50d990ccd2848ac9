"""Runs that instantiation refuses, the order of refusals, start functions and globals."""

from assembler.instructions import (
    DROP, I32_ADD, I32_MUL, I64_ADD, NOP, REF_IS_NULL, UNREACHABLE, access, br, call, call_indirect, call_ref,
    global_get, global_set, i32_const, i64_const, loop, numeric, ref_func, ref_null, table_get, table_set)
from assembler.modules import (
    as_global, as_memory, as_table, as_tag, code, export, global_, imported, module, table)
from assembler.segments import (
    active_data, active_expressions, active_functions, active_functions_in, declared_functions, passive_data)
from assembler.types import EMPTY, FUNC, FUNCREF, I32, I64, functype, limits, nullable, rec_group, ref
from rows.runs import (
    FIRST_TYPE, MAIN_TYPE, NOTHING_TYPE, PRINTER_OF_I32, RunSection, main_module, printed, printer)

IMPORTS = RunSection('imports')
ENTRIES = RunSection('entries')
LIMITS = RunSection('limits')
SEGMENTS = RunSection('segments')
ORDER = RunSection('order')
STARTS = RunSection('starts')
GLOBALS = RunSection('globals')

TYPES = [functype([], []), functype([I32], []), functype([I64], []), functype([], [])]
PAGE = 65536
GREATEST_MEMORY = 256
GREATEST_TABLE = 1048576


def importing(*imports, types=(), main=b''):
    """A module of these imports, of functions all, whose main follows them."""
    return module(
        types=[*TYPES, *types], imports=list(imports), functions=[MAIN_TYPE],
        exports=[export('main', 'func', len(imports))], codes=[code(main)])


def _import_rows():
    for item in ('print_i32', 'print_i64', 'print_byte'):
        IMPORTS.row(item, importing(printer(item)))
        IMPORTS.row(f'{item}/twice', importing(printer(item), printer(item)))
        for source in ('Host', 'hos', 'host ', '', 'env'):
            IMPORTS.row(f'{item}/from-module-{source!r}', importing(printer(item, source=source)))
        for name, parameters, results in [
                ('of-nothing', [], []), ('of-i32', [I32], []), ('of-i64', [I64], []), ('of-two', [I32, I32], []),
                ('with-a-result', [I32], [I32]), ('of-i64-with-a-result', [I64], [I64]), ('of-funcref', [FUNCREF], []),
                ('of-i32-and-i64', [I32, I64], [])]:
            IMPORTS.row(
                f'{item}/{name}', importing(printer(item, FIRST_TYPE), types=[functype(parameters, results)]))
        IMPORTS.row(
            f'{item}/of-a-type-in-a-group',
            importing(printer(item, FIRST_TYPE + 1), types=[rec_group(TYPES)]))
    for item in ('print', 'print_i32 ', 'Print_i32', 'print_u32', '', 'print_i3', 'printi32'):
        IMPORTS.row(f'item-{item!r}', importing(printer(item, PRINTER_OF_I32)))
    for name, extern_type in [
            ('table', as_table(FUNCREF, limits(1))), ('memory', as_memory(limits(1))), ('global', as_global(I32)),
            ('tag', as_tag(1))]:
        IMPORTS.row(
            f'{name}-named-as-a-printer',
            module(types=TYPES, imports=[imported(extern_type, 'print_i32', 'host')], functions=[MAIN_TYPE],
                   exports=[export('main', 'func', 0)], codes=[code(b'')]))
    good, bad = printer('print_i32'), printer('print_u8', PRINTER_OF_I32)
    for name, imports in [
            ('second', [good, bad]), ('third', [good, good, bad]), ('first-of-two', [bad, bad]),
            ('first-of-three', [bad, good, bad])]:
        IMPORTS.row(f'no-printer/{name}', importing(*imports))
    IMPORTS.row('the-second-prints', importing(good, printer('print_i64'), main=i64_const(-3) + call(1)))


def exporting(*exports, **sections):
    """A module of these exports, with a function, a table, a memory, a global and a tag."""
    sections = {'functions': [0], 'codes': [code(b'')], 'types': TYPES} | sections
    return module(
        tables=[table(FUNCREF, limits(1))], memories=[limits(1)], tags=[0], globals=[global_(I32, i32_const(0))],
        exports=list(exports), **sections)


def _entry_rows():
    ENTRIES.row('none', module(types=TYPES))
    ENTRIES.row('nothing-at-all', module())
    ENTRIES.row('main', exporting(export('main', 'func', 0)))
    for name in ('Main', 'mai', 'main ', '', 'mains'):
        ENTRIES.row(f'named-{name!r}', exporting(export(name, 'func', 0)))
    for kind in ('table', 'memory', 'global', 'tag'):
        ENTRIES.row(f'a-{kind}', exporting(export('main', kind, 0)))
    ENTRIES.row('behind-others', exporting(export('m', 'func', 0), export('t', 'table', 0), export('main', 'func', 0)))
    ENTRIES.row('under-two-names', exporting(export('main', 'func', 0), export('again', 'func', 0)))
    numbers = i32_const(1) + i64_const(2) + i32_const(-3)
    for name, parameters, results, body in [
            ('i32', [], [I32], i32_const(-1)), ('three-integers', [], [I32, I64, I32], numbers),
            ('a-parameter', [I32], [], b''), ('a-parameter-and-a-result', [I64], [I64], b'\x20\x00'),
            ('funcref', [], [FUNCREF], ref_null(FUNC)),
            ('integers-and-a-reference', [], [I32, FUNCREF], i32_const(1) + ref_null(FUNC)),
            ('reference-first', [], [FUNCREF, I32], ref_null(FUNC) + i32_const(1))]:
        ENTRIES.row(f'of-type/{name}', module(
            types=[functype(parameters, results)], functions=[0], exports=[export('main', 'func', 0)],
            codes=[code(body)]))
    ENTRIES.row('a-printer', module(
        types=TYPES, imports=[printer('print_i32')], exports=[export('main', 'func', 0)]))
    ENTRIES.row('of-a-thousand-results', main_module([I32] * 1000, i32_const(7) * 1000))


def _limit_rows():
    for name, given in [
            ('256', limits(GREATEST_MEMORY)), ('257', limits(257)), ('257-with-a-maximum', limits(257, 300)),
            ('65536', limits(65536)), ('256-and-a-maximum-above', limits(1, 65536)), ('none', limits(0, 0))]:
        LIMITS.main(f'memory/{name}', [], b'', memories=[given])
    for name, given in [
            ('1048576', limits(GREATEST_TABLE)), ('1048577', limits(GREATEST_TABLE + 1)),
            ('1048577-with-a-maximum', limits(GREATEST_TABLE + 1, 2 ** 32 - 1)), ('most', limits(2 ** 32 - 1)),
            ('a-maximum-above', limits(1, 2 ** 32 - 1)), ('none', limits(0, 0))]:
        LIMITS.main(f'table/{name}', [], b'', tables=[table(FUNCREF, given)])
    more = table(FUNCREF, limits(GREATEST_TABLE + 1))
    LIMITS.main('table/the-second', [], b'', tables=[table(FUNCREF, limits(1)), more])
    LIMITS.main('table/with-an-initial-reference', [], b'', tables=[
        table(FUNCREF, limits(GREATEST_TABLE + 1), ref_null(FUNC))])
    LIMITS.main('memory-and-table', [], b'', memories=[limits(257)], tables=[more])
    LIMITS.main('table-and-not-memory', [], b'', memories=[limits(256)], tables=[more])
    LIMITS.row('memory/257-and-no-reductions', main_module([], b'', memories=[limits(257)]), 0)


def _segment_rows():
    one_page, ten = {'memories': [limits(1)]}, {'tables': [table(FUNCREF, limits(10))]}
    for name, offset, count in [
            ('at-the-beginning', 0, 1), ('at-the-end', PAGE - 3, 3), ('one-too-many', PAGE - 3, 4),
            ('none-at-the-end', PAGE, 0), ('none-past-the-end', PAGE + 1, 0), ('past-the-end', PAGE, 1),
            ('at-minus-1', -1, 1), ('none-at-minus-1', -1, 0), ('at-the-least', -2 ** 31, 1)]:
        SEGMENTS.main(f'data/{name}', [], b'', datas=[active_data('x' * count, i32_const(offset))], **one_page)
    for name, offset, count in [
            ('at-the-beginning', 0, 1), ('at-the-end', 7, 3), ('one-too-many', 8, 3), ('none-at-the-end', 10, 0),
            ('none-past-the-end', 11, 0), ('past-the-end', 10, 1), ('at-minus-1', -1, 1), ('none-at-minus-1', -1, 0)]:
        SEGMENTS.main(
            f'elements/{name}', [], b'', elements=[active_functions([0] * count, i32_const(offset))], **ten)
    no_page = {'memories': [limits(0)]}
    SEGMENTS.main('data/into-no-page', [], b'', datas=[active_data('a')], **no_page)
    SEGMENTS.main('data/none-into-no-page', [], b'', datas=[active_data('')], **no_page)
    SEGMENTS.main('data/passive-needs-no-page', [], b'', datas=[passive_data('a')], **no_page)
    SEGMENTS.main('data/the-second', [], b'', datas=[active_data('a'), active_data('b', i32_const(PAGE))], **one_page)
    nothing = table(FUNCREF, limits(0))
    SEGMENTS.main('elements/into-no-element', [], b'', elements=[active_functions([0])], tables=[nothing])
    SEGMENTS.main('elements/none-into-no-element', [], b'', elements=[active_functions([])], tables=[nothing])
    SEGMENTS.main('elements/declared-need-none', [], b'', elements=[declared_functions([0])], tables=[nothing])
    SEGMENTS.main('elements/the-second-table', [], b'', elements=[active_functions_in(1, [0])],
                  tables=[table(FUNCREF, limits(1)), nothing])
    SEGMENTS.main(
        'elements/expressions-past-the-end', [], b'', elements=[active_expressions([ref_null(FUNC)] * 11)], **ten)
    SEGMENTS.main(
        'offset-of-a-global', [I32], i32_const(4) + access('i32.load8_u', 0, 0),
        globals=[global_(I32, i32_const(2)), global_(I32, global_get(0) + i32_const(2) + I32_ADD)],
        datas=[active_data('q', global_get(1))], **one_page)
    SEGMENTS.main(
        '10000-data-segments', [I32], i32_const(9999) + access('i32.load8_u', 0, 0),
        datas=[active_data(bytes([number % 251]), i32_const(number)) for number in range(10000)], **one_page)
    SEGMENTS.main(
        '10000-data-segments-and-the-last-past-the-end', [], b'',
        datas=[*[active_data('a', i32_const(number)) for number in range(9999)], active_data('b', i32_const(PAGE))], **one_page)
    SEGMENTS.row('no-reductions', main_module([], b'', datas=[active_data('a', i32_const(-1))], **one_page), 0)


def _order_rows():
    """Of several faults the first is told: items, imports, the entry, limits, elements, data."""
    bad_import = printer('print_u8', PRINTER_OF_I32)
    exports = [export('main', 'func', 1)]
    faults = {
        'item': {'codes': [code(DROP)]}, 'import': {'imports': [bad_import]}, 'entry': {'exports': []},
        'memory': {'memories': [limits(257)]},
        'table': {'tables': [table(FUNCREF, limits(1)), table(FUNCREF, limits(GREATEST_TABLE + 1))]},
        'elements': {'elements': [active_functions([1, 1])]}, 'data': {'datas': [active_data('a', i32_const(-1))]},
        'start': {'start': 1}}
    sound = {
        'types': TYPES, 'imports': [printer('print_i32')], 'functions': [MAIN_TYPE], 'memories': [limits(1)],
        'tables': [table(FUNCREF, limits(1)), table(FUNCREF, limits(1))], 'exports': exports,
        'codes': [code(printed(6) + UNREACHABLE)]}
    ORDER.row('order/no-fault', module(**sound))
    names = list(faults)
    for place, first in enumerate(names):
        ORDER.row(f'order/{first}-alone', module(**sound | faults[first]), valid=first != 'item')
        for second in names[place + 1:]:
            ORDER.row(
                f'order/{first}-and-{second}', module(**sound | faults[second] | faults[first]), valid=first != 'item')
    everything = dict(sound)
    for name in reversed(names):
        everything |= faults[name]
        for suffix, steps in [('', None), ('/no-reductions', 0)]:
            ORDER.row(f'order/{name}-and-all-behind{suffix}', module(**everything), steps, name != 'item')


def _start_rows():
    """The start function is the one behind main."""
    prints = {'printing': ['print_i32'], 'start': 2}

    def started(body, more=()):
        return {'functions': [(NOTHING_TYPE, code(body)), *more]}

    STARTS.counted('prints-before-main', [I32], printed(2) + i32_const(5), **prints, **started(printed(1)))
    STARTS.counted('does-nothing', [], b'', start=1, **started(b''))
    STARTS.counted('traps', [], printed(2), **prints, **started(printed(1) + UNREACHABLE))
    STARTS.counted('calls-itself', [], printed(2), **prints, **started(NOP + call(2)))
    STARTS.main('calls-main', [], printed(2), **prints, **started(printed(1) + call(1) + printed(3)))
    for steps in (1, 3, 5, 7, 50):
        STARTS.row(f'without-end/{steps}', main_module(
            [], b'', **prints, **started(loop(EMPTY, printed(1) + br(0)))), steps)
    STARTS.main('is-main', [], printed(4), printing=['print_i32'], start=1)
    STARTS.main('main-is-called-by-no-other', [], printed(4), printing=['print_i32'])
    for steps in range(8):
        STARTS.row(f'of-eight-reductions/{steps}', main_module(
            [I32], i32_const(9), start=1, **started(i32_const(3) + DROP)), steps)
    written = i32_const(5) + i32_const(77) + access('i32.store', 0, 0) + i32_const(8) + global_set(0)
    written += i32_const(0) + ref_func(2) + table_set(0)
    STARTS.counted(
        'what-it-writes-is-there', [I32] * 3,
        i32_const(5) + access('i32.load', 0, 0) + global_get(0) + i32_const(0) + call_indirect(FIRST_TYPE, 0),
        types=[functype([], [I32])], tables=[table(FUNCREF, limits(1))], memories=[limits(1)], start=1,
        globals=[global_(I32, i32_const(0), mutable=True)], elements=[declared_functions([2])],
        **started(written, [(FIRST_TYPE, code(i32_const(12)))]))
    data = {'memories': [limits(1)], 'datas': [active_data('A')]}
    shown = i32_const(0) + access('i32.load8_u', 0, 0) + call(0)
    STARTS.main('runs-behind-data', [], shown, **prints, **data, **started(shown))
    past = {'memories': [limits(1)], 'datas': [active_data('A', i32_const(-1))]}
    STARTS.main('does-not-run-where-data-pass-the-end', [], shown, **prints, **past, **started(shown))


def _global_rows():
    GLOBALS.counted('get', [I32], global_get(0), globals=[global_(I32, i32_const(-7))])
    GLOBALS.counted(
        'set', [I64] * 2, global_get(0) + i64_const(-9) + global_set(0) + global_get(0),
        globals=[global_(I64, i64_const(2 ** 62), mutable=True)])
    sums = [
        global_(I32, i32_const(3) + i32_const(4) + I32_ADD), global_(I32, global_get(0) + global_get(0) + I32_MUL),
        global_(I32, global_get(1) + i32_const(50) + numeric('i32.sub')),
        global_(I64, i64_const(2 ** 63 - 1) + i64_const(2) + I64_ADD),
        global_(I64, global_get(3) + global_get(3) + numeric('i64.mul')),
        global_(I64, i64_const(-2 ** 63) + i64_const(1) + numeric('i64.sub')),
        global_(I32, i32_const(2 ** 31 - 1) + i32_const(2) + I32_MUL)]
    GLOBALS.main(
        'by-sums-and-products', [I32, I32, I32, I64, I64, I64, I32], b''.join(map(global_get, range(7))), globals=sums)
    GLOBALS.main(
        'several', [I32, I32, I64], i32_const(5) + global_set(1) + global_get(0) + global_get(1) + global_get(2),
        globals=[global_(I32, i32_const(1)), global_(I32, i32_const(2), mutable=True), global_(I64, i64_const(3))])
    functions = {'types': [functype([], [I32])], 'functions': [(FIRST_TYPE, code(i32_const(11))),
                                                             (FIRST_TYPE, code(i32_const(12)))]}
    references = [
        global_(ref(FIRST_TYPE), ref_func(2)), global_(FUNCREF, ref_null(FUNC), mutable=True),
        global_(nullable(FIRST_TYPE), global_get(0), mutable=True), global_(FUNCREF, ref_func(1))]
    calls = global_get(0) + call_ref(FIRST_TYPE) + global_get(2) + call_ref(FIRST_TYPE)
    GLOBALS.counted(
        'references', [I32] * 5,
        calls + global_get(1) + REF_IS_NULL + ref_func(1) + global_set(2) + global_get(2) + call_ref(FIRST_TYPE)
        + global_get(3) + REF_IS_NULL, globals=references, **functions)
    GLOBALS.main(
        'in-a-table', [I32] * 2,
        i32_const(1) + call_indirect(FIRST_TYPE, 1) + i32_const(0) + table_get(0) + REF_IS_NULL,
        globals=references[:2], **functions, tables=[
            table(FUNCREF, limits(1)), table(ref(FIRST_TYPE), limits(2), global_get(0))])
    GLOBALS.main(
        'in-a-segment', [I32], i32_const(0) + call_indirect(FIRST_TYPE, 0), globals=references[:1], **functions,
        tables=[table(FUNCREF, limits(1))], elements=[active_expressions([global_get(0)])])
    GLOBALS.main(
        'behind-a-call', [I32], call(1) + global_get(0), globals=[global_(I32, i32_const(1), mutable=True)],
        functions=[(NOTHING_TYPE, code(global_get(0) + i32_const(41) + I32_ADD + global_set(0)))])


_import_rows()
_entry_rows()
_limit_rows()
_segment_rows()
_order_rows()
_start_rows()
_global_rows()
