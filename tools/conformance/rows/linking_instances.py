"""What files share: what is handed on, memories, tables and variables of several files, files that are given twice, and
segments and constant expressions."""

from assembler.instructions import (
    I32_ADD, REF_IS_NULL, UNREACHABLE, access, call, call_indirect, call_ref, data_drop, elem_drop, global_get,
    global_set, i32_const, i64_const, local_get, memory_copy, memory_fill, memory_grow, memory_init, memory_size,
    numeric, ref_func, ref_null, table_copy, table_fill, table_get, table_grow, table_init, table_set, table_size)
from assembler.segments import (
    active_data, active_expressions_in, active_functions, active_functions_in, declared_functions, passive_data,
    passive_expressions, passive_functions)
from assembler.types import FUNC, FUNCREF, I32, I64, final_type, functype, limits, nullable, open_type, ref
from rows.linking_samples import File, LinkSection, gives, no_import, says, trap, written

HANDED_ON = LinkSection('handed on')
ENTRIES = LinkSection('entries')
MEMORIES = LinkSection('shared memories')
TABLES = LinkSection('shared tables')
VARIABLES = LinkSection('shared variables')
TWICE = LinkSection('files that are given twice')
SEGMENTS = LinkSection('segments')

ONE = i32_const(1)
I32_SUB = numeric('i32.sub')
GIVES = functype([], [I32])
PAGE = 65536
OUT_OF_MEMORY = 'memory out of bounds'
OUT_OF_TABLE = 'table out of bounds'


def giving(number, name='x'):
    """A file that exports a function that gives a number."""
    file = File()
    file.function([], [I32], i32_const(number), name=name)
    return file.bytes()


def handing(source, item, name, kind, *described, groups=()):
    """A file that exports what it imports."""
    file = File(*groups)
    file.give(name, kind, file.take(source, item, kind, *described))
    return file.bytes()


def wanting(source, item, kind, *described, groups=()):
    """A file that imports this, and whose main gives 1."""
    file = File(*groups)
    file.take(source, item, kind, *described)
    return file.main([I32], ONE)


def calling(source, item, results=(I32,)):
    """A file whose main gives what a function of another file gives."""
    file = File(functype([I64], [I64]))
    return file.main(results, call(file.take_function(source, item, [], results)))


def _chain_rows():
    """A function that is handed on again and again, by other names."""
    for count in range(1, 8):
        files = [giving(42)]
        for number in range(count):
            name = 'x' if number == 0 else f'x{number}'
            files.append(handing(f'm{number}', name, f'x{number + 1}', 'func', 0, groups=[GIVES]))
        HANDED_ON.row(f'function/{count}-times', *files, calling(f'm{count}', f'x{count}'), wanted=gives(42))
    both = File()
    first, second = (both.take_function(f'm{number}', 'x', [], [I32]) for number in range(2))
    both.give('second', 'func', second)
    both.give('first', 'func', first)
    both.give('again', 'func', first)
    for name, number in [('first', 5), ('second', 6), ('again', 5)]:
        HANDED_ON.row(f'function/{name}-of-two', giving(5), giving(6), both.bytes(), calling('m2', name),
                      wanted=gives(number))


# A type, and one below it. What is handed on as of the upper one is still of its own type.
PAIR = [open_type(GIVES), final_type(GIVES, 0)]


def _type_rows():
    low = File(*PAIR)
    low.function_of(1, i32_const(9), name='x')
    as_top = handing('m0', 'x', 'y', 'func', 0, groups=PAIR)
    for name, index in [('top', 0), ('low', 1)]:
        taken = File(*PAIR)
        taken.take('m1', 'y', 'func', index)
        HANDED_ON.row(f'function/low-as-top-as-{name}', low.bytes(), as_top, taken.main([I32], call(0)),
                      wanted=gives(9))
    top = File(*PAIR)
    top.function_of(0, i32_const(9), name='x')
    HANDED_ON.row('function/top-as-low', top.bytes(), handing('m0', 'x', 'y', 'func', 1, groups=PAIR),
                  File().main(), wanted=no_import(1))
    constant = File(GIVES)
    constant.constant(ref(0), ref_func(constant.function([], [I32], i32_const(9))), name='x')
    as_func = handing('m0', 'x', 'y', 'global', FUNCREF)
    for name, value_type in [('funcref', FUNCREF), ('its-type', ref(0)), ('its-nullable-type', nullable(0))]:
        taken = wanting('m1', 'y', 'global', value_type, groups=[GIVES])
        HANDED_ON.row(f'constant/as-funcref-as-{name}', constant.bytes(), as_func, taken, wanted=gives(1))
    HANDED_ON.row('constant/as-funcref-as-another-type', constant.bytes(), as_func, wanting(
        'm1', 'y', 'global', ref(0), groups=[functype([], [I64])]), wanted=no_import(2))
    HANDED_ON.row('constant/as-funcref-as-a-variable', constant.bytes(), as_func, wanting(
        'm1', 'y', 'global', FUNCREF, True), wanted=no_import(2))


def _limit_rows():
    """The limits of a table or memory that is handed on are those that it has, and not those of the import."""
    for kind in ('table', 'memory'):
        described = (FUNCREF,) if kind == 'table' else ()
        given = File()
        getattr(given, kind)(*described, limits(2, 5), name='x')
        for name, least, greatest, fits in [
                ('its-own', 2, 5, True), ('less', 1, None, True), ('a-smaller-greatest', 2, 4, False),
                ('a-larger-least', 3, 5, False), ('a-larger-greatest', 0, 6, True)]:
            for through, passed in [('no-limits', limits(0)), ('wider-limits', limits(1, 9))]:
                HANDED_ON.row(
                    f'{kind}/through-{through}-as-{name}', given.bytes(), handing(
                        'm0', 'x', 'y', kind, *described, passed), wanting(
                            'm1', 'y', kind, *described, limits(least, greatest)),
                    wanted=gives(1) if fits else no_import(2))


def _printer_rows():
    """Printers that are handed on have the type of the import that brings them."""
    printer = functype([I32], [])
    kinds = {
        'plain': ([printer], 0), 'open': ([open_type(printer)], 0),
        'below-open': ([open_type(printer), final_type(printer, 0)], 1), 'behind': ([GIVES, printer], 1),
        'in-a-pair': ([[GIVES, printer]], 1)}
    fitting = {('plain', 'behind'), ('behind', 'plain'), ('below-open', 'open')}
    for given, (groups, index) in kinds.items():
        for wanted, (wanted_groups, wanted_index) in kinds.items():
            taken = File(*wanted_groups)
            taken.take('m0', 'p', 'func', wanted_index)
            fits = given == wanted or (given, wanted) in fitting
            HANDED_ON.row(
                f'printer/{given}-as-{wanted}', handing(
                    'host', 'print_i32', 'p', 'func', index, groups=groups), taken.main([], i32_const(-3) + call(0)),
                wanted=written(-3) if fits else no_import(1))
    several = File()
    items = {'print_i64': I64, 'print_byte': I32, 'print_i32': I32}
    for item, value_type in items.items():
        several.give(item[6:], 'func', several.take_function('host', item, [value_type]))
    taken = File()
    i32 = taken.take_function('m0', 'i32', [I32])
    byte = taken.take_function('m0', 'byte', [I32])
    i64 = taken.take_function('m0', 'i64', [I64])
    body = i32_const(65) + call(i32) + i32_const(66) + call(byte) + i64_const(67) + call(i64)
    HANDED_ON.row('printer/three-of-them', several.bytes(), taken.main([], body), wanted=['out | 65', '| B67'])


def _entry_rows():
    for results, body, wanted in [
            ((), b'', []), ((I32,), ONE, gives(1)), ((I64,), i64_const(-1), gives(-1)),
            ((I32, I64), ONE + i64_const(-1), gives(1, -1))]:
        given = File()
        given.function([], results, body, name='x')
        ENTRIES.row(f'handed-on/{len(results)}-results-{results[-1:] == (I64,)}', given.bytes(), handing(
            'm0', 'x', 'main', 'func', 0, groups=[functype([], list(results))]), wanted=wanted)
    ENTRIES.row('handed-on/a-printer', File().bytes(), handing(
        'host', 'print_i32', 'main', 'func', 0, groups=[functype([I32], [])]), wanted=says('no entry', 4))
    ENTRIES.row('handed-on/of-a-reference', File().bytes(), handing(
        'm0', 'x', 'main', 'func', 0, groups=[functype([], [FUNCREF])]), wanted=says('no entry', 4))
    ENTRIES.row('handed-on/that-nothing-fits', File().bytes(), handing(
        'm0', 'x', 'main', 'func', 0, groups=[GIVES]), wanted=no_import(1))
    low = File(*PAIR)
    low.function_of(1, i32_const(9), name='x')
    ENTRIES.row('handed-on/of-a-type-below', low.bytes(), handing('m0', 'x', 'main', 'func', 0, groups=PAIR),
                wanted=gives(9))
    with_main = File().main([I32], i32_const(3))
    ENTRIES.row('main-of-the-first-file-alone', with_main, File().bytes(), wanted=says('no entry', 4))
    ENTRIES.row('main-of-the-last-file-counts', with_main, File().main([I32], i32_const(4)), wanted=gives(4))
    ENTRIES.row('main-of-the-first-is-called', with_main, calling('m0', 'main'), wanted=gives(3))
    ENTRIES.row('main-of-the-first-takes-a-number', _parameter_main(), File().main([I32], i32_const(4)),
                wanted=gives(4))
    ENTRIES.row('main-of-the-last-takes-a-number', with_main, _parameter_main(), wanted=says('no entry', 4))
    for kind, made in [('memory', lambda file: file.memory(limits(1), name='main')), (
            'table', lambda file: file.table(FUNCREF, limits(1), name='main')), (
                'global', lambda file: file.constant(I32, ONE, name='main')), (
                    'tag', lambda file: file.tag(name='main'))]:
        file = File()
        made(file)
        ENTRIES.row(f'main-is-a-{kind}', with_main, file.bytes(), wanted=says('no entry', 4))
        ENTRIES.row(f'main-of-the-first-is-a-{kind}', file.bytes(), with_main, wanted=gives(3))


def _alone_rows():
    """One file alone, whose faults are told with its number."""
    with_main = File().main([I32], i32_const(3))
    ENTRIES.told('alone', with_main, wanted=['out | = 3', 'err | stats steps 4 made 0 consumed 0 live 0'])
    ENTRIES.told('alone/that-prints', _printing_main(), wanted=[
        'out | 12', '| = 1', 'err | stats steps 6 made 0 consumed 0 live 0'])
    for name, source, item in [
            ('its-own-main', 'm0', 'main'), ('a-file-behind', 'm1', 'x'), ('no-printer', 'host', 'print'),
            ('another-source', 'env', 'print_i32')]:
        file = File()
        file.printer()
        file.take_function(source, item, [], [I32])
        ENTRIES.row(f'alone/imports-{name}', file.main(), wanted=no_import(0, 1))
    for name, made, said, status in [
            ('memory', lambda file: file.memory(limits(257)), 'limit memory', 9),
            ('table', lambda file: file.table(FUNCREF, limits(1048577)), 'limit table', 9),
            ('elements', lambda file: [file.table(FUNCREF, limits(0)), file.elements(active_functions([0]))],
             f'trap {OUT_OF_TABLE}', 1),
            ('data', lambda file: [file.memory(limits(0)), file.data(active_data('a'))], f'trap {OUT_OF_MEMORY}', 1)]:
        for front in range(3):
            file = File()
            file.function()
            made(file)
            files = [with_main] * front + [file.main()]
            ENTRIES.told(f'{name}-of-file-{front}', *files, wanted=says(f'file {front} {said}', status))


def _greatest_rows():
    """The greatest memory and tables that there may be, in each file."""
    for front in range(2):
        file = File()
        file.memory(limits(256), name='memory')
        file.table(FUNCREF, limits(1048576), name='table')
        file.table(FUNCREF, limits(1, 2 ** 32 - 1))
        given = file.main([I32] * 2, memory_size(0) + table_size(0))
        ENTRIES.row(f'greatest-of-file-{front}', *[File().bytes()] * front, given, wanted=gives(256, 1048576))
    grown = ONE + memory_grow(0) + ref_null(FUNC) + ONE + table_grow(0)
    user = File()
    user.take('m0', 'memory', 'memory', limits(256))
    user.take('m0', 'table', 'table', FUNCREF, limits(1048576))
    ENTRIES.row('greatest-of-another-file', given, user.main([I32] * 2, grown), wanted=gives(-1, -1))


def _parameter_main():
    file = File()
    file.function([I32], [I32], local_get(0), name='main')
    return file.bytes()


def _printing_main():
    file = File()
    return file.main([I32], i32_const(12) + call(file.printer()) + ONE)


def memory_file(*given_limits):
    """A file that exports its memory, and functions that read, write and grow it and tell its size."""
    file = File()
    file.memory(limits(*given_limits), name='memory')
    file.function([I32], [I32], local_get(0) + access('i32.load', 2, 0), name='read')
    file.function([I32, I32], [], local_get(0) + local_get(1) + access('i32.store', 2, 0), name='write')
    file.function([I32], [I32], local_get(0) + memory_grow(0), name='grow')
    file.function([], [I32], memory_size(0), name='size')
    return file.bytes()


class MemoryUser(File):
    """A file that imports all this."""

    def __init__(self, *given_limits):
        super().__init__(functype([I64], []), functype([], [I64]))
        self.take('m0', 'memory', 'memory', limits(*given_limits))
        self.grow = self.take_function('m0', 'grow', [I32], [I32])
        self.read = self.take_function('m0', 'read', [I32], [I32])
        self.size = self.take_function('m0', 'size', [], [I32])
        self.write = self.take_function('m0', 'write', [I32, I32])


def _load(address):
    return i32_const(address) + access('i32.load', 2, 0)


def _memory_rows():
    given = memory_file(1, 4)
    for name, results, body, wanted in [
            ('written-here-and-read-there', 1, lambda user: i32_const(8) + i32_const(77) + access(
                'i32.store', 2, 0) + i32_const(8) + call(user.read), [77]),
            ('written-there-and-read-here', 1, lambda user: i32_const(8) + i32_const(78) + call(user.write)
             + _load(8), [78]),
            ('grown-here', 3, lambda user: i32_const(2) + memory_grow(0) + memory_size(0) + call(user.size), [1, 3, 3]),
            ('grown-there', 3, lambda user: i32_const(2) + call(user.grow) + memory_size(0) + call(user.size),
             [1, 3, 3]),
            ('grown-by-both', 3, lambda user: ONE + call(user.grow) + ONE + memory_grow(0) + call(user.size),
             [1, 2, 3]),
            ('grown-past-its-greatest-here', 2, lambda user: i32_const(4) + memory_grow(0) + call(user.size), [-1, 1]),
            ('grown-to-its-greatest-and-past-it-there', 3, lambda user: i32_const(3) + memory_grow(0) + ONE
             + call(user.grow) + memory_size(0), [1, -1, 4]),
            ('grown-here-and-written-there', 2, lambda user: ONE + memory_grow(0) + i32_const(PAGE + 4) + i32_const(5)
             + call(user.write) + _load(PAGE + 4), [1, 5]),
            ('filled-here', 1, lambda user: i32_const(4) + i32_const(1) + i32_const(4) + memory_fill(0) + i32_const(4)
             + call(user.read), [0x01010101]),
            ('copied-here', 1, lambda user: i32_const(4) + i32_const(9) + call(user.write) + i32_const(12)
             + i32_const(4) + i32_const(4) + memory_copy(0, 0) + i32_const(12) + call(user.read), [9])]:
        for limit_name, given_limits in [('its-limits', (1, 4)), ('no-greatest', (0,))]:
            user = MemoryUser(*given_limits)
            MEMORIES.row(f'memory-{name}/imported-with-{limit_name}', given, user.main([I32] * results, body(user)),
                         wanted=gives(*wanted))
    for name, body in [
            ('read-here', lambda user: _load(PAGE)), ('read-there', lambda user: i32_const(PAGE) + call(user.read)),
            ('copied', lambda user: i32_const(0) + i32_const(PAGE) + ONE + memory_copy(0, 0) + _load(0))]:
        user = MemoryUser(1)
        MEMORIES.told(f'memory-past-its-end-{name}', given, user.main([I32], body(user)))
    three = File()
    three.take('m0', 'memory', 'memory', limits(1))
    three.function([], [I32], _load(8), name='read')
    three.data(active_data(b'\x05\0\0\0', i32_const(8)))
    last = MemoryUser(1)
    MEMORIES.row('memory-of-three-files', given, three.bytes(), last.main([I32], i32_const(8) + call(last.read)),
                 wanted=gives(5))
    MEMORIES.row('memory-of-each-its-own', memory_file(1), _own_memory(), wanted=gives(0, 6, 1, 2))


def _own_memory():
    """A file with a memory beside that of the first file, which stays as it is."""
    file = File()
    read = file.take_function('m0', 'read', [I32], [I32])
    size = file.take_function('m0', 'size', [], [I32])
    file.memory(limits(2))
    file.data(active_data(b'\x06'))
    return file.main([I32] * 4, i32_const(0) + call(read) + _load(0) + call(size) + memory_size(0))


def table_file(*given_limits):
    """A file that exports its table, and functions that call, set and grow its elements and tell how many they are."""
    file = File(GIVES)
    file.table(FUNCREF, limits(*given_limits), name='table')
    own = file.function([], [I32], i32_const(40), name='forty')
    file.function([I32], [I32], local_get(0) + call_indirect(0, 0), name='call')
    file.function([I32, FUNCREF], [], local_get(0) + local_get(1) + table_set(0), name='set')
    file.function([I32], [I32], ref_null(FUNC) + local_get(0) + table_grow(0), name='grow')
    file.function([], [I32], table_size(0), name='size')
    file.elements(active_functions([own]))
    return file.bytes()


class TableUser(File):
    """A file that imports all this, and has a function that gives 50."""

    def __init__(self, *given_limits):
        super().__init__(functype([I64], []), functype([], [I64]), GIVES)
        self.take('m0', 'table', 'table', FUNCREF, limits(*given_limits))
        self.grow = self.take_function('m0', 'grow', [I32], [I32])
        self.set = self.take_function('m0', 'set', [I32, FUNCREF])
        self.size = self.take_function('m0', 'size', [], [I32])
        self.call = self.take_function('m0', 'call', [I32], [I32])
        self.fifty = self.function([], [I32], i32_const(50))

    def here(self, place):
        return i32_const(place) + call_indirect(2, 0)

    def there(self, place):
        return i32_const(place) + call(self.call)


def _table_rows():
    given = table_file(3, 6)
    for name, results, body, wanted in [
            ('set-here-and-called-there', 1, lambda user: i32_const(2) + user.ref(user.fifty) + table_set(0)
             + user.there(2), [50]),
            ('set-there-and-called-here', 1, lambda user: i32_const(2) + user.ref(user.fifty) + call(user.set)
             + user.here(2), [50]),
            ('called-here', 2, lambda user: user.here(0) + user.there(0), [40, 40]),
            ('grown-here', 3, lambda user: ref_null(FUNC) + i32_const(2) + table_grow(0) + table_size(0)
             + call(user.size), [3, 5, 5]),
            ('grown-by-both', 3, lambda user: ONE + call(user.grow) + ref_null(FUNC) + ONE + table_grow(0)
             + call(user.size), [3, 4, 5]),
            ('grown-past-its-greatest', 3, lambda user: i32_const(3) + call(user.grow) + ref_null(FUNC) + ONE
             + table_grow(0) + table_size(0), [3, -1, 6]),
            ('grown-here-and-called-there', 2, lambda user: user.ref(user.fifty) + ONE + table_grow(0)
             + user.there(3), [3, 50]),
            ('filled-here', 2, lambda user: i32_const(0) + user.ref(user.fifty) + i32_const(3) + table_fill(0)
             + user.there(0) + user.there(2), [50, 50]),
            ('copied-here', 1, lambda user: ONE + i32_const(0) + ONE + table_copy(0, 0) + user.there(1), [40]),
            ('got-here-and-set-there', 1, lambda user: ONE + i32_const(0) + table_get(0) + call(user.set)
             + user.there(1), [40])]:
        for limit_name, given_limits in [('its-limits', (3, 6)), ('wider', (0, 9))]:
            user = TableUser(*given_limits)
            TABLES.row(f'table-{name}/imported-with-{limit_name}', given, user.main([I32] * results, body(user)),
                       wanted=gives(*wanted))
    for name, body, wanted in [
            ('undefined-here', lambda user: user.here(3), 'undefined element'),
            ('undefined-there', lambda user: user.there(3), 'undefined element'),
            ('null-here', lambda user: user.here(1), 'null element'),
            ('null-there', lambda user: user.there(1), 'null element'),
            ('get-past-the-end', lambda user: i32_const(3) + table_get(0) + REF_IS_NULL, OUT_OF_TABLE)]:
        user = TableUser(1)
        TABLES.row(f'table-{name}', given, user.main([I32], body(user)), wanted=trap(wanted))


def counting_file():
    """A file with a variable and a function that adds one to it and gives it, and one that gives it."""
    file = File()
    file.variable(I32, i32_const(10), name='variable')
    added = global_get(0) + ONE + I32_ADD + global_set(0) + global_get(0)
    file.function([], [I32], added, name='next')
    file.function([], [I32], global_get(0), name='get')
    return file.bytes()


def _variable_rows():
    given = counting_file()
    file = File()
    for _ in range(2):
        file.take('m0', 'variable', 'global', I32, True)
    following, get = file.take_function('m0', 'next', [], [I32]), file.take_function('m0', 'get', [], [I32])
    file.variable(I32, i32_const(70))
    body = call(following) + global_get(0) + i32_const(30) + global_set(1) + global_get(0) + call(get)
    body += call(following) + global_get(1) + global_get(2)
    VARIABLES.row('a-variable-of-two-files', given, file.main([I32] * 7, body), wanted=gives(
        11, 11, 30, 30, 31, 31, 70))
    middle = handing('m0', 'variable', 'handed', 'global', I32, True)
    file = File()
    file.take('m1', 'handed', 'global', I32, True)
    following = file.take_function('m0', 'next', [], [I32])
    VARIABLES.row('a-variable-that-is-handed-on', given, middle, file.main(
        [I32] * 2, i32_const(5) + global_set(0) + call(following) + global_get(0)), wanted=gives(6, 6))


def _twice_rows():
    """One file that is given twice has two instances."""
    given = counting_file()
    file = File()
    nexts = [file.take_function(f'm{number}', 'next', [], [I32]) for number in range(3)]
    file.take('m1', 'variable', 'global', I32, True)
    body = call(nexts[0]) + call(nexts[0]) + call(nexts[1]) + call(nexts[2]) + global_get(0)
    last = file.main([I32] * 5, body)
    TWICE.row('three-instances', given, given, given, last, wanted=gives(11, 12, 11, 11, 11))
    TWICE.call('one-name-three-times', ['a', 'a', 'a', 'b'], {'a': given, 'b': last}, gives(11, 12, 11, 11, 11))
    main = File()
    main.variable(I32, i32_const(1))
    main.start = main.function([], [], global_get(0) + ONE + I32_ADD + global_set(0))
    TWICE.call('main-is-that-of-the-second', ['a', 'a'], {'a': main.main([I32], global_get(0))}, gives(2))
    memory = memory_file(1)
    file = File()
    write = file.take_function('m0', 'write', [I32, I32])
    reads = [file.take_function(f'm{number}', 'read', [I32], [I32]) for number in range(2)]
    body = i32_const(0) + i32_const(6) + call(write) + b''.join(i32_const(0) + call(read) for read in reads)
    TWICE.call('memories-of-two-instances', ['a', 'a', 'b'], {'a': memory, 'b': file.main([I32] * 2, body)}, gives(
        6, 0))


def _active_rows():
    """Active segments of one file in the memory and the table of another."""
    for name, offset, count in [
            ('at-the-beginning', 0, 1), ('at-the-end', PAGE - 3, 3), ('one-too-many', PAGE - 3, 4),
            ('none-at-the-end', PAGE, 0), ('none-past-the-end', PAGE + 1, 0), ('at-minus-1', -1, 1)]:
        user = MemoryUser(1)
        user.data(active_data(b'\x07' * count, i32_const(offset)))
        fits = 0 <= offset <= PAGE - count
        SEGMENTS.row(
            f'data/{name}', memory_file(1), user.main([I32], i32_const(0) + call(user.read)),
            wanted=gives(7 if offset == 0 else 0) if fits else says(f'file 1 trap {OUT_OF_MEMORY}', 1))
    for name, offset, count in [
            ('at-the-beginning', 0, 2), ('at-the-end', 1, 2), ('one-too-many', 2, 2), ('none-at-the-end', 3, 0),
            ('none-past-the-end', 4, 0), ('at-minus-1', -1, 1)]:
        user = TableUser(1)
        user.elements(active_functions([user.fifty] * count, i32_const(offset)))
        fits = 0 <= offset <= 3 - count
        SEGMENTS.row(
            f'elements/{name}', table_file(3), user.main([I32], user.there(0)),
            wanted=gives(50 if offset == 0 else 40) if fits else says(f'file 1 trap {OUT_OF_TABLE}', 1))
    for name, first, second, wanted in [('the-later-file-wins', 8, 8, 2), ('each-at-its-place', 8, 12, 1)]:
        files = []
        for value, address in [(1, first), (2, second)]:
            file = MemoryUser(1)
            file.data(active_data(bytes([value]), i32_const(address)))
            files.append(file)
        SEGMENTS.row(f'data/{name}', memory_file(1), files[0].bytes(), files[1].main([I32], _load(8)),
                     wanted=gives(wanted))


def _second_file_rows():
    """Active segments of the third file in the memory and the table of the second, which have not the first address."""
    file = File()
    file.take('m1', 'memory', 'memory', limits(1))
    reads = [file.take_function(f'm{number}', 'read', [I32], [I32]) for number in range(2)]
    file.data(active_data(b'\x07', i32_const(8)))
    body = b''.join(i32_const(8) + call(read) for read in reads)
    SEGMENTS.row('data/in-the-memory-of-the-second-file', memory_file(1), memory_file(1), file.main([I32] * 2, body),
                 wanted=gives(0, 7))
    for offset, wanted in [(0, gives(40, 50)), (2, says(f'file 2 trap {OUT_OF_TABLE}', 1))]:
        file = File()
        file.take('m1', 'table', 'table', FUNCREF, limits(1))
        calls = [file.take_function(f'm{number}', 'call', [I32], [I32]) for number in range(2)]
        file.elements(active_functions([file.function([], [I32], i32_const(50))], i32_const(offset)))
        body = b''.join(i32_const(0) + call(each) for each in calls)
        SEGMENTS.row(f'elements/in-the-table-of-the-second-file-at-{offset}', table_file(3), table_file(2), file.main(
            [I32] * 2, body), wanted=wanted)
    file = File()
    for number in range(2):
        file.take(f'm{number}', 'table', 'table', FUNCREF, limits(1))
    calls = [file.take_function(f'm{number}', 'call', [I32], [I32]) for number in range(2)]
    file.table(FUNCREF, limits(1))
    numbers = [file.function([], [I32], i32_const(number)) for number in (71, 72, 73)]
    for table in (2, 0, 1):
        file.elements(active_functions_in(table, [numbers[table]]))
    body = b''.join(i32_const(0) + call(each) for each in calls) + i32_const(0) + call_indirect(file.func([], [I32]), 2)
    SEGMENTS.row('elements/in-tables-of-three-files', table_file(3), table_file(2), file.main([I32] * 3, body),
                 wanted=gives(71, 72, 73))


def constants_file():
    """A file that exports constants, and the function to which one of them refers."""
    given = File(GIVES)
    function = given.function([], [I32], i32_const(60), name='sixty')
    given.constant(I32, i32_const(2), name='two')
    given.constant(I32, i32_const(3), name='three')
    given.constant(ref(0), ref_func(function), name='ref')
    given.constant(FUNCREF, ref_null(FUNC), name='null')
    return given.bytes()


def taking(*names):
    """A file that imports some of these constants, and the function."""
    file = File(functype([I64], []), GIVES)
    types = {'two': I32, 'three': I32, 'ref': ref(1), 'null': FUNCREF}
    for name in names:
        file.take('m0', name, 'global', types[name])
    file.take('m0', 'sixty', 'func', 1)
    file.function([I32], [I32], UNREACHABLE)
    return file


def _constant_rows():
    """What constant expressions of one file read of another."""
    given = constants_file()
    file = taking('three', 'two')
    file.constant(I32, global_get(0) + global_get(1) + I32_SUB)
    file.constant(I32, global_get(2) + global_get(0) + I32_ADD)
    SEGMENTS.row('constants/sums', given, file.main([I32] * 4, b''.join(map(global_get, range(4)))),
                 wanted=gives(3, 2, 1, 4))
    file = taking('two', 'ref')
    file.variable(FUNCREF, ref_func(0))
    file.variable(nullable(1), global_get(1))
    file.table(nullable(1), limits(3), global_get(1))
    file.elements(active_expressions_in(0, nullable(1), [ref_func(0)]))
    body = global_get(3) + call_ref(1) + i32_const(0) + call_indirect(1, 0) + i32_const(2) + call_indirect(1, 0)
    SEGMENTS.row('constants/references', given, file.main([I32] * 3, body), wanted=gives(60, 60, 60))
    file = taking('null', 'three')
    file.memory(limits(1))
    file.data(active_data(b'\x21', global_get(1)))
    SEGMENTS.row('constants/offset-of-data', given, file.main([I32] * 2, i32_const(3) + access(
        'i32.load8_u', 0, 0) + global_get(0) + REF_IS_NULL), wanted=gives(0x21, 1))
    file = taking('three', 'two')
    file.table(FUNCREF, limits(5))
    file.elements(active_functions([0, 1, 0], global_get(1)))
    SEGMENTS.row('constants/offset-of-elements', given, file.main([I32] * 2, i32_const(2) + call_indirect(1, 0)
                 + i32_const(1) + table_get(0) + REF_IS_NULL), wanted=gives(60, 1))
    file = taking('ref')
    file.table(FUNCREF, limits(2))
    passive = file.elements(passive_expressions(ref(1), [global_get(0), ref_func(0)]))
    SEGMENTS.row('constants/items-of-elements', given, file.main([I32] * 2, i32_const(0) + i32_const(0)
                 + i32_const(2) + table_init(passive, 0) + i32_const(0) + call_indirect(1, 0) + ONE
                 + call_indirect(1, 0)), wanted=gives(60, 60))


def _dropping_file():
    """A file with passive segments, what drops them, and what copies them to its own memory and table."""
    file = File(GIVES)
    file.table(FUNCREF, limits(1))
    file.memory(limits(1))
    number = file.function([], [I32], i32_const(81))
    file.elements(passive_functions([number]))
    file.data(passive_data(b'\x51'))
    file.function([], [], elem_drop(0), name='drop_elements')
    file.function([], [], data_drop(0), name='drop_data')
    file.function([], [I32], i32_const(0) * 2 + ONE + table_init(0, 0) + i32_const(0) + call_indirect(0, 0),
                  name='elements')
    file.function([], [I32], i32_const(0) * 2 + ONE + memory_init(0, 0) + _load(0), name='data')
    return file.bytes()


def _dropped_rows():
    given = _dropping_file()
    for dropped in range(3):
        for used in range(2):
            for kind, kind_name in [('elements', OUT_OF_TABLE), ('data', OUT_OF_MEMORY)]:
                file = File()
                body = b'' if dropped == 2 else call(file.take_function(f'm{dropped}', f'drop_{kind}'))
                body += call(file.take_function(f'm{used}', kind, [], [I32]))
                last = file.main([I32], body)
                SEGMENTS.call(
                    f'{kind}/dropped-in-{dropped}-and-used-in-{used}', ['a', 'a', 'b'], {'a': given, 'b': last},
                    trap(kind_name) if dropped == used else gives(81))
    declared = File(GIVES)
    declared.elements(declared_functions([declared.function([], [I32], ONE)]))
    declared.table(FUNCREF, limits(1))
    SEGMENTS.row('elements/declared-ones-are-dropped', declared.bytes(), declared.main(
        [], i32_const(0) * 2 + ONE + table_init(0, 0)), wanted=trap(OUT_OF_TABLE))


_chain_rows()
_type_rows()
_limit_rows()
_printer_rows()
_entry_rows()
_alone_rows()
_greatest_rows()
_memory_rows()
_table_rows()
_variable_rows()
_twice_rows()
_active_rows()
_second_file_rows()
_constant_rows()
_dropped_rows()
