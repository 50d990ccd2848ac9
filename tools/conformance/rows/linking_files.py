"""Calls of `link`: their words, how many files there may be, how they are read, and which of several faults is told."""

from itertools import combinations

from assembler.encoding import unsigned
from assembler.instructions import DROP, UNREACHABLE, call, i32_const
from assembler.segments import active_data, active_functions
from assembler.types import FUNCREF, I32, functype, limits
from rows.linking_samples import (
    NAMES, USAGE_LINES, File, LinkRow, LinkSection, gives, no_import, running, says, written)

WORDS = LinkSection('words')
COUNTS = LinkSection('counts of files')
READING = LinkSection('reading')
JUDGING = LinkSection('judging')
ORDER = LinkSection('order')

ONE = i32_const(1)
READ_FAULT = says('read fault', 6)
SEVEN = running([I32], i32_const(7))
EIGHT = running([I32], i32_const(8))
TWO = {'a': SEVEN, 'b': EIGHT}
GREATEST_INPUT = 16777216
BUFFER = 4096


def _word_rows():
    for words in [
            [], ['--stats'], ['--steps', '5'], ['--'], ['a', 'b', '--help'], ['--help'], ['-h'], ['--version'],
            ['-V'], ['a', '-s'], ['a', '--step', '5'], ['a', '--stat'], ['a', '--stats=true'], ['a', '--stats='],
            ['a', '--stats', '--stats'], ['a', '--steps', '5', '--steps', '5'], ['a', '--steps=5', '--steps', '6'],
            ['a', '--steps'], ['a', '--steps='], ['a', '--steps', ''], ['a', '--steps', '05'], ['a', '--steps', '00'],
            ['a', '--steps', '+5'], ['a', '--steps', '-5'], ['a', '--steps', '5.0'], ['a', '--steps', '0x5'],
            ['a', '--steps', '5_0'], ['a', '--steps', '1e3'], ['a', '--steps', 'b'], ['--steps', 'a', 'b'],
            ['a', '--steps', '1099511627777'], ['a', '--steps', '18446744073709551616'],
            ['a', '--steps', '99999999999999999999999999'], ['a', '--unknown'], ['a', '--files', 'b'], ['-a'],
            ['--stats', 'a', '--stats', 'b']]:
        WORDS.call('words/' + ' '.join(word or "''" for word in words), words, TWO, USAGE_LINES)
    for words, wanted in [
            (['a', 'b'], gives(8)), (['b', 'a'], gives(7)), (['a'], gives(7)), (['a', 'a'], gives(7)),
            (['a', '--stats', 'b'], None), (['--stats', 'a', 'b'], None), (['a', '--steps', '4', 'b'], gives(8)),
            (['--steps', '4', 'a', 'b'], gives(8)), (['a', 'b', '--steps=4'], gives(8)),
            (['a', '--steps=4', 'b', '--stats'], None), (['--stats', 'a', '--steps', '3', 'b'], None),
            (['--', 'a', 'b'], gives(8)), (['a', '--', 'b'], gives(8)), (['a', 'b', '--'], gives(8)),
            (['--stats', '--', 'a', 'b'], None), (['--', 'a', '--stats'], READ_FAULT),
            (['a', 'b', '--', '--steps', '4'], READ_FAULT), (['a', '--stats', '--', '-x'], READ_FAULT),
            (['a', 'b', '--steps', '0'], says('running', 10)),
            (['a', 'b', '--steps', '3'], says('running', 10)), (['a', 'b', '--steps', '1099511627776'], gives(8)),
            (['a', 'b', ''], READ_FAULT), (['', 'a'], READ_FAULT), (['A', 'b'], READ_FAULT),
            (['link', 'b'], READ_FAULT), (['m0', 'm1'], READ_FAULT)]:
        WORDS.call('words-that-are-understood/' + ' '.join(word or "''" for word in words), words, TWO, wanted)
    for command in ('LINK', 'Link', 'links', 'lin', '--link'):
        WORDS.add(LinkRow(f'command/{command}', ['a', 'b'], TWO, USAGE_LINES, command=command))
    for command in ('check', 'run', 'build', 'dump', 'asm'):
        WORDS.add(LinkRow(f'command/{command}-of-two-files', ['a', 'b'], TWO, USAGE_LINES, command=command))


def _count_rows():
    idle = File().bytes()
    printing = _printing_start()
    limit = says('limit files', 9)
    for count in (1, 2, 10, 11, 15, 16, 17, 18, 40):
        words = ['a'] * (count - 1) + ['b']
        COUNTS.call(f'{count}-files', words, {'a': idle, 'b': SEVEN}, gives(7) if count <= 16 else limit)
        COUNTS.call(f'{count}-files-that-print', words, {'a': printing, 'b': SEVEN}, written(
            *[3] * (count - 1), '= 7') if count <= 16 else limit)
    for number in range(9, 15):
        given = File()
        given.function([], [I32], i32_const(100 + number), name='x')
        files = {'a': idle, 'x': given.bytes()}
        for source in dict.fromkeys([number, number - 1, number + 1, number % 10]):
            taken = File()
            index = taken.take_function(f'm{source}', 'x', [], [I32])
            words = ['a'] * number + ['x'] + ['a'] * (14 - number) + ['b']
            COUNTS.call(f'file-{number}-as-m{source}', words, files | {'b': taken.main([I32], call(index))},
                        gives(100 + number) if source == number else no_import(15))
    many = list(NAMES[:17])
    COUNTS.call('17-files-that-are-not-there', many, {}, limit)
    COUNTS.call('16-files-that-are-not-there', many[:16], {}, READ_FAULT)
    COUNTS.call('17-files-and-statistics', [*many, '--stats'], {}, limit)
    COUNTS.call('17-files-and-an-unknown-option', [*many, '--all'], {}, USAGE_LINES)
    COUNTS.call('17-files-and-no-number', [*many, '--steps', 'x'], {}, USAGE_LINES)
    COUNTS.call('17-scripts', ['a'] * 17, {'a': b'fn main() {}'}, limit)
    COUNTS.add(LinkRow('17-files-and-a-call-on-files-that-would-fail', ['a'] * 17, {'a': SEVEN}, limit, (
        'fails inputs 0 1 2 3',)))


def _printing_start():
    """A file whose start function prints 3."""
    file = File()
    index = file.printer()
    file.start = file.function([], [], i32_const(3) + call(index))
    return file.bytes()


def _calls_of(given):
    """How many calls on the files read a file: it is opened, and read piece by piece and once more at its end."""
    return 2 + -(-len(given) // BUFFER)


def _reading_rows():
    big = SEVEN + b'\x00' + unsigned(BUFFER) + b'\x00' * BUFFER
    broken = b'\x00asm\x02\x00\x00\x00'
    for name, files, wanted in [
            ('two-files', [SEVEN, EIGHT], gives(8)), ('two-large-files', [big, big], gives(7)),
            ('an-empty-file-behind', [SEVEN, b''], says('file 1 malformed header', 3)),
            ('a-broken-file-behind', [SEVEN, broken], says('file 1 malformed header', 3))]:
        total = sum(map(_calls_of, files))
        names = dict(zip(NAMES, files))
        for number in range(total + 1):
            READING.add(LinkRow(f'{name}/call-{number}-fails', list(names), names,
                                READ_FAULT if number < total else wanted, (f'fails inputs {number}',)))
    for number in range(_calls_of(broken), 7):
        READING.add(LinkRow(
            f'a-broken-file-in-front/call-{number}-fails', ['a', 'b'], {'a': broken, 'b': SEVEN},
            says('file 0 malformed header', 3), (f'fails inputs {number}',)))
    for name, words, files, wanted in [
            ('the-first-is-not-there', ['x', 'b'], TWO, READ_FAULT),
            ('the-second-is-not-there', ['a', 'x'], TWO, READ_FAULT),
            ('none-is-there', ['x', 'y'], {}, READ_FAULT), ('one-that-is-not-there', ['x'], {}, READ_FAULT),
            ('the-second-is-not-there-and-the-first-is-broken', ['a', 'x'], {'a': broken},
             says('file 0 malformed header', 3)),
            ('the-first-is-not-there-and-the-second-is-broken', ['x', 'a'], {'a': broken}, READ_FAULT),
            ('the-second-is-not-there-and-the-first-has-no-entry', ['a', 'x'], {'a': File().bytes()}, READ_FAULT),
            ('the-third-is-not-there-and-statistics-are-asked-for', ['a', 'b', 'x', '--stats'], TWO, READ_FAULT)]:
        READING.call(name, words, files, wanted)
    for name, number in [('out', 0), ('err', 0)]:
        READING.add(LinkRow(f'call-{number}-on-{name}-fails', ['a', 'b', '--stats'], TWO, [
            *(gives(8) if name == 'err' else []), 'status 7'], (f'fails {name} {number}',)))
    READING.add(LinkRow('read-fault-and-call-0-on-err-fails', ['x'], {}, ['status 7'], ('fails err 0',)))
    READING.add(LinkRow('limit-files-and-call-0-on-err-fails', ['x'] * 17, {}, ['status 7'], ('fails err 0',)))


def padded(length, given):
    """The words of a module, made so long by a custom section."""
    header, rest = given[:8], given[8:]
    size = length - len(given) - 5
    return ' '.join([header.hex().upper(), '00', unsigned(size).hex().upper(), f'00*{size}', rest.hex().upper()])


def _input_rows():
    most, more = padded(GREATEST_INPUT, SEVEN), padded(GREATEST_INPUT + 1, SEVEN)
    broken = b'\x00asm\x02\x00\x00\x00'
    for name, files, wanted in [
            ('as-large-as-one-may-be', [SEVEN, most], gives(7)), ('one-byte-too-large', [SEVEN, more], says(
                'file 1 limit input', 9)),
            ('the-first-is-too-large', [more, SEVEN], says('file 0 limit input', 9)),
            ('the-first-is-too-large-and-the-second-broken', [more, broken], says('file 0 limit input', 9)),
            ('the-second-is-too-large-and-the-first-broken', [broken, more], says('file 0 malformed header', 3))]:
        names = dict(zip(NAMES, files))
        JUDGING.call(f'input/{name}', list(names), names, wanted)
    JUDGING.call('input/zeros-that-are-too-many', ['a'], {'a': f'00*{GREATEST_INPUT + 1}'}, says(
        'file 0 limit input', 9))
    JUDGING.call('input/a-script-that-is-too-long', ['a'], {'a': '20*1048577'}, says('file 0 malformed header', 3))


def _judging_rows():
    """What is said of a file that isn't a valid module, in each place among the files."""
    with_types = File()
    with_types.types.groups.append(functype([I32] * 1001, []))
    bad_body = File()
    bad_body.function([], [], DROP)
    many = File()
    many.types.groups += [functype([], [])] * 10001
    locals_ = File()
    locals_.function([], [], b'', [(50001, I32)])
    bad_import = File()
    bad_import.take('m0', 'x', 'func', 0)
    bad_start = File()
    bad_start.start = bad_start.function([I32])
    for name, given, said, status in [
            ('an-empty-file', b'', 'malformed header', 3),
            ('a-script', b'fn main() { return 7; }\n', 'malformed header', 3),
            ('a-text', b'module\n', 'malformed header', 3),
            ('a-front-of-a-header', b'\0asm\1\0\0', 'malformed header', 3),
            ('another-version', b'\0asm\2\0\0\0', 'malformed header', 3),
            ('a-section-that-is-cut-off', SEVEN[:-1], 'malformed frame 3', 3),
            ('a-byte-behind', SEVEN + b'\x0e', 'malformed frame 4', 3),
            ('wrong-contents', SEVEN[:10] + b'\x02' + SEVEN[11:], 'malformed content 0', 3),
            ('no-code', SEVEN[:-8], 'malformed counts', 3), ('limit-params', with_types.bytes(), 'limit params', 9),
            ('limit-types', many.bytes(), 'limit types', 9), ('limit-locals', locals_.bytes(), 'limit locals', 9),
            ('a-wrong-body', bad_body.bytes(), 'invalid function 0', 4),
            ('an-import-of-no-type', bad_import.bytes(), 'invalid import 0', 4),
            ('a-wrong-start', bad_start.bytes(), 'invalid start', 4)]:
        for place in range(3):
            files = [SEVEN] * 3
            files[place] = given
            JUDGING.row(f'{name}/file-{place}', *files, wanted=says(f'file {place} {said}', status))
        JUDGING.told(f'{name}/and-statistics', SEVEN, given, wanted=says(f'file 1 {said}', status))


# Faults of files, in the order in which they are told of one file, with the stage at which this is, what is said, and
# the status.
STAGES = {
    'malformed': (0, 'file {} malformed header', 3), 'params': (0, 'file {} limit params', 9),
    'invalid': (0, 'file {} invalid function 0', 4), 'entry': (1, 'no entry', 4),
    'import': (2, 'file {} no import 0', 4),
    'memory': (3, 'file {} limit memory', 9), 'table': (3, 'file {} limit table', 9),
    'elements': (4, 'file {} trap table out of bounds', 1), 'data': (4, 'file {} trap memory out of bounds', 1),
    'start': (5, 'trap unreachable', 1)}
FAULTS = [(file, fault) for file in range(3) for fault in STAGES if fault != 'entry' or file == 2]


def faulty(file, *faults):
    """A file with these faults, and with main where this isn't one of them."""
    made = File()
    if 'import' in faults:
        made.take_function('m9', 'x')
    if 'params' in faults:
        made.types.add(functype([I32] * 1001, []))
    function = made.function([], [I32], DROP if 'invalid' in faults else i32_const(file))
    made.memory(limits(257 if 'memory' in faults else 1))
    made.table(FUNCREF, limits(1048577 if 'table' in faults else 1))
    if 'elements' in faults:
        made.elements(active_functions([function], ONE))
    if 'data' in faults:
        made.data(active_data('x', i32_const(-1)))
    if 'start' in faults:
        made.start = made.function([], [], UNREACHABLE)
    given = made.bytes() if 'entry' in faults else made.main([I32], i32_const(file))
    return b'\0asm\2' + given[5:] if 'malformed' in faults else given


def _order(fault):
    """The stage of a fault, its file, and its place among those of the file: the least is told."""
    file, name = fault
    return STAGES[name][0], file, list(STAGES).index(name)


def _order_row(name, faults, stats=False):
    files = [faulty(file, *(fault for place, fault in faults if place == file)) for file in range(3)]
    if not faults:
        ORDER.row(name, *files, wanted=gives(2))
        return
    file, first = min(faults, key=_order)
    _, said, status = STAGES[first]
    if first == 'start':
        ORDER.row(name, *files, stats=stats)
        return
    ORDER.row(name, *files, wanted=says(said.format(file), status), stats=stats)


def _order_rows():
    _order_row('no-fault', [])
    for number, pair in enumerate(combinations(FAULTS, 2)):
        (file, fault), (other_file, other) = pair
        if number % 6 == 0 or (fault == other and 'malformed' not in (fault, other)):
            _order_row(f'{fault}-in-{file}-and-{other}-in-{other_file}', pair, stats=number % 2 == 1)
    for count in range(1, len(FAULTS) + 1):
        last = sorted(FAULTS, key=_order)[-count:]
        file, fault = last[0]
        _order_row(f'{fault}-in-{file}-and-all-behind', last)
        if count % 4 == 0:
            _order_row(f'{fault}-in-{file}-and-all-behind/with-statistics', last, stats=True)


_word_rows()
_count_rows()
_reading_rows()
_input_rows()
_judging_rows()
_order_rows()
