"""Calls of `trace` and `audit`: their words, the refusals of a file that isn't run, and those of a trace that isn't
read, in their order; and calls on the outside that fail."""

from assembler.instructions import DROP, UNREACHABLE, br, call, i32_const, i64_const, loop
from assembler.segments import active_data, active_functions
from assembler.types import EMPTY, FUNCREF, I32, I64, functype, limits
from rows.linking_files import padded
from rows.linking_samples import File, says, written
from rows.running_instances import importing
from rows.runs import main_module, printed, printer
from rows.trace_samples import (
    EVERY, EVERY_ACCEPTED, EVERY_TRACE, GREATEST_INPUT, LIMIT_INPUT, PLAIN, PLAIN_TRACE, READ_FAULT, TWICE, TWICE_TRACE,
    USAGE_LINES, TraceRow, TraceSection, accepts, trace)

WORDS = TraceSection('words')
FILES = TraceSection('files')
TRACES = TraceSection('traces')
OUTSIDE = TraceSection('outside')

GREATEST_STEPS = 2 ** 40
WRITTEN = trace(EVERY_TRACE)
TWO = {'x': EVERY, 't': WRITTEN}


def _named(words):
    return ' '.join(word or "''" for word in words)


def _unknown_words():
    """Words that ask for nothing, behind the files that a command takes."""
    return [
        ['--help'], ['-h'], ['--version'], ['-V'], ['--stats'], ['--stats', '--steps', '5'], ['--step', '5'],
        ['--steps', '5', '--steps', '5'], ['--steps=5', '--steps', '6'], ['--steps'], ['--steps='], ['--steps', ''],
        ['--steps', '05'], ['--steps', '00'], ['--steps', '+5'], ['--steps', '-5'], ['--steps', '5.0'],
        ['--steps', '0x5'], ['--steps', '1e3'], ['--steps', 't'], ['--steps', str(GREATEST_STEPS + 1)],
        ['--steps', str(2 ** 64)], ['--steps', '9' * 26], ['--unknown'], ['-x'], ['x'], ['--', 't'], ['']]


def _word_rows():
    for words in [
            ['trace'], ['audit'], ['audit', 'x'], ['trace', '--'], ['audit', '--', 'x'], ['trace', '--steps', '5'],
            ['audit', '--steps', '5', 'x'], ['audit', 'x', '--steps', 't'], ['audit', 'x', 't', 't', 't']]:
        WORDS.call(f'words/{_named(words)}', words, TWO, USAGE_LINES)
    for files in (['trace', 'x'], ['audit', 'x', 't']):
        for more in _unknown_words():
            WORDS.call(f'words/{_named([*files, *more])}', [*files, *more], TWO, USAGE_LINES)
    traced = written(*EVERY_TRACE)
    cut = written(*EVERY_TRACE[:1], 'end 5 running')
    for words, wanted in [
            (['x', '--steps', '5'], cut), (['--steps', '5', 'x'], cut), (['x', '--steps=5'], cut),
            (['--steps=5', 'x'], cut), (['--', 'x'], traced), (['x', '--'], traced),
            (['--steps', '5', '--', 'x'], cut), (['--', '--steps'], READ_FAULT), (['--', '-x'], READ_FAULT),
            (['x', '--steps', '0'], written('end 0 running')), (['x', '--steps', str(GREATEST_STEPS)], traced),
            ([''], READ_FAULT), (['X'], READ_FAULT), (['trace'], READ_FAULT)]:
        WORDS.call(f'words-that-are-understood/trace {_named(words)}', ['trace', *words], TWO, wanted)
    known = says('differs 1', 13)
    for words, wanted in [
            (['x', 't', '--steps', '5'], known), (['--steps', '5', 'x', 't'], known),
            (['x', '--steps', '5', 't'], known), (['x', 't', '--steps=5'], known), (['--', 'x', 't'], EVERY_ACCEPTED),
            (['x', '--', 't'], EVERY_ACCEPTED), (['x', 't', '--'], EVERY_ACCEPTED),
            (['x', '--steps', '5', '--', 't'], known), (['x', '--', '--steps'], READ_FAULT),
            (['x', 't', '--steps', '0'], says('differs 0', 13)),
            (['x', 't', '--steps', str(GREATEST_STEPS)], EVERY_ACCEPTED), (['x', ''], READ_FAULT),
            (['', 't'], READ_FAULT), (['x', 'T'], READ_FAULT), (['t', 'x'], says('malformed header', 3)),
            (['x', 'x'], says('trace 0', 13)), (['t', 't'], says('malformed header', 3))]:
        WORDS.call(f'words-that-are-understood/audit {_named(words)}', ['audit', *words], TWO, wanted)
    for command in ('Trace', 'TRACE', 'traces', 'trac', 'Audit', 'audits', 'audi', '--trace', '--audit'):
        WORDS.add(TraceRow(f'command/{command}', [command, 'x', 't'], TWO, USAGE_LINES))
    for command in ('check', 'run', 'build', 'dump', 'asm'):
        WORDS.add(TraceRow(f'command/{command}-of-two-files', [command, 'x', 't'], TWO, USAGE_LINES))


def _faulty_files():
    """Files that aren't run, with what is said and the status."""
    with_types, bad_body, no_entry = File(), File(), File()
    with_types.types.groups.append(functype([I32] * 1001, []))
    bad_body.function([], [], DROP)
    no_entry.function([], [I32], i32_const(5), name='mein')
    taking = File()
    taking.function([I32], [I32], i32_const(5), name='main')
    memory, table, elements, data = File(), File(), File(), File()
    memory.memory(limits(257))
    table.table(FUNCREF, limits(1048577))
    elements.table(FUNCREF, limits(1))
    elements.elements(active_functions([0], i32_const(1)))
    data.memory(limits(1))
    data.data(active_data('x', i32_const(-1)))
    return {
        'an-empty-file': (b'', 'malformed header', 3),
        'a-script': (b'fn main() { return 7; }\n', 'malformed header', 3),
        'a-wrong-script': (b'fn main() {', 'malformed header', 3),
        'a-script-that-is-too-long': ('20*1048577', 'malformed header', 3),
        'a-text': (b'module\n', 'malformed header', 3),
        'a-front-of-a-header': (b'\0asm\1\0\0', 'malformed header', 3),
        'another-version': (b'\0asm\2\0\0\0', 'malformed header', 3),
        'a-section-that-is-cut-off': (EVERY[:-1], 'malformed frame 6', 3),
        'a-byte-behind': (EVERY + b'\x0e', 'malformed frame 7', 3),
        'limit-params': (with_types.bytes(), 'limit params', 9),
        'a-wrong-body': (bad_body.main(), 'invalid function 0', 4),
        'no-printer': (importing(printer('print_i32'), printer('print_u32', 1)), 'no printer 1', 4),
        'no-entry': (no_entry.bytes(), 'no entry', 4), 'a-main-that-takes-a-number': (taking.bytes(), 'no entry', 4),
        'limit-memory': (memory.main(), 'limit memory', 9), 'limit-table': (table.main(), 'limit table', 9),
        'elements-out-of-bounds': (elements.main(), 'trap table out of bounds', 1),
        'data-out-of-bounds': (data.main(), 'trap memory out of bounds', 1)}


TOO_LONG = f'00*{GREATEST_INPUT + 1}'
TRACES_OF_REFUSED = {
    'a-right-trace': WRITTEN, 'no-trace': None, 'an-empty-trace': b'', 'a-trace-that-is-too-long': TOO_LONG}


def _file_rows():
    """What is said of a file goes before all that is said of the trace."""
    for number, (name, (given, said, status)) in enumerate(_faulty_files().items()):
        wanted = says(said, status)
        FILES.call(f'trace/{name}', ['trace', 'x'], {'x': given}, wanted)
        FILES.call(f'trace/{name}/0-reductions', ['trace', 'x', '--steps', '0'], {'x': given}, wanted)
        for place, (way, told) in enumerate(TRACES_OF_REFUSED.items()):
            steps = ['--steps', '0'] if (number + place) % 3 == 0 else []
            files = {'x': given} if told is None else {'x': given, 't': told}
            if told != TOO_LONG or number % 5 == 0:
                FILES.call(f'audit/{name}/{way}', ['audit', 'x', 't', *steps], files, wanted)


def _large_file_rows():
    """A file that isn't there, and one as large as one may be or larger."""
    for name, command in [('trace', ['trace', 'x']), ('audit', ['audit', 'x', 't'])]:
        for way, told in TRACES_OF_REFUSED.items():
            if name == 'audit' or told is None:
                files = {} if told is None else {'t': told}
                FILES.call(f'{name}/one-that-is-not-there/{way}', command, files, READ_FAULT)
        files = {'x': padded(GREATEST_INPUT, PLAIN), 't': trace(PLAIN_TRACE)}
        FILES.call(f'{name}/as-large-as-one-may-be', command, files, written(
            *PLAIN_TRACE) if name == 'trace' else accepts(0, 0))
        for way, told in [('a-right-trace', trace(PLAIN_TRACE)), ('no-trace', None)]:
            files = {'x': padded(GREATEST_INPUT + 1, PLAIN)} | ({} if told is None else {'t': told})
            FILES.call(f'{name}/one-byte-too-large/{way}', command, files, LIMIT_INPUT)


def _start_rows():
    """A trap of a start function is one of the run."""
    start = File()
    start.start = start.function([], [], UNREACHABLE)
    started = start.main([I32], i32_const(5))
    FILES.traced('trace/a-start-function-that-traps', started, wanted=['end 2 trap unreachable'])
    FILES.audited('audit/a-start-function-that-traps', started, ['end 2 trap unreachable'], wanted=accepts(0, 0))


def _hex(data, times=1):
    """The word of these bytes, so many times."""
    return data.hex().upper() + (f'*{times}' if times > 1 else '')


def _longest_trace():
    """The words of lines of a trace that are just as long as one may be: lines of seven bytes, some of eight, and an
    end."""
    last = trace(['end 0 running'])
    rest = GREATEST_INPUT - len(last)
    eights = rest % 7
    return f'{_hex(trace(["1 exit"]), rest // 7 - eights)} {_hex(trace(["10 exit"]), eights)} {_hex(last)}'


def _trace_rows():
    """A trace that isn't there, and one that is too long or just as long as one may be."""
    audit, longest, written_once = ['audit', 'x', 't'], _longest_trace(), _hex(WRITTEN)
    TRACES.call('one-that-is-not-there', audit, {'x': EVERY}, READ_FAULT)
    TRACES.call('one-that-is-not-there/0-reductions', [*audit, '--steps', '0'], {'x': EVERY}, READ_FAULT)
    for name, told, wanted in [
            ('zeros-that-are-as-many-as-may-be', f'00*{GREATEST_INPUT}', says('trace 0', 13)),
            ('zeros-that-are-too-many', TOO_LONG, LIMIT_INPUT),
            ('line-feeds-that-are-as-many-as-may-be', f'0A*{GREATEST_INPUT}', says('trace 0', 13)),
            ('line-feeds-that-are-too-many', f'0A*{GREATEST_INPUT + 1}', LIMIT_INPUT),
            ('lines-that-are-as-many-as-may-be', longest, says('differs 0', 13)),
            ('lines-that-are-too-many', f'{longest} 0A', LIMIT_INPUT),
            ('lines-that-are-too-many-by-a-line', f'{longest} {_hex(trace(["1 exit"]))}', LIMIT_INPUT),
            ('a-right-one-and-zeros', f'{written_once} 00*{GREATEST_INPUT - len(WRITTEN)}', says('trace 12', 13)),
            ('a-right-one-and-zeros-that-are-too-many', f'{written_once} 00*{GREATEST_INPUT + 1 - len(WRITTEN)}',
             LIMIT_INPUT)]:
        TRACES.call(name, audit, {'x': EVERY, 't': told}, wanted)
    TRACES.call('too-long/0-reductions', [*audit, '--steps', '0'], {'x': EVERY, 't': TOO_LONG}, LIMIT_INPUT)
    for name, told in [('a-module', EVERY), ('a-script', b'fn main() {}\n'), ('a-text', b'module\n')]:
        TRACES.call(name, audit, {'x': EVERY, 't': told}, says('trace 0', 13))


def _dropped_rows():
    """What a run prints and gives isn't written, and printing isn't an event."""
    for name, results, body, count in [
            ('nothing', [], b'', 3), ('a-number', [I32], i32_const(5), 4), ('a-wide-number', [I64], i64_const(-5), 4),
            ('two-numbers', [I32, I64], i32_const(5) + i64_const(6), 5), ('what-is-printed', [], printed(7, 8), 7),
            ('what-is-printed-and-a-number', [I32], printed(7) + i32_const(9), 6)]:
        given = main_module(results, body, printing=['print_byte'])
        FILES.traced(f'dropped/{name}/trace', given, wanted=[f'end {count} ended'])
        FILES.audited(f'dropped/{name}/audit', given, [f'end {count} ended'], wanted=accepts(0, 0))
    forever = main_module([], loop(EMPTY, printed(10) + br(0)), printing=['print_byte'])
    FILES.traced('dropped/what-is-printed-for-ever', forever, 4001, ['end 4001 running'])
    deep = main_module([], printed(10) + call(1), printing=['print_byte'])
    FILES.traced('dropped/what-is-printed-in-frames', deep, wanted=['end 60001 limit frames'])


def _calls_of(data):
    """How many calls on the files read a small file: it is opened, read, and read once more at its end."""
    return 3 if data else 2


def _failing_rows():
    """Calls on the outside that fail. Where the file is refused the trace isn't read."""
    broken = b'\0asm\2\0\0\0'
    for name, command, files, wanted in [
            ('trace', ['trace', 'x'], {'x': TWICE}, written(*TWICE_TRACE)),
            ('audit', ['audit', 'x', 't'], {'x': TWICE, 't': trace(TWICE_TRACE)}, accepts(1, 1)),
            ('audit-of-an-empty-trace', ['audit', 'x', 't'], {'x': TWICE, 't': b''}, says('trace 0', 13))]:
        total = sum(map(_calls_of, files.values()))
        for number in range(total + 1):
            OUTSIDE.add(TraceRow(f'{name}/call-{number}-on-the-files-fails', command, files,
                                 READ_FAULT if number < total else wanted, (f'fails inputs {number}',)))
        stream = 'err' if 'trace 0' in wanted[0] else 'out'
        OUTSIDE.add(TraceRow(f'{name}/call-0-on-{stream}-fails', command, files, ['status 7'], (f'fails {stream} 0',)))
    for number in range(3, 6):
        OUTSIDE.add(TraceRow(
            f'audit-of-a-broken-file/call-{number}-on-the-files-fails', ['audit', 'x', 't'],
            {'x': broken, 't': WRITTEN}, says('malformed header', 3), (f'fails inputs {number}',)))
    for command in (['trace', 'y'], ['audit', 'y', 't'], ['audit', 'x', 'y']):
        OUTSIDE.add(TraceRow(f'{_named(command)}/call-0-on-err-fails', command, TWO, ['status 7'], ('fails err 0',)))
    OUTSIDE.add(TraceRow('audit/call-0-on-out-and-call-0-on-err-fail', ['audit', 'x', 't'], TWO, ['status 7'], (
        'fails out 0', 'fails err 0')))
    OUTSIDE.add(TraceRow('words-that-ask-for-nothing/calls-on-the-files-fail', ['audit', 'x'], TWO, USAGE_LINES, (
        'fails inputs 0 1 2 3',)))


_word_rows()
_file_rows()
_large_file_rows()
_start_rows()
_trace_rows()
_dropped_rows()
_failing_rows()
