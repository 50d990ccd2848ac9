"""Lines of traces: each form with its numbers at the edges of their ranges, and each made wrong in many ways; how lines
end, and where a trace does."""

from rows.linking_samples import says
from rows.trace_mutations import (
    END_OF_32, END_OF_64, ENDS, EVENTS, LIMITS, NUMBERS, TRAPS, is_right, line_of, numbers_changed, spaces_changed,
    words_changed)
from rows.trace_samples import EVERY, EVERY_ACCEPTED, EVERY_TRACE, TWICE, TWICE_TRACE, TraceSection, trace

FORMS = TraceSection('forms')
RANGES = TraceSection('ranges')
WRONG = TraceSection('wrong lines')
LAST = TraceSection('last lines')
SPLITTING = TraceSection('where lines end')

# The numbers of a line of each form, which make the line of `EVERY_TRACE` that is of this form; those of ends.
SAMPLES = {
    'S new B': (5, 0), 'S bind A B': (6, 0, 1), 'S resume A': (7, 1), 'S suspend T B': (9, 1, 2), 'S exit': (16,),
    'S switch A T B': (24, 4, 2, 5)}
AT_THE_END = (30, 2)
EDGES = (0, END_OF_32 - 1, END_OF_32, END_OF_64 - 1, END_OF_64)

# Forms whose numbers are changed in all ways, and the ways of others.
CHANGED_IN_ALL_WAYS = ('S new B', 'S suspend T B', 'end S trap unhandled T')
FEW_WAYS = ('zero-in-front', 'plus', 'minus', 'no-digit', 'superscript-digit', 'past-its-range', 'far-past-its-range')
# Blanks that are changed also where the line stands in a whole trace.
IN_PLACE = ('blank-behind', 'two-blanks-behind-the-first-word', 'carriage-return-behind')
# Ends that are made wrong in all ways; others are by their words.
CHANGED_ENDS = ('end S ended', 'end S trap divide by zero', 'end S trap unhandled T', 'end S limit conts')

NO_ENDS = [
    'end 30', 'end', '30', '30 ended', 'ended 30', 'ended', '30 end', '30 end ended', 'end ended', 'end ended 30',
    'end 30 values', 'end 30 ok', 'end 30 no rule', 'end 30 no entry', 'end 30 trapped', 'end 30 read fault',
    'end 30 memory fault', 'end 30 write fault', 'end 30 exit', 'end 30 end', 'end 30 = 5', 'end 30 ended 5',
    'end 30 running 30', 'running', 'trap unreachable', 'limit frames', '30 trap unreachable', '30 limit frames',
    'end 30 unreachable', 'end 30 frames', 'end 30 limit', 'end 30 trap', 'end 30 trap limit frames',
    'end 30 limit trap unreachable', 'end 30 31 ended', 'end 30 trap 1', 'end 30 trap unhandled',
    'end 30 trap unhandled 1 2', 'end 30 trap unhandled tag 1', 'end 30 trap unhandled continuation',
    'end 30 trap divide-by-zero', 'end 30 trap division by zero', 'end 30 trap out of bounds', 'end 30 trap memory',
    'end 30 trap null', 'end 30 trap stack overflow', 'end 30 trap consumed', 'end 30 trap null continuation',
    'end 30 trap consumed continuation 0', 'end 30 trap null reference unreachable',
    'end 30 trap indirect call type mismatch', 'end 30 trap uninitialized element', 'end 30 fault',
    'end 30 limit steps', 'end 30 limit input', 'end 30 limit memory', 'end 30 limit table', 'end 30 limit locals',
    'end 30 limit params', 'end 30 limit types', 'end 30 limit size', 'end 30 limit files', 'end 30 limit frames 20000',
    'end 30 limit continuations', 'end 30 limit handle', 'end 30 limit frames handles', 'end 30 limit limit',
    'end 30 trap trap unreachable', 'end 30 ended ended', 'stats steps 30 made 6 consumed 5 live 1',
    'ok trace made 6 consumed 5 live 1', 'ok']

# Lines of no form: other words, other shapes, and forms of others with their numbers. A sign below 256 is a byte.
UNKNOWN = [
    '', ' ', '\r', '\t', '\0', '0', '5', '5 ', 'new', 'new 0', 'x', '5 x', '5 make 0', '5 made 0', '5 cont.new 0',
    '5 new 0 1', '5 new', '5 bind 0', '5 bind 0 1 2', '5 cont.bind 0 1', '5 resume', '5 resume 0 1', '5 resume_throw 0',
    '5 throw 0', '5 suspend 0', '5 suspend 0 1 2', '5 switch 0 1', '5 switch 0', '5 switch 0 1 2 3', '5 exit 0',
    '5 exit exit', '5 exits', '5 leave', '5 end', '5 running', '5 call 0', '5 invoke 0', '5 consume 0', '5 drop 0',
    '5 trap unreachable', '5 6 new 0', '5 new 0 6 new 1', '5 NEW 0', '5 new zero', '5: new 0', '[5] new 0',
    'step 5 new 0', 'new 5 0', '0 5 new', '5 new 0;', '5 new 0\r', '5 new\t0', '5\tnew 0', 'end', 'End 5 ended',
    '# 5 new 0', '// 5 new 0', ';; 5 new 0', '{"new": 0}', '\xff', '\xfe\xff', '5 new \xff', '\xef\xbb\xbf5 new 0',
    '5 n\xc3\xa9w 0', '5 \xee\x80\x80 0']


def _wrong(name, line, front=(), behind=()):
    """A trace with a line that is none, which is the first that is wrong. Signs of it stand for bytes."""
    if is_right(line):
        raise ValueError(f'{name}: {line} is right')
    told = trace(front) + line.encode('latin-1') + b'\n' + trace(behind)
    WRONG.refused(name, EVERY, told, f'trace {len(front)}')


def _changed(form, numbers):
    """The lines that are made of one and are wrong, each once, by names. Numbers of most forms are changed in few ways.
    """
    line = line_of(form, numbers)
    spelled = [(name, ' '.join(words)) for name, words in words_changed(line)]
    numbered = [
        (name, other) for name, other in numbers_changed(form, numbers)
        if form in CHANGED_IN_ALL_WAYS or name.split('/')[0] in FEW_WAYS]
    found = {}
    for name, other in [*spelled, *spaces_changed(line), *numbered]:
        if not is_right(other) and other not in found.values():
            found[name] = other
    return found.items()


def _event_rows():
    """Each form of an event, alone, made wrong, and made wrong in its place."""
    for form in EVENTS:
        line = line_of(form, SAMPLES[form])
        place = EVERY_TRACE.index(line)
        FORMS.refused(f'{form}/alone', EVERY, [line], 'trace 1')
        for name, other in _changed(form, SAMPLES[form]):
            _wrong(f'{form}/{name}', other, EVERY_TRACE[:1], EVERY_TRACE[-1:])
        for name, other in spaces_changed(line):
            if name in IN_PLACE:
                _wrong(f'{form}/in-its-place/{name}', other, EVERY_TRACE[:place], EVERY_TRACE[place + 1:])


def _end_rows():
    """Each form of an end: alone, twice, in front, at the end, and made wrong."""
    for form in ENDS:
        line = line_of(form, AT_THE_END)
        FORMS.refused(f'{form}/alone', EVERY, [line], 'differs 0')
        FORMS.refused(f'{form}/zero', EVERY, [line_of(form, (0, 0))], 'differs 0')
        FORMS.refused(f'{form}/twice', EVERY, [line, line], 'trace 1')
        FORMS.refused(f'{form}/in-front', EVERY, [line, *EVERY_TRACE], 'trace 1')
        wanted = EVERY_ACCEPTED if line == EVERY_TRACE[-1] else says('differs 11', 13)
        FORMS.audited(f'{form}/at-the-end', EVERY, [*EVERY_TRACE[:-1], line], wanted=wanted)
        if form in CHANGED_ENDS:
            for name, other in _changed(form, AT_THE_END):
                _wrong(f'{form}/{name}', other, EVERY_TRACE[:1])
        else:
            for name, words in words_changed(line):
                _wrong(f'{form}/{name}', ' '.join(words))


def _unknown_rows():
    for line in NO_ENDS:
        _wrong(f'no-end/{line}', line)
    for kind in TRAPS:
        _wrong(f'limit-{kind}', line_of(f'end S limit {kind}', AT_THE_END))
        _wrong(f'trap-alone-{kind}', line_of(f'end S {kind}', AT_THE_END))
    for name in LIMITS:
        _wrong(f'trap-{name}', f'end 30 trap {name}')
        _wrong(f'limit-alone-{name}', f'end 30 {name}')
    for line in UNKNOWN:
        _wrong(f'unknown/first/{_shown(line)}', line, [], EVERY_TRACE[:1])
        _wrong(f'unknown/behind/{_shown(line)}', line, EVERY_TRACE[:1])


def _shown(line):
    return ''.join(sign if ' ' <= sign < '\x7f' else f'({ord(sign):02X})' for sign in line).replace(' ', '-')


def _range_rows():
    """Each number of each form at the edges of its range. Where it is right another refusal is told."""
    for form in EVENTS:
        numbers = SAMPLES[form]
        letters = [word for word in form.split() if word in NUMBERS]
        for number, letter in enumerate(letters):
            for value in EDGES:
                if value != numbers[number]:
                    _edge_row(form, letter, [*numbers[:number], value, *numbers[number + 1:]], value)
    for form in ENDS:
        for value in EDGES:
            said = 'differs 0' if value < END_OF_64 else 'trace 0'
            RANGES.refused(f'{form}/S-as-{value}', EVERY, [line_of(form, (value, 2))], said)
    for value in EDGES:
        said = 'differs 0' if value < END_OF_32 else 'trace 0'
        RANGES.refused(f'end S trap unhandled T/T-as-{value}', EVERY, [f'end 30 trap unhandled {value}'], said)


def _edge_row(form, letter, numbers, value):
    """A trace with a line whose number for this letter has this value."""
    place = EVERY_TRACE.index(line_of(form, SAMPLES[form]))
    told = [*EVERY_TRACE[:place], line_of(form, numbers), *EVERY_TRACE[place + 1:]]
    said = 'trace' if value >= NUMBERS[letter] else 'differs' if letter in ('S', 'T') else 'unsound'
    RANGES.refused(f'{form}/{letter}-as-{value}', EVERY, told, f'{said} {place}')


def _long_number_rows():
    """Numbers of many digits. Twenty ones are below 2^64."""
    end = trace(['end 0 running']).hex().upper()
    for front, behind in [('', ' exit'), ('1 new ', '')]:
        for name, digit in [('nines', '39'), ('ones', '31'), ('zeros', '30')]:
            for count in (20, 21, 4300, 4301, 100000):
                words = f'{front.encode().hex().upper()} {digit}*{count} {behind.encode().hex().upper()} 0A {end}'
                right = 'unsound 0' if front else 'differs 0'
                said = right if (name, count) == ('ones', 20) else 'trace 0'
                files = {'x': EVERY, 't': words.strip()}
                RANGES.call(f'{front}{count}-{name}{behind}', ['audit', 'x', 't'], files, says(said, 13))
    RANGES.call('a-number-of-16000000-digits', ['audit', 'x', 't'], {'x': EVERY, 't': f'31*16000000 0A {end}'},
                says('trace 0', 13))


def _last_rows():
    """Where a trace ends: before a line that ends it, in one, or behind one."""
    for count in range(len(EVERY_TRACE)):
        LAST.refused(f'the-first-{count}-lines', EVERY, EVERY_TRACE[:count], f'trace {count}')
        LAST.refused(f'without-the-last-line-feed-behind-{count}-lines', EVERY, trace(EVERY_TRACE[:count + 1])[:-1],
                     f'trace {count}')
    for count, line in enumerate(EVERY_TRACE):
        for place in range(1, len(line)):
            told = trace(EVERY_TRACE[:count]) + line[:place].encode()
            LAST.refused(f'line-{count}-cut-at-{place}', EVERY, told, f'trace {count}')
    for name, behind in [
            ('a-line-feed', b'\n'), ('two-line-feeds', b'\n\n'), ('a-blank', b' '), ('a-blank-line', b' \n'),
            ('a-carriage-return', b'\r'), ('a-carriage-return-and-a-line-feed', b'\r\n'), ('a-zero', b'\0'),
            ('a-control-z', b'\x1a'), ('an-event', b'31 exit\n'), ('an-event-without-its-line-feed', b'31 exit'),
            ('the-same-end', b'end 30 ended\n'), ('the-same-end-without-its-line-feed', b'end 30 ended'),
            ('another-end', b'end 31 running\n'), ('an-unknown-line', b'x\n'), ('a-sign', b'x'),
            ('a-comment', b'# x\n'), ('the-whole-trace', trace(EVERY_TRACE)), ('a-byte-past-ascii', b'\xff')]:
        LAST.refused(f'{name}-behind-the-end', EVERY, trace(EVERY_TRACE) + behind, 'trace 12')
        LAST.refused(f'{name}-behind-an-end-in-front', EVERY, b'end 0 running\n' + behind, 'trace 1')
    LAST.refused('two-traces', TWICE, [*TWICE_TRACE, *TWICE_TRACE], 'trace 4')
    for count in range(len(TWICE_TRACE)):
        told = [*TWICE_TRACE[:count], TWICE_TRACE[-1], *TWICE_TRACE[count:]]
        LAST.refused(f'the-end-behind-{count}-lines', TWICE, told, f'trace {count + 1}')


def _splitting_rows():
    """Lines that end with other signs than a line feed."""
    whole = trace(EVERY_TRACE)
    for name, end in [
            ('carriage-returns', b'\r'), ('carriage-returns-and-line-feeds', b'\r\n'),
            ('line-feeds-and-carriage-returns', b'\n\r'), ('zeros', b'\0'), ('blanks', b' '), ('semicolons', b';'),
            ('vertical-tabs', b'\v'), ('form-feeds', b'\f'), ('next-lines', b'\x85'),
            ('next-lines-in-utf-8', b'\xc2\x85'), ('line-separators', b'\xe2\x80\xa8'), ('separators', b'\x1e'),
            ('two-line-feeds', b'\n\n'), ('nothing', b'')]:
        place = 1 if end.startswith(b'\n') else 0
        SPLITTING.refused(f'all/{name}', EVERY, whole.replace(b'\n', end), f'trace {place}')
        for line in (0, 5, 10, 11):
            parts = whole.split(b'\n')
            told = b'\n'.join(parts[:line + 1]) + end + b'\n'.join(parts[line + 1:])
            SPLITTING.refused(f'line-{line}/{name}', EVERY, told, f'trace {line + place}')
    SPLITTING.refused('utf-16', EVERY, whole.decode().encode('utf-16-le'), 'trace 0')
    SPLITTING.refused('utf-16-with-its-mark', EVERY, whole.decode().encode('utf-16'), 'trace 0')
    for place in (0, 1, 6, 11, 12):
        told = [*EVERY_TRACE[:place], '', *EVERY_TRACE[place:]]
        SPLITTING.refused(f'an-empty-line-at-{place}', EVERY, told, f'trace {place}')


_event_rows()
_end_rows()
_unknown_rows()
_range_rows()
_long_number_rows()
_last_rows()
_splitting_rows()
