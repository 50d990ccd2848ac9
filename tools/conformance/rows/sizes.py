"""Modules as large as a file may be, or nested deeply. They are spelled by pieces, and some sizes in four bytes."""

from rows.sections import VALID, BuiltRow, CallRow, Section, answered
from rows.words import Pieces, shortest

SECTION = Section('sizes')
PIECES = Pieces()

# The header, and the types [] to [] and [(ref 0)] to [].
FRONT = '0061736D010000000109026000006001640000'


def four_bytes(number):
    """A number below 2^28 in four bytes."""
    groups = [number >> shift & 0x7f for shift in (0, 7, 14, 21)]
    return bytes([*(group | 0x80 for group in groups[:3]), groups[3]]).hex().upper()


def section(number, words, size=four_bytes):
    """A section of these contents."""
    return [f'{number:02X}{size(PIECES.length(words))}', *words]


def sized(words, size=four_bytes):
    """The codes of one function, in front of which stand their number and its size."""
    return [f'01{size(PIECES.length(words))}', *words]


def one_function(function_type, declared, body):
    """A module with one function of this type, with these locals and instructions."""
    code = [declared, *body, '0B']
    return [FRONT, *section(3, [f'01{function_type:02X}']), *section(10, sized(code))]


def judged(name, words, answer=VALID):
    SECTION.rows.append(CallRow(name, 'check x', ' '.join(words), answered(answer)))


def built(name, given, written):
    SECTION.rows.append(BuiltRow(name, ' '.join(given), ' '.join(written)))


judged('a-file-full-of-code', one_function(0, '00', ['41001A*5592380']))
judged('a-million-instructions', one_function(0, '00', ['01*1000000']))
judged('a-long-custom-section', ['0061736D01000000', *section(0, ['00*16777203'])])
judged('deeply-nested-blocks', one_function(0, '00', ['0240*100000', '0B*100000']))

# Two runs of locals, 24,999 of i64 and 25,000 of (ref 0); and nested blocks, each of which sets one of 1,000 of the
# latter to the parameter, and then reads it.
DECLARED = '02A7C3017EA8C3016400'
PIECES.add('sets', ''.join(
    f'0240200021{shortest(25000 + place)}20{shortest(25000 + place)}1A' for place in range(1000)))
NESTED = ['@sets*100', '0B*100000']
judged('locals-set-in-deep-blocks', one_function(1, DECLARED, NESTED))
judged('locals-set-in-deep-blocks-are-forgotten', one_function(1, DECLARED, [*NESTED, '20A8C3011A']),
       'invalid function 0')
judged('a-table-of-a-million-labels', one_function(
    0, '00', ['024041000E' + four_bytes(1000000), '0001*500000', '000B']))

# A million functions, of which all but the last have 50,000 locals of i32 and read the last of them: a file of 13 MB
# that stands for 50,000,000,000 locals. The last one reads the first of 50,000 locals of (ref null 0) or of (ref 0).
PIECES.add('many_locals', '0B01D086037F20CF86031A0B')


def with_last(last):
    number = four_bytes(1000000)
    return [FRONT, *section(3, [number, '00*1000000']), *section(10, [number, '@many_locals*999999', last])]


judged('a-million-functions-of-many-locals', with_last('0A01D08603630020001A0B'))
judged('a-million-functions-of-many-locals-of-which-one-is-not-set', with_last('0A01D08603640020001A0B'),
       'invalid function 999999')


def written(*body):
    """A module with one function of type [] to [] and these instructions, whose sizes have their shortest spellings."""
    codes = sized(['00', *body, '0B'], shortest)
    return ['0061736D0100000001040160000003020100', *section(10, codes, shortest)]


built('a-code-section-of-many-mebibytes-is-written', written('42808080808080808080001A*1390000'),
      written('42001A*1390000'))
for name, words in [
        ('blocks', ['0340*100000', '0B*100000']), ('ifs', ['4100044005*100000', '0B*100000'])]:
    built(f'a-hundred-thousand-{name}-are-written', written(*words), written(*words))
MILLION = [
    '0061736D01000000010401600000', *section(3, [shortest(1000000), '00*1000000'], shortest),
    *section(10, [shortest(1000000), '02000B*1000000'], shortest)]
built('a-million-functions-are-written', MILLION, MILLION)


def ran(name, steps, words, *wanted):
    """A run of so many reductions at most. It isn't judged by the second reader of execution."""
    SECTION.rows.append(CallRow(name, f'run x --steps {steps}', ' '.join(words), wanted))


# Main of type [] to []: its invoke, two reductions for each block, and two for the exits of main.
NESTED_BLOCKS = [
    '0061736D0100000001040160000003020100', '070801046D61696E0000',
    *section(10, sized(['00', '0240*100000', '0B*100000', '0B']))]
ran('a-hundred-thousand-nested-blocks-run', 200003, NESTED_BLOCKS)
ran('a-hundred-thousand-nested-blocks-are-still-running', 200002, NESTED_BLOCKS, 'err | running', 'status 10')
