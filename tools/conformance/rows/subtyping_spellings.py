"""How types with supertypes are spelled and written: open behind 50, final behind 4F, and bytes that spell none."""

from rows.decoding import spelled
from rows.fields import sec
from rows.sections import ModuleSection, VALID

DECODING = ModuleSection('decoding')
WRITING = ModuleSection('writing')
MALFORMED = 'malformed content 0'
INVALID_SECOND = 'invalid type 1'

OPEN_ONE = '5000 600000 '       # an open type [] to [], which is type 0 where it stands in front


def row(name, answer, digits):
    """A module of the types that these digits spell."""
    DECODING.row(name, answer, spelled(sec('types', digits)))


# The byte in front of a count of no supertypes, and the byte behind that.
for byte in [0x00, *range(0x40, 0x80), 0x80, 0xcf, 0xd0, 0xff]:
    row(f'first-byte-{byte:02X}', VALID if byte in (0x4f, 0x50) else MALFORMED, f'01 {byte:02X} 00 600000')
    row(f'first-byte-{byte:02X}-in-a-group', VALID if byte in (0x4f, 0x50) else MALFORMED,
        f'01 4E01 {byte:02X} 00 600000')
for kind in ('50', '4F'):
    for byte in [0x00, 0x01, *range(0x4c, 0x53), *range(0x5c, 0x63), 0x70, 0x7f, 0xdd, 0xe0]:
        answer = VALID if byte == 0x60 else MALFORMED
        row(f'behind-{kind}/first-byte-{byte:02X}', answer, f'01 {kind} 00 {byte:02X} 0000')
    row(f'behind-{kind}/a-continuation-type', VALID, f'02 {OPEN_ONE} {kind}00 5D00')
    row(f'behind-{kind}/a-continuation-type-in-front-of-its-function', 'invalid type 0', f'02 {kind}00 5D01 600000')
    row(f'behind-{kind}/a-group', MALFORMED, f'01 {kind}00 4E01 600000')
    row(f'behind-{kind}/a-group-of-none', MALFORMED, f'01 {kind}00 4E00')
    row(f'behind-{kind}/another-50', MALFORMED, f'01 {kind}00 5000 600000')
    row(f'behind-{kind}/another-4F', MALFORMED, f'01 {kind}00 4F00 600000')
    row(f'behind-{kind}/nothing-but-a-type', MALFORMED, f'01 {kind} 600000')
    row(f'behind-{kind}/supertypes-behind-the-type', MALFORMED, f'02 {OPEN_ONE} 600000 {kind}0100')
    row(f'{kind}-behind-the-byte-of-a-function', MALFORMED, f'02 {OPEN_ONE} 60 {kind}0100 0000')
    row(f'{kind}-behind-the-byte-of-a-continuation', MALFORMED, f'02 {OPEN_ONE} 5D {kind}0100 00')
    row(f'{kind}-as-a-parameter', MALFORMED, f'02 {OPEN_ONE} 6001 {kind} 00')
    row(f'{kind}-as-a-heap-type', MALFORMED, f'02 {OPEN_ONE} 600163 {kind} 00')

# How many supertypes there are, and numbers in any spelling.
MANY = 'AC02' + '00' * 300
for kind in ('50', '4F'):
    for name, answer, digits in [
            ('none', VALID, '00'), ('one', VALID, '01 00'), ('two', INVALID_SECOND, '02 0000'),
            ('three', INVALID_SECOND, '03 000000'), ('three-hundred', INVALID_SECOND, MANY),
            ('none-of-one', MALFORMED, '01'), ('one-of-two', MALFORMED, '02 00'), ('one-of-none', MALFORMED, '00 00'),
            ('two-of-one', MALFORMED, '01 0000'), ('2^32-less-1-of-one', MALFORMED, 'FFFFFFFF0F 00'),
            ('one-in-two-bytes', VALID, '8100 00'), ('one-in-five-bytes', VALID, '8180808000 00'),
            ('none-in-three-bytes', VALID, '808000'), ('one-in-six-bytes', MALFORMED, '818080808000 00'),
            ('2^32-and-one', MALFORMED, '8180808010 00')]:
        row(f'supertypes-of-{kind}/{name}', answer, f'02 {OPEN_ONE} {kind} {digits} 600000')
    for name, answer, digits in [
            ('in-two-bytes', VALID, '8000'), ('in-five-bytes', VALID, '8080808000'),
            ('in-six-bytes', MALFORMED, '808080808000'), ('past-32-bits', MALFORMED, '8080808010'),
            ('the-greatest', INVALID_SECOND, 'FFFFFFFF0F'), ('the-greatest-and-one-bit-more', MALFORMED, 'FFFFFFFF1F'),
            ('that-ends-with-7F', INVALID_SECOND, '7F'), ('without-its-end', MALFORMED, '80')]:
        row(f'index-of-{kind}/{name}', answer, f'02 {OPEN_ONE} {kind} 01 {digits} 600000')
    row(f'index-of-{kind}/64-in-one-byte', VALID, f'42 {OPEN_ONE * 65} {kind} 01 40 600000')

# Groups.
for name, answer, digits in [
        ('of-none', VALID, '4E00'), ('of-one', VALID, '4E01 5000 600000'),
        ('of-one-final-type', VALID, '4E01 4F00 600000'), ('of-two', VALID, '4E02 5000 600000 4F0100 600000'),
        ('of-each-form', VALID, '4E03 5000 600000 600000 4F0100 600000'),
        ('of-functions-and-continuations', VALID, '4E04 5000 600000 5000 5D00 4F0100 600000 4F0101 5D02'),
        ('in-a-group', MALFORMED, '4E01 4E01 5000 600000'), ('of-none-in-a-group', MALFORMED, '4E01 4E00'),
        ('one-too-few', MALFORMED, '4E03 5000 600000 4F0100 600000'),
        ('one-too-many', MALFORMED, '4E01 5000 600000 4F0100 600000'),
        ('behind-a-count-of-supertypes', MALFORMED, '5000 4E02 600000 600000'),
        ('with-50-in-front-of-its-count', MALFORMED, '4E 50 02 600000 600000')]:
    row(f'group/{name}', answer, f'01 {digits}')
row('group/supertypes-in-front-of-it', 'malformed content 0', f'02 {OPEN_ONE} 4F0100 4E01 600000')
row('group/a-supertype-of-the-group-in-front', VALID, '02 4E01 5000 600000 4E01 4F0100 600000')

# Types that are cut off: where the section ends, and where the file does.
for name, front, entry in [
        ('open-function', f'02 {OPEN_ONE}', '50 01 00 60 00 00'),
        ('final-function', f'02 {OPEN_ONE}', '4F 01 00 60 00 00'),
        ('open-function-with-parameters', '02 5000 60017F017E', '50 01 00 60 01 7F 01 7E'),
        ('final-without-supertypes', f'02 {OPEN_ONE}', '4F 00 60 00 00'),
        ('open-continuation', f'03 {OPEN_ONE} 5000 5D00', '50 01 01 5D 00'),
        ('final-continuation', f'03 {OPEN_ONE} 5000 5D00', '4F 01 01 5D 00'),
        ('longer-numbers', f'02 {OPEN_ONE}', '50 81 80 00 80 00 60 80 00 80 00'),
        ('group', f'02 {OPEN_ONE}', '4E 02 50 01 00 60 00 00 4F 01 01 60 00 00')]:
    whole = bytes.fromhex(entry)
    for length in range(len(whole)):
        row(f'cut-off/{name}/{length}-bytes', MALFORMED, f'{front} {whole[:length].hex()}')
    row(f'cut-off/{name}/whole', VALID, f'{front} {entry}')
    row(f'cut-off/{name}/one-byte-more', MALFORMED, f'{front} {entry} 00')
WHOLE = spelled(sec('types', f'02 {OPEN_ONE} 4F0100 600000'))
for length in range(8, len(WHOLE)):
    DECODING.row(
        f'cut-off/file/first-{length}-bytes', VALID if length == 8 else 'malformed frame 0', WHOLE[:length])
row('a-malformed-type-behind-one-that-is-not-valid', MALFORMED, '03 500105 600000 600000 5000 61')

# How types are written.


def written(name, digits, canonical=None):
    """Types that are written so; where nothing else is told, as they are given."""
    canonical = digits if canonical is None else canonical
    WRITING.built(name, spelled(sec('types', digits)), spelled(sec('types', canonical)))


for kind, form in [('open', '50'), ('final', '4F')]:
    written(f'{kind}-with-a-supertype', f'02 5000 600000 {form}0100 600000')
    written(f'{kind}-continuation-with-a-supertype', f'04 5000 600000 5000 5D00 {form}0101 5D00 600000')
    written(f'{kind}-with-longer-numbers', f'02 5000 600000 {form}818000 8000 60808000 8000',
            f'02 5000 600000 {form}0100 600000')
    written(f'{kind}-with-supertype-64', f'42 {"5000600000" * 65} {form}0140 600000')
    written(f'{kind}-with-supertype-64-in-a-longer-spelling', f'42 {"5000600000" * 65} {form}01C000 600000',
            f'42 {"5000600000" * 65} {form}0140 600000')
    written(f'{kind}-with-supertype-128', f'8201 {"5000600000" * 129} {form}018001 600000')
    written(f'{kind}-in-a-group', f'01 4E02 5000 600000 {form}0100 600000')
    written(f'{kind}-in-a-group-of-one', f'02 5000 600000 4E01 {form}0100 600000', f'02 5000 600000 {form}0100 600000')
    written(f'{kind}-that-refers-to-itself-in-a-group-of-one', f'02 5000 60016300 00 4E01 {form}0100 60016300 00',
            f'02 5000 60016300 00 {form}0100 60016300 00')
written('open-without-supertypes', '01 5000 600000')
written('open-without-supertypes-by-a-longer-count', '01 50808000 600000', '01 5000 600000')
written('open-without-supertypes-in-a-group-of-one', '01 4E01 5000 600000', '01 5000 600000')
written('open-without-supertypes-in-a-group', '01 4E02 600000 5000 600000')
written('open-continuation', '02 600000 5000 5D00')
written('open-continuation-with-index-64-as-signed', f'42 {"600000" * 65} 5000 5D40',
        f'42 {"600000" * 65} 5000 5DC000')
written('final-without-supertypes', '01 4F00 600000', '01 600000')
written('final-without-supertypes-by-a-longer-count', '01 4F8000 60017F00', '01 60017F00')
written('final-without-supertypes-in-a-group-of-one', '01 4E01 4F00 600000', '01 600000')
written('final-without-supertypes-in-a-group', '01 4E02 4F00 600000 4F00 5D00', '01 4E02 600000 5D00')
written('final-continuation-without-supertypes', '02 600000 4F00 5D00', '02 600000 5D00')
written('final-without-supertypes-beside-open', '01 4E03 4F00 600000 5000 600000 4F0101 600000',
        '01 4E03 600000 5000 600000 4F0101 600000')
written('groups-of-none-of-one-and-of-two', '03 4E00 4E01 5000 600000 4E02 4F0100 600000 4F00 600000',
        '03 4E00 5000 600000 4E02 4F0100 600000 600000')
written('each-form-once', '06 600000 5000 600000 500101 600000 4F0101 600000 5000 5D01 4F0104 5D02')
for name, digits in [
        ('a-final-supertype', '02 600000 4F0100 600000'), ('two-supertypes', f'02 {OPEN_ONE} 4F020000 600000'),
        ('a-supertype-of-another-kind', f'02 {OPEN_ONE} 4F0100 5D00')]:
    WRITING.row(f'not-valid/{name}', INVALID_SECOND, spelled(sec('types', digits)), 'build')
    WRITING.row(f'not-valid/{name}/run', INVALID_SECOND, spelled(sec('types', digits)), 'run')
BODY = ' 03020101 0905010300 0100 0A09010700 D200E0021A0B'
WRITING.built(
    'a-function-of-a-type-with-a-supertype', spelled(sec('types', '03 5000 600000 4F8100 00 600000 4F00 5D00') + BODY),
    spelled(sec('types', '03 5000 600000 4F0100 600000 5D00') + BODY))
