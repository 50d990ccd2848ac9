"""What types, names, lists, imports and exports are spelled by, and bytes that spell none."""

from assembler.encoding import unsigned
from assembler.modules import SECTION_IDS
from rows.decoding import spelled
from rows.sections import ModuleSection, VALID

SECTION = ModuleSection('fields')
MALFORMED = 'malformed content 0'


def sec(kind, contents):
    """A section with these contents."""
    spelling = bytes.fromhex(contents)
    return f'{SECTION_IDS[kind]:02X}{unsigned(len(spelling)).hex()}{spelling.hex()} '


def row(name, answer, digits):
    SECTION.row(name, answer, spelled(digits))


# A parameter by its first byte, behind which stand zeros: no reference, whose heap type the first zero then is.
VALUE_TYPES = {0x7f, 0x7e, 0x70, 0x73, 0x68, 0x75}
for byte in range(256):
    if byte not in (0x63, 0x64):
        row(f'value-type/first-byte-{byte:02X}', VALID if byte in VALUE_TYPES else MALFORMED,
            sec('types', f'01 6001 {byte:02X} 00'))

# Heap types: four by a byte, the others by an index, a signed number of 33 bits that is not negative.
TYPES = '8701' + '600000' * 134
for name, answer, digits in [
        ('func', VALID, '70'), ('nofunc', VALID, '73'), ('cont', VALID, '68'), ('nocont', VALID, '75'),
        ('index-5', VALID, '05'), ('index-112-in-two-bytes', VALID, 'F000'),
        ('index-5-in-five-bytes', VALID, '8580808000'),
        ('the-greatest-index', 'invalid type 134', 'FFFFFFFF0F'), ('index-300', 'invalid type 134', 'AC02'),
        ('minus-one', MALFORMED, '7F'), ('minus-one-in-two-bytes', MALFORMED, 'FF7F'), ('minus-15', MALFORMED, '71'),
        ('33-bits-and-more', MALFORMED, 'FFFFFFFF1F'), ('nothing', MALFORMED, '')]:
    for nullable, byte in [('nullable', '63'), ('not-nullable', '64')]:
        row(f'heap-type/{name}-{nullable}', answer, sec('types', f'{TYPES} 6001 {byte}{digits} 00'))
row('element-type/no-reference', MALFORMED, sec('tables', '01 7F 00 00'))
row('element-type/reference', VALID, sec('tables', '01 70 00 00'))

# Types. Those behind 50 and 4F stand in `subtyping_spellings`.
for byte in ['5C', '5E', '5F', '61']:
    row(f'type/first-byte-{byte}', MALFORMED, sec('types', f'01 {byte} 00 00'))
    row(f'type/first-byte-{byte}-in-a-group', MALFORMED, sec('types', f'01 4E 01 {byte} 00 00'))
row('type/a-group-in-a-group', MALFORMED, sec('types', '01 4E 01 4E 01 600000'))
row('type/a-continuation-without-its-index', MALFORMED, sec(
    'types', '02 600000 5D'))

# Limits, mutability, and tags.
for name, answer, digits in [
        ('no-greatest', VALID, '00 AC02'), ('both', VALID, '01 01 02'), ('flag-2', MALFORMED, '02 01 02'),
        ('no-number', MALFORMED, '00'), ('one-number-of-two', MALFORMED, '01 01'),
        ('a-number-of-64-bits', 'invalid memory', '00 FFFFFFFFFFFFFFFFFF01'),
        ('a-number-of-65-bits', MALFORMED, '00 FFFFFFFFFFFFFFFFFF02'),
        ('a-number-of-eleven-bytes', MALFORMED, '00 8080808080808080808000')]:
    row(f'limits/{name}', answer, sec('memories', f'01 {digits}'))
for name, answer, digits in [
        ('constant', VALID, '00'), ('variable', VALID, '01'), ('mutability-2', MALFORMED, '02')]:
    row(f'global/{name}', answer, sec('globals', f'01 7F {digits} 41070B'))
    row(f'global/imported-{name}', answer, sec('imports', f'01 0161 0162 03 7F {digits}'))
for name, answer, digits in [('attribute-0', VALID, '0000'), ('attribute-1', 'malformed content 1', '0100'),
                             ('type-300', 'invalid tag 0', '00AC02')]:
    row(f'tag/{name}', answer, sec('types', '01 600000') + sec('tags', f'01 {digits}'))

# Names.
for name, answer, digits in [
        ('two-bytes', VALID, '02C3A9'), ('three-bytes', VALID, '03E282AC'), ('four-bytes', VALID, '04F09F9880'),
        ('no-bytes', VALID, '00'), ('not-utf-8', MALFORMED, '01FF'), ('a-byte-too-few', MALFORMED, '0261'),
        ('a-surrogate', MALFORMED, '03EDA080'), ('too-long-a-spelling', MALFORMED, '02C080'),
        ('past-the-last-character', MALFORMED, '04F4908080'), ('half-a-character', MALFORMED, '01C3')]:
    row(f'name/of-a-custom-section/{name}', answer, f'00{len(digits) // 2:02X}{digits}')
    if name != 'a-byte-too-few':
        row(f'name/of-an-import/{name}', answer, sec('imports', f'01 {digits} 00 02 00 00'))
        row(f'name/of-an-imports-item/{name}', answer, sec('imports', f'01 00 {digits} 02 00 00'))
        row(f'name/of-an-export/{name}', answer if answer == VALID else 'malformed content 1',
            sec('memories', '01 00 00') + sec('exports', f'01 {digits} 02 00'))

# Lists have as many items as they count.
for name, answer, digits in [
        ('a-count-in-two-bytes', VALID, '82000000'), ('one-item-more', MALFORMED, '010000'),
        ('one-item-too-few', MALFORMED, '0200'), ('a-count-of-2^32-less-1', MALFORMED, 'FFFFFFFF0F'),
        ('a-count-of-33-bits', MALFORMED, '8080808010'), ('a-count-without-its-end', MALFORMED, '80')]:
    codes = sec('codes', '02 02000B 02000B') if answer == VALID else ''
    row(f'list/{name}', answer if answer == VALID else 'malformed content 1',
        sec('types', '01 600000') + sec('functions', digits) + codes)

# What is imported and exported, by its kind.
ITEMS = sec('types', '01 600000')
for name, answer, digits in [
        ('function', VALID, '0000'), ('table', VALID, '01 70 00 01'), ('memory', VALID, '02 00 01'),
        ('global', VALID, '03 7F 01'), ('tag', VALID, '04 00 00'),
        ('tag-with-attribute-1', 'malformed content 1', '04 01 00'),
        ('kind-5', 'malformed content 1', '05 00 00'), ('kind-80-in-two-bytes', 'malformed content 1', '8000 00'),
        ('function-of-a-type-that-is-not-there', 'invalid import 0', '0007'),
        ('tag-of-a-type-that-is-not-there', 'invalid import 0', '04 00 05'),
        ('global-of-no-type', 'malformed content 1', '03 7D 00')]:
    row(f'import/{name}', answer, ITEMS + sec('imports', f'01 0161 026263 {digits}'))
for kind, name in enumerate(['function', 'table', 'memory', 'global', 'tag']):
    row(f'export/{name}-5-that-is-not-there', 'invalid export 0', sec('exports', f'01 0161 {kind:02X}05'))
row('export/kind-5', MALFORMED, sec('exports', '01 0161 0505'))

# Segments.
for name, digits in [
        ('flag-8', '08 41070B 01 05'), ('a-kind-that-is-none', '01 01 01 05'), ('no-offset', '00 01 05'),
        ('a-declared-kind-that-is-none', '03 01 01 05'), ('a-type-that-is-no-reference', '05 7F 00'),
        ('a-reference-without-an-end', '05 70 01 D205'), ('null-without-an-end', '05 70 01 D070'),
        ('fewer-items-than-are-counted', '05 70 02 D0700B'),
        ('a-reference-with-a-number-that-is-too-long', '05 70 01 D2 858080808000 0B')]:
    row(f'element/{name}', MALFORMED, sec('elements', f'01 {digits}'))
for name, digits in [('flag-3', '03 41070B 00'), ('a-byte-too-few', '01 04 010203')]:
    row(f'data/{name}', MALFORMED, sec('datas', f'01 {digits}'))
row('data/for-memory-5', 'invalid data 0', sec('memories', '01 00 00') + sec('datas', '01 02 05 41070B 03010203'))
row('data/for-memory-5-of-none', 'invalid data 0', sec('datas', '01 02 05 41070B 03010203'))
row('table/an-initial-element-behind-40-01', MALFORMED, sec('tables', '01 40 01 70 00 05 D0700B'))
row('table/an-initial-element', VALID, sec('tables', '01 40 00 70 00 05 D0700B'))

# Locals of a function: fewer than 2^32.
BODY = sec('types', '01 600000') + sec('functions', '01 00')
for name, answer, digits in [
        ('2^32-less-1', 'limit locals', '02 FEFFFFFF0F7F 017E'),
        ('2^32', 'malformed content 2', '02 FFFFFFFF0F7F 017E'),
        ('2^32-in-three-runs', 'malformed content 2', '03 FFFFFFFF077F FFFFFFFF077E 027F'),
        ('none-of-a-type-that-is-not-there', VALID, '01 00 6407'),
        ('one-of-no-type', 'malformed content 2', '01 017D')]:
    contents = f'{digits} 0B'
    row(f'locals/{name}', answer, BODY + sec('codes', f'01 {len(bytes.fromhex(contents)):02X} {contents}'))
