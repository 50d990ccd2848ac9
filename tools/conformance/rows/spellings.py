"""Modules that are written again: what is given, and the canonical spelling. What is written is written again as it is.

Here they are spelled by digits, section by section; `instructions` has the spellings of each instruction.
"""

from assembler.encoding import unsigned
from rows.decoding import FRONT, NOTHING, spelled
from rows.sections import ModuleSection

SECTION = ModuleSection('spellings')


def built(name, given, written=None):
    """Sections that are written so; where nothing else is told, as they are given."""
    SECTION.built(name, spelled(given), spelled(given if written is None else written))


def sec(number, contents):
    """A section with these contents."""
    spelling = bytes.fromhex(contents)
    return f'{number:02X}{unsigned(len(spelling)).hex()}{spelling.hex()} '


def code(contents):
    """A code section of one function."""
    return sec(10, f'01{len(bytes.fromhex(contents)):02X}{contents}')


# A type [] to [], and four imported functions of it.
TYPE = sec(1, '01 600000')
FUNCTIONS = TYPE + sec(2, '04' + '0161 00 00 00' * 4)

# Sections, and the sizes and counts in them.
built('nothing-but-a-header', '')
built('a-custom-section-is-dropped', '00020161', '')
built('a-custom-section-and-an-empty-one-are-dropped', '00020161 030280000A0100', '')
built('a-section-of-nothing-is-dropped-with-a-longer-spelling-of-its-size', '01818080800000', '')
built('sections-of-no-functions-are-dropped', '030100 0A0100', '')
built('sizes-counts-and-lists-of-types', '018980008100608180007F8000', '01050160017F00')
WITH_DATA = TYPE + '03020100 0503010001 0D03010000 080100'
built('sections-stand-in-their-order', WITH_DATA + '0C0101 0A07010500FC09000B 0B0401010178')
built('a-data-count-stands-only-where-a-body-names-data', WITH_DATA + '0C0101 0A05010300010B 0B0401010178',
      WITH_DATA + '0A05010300010B 0B0401010178')
built('a-data-count-that-no-body-needs-and-a-segment-of-memory-0', '0503010000 0C028100 0B0B018200800041000B810061',
      '0503010000 0B07010041000B0161')
built('one-item-in-each-section-custom-ones-between-and-numbers-in-any-spelling',
      '00040161FFFE' + '01888000 02 600000 5D808000' + sec(2, '01 0161 0162 00 00') + '03020100' + sec(4, '01 70 00 01')
      + sec(5, '01 01 01 02') + '0D03010000' + sec(6, '01 7F 01 412A0B') + '000100' + sec(7, '01 0165 02 00')
      + '08028100' + sec(9, '01 00 41000B 01 01') + '0C0101' + sec(10, '01 07 02 017F 017F 010B')
      + sec(11, '01 00 41070B 02ABCD'),
      sec(1, '02 600000 5D00') + sec(2, '01 0161 0162 00 00') + '03020100' + sec(4, '01 70 00 01')
      + sec(5, '01 01 01 02') + '0D03010000' + sec(6, '01 7F 01 412A0B') + sec(7, '01 0165 02 00') + '080101'
      + sec(9, '01 00 41000B 01 01') + sec(10, '01 05 01 027F 010B') + sec(11, '01 00 41070B 02ABCD'))

# Types.
built('a-group-of-one-type-stands-alone', '0106014E01600000', TYPE)
built('a-group-of-two-types-stands-as-a-group', '010A014E8200600000600000', sec(1, '01 4E02 600000 600000'))
built('a-group-of-no-types-stands-as-a-group', sec(1, '01 4E8000'), sec(1, '01 4E00'))
built('a-continuation-type-and-a-function-type-in-one-group', sec(1, '01 4E02 5D01 60027F7E017E'))
built('groups-of-one-of-two-and-of-none', sec(1, '03 60017F017E 4E02 5D00 600000 4E00'))
built('each-value-type', sec(1, '02 600000 60 0C 7F 7E 70 73 6368 6375 6300 6470 6473 6468 6475 6400 00'))
built('nullable-references-to-func-nofunc-cont-and-nocont', '010A01600463706373687500', '010A01600470736368637500')
TYPES = '600000' * 65
for way, index in [('unsigned', '5D40'), ('signed', '5DC000')]:
    built(f'index-64-of-a-continuations-type-{way}', sec(1, f'42{TYPES}{index}'), sec(1, f'42{TYPES}5DC000'))
built('index-63-of-a-continuations-type', sec(1, f'42{TYPES}5D3F'))
built('signed-index-of-a-references-type', sec(1, f'42{TYPES}600164C0800000'), sec(1, f'42{TYPES}600164C00000'))
built('index-63-of-a-references-type', sec(1, f'42{TYPES}6001633F00'))
built('index-112-of-a-references-type-is-not-that-of-func', sec(1, f'8F01{"600000" * 142}600163F00000'))

# Imports and exports.
built('names-and-the-type-of-an-import', sec(1, '04' + '600000' * 4) + '020A81008100618000008300',
      sec(1, '04' + '600000' * 4) + sec(2, '01 0161 00 00 03'))
for kind, digits in [
        ('function', '00 02'), ('table', '01 70 00 02'), ('memory', '02 00 02'), ('global', '03 7E 01'),
        ('constant-global', '03 7F 00'), ('tag', '04 00 02')]:
    built(f'an-imported-{kind}', sec(1, '03' + '600000' * 3) + sec(2, f'01 0161 026263 {digits}'))
ITEMS = TYPE + sec(3, '02 00 00') + sec(4, '02 70 00 00 70 00 00') + sec(5, '01 00 00') + sec(13, '02 0000 0000') + sec(
    6, '02 7F 00 41000B 7F 00 41000B')
CODES = sec(10, '02 02 00 0B 02 00 0B')
for kind, digits in [
        ('function', '00 01'), ('table', '01 01'), ('memory', '02 00'), ('global', '03 01'),
        ('tag', '04 01')]:
    built(f'an-exported-{kind}', ITEMS + sec(7, f'01 02C3A4 {digits}') + CODES)
built('an-export', FUNCTIONS + '07088100810061008000', FUNCTIONS + '070501 0161 00 00')
built('a-start', FUNCTIONS + '08028000', FUNCTIONS + '080100')

# Tables, memories, tags and globals.
built('limits-of-a-table', '0408 01 6370 0181008200', sec(4, '01 70 01 01 02'))
built('a-table-without-an-expression', sec(4, '01 70 00 02'))
built('a-table-with-an-expression', '040B0140006370008000D0700B', '040901400070 0000D0700B')
built('a-table-that-is-not-nullable', FUNCTIONS + sec(4, '01 40 00 6470 01 05 06 D2030B'))
built('limits-of-a-memory', '050C010081808080808080808000', '0503010001')
built('a-limit-of-2^32-less-1', sec(4, '01 70 01 01 FFFFFFFF0F'))
built('a-tag', TYPE + '0D0401008000', TYPE + '0D03010000')
built('a-tag-of-type-128', sec(1, '8101' + '600000' * 129) + sec(13, '01 00 8001'))
built('a-constant-of-i32', '0607017F004180000B', '0606017F0041000B')
built('a-constant-of-i64', '0607017E0142FF7F0B', '0606017E01427F0B')
built('a-constant-of-minus-one', sec(6, '01 7F 00 417F0B'))

# Segments.
TABLES = FUNCTIONS + sec(4, '03 70 00 00 70 00 00 6368 00 00')
built('functions-in-table-0', TABLES + '090C018200800041000B00018000', TABLES + sec(9, '01 00 41000B 01 00'))
built('functions-by-expressions', TABLES + '0908010564 7001D2030B', TABLES + sec(9, '01 01 00 01 03'))
built('expressions-in-table-0', TABLES + '09090106 00 41000B 6370 00', TABLES + sec(9, '01 04 41000B 00'))
for form, digits in [
        ('functions-for-table-0', '00 41030B 01 03'), ('functions', '01 00 01 03'),
        ('functions-for-table-1', '02 01 41030B 00 01 03'), ('declared-functions', '03 00 01 03'),
        ('expressions-for-table-0', '04 41030B 01 D2030B'), ('expressions', '05 70 01 D2030B'),
        ('expressions-for-table-1', '06 01 41030B 70 01 D2030B'), ('declared-expressions', '07 70 01 D2030B'),
        ('continuations-for-table-2', '06 02 41030B 6368 01 D0680B'), ('no-functions', '01 00 00')]:
    built(f'an-element-segment-of-{form}', TABLES + sec(9, f'01 {digits}'))
built('an-element-segment-with-longer-numbers', TABLES + sec(9, '01 8100 00 8100 8300'),
      TABLES + sec(9, '01 01 00 01 03'))
CONTREF = FUNCTIONS + sec(4, '01 6368 00 00')
built('an-element-segment-of-continuations-for-table-0', CONTREF + sec(9, '01 06 00 41030B 6368 01 D0680B'))
GLOBAL = TYPE + sec(2, '02 0161 00 00 00 0161 0162 03 6470 00')
built('an-element-segment-with-an-item-that-names-no-function',
      GLOBAL + sec(9, '01 05 6470 02 D2000B 23000B'))
for form, digits in [('for-memory-0', '00 41030B 026162'), ('for-none', '01 026162')]:
    built(f'a-data-segment-{form}', sec(5, '01 00 01') + sec(11, f'01 {digits}'))
built('a-data-segment-for-memory-0-by-its-index', sec(5, '01 00 01') + sec(11, '01 02 00 41030B 026162'),
      sec(5, '01 00 01') + sec(11, '01 00 41030B 026162'))

# Bodies.
PRODUCT = FRONT + '0A0901070042064207 7E0B'
built('a-product-with-a-longer-spelling-of-each-number', FRONT + '0A9080008180008B008000428600428780007E0B', PRODUCT)
built('a-product-stays-as-it-is', PRODUCT)
built('runs-of-locals-are-joined-none-of-i32-one-of-i64-two-of-i64', NOTHING + code('03 007F 017E 027E 0B'),
      NOTHING + code('01 037E 0B'))
built('runs-of-no-locals-between-others', NOTHING + code('07 007E 017F 007E 027F 047E 017F 007F 0B'),
      NOTHING + code('03 037F 047E 017F 0B'))
built('runs-of-references-are-joined-however-they-are-spelled',
      NOTHING + code('06 017F 007E 027F 0170 026370 016470 0B'), NOTHING + code('03 037F 0370 016470 0B'))
built('minus-one-and-the-least-number-of-32-bits-in-more-bytes-than-they-need',
      NOTHING + code('00 42FFFF7F1A 4280808080F87F1A 0B') + '00020161', NOTHING + code('00 427F1A 4280808080781A 0B'))
CALL = sec(1, '02 6000017E 60027E7E017E') + '0303020001 070801046D61696E0000 '
built('a-call-stays-as-it-is', CALL + sec(10, '02 0B 00 42074203100142047D0B 09 01 017F 420942011A0B'))
built('locals-that-are-joined-an-index-an-alignment-and-an-else-with-nothing-behind-it',
      TYPE + '03020100 0503010000' + '0A990001960003017F007E81007F20810028820080000440050B000B',
      TYPE + '03020100 0503010000' + '0A10010E01027F20012802000440050B000B')
