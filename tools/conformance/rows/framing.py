"""Sections: how they are framed, their order, what their contents spell, and counts that agree."""

from itertools import product

from rows.decoding import spelled
from rows.sections import ModuleSection, VALID

SECTION = ModuleSection('framing')


def row(name, answer, digits):
    SECTION.row(name, answer, spelled(digits))


# Headers.
for name, digits in [('seven-bytes', '0061736D010000'), ('version-2', '0061736D02000000')]:
    SECTION.row(f'header/{name}', 'malformed header', bytes.fromhex(digits))

# Frames.
for name, number, digits in [
        ('an-unknown-id', 0, '0E0100'), ('no-size', 0, '01'), ('a-size-of-six-bytes', 0, '01868080808000'),
        ('a-size-of-33-bits', 0, '01FFFFFFFF1F'), ('a-size-past-the-end', 0, '010200'),
        ('a-second-size-past-the-end', 1, '010100 03FFFFFFFF0F'), ('functions-before-types', 1, '030100 010100'),
        ('types-twice', 1, '010100 010100'), ('tags-behind-globals', 1, '060100 0D0100'),
        ('custom-sections-are-counted', 3, '000100 030100 000100 020100')]:
    row(f'frame/{name}', f'malformed frame {number}', digits)

# Each section behind each: an empty list, a start 0 that is not there, or a data count of 0.
ORDER = {
    'types': 1, 'imports': 2, 'functions': 3, 'tables': 4, 'memories': 5, 'tags': 13, 'globals': 6, 'exports': 7,
    'start': 8, 'elements': 9, 'data-count': 12, 'codes': 10, 'datas': 11}
for (first, second) in product(ORDER, repeat=2):
    in_order = list(ORDER).index(first) < list(ORDER).index(second)
    decoded = 'invalid start' if 'start' in (first, second) else VALID
    row(f'order/{first}-and-{second}', decoded if in_order else 'malformed frame 1',
        f'{ORDER[first]:02X}0100 {ORDER[second]:02X}0100')

# Contents.
for name, digits in [
        ('a-name-that-is-not-utf-8', '000201FF'), ('a-name-that-is-not-whole', '000101'),
        ('more-types-than-bytes', '0105FFFFFFFF0F'), ('bytes-behind-the-types', '01020000'),
        ('a-type-that-is-none', '010401610000'), ('a-parameter-that-is-none', '01050160017D00'),
        ('a-kind-of-export-that-is-none', '07050101610500'), ('an-exports-name-that-is-not-utf-8', '07050101FF0000'),
        ('limits-with-a-flag-2', '0503010200'), ('a-body-without-an-end', '0A050103001A1A'),
        ('bytes-behind-an-end', '0A050103000B0B'), ('a-bodys-size-one-too-short', '0A050102001A0B'),
        ('a-bodys-size-one-too-long', '0A05010400010B')]:
    row(f'contents/{name}', 'malformed content 0', digits)
row('contents/of-the-second-section', 'malformed content 1', '010100 0503010200')
row('contents/before-a-frame-behind', 'malformed content 0', '0503010200 0E0100')

# Counts.
FUNCTION = '010401600000 03020100 '
for name, answer, digits in [
        ('a-function-without-code', 'malformed counts', '03020100'),
        ('code-without-a-function', 'malformed counts', '0A040102000B'),
        ('two-functions-and-one-code', 'malformed counts', '0303020000 0A040102000B'),
        ('a-data-count-of-none', VALID, '0C0100'), ('a-data-count-without-segments', 'malformed counts', '0C0101'),
        ('a-data-count-of-one', VALID, '0C0101 0B03010100'), ('segments-without-a-data-count', VALID, '0B03010100'),
        ('a-data-count-of-two', 'malformed counts', '0C0102 0B03010100'),
        ('data.drop-in-a-block-with-a-data-count', VALID,
         f'{FUNCTION} 0C0101 0A0A0108000240FC09000B0B 0B03010100'),
        ('data.drop-in-a-block-without-a-segment', 'invalid function 0', f'{FUNCTION} 0C0100 0A0A0108000240FC09000B0B'),
        ('data.drop-in-a-block-without-a-data-count', 'malformed counts',
         f'{FUNCTION} 0A0A0108000240FC09000B0B 0B03010100'),
        ('memory.init-without-a-data-count', 'malformed counts', f'{FUNCTION} 0A08010600FC0800000B'),
        ('memory.fill-wants-no-data-count', VALID, f'{FUNCTION} 0503010000 0A0D010B00410041004100FC0B000B')]:
    row(f'counts/{name}', answer, digits)
