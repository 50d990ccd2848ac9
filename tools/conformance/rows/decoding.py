"""Bytes that spell modules and bytes that spell none: sections, bodies, and modules that are cut off."""

from assembler.modules import HEADER
from rows.sections import ModuleSection, VALID

SECTION = ModuleSection('decoding')
row = SECTION.row


def spelled(sections):
    """A module whose sections are spelled by these digits."""
    return HEADER + bytes.fromhex(sections)


def refused(name, answer, module):
    """A module that check and build answer alike."""
    row(name, answer, module)
    row(f'{name}/build', answer, module, 'build')


# A function of type [] to [], exported as main, with no code yet; and one of type [] to [i64].
NOTHING = '01 04 01 60 00 00 03 02 01 00 07 08 01 04 6D 61 69 6E 00 00 '
FRONT = '01 05 01 60 00 01 7E 03 02 01 00 07 08 01 04 6D 61 69 6E 00 00 '


def cut_off(name, module, answers):
    """The first bytes of a module, of each length from the least that is told. An answer holds up to the next one."""
    answer = None
    for length in range(min(answers), len(module) + 1):
        answer = answers.get(length, answer)
        row(f'{name}/first-{length}-bytes', answer, module[:length])


# Modules that are decoded and valid.
row('a-custom-section', VALID, spelled('00020161'))
row('a-longer-spelling-of-a-size', VALID, spelled('01818080800000'))
row('a-product-with-longer-spellings', VALID, spelled(FRONT + '0A9080008180008B008000428600428780007E0B'))
row('a-function-that-calls-itself', VALID, spelled(NOTHING + '0A0601040010000B'))
row('50-000-locals', VALID, spelled(NOTHING + '0A08010601D086037F0B'))

# Refused for a section, or for its place among others.
refused('tags-behind-globals', 'malformed frame 1', spelled('0601000D0100'))
refused('a-size-of-six-bytes', 'malformed frame 0', spelled('01868080808000'))
refused('a-name-that-is-not-utf-8', 'malformed content 0', spelled('000201FF'))
refused('more-types-than-bytes', 'malformed content 0', spelled('0105FFFFFFFF0F'))
refused('a-memory-whose-limits-begin-with-2', 'malformed content 0', spelled('0503010200'))
refused('a-data-count-without-segments', 'malformed counts', spelled('0C0101'))
refused('a-function-without-code', 'malformed counts', spelled('03020100'))
refused('a-section-without-a-size', 'malformed frame 0', spelled('01'))
row('an-empty-file/build', 'rule 0 18', b'', 'build')
refused('a-header-without-its-end', 'malformed header', bytes.fromhex('0061736D010000'))

# Refused in a body.
refused('an-opcode-of-no-instruction', 'malformed content 3', spelled(NOTHING + '0A05010300E40B'))
refused('an-else-outside-an-if', 'malformed content 3', spelled(NOTHING + '0A05010300050B'))
refused('two-elses-in-one-if', 'malformed content 3', spelled(NOTHING + '0A0B0109004100044005050B0B'))
refused('the-number-18-behind-fc', 'malformed content 3', spelled(NOTHING + '0A06010400FC120B'))
refused('the-type-of-a-block-7d', 'malformed content 3', spelled(NOTHING + '0A07010500027D0B0B'))
refused('an-alignment-of-64', 'malformed content 3', spelled(NOTHING + '0A0901070041002840000B'))
refused('a-select-of-two-types-is-decoded', 'invalid function 0', spelled(NOTHING + '0A080106001C027F7E0B'))
refused('memory-init-without-a-data-count', 'malformed counts', spelled(NOTHING + '0A08010600FC0800000B'))
refused('a-body-that-fills-less-than-its-size', 'malformed content 3', spelled(FRONT + '0A0701050042050B01'))

# Decoded, and then refused.
refused('two-numbers-for-one-result', 'invalid function 0', spelled(FRONT + '0A08010600420642070B'))
refused('a-tail-call-of-what-gives-a-number', 'invalid function 0', spelled(
    '01080260 00017F 600000 0303020001 0A09020400 12010B 02000B'))
refused('a-start-that-is-not-there', 'invalid start', spelled('080100'))
refused('more-than-50-000-locals', 'limit locals', spelled(NOTHING + '0A08010601D186037F0B'))
refused('a-product-of-nothing', 'invalid function 0', spelled(FRONT + '0A050103007E0B'))

# Modules that are cut off at each length. What each cut is answered stands by the lengths from which on it is.
cut_off('product', spelled(FRONT + '0A09010700420642077E0B'), {
    8: VALID, 9: 'malformed frame 0', 15: VALID, 16: 'malformed frame 1', 19: 'malformed counts',
    20: 'malformed frame 2', 29: 'malformed counts', 30: 'malformed frame 3', 40: VALID})
cut_off('tag', spelled('010401600000030201000D03010000070801046D61696E00000A06010400E2000B'), {
    8: VALID, 9: 'malformed frame 0', 14: VALID, 15: 'malformed frame 1', 18: 'malformed counts',
    19: 'malformed frame 2', 23: 'malformed counts', 24: 'malformed frame 3', 33: 'malformed counts',
    34: 'malformed frame 4', 41: VALID})
cut_off('memory', spelled('0106016000027F7F03020100050401010102070801046D61696E00000A0C010A0041014000410140000B'), {
    8: VALID, 9: 'malformed frame 0', 16: VALID, 17: 'malformed frame 1', 20: 'malformed counts',
    21: 'malformed frame 2', 26: 'malformed counts', 27: 'malformed frame 3', 36: 'malformed counts',
    37: 'malformed frame 4', 50: VALID})
