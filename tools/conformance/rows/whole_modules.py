"""Modules that are spelled by their digits: equal groups, locals out of order, and others."""

from assembler.modules import HEADER
from rows.sections import ModuleSection, VALID

SECTION = ModuleSection('whole_modules')
row = SECTION.row


def spelled(sections):
    """A module whose sections are spelled by these digits."""
    return HEADER + bytes.fromhex(sections)


row('header-alone', VALID, HEADER)
row('resume-of-null-after-unreachable', VALID,
    spelled('01 06 02 60 00 00 5D 00 03 02 01 00 0A 08 01 06 00 00 E3 01 00 0B'))
row('local-that-is-not-set', 'invalid function 0',
    spelled('01 06 02 60 00 00 5D 00 03 02 01 00 0A 0A 01 08 01 01 64 01 20 00 1A 0B'))
row('continuation-of-a-group-of-other-size', 'invalid function 0',
    spelled('01 0E 03 60 00 00 4E 02 60 00 00 60 00 00 5D 01 03 02 01 00 09 05 01 03 00 01 00 0A 09 01 07 00 '
            'D2 00 E0 03 1A 0B'))
row('continuation-of-the-function-type', VALID,
    spelled('01 0E 03 60 00 00 4E 02 60 00 00 60 00 00 5D 00 03 02 01 00 09 05 01 03 00 01 00 0A 09 01 07 00 '
            'D2 00 E0 03 1A 0B'))
DECLARED = '03 02 01 01 09 05 01 03 00 01 00 0A 09 01 07 00 D2 00 E0 02 1A 0B'
row('continuation-of-a-function-of-a-type-below', VALID,
    spelled('01 0E 03 50 00 60 00 00 4F 01 00 60 00 00 5D 00' + DECLARED))
row('a-type-below-a-final-one', 'invalid type 1', spelled('01 0C 03 60 00 00 4F 01 00 60 00 00 5D 00' + DECLARED))
row('continuation-of-a-function-of-a-type-beside', 'invalid function 0',
    spelled('01 0D 03 50 00 60 00 00 4F 00 60 00 00 5D 00' + DECLARED))
row('switch-clause-with-matching-results', 'invalid function 0',
    spelled('01 0E 04 60 00 01 70 60 00 01 73 5D 01 60 00 00 03 02 01 03 0D 03 01 00 00 0A 0C 01 0A 00 D0 02 '
            'E3 02 01 01 00 1A 0B'))
row('switch-clause-with-equal-results', VALID,
    spelled('01 0E 04 60 00 01 70 60 00 01 73 5D 01 60 00 00 03 02 01 03 0D 03 01 00 01 0A 0C 01 0A 00 D0 02 '
            'E3 02 01 01 00 1A 0B'))
row('unknown-import', VALID, spelled('01 04 01 60 00 00 02 07 01 01 61 01 62 00 00'))
row('memory-of-2^32-pages', 'invalid memory',
    spelled('01 05 01 60 00 01 7E 03 02 01 00 05 07 01 00 80 80 80 80 10 07 08 01 04 6D 61 69 6E 00 00 0A 09 '
            '01 07 00 42 06 42 07 7E 0B'))
