"""How each instruction is spelled, with the shortest numbers and with longer ones; and what spells none.

Each stands between two unreachable ones, in seven blocks of a function of a module that has eight of everything but
memories. `build` writes what was read, so that an opcode or an immediate that is taken for another shows.
"""

from assembler.encoding import unsigned
from assembler.instructions import LOADS, NUMERIC_OPCODES, STORES
from assembler.modules import SECTION_IDS
from rows.sections import BuiltRow, CallRow, Section, answered

SECTION = Section('instructions')


def sec(kind, contents):
    """A section with these contents."""
    spelling = bytes.fromhex(contents)
    return f'{SECTION_IDS[kind]:02X}{(unsigned(len(spelling)) + spelling).hex().upper()}'


# [] to [], [i32] to [], [i32 i32] to [], their continuations, [] to [i32], and [i32 (ref null 3)] to [] with its own.
TYPES = '600000 60017F00 60027F7F00 5D00 5D01 5D02 6000017F 60027F630300 5D07'
PIECES = [
    ('header', '0061736D01000000'),
    ('front', ' '.join([
        sec('types', f'09 {TYPES}'), sec('imports', '08' + '000000 00' * 8), sec('functions', '01 00'),
        sec('tables', '08' + '700000' * 8), sec('memories', '01 00 00'), sec('tags', '08' + '0000' * 8),
        sec('globals', '08' + '7F0141000B' * 8), sec('elements', '08' + '01000105' * 8)])),
    ('datas', sec('datas', '08' + '010161' * 8)),
    # the number of locals, and the blocks, each of which gives a continuation
    ('opened', '01087F' + '026303' * 7 + '00'), ('closed', '00' + '0B00' * 7 + '0B'),
    # a function of type [] to []
    ('function', '010401600000 03020100')]
SIZES = {name: len(bytes.fromhex(digits)) for name, digits in PIECES}
DATA_COUNT = '0C0108'


def size_of(number):
    return unsigned(number).hex().upper()


def _module(body, data_count):
    """The module with this body between the unreachable instructions."""
    code = SIZES['opened'] + len(bytes.fromhex(body)) + SIZES['closed']
    codes = 1 + len(unsigned(code)) + code
    return ' '.join(filter(None, [
        '@header @front', data_count, f'0A{size_of(codes)}01{size_of(code)} @opened {body} @closed @datas']))


def _spelled(parts, longer):
    """The digits of an instruction. Behind a number that may be spelled longer stands a mark: ~ where it is not signed,
    + where it is and its sign is that."""
    digits = ''
    for part in parts.split():
        number = bytes.fromhex(part.rstrip('~+'))
        if longer and part[-1] in '~+':
            pad = b'\x7f' if part[-1] == '+' and number[-1] & 0x40 else b'\x00'
            number = number[:-1] + bytes([number[-1] | 0x80]) + pad
        digits += number.hex().upper()
    return digits


def row(name, parts, names_data=False):
    """An instruction by its bytes."""
    shortest = _module(_spelled(parts, longer=False), DATA_COUNT if names_data else '')
    SECTION.rows.append(BuiltRow(name, shortest, shortest))
    if '~' in parts or '+' in parts:
        longer = _module(_spelled(parts, longer=True), DATA_COUNT)
        SECTION.rows.append(BuiltRow(f'{name}/with-longer-numbers', longer, shortest))


for name, opcode in NUMERIC_OPCODES.items():
    row(name, f'{opcode:02X}')
for name, (opcode, *_) in (LOADS | STORES).items():
    row(name, f'{opcode:02X} 00~ 8001~')
row('i32.load/aligned', '28 02~ 05~')
row('i64.store/at-the-last-offset', '37 03~ FFFFFFFF0F')

# Indices 5 and 6, as far as the instructions have them.
for name, parts in [
        ('unreachable', '00'), ('nop', '01'), ('br', '0C 05~'), ('br_if', '0D 05~'), ('return', '0F'),
        ('br_table', '0E 02~ 05~ 06~ 04~'), ('br_table/without-labels', '0E 00~ 05~'), ('call', '10 05~'),
        ('call_indirect', '11 06~ 05~'), ('call_ref', '14 06~'), ('return_call', '12 05~'),
        ('return_call_indirect', '13 02~ 05~'), ('return_call_ref', '15 02~'), ('br_on_null', 'D5 05~'),
        ('br_on_non_null', 'D6 05~'),
        ('drop', '1A'), ('select', '1B'), ('select/of-a-type', '1C 01~ 7E'), ('select/of-a-reference', '1C 01~ 64 03+'),
        ('local.get', '20 05~'), ('local.set', '21 05~'), ('local.tee', '22 05~'), ('global.get', '23 05~'),
        ('global.set', '24 05~'), ('table.get', '25 05~'), ('table.set', '26 05~'), ('table.init', 'FC 0C~ 05~ 06~'),
        ('elem.drop', 'FC 0D~ 05~'), ('table.copy', 'FC 0E~ 05~ 06~'), ('table.grow', 'FC 0F~ 05~'),
        ('table.size', 'FC 10~ 05~'), ('table.fill', 'FC 11~ 05~'), ('memory.size', '3F 00~'),
        ('memory.grow', '40 00~'),
        ('memory.copy', 'FC 0A~ 00~ 00~'), ('memory.fill', 'FC 0B~ 00~'), ('ref.null/func', 'D0 70'),
        ('ref.null/nofunc', 'D0 73'), ('ref.null/cont', 'D0 68'), ('ref.null/nocont', 'D0 75'),
        ('ref.null/index', 'D0 05+'), ('ref.is_null', 'D1'), ('ref.func', 'D2 05~'), ('ref.as_non_null', 'D4'),
        ('cont.new', 'E0 05~'), ('cont.bind', 'E1 05~ 04~'), ('suspend', 'E2 05~'), ('resume', 'E3 05~ 00~'),
        ('resume/with-clauses', 'E3 05~ 02~ 00 05~ 04~ 01 06~'), ('switch', 'E6 08~ 05~'),
        ('i32.const/64', '41 C000+'), ('i32.const/minus-one', '41 7F+'), ('i32.const/least', '41 8080808078'),
        ('i32.const/greatest', '41 FFFFFFFF07'), ('i32.const/127', '41 FF00+'), ('i32.const/minus-two', '41 7E+'),
        ('i64.const/63', '42 3F+'), ('i64.const/minus-127', '42 817F+'), ('i64.const/minus-128', '42 807F+'),
        ('i64.const/minus-129', '42 FF7E+'), ('i64.const/minus-123456', '42 C0BB78+'),
        ('i64.const/624485', '42 E58E26+'), ('i64.const/least', '42 8080808080808080807F'),
        ('i64.const/greatest', '42 FFFFFFFFFFFFFFFFFF00'), ('i64.const/12857', '42 B9E400+')]:
    row(name, parts)
row('memory.init', 'FC 08~ 05~ 00~', names_data=True)
row('data.drop', 'FC 09~ 05~', names_data=True)
for name, parts in [
        ('block', '02 40 00 0B'), ('loop', '03 40 00 0B'), ('if', '04 40 00 0B'),
        ('if/with-an-else', '04 40 00 05 00 0B'),
        ('if/with-an-else-of-nothing', '04 40 05 0B'), ('block/of-i32', '02 7F 00 0B'), ('block/of-i64', '02 7E 00 0B'),
        ('block/of-funcref', '02 70 00 0B'), ('loop/of-contref', '03 63 68 00 0B'),
        ('loop/of-a-reference', '03 64 03+ 00 0B'),
        ('loop/of-a-type', '03 06+ 00 0B'), ('if/of-a-type', '04 06+ 00 05 00 0B'), ('block/of-type-0', '02 00+ 0B'),
        ('ifs-in-blocks', '02 40 41 00 04 7F 41 01 05 00 0B 00 0B 03 06+ 41 01 04 40 0B 00 0B 00')]:
    row(name, parts)


def refused(name, digits, answer='malformed content 2'):
    """A body of a function of type [] to [] that spells no instructions."""
    code = f'00{digits}'
    size = len(bytes.fromhex(code))
    codes = f'0A{size_of(1 + len(unsigned(size)) + size)}01{size_of(size)}'
    SECTION.rows.append(CallRow(
        f'refused/{name}', 'check x', f'@header @function {codes} {code.replace(" ", "")}', answered(answer)))


# The bytes with which an instruction or a mark begins, from and to.
FIRST_BYTES = [
    (0x00, 0x05), (0x0B, 0x0B), (0x0C, 0x15), (0x1A, 0x1C), (0x20, 0x26), (0x28, 0x29), (0x2C, 0x37),
    (0x3A, 0x42), (0x45, 0x5A), (0x67, 0x8A), (0xA7, 0xA7), (0xAC, 0xAD), (0xC0, 0xC4), (0xD0, 0xD2), (0xD4, 0xD6),
    (0xE0, 0xE3), (0xE6, 0xE6), (0xFC, 0xFC)]
for byte in range(256):
    if not any(first <= byte <= last for first, last in FIRST_BYTES):
        refused(f'first-byte-{byte:02X}', f'{byte:02X} 0B')
for number in [*range(8), *range(18, 33)]:
    refused(f'number-{number}-behind-fc', f'FC {number:02X} 00 00 00 0B')
for name, digits in [
        ('nothing', ''), ('an-else-outside-an-if', '05 0B'), ('an-else-in-a-block', '02 40 05 0B 0B'),
        ('a-second-else', '04 40 05 05 0B 0B'), ('a-block-without-its-end', '02 40 0B'),
        ('an-if-without-its-end', '04 40 05 0B'), ('an-else-of-an-if-around', '04 40 02 40 05 0B 0B 0B'),
        ('something-behind-the-end', '0B 01'), ('an-alignment-of-64', '41 00 28 40 00 0B'),
        ('an-alignment-of-64-in-two-bytes', '41 00 28 C000 00 0B'), ('a-block-of-f32', '02 7D 0B 0B'),
        ('a-block-of-a-negative-index', '02 41 0B 0B'), ('a-heap-type-of-another-proposal', 'D0 71 0B'),
        ('no-index', '20'), ('an-index-without-its-end', '20 80'), ('an-index-of-33-bits', '20 FFFFFFFF1F 0B'),
        ('an-index-of-six-bytes', '20 838080808000 0B'), ('a-constant-of-33-bits', '41 FFFFFFFF0F 0B'),
        ('a-constant-past-the-least', '41 8080808070 0B'), ('a-constant-of-65-bits', '42 8080808080808080807E 0B'),
        ('a-constant-of-eleven-bytes', '42 8080808080808080808000 0B'), ('a-block-of-34-bits', '02 FFFFFFFF1F 0B 0B'),
        ('a-select-of-no-type', '1C 01 7D 0B'), ('a-clause-that-is-none', 'E3 00 01 02 00 00 0B'),
        ('more-labels-than-bytes', '0E FFFFFFFF0F 00 0B')]:
    refused(name, digits)
for name, digits in [
        ('an-alignment-of-63', '00 28 BF00 858000 0B'), ('the-last-local', '20 FFFFFFFF0F 1A 0B'),
        ('a-select-of-two-types', '00 1C 02 7F7E 1A 0B'), ('a-select-of-none', '00 1C 00 1A 0B'),
        ('a-block-of-the-last-type', '00 04 FFFFFFFF0F 0B 0B'), ('a-null-of-type-112', 'D0 F000 1A 0B'),
        ('a-memory-5', '3F 05 1A 0B'), ('memory.copy-of-5-and-6', '00 FC 8A8000 05 06 0B')]:
    refused(f'as-invalid/{name}', digits, 'invalid function 0')
