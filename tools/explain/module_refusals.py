"""What is said of a module beside the program's line."""

from itertools import groupby

from pictures import byte_place, bytes_around, most
from reader.instructions import LOADS, STORES
from reader.module_decoding import SECTIONS
from reader.types import FuncType, spelled, spelled_composite, spelled_row

SECTION_NAMES = {0: 'custom'} | {number: field.replace('_', ' ') for number, (field, _) in SECTIONS.items()}
SECTION_NAMES |= {1: 'types', 10: 'code', 11: 'data'}
VECTORS = SECTIONS.keys() - {8, 12}         # ids of sections of entries
ACCESSES = {name for name, _, _ in (LOADS | STORES).values()}
GREATEST_RUNS = 8           # of locals that are shown
GREATEST_AROUND = 5         # blocks from the outermost one and from the innermost one, where there are more
GREATEST_OPERANDS = 20      # from the top
GREATEST_SUPERTYPES = 8     # that are shown


def module_lines(data, reading):
    """The lines about a module and its reading."""
    kind = reading.said.split()[0]
    return LINES[kind](data, reading)


def _accepted(_data, reading):
    count = len(reading.module.codes)
    return [f'it is valid, and has {count} {"function" if count == 1 else "functions"} of its own']


def _malformed(data, reading):
    fault, lines = reading.fault, []
    if fault.section is not None:
        number, section, start = fault.section
        name = SECTION_NAMES.get(section, 'of no kind')
        lines = [f'section {number}, {name} (id {section:02X}), begins at {byte_place(start)}']
        lines += [f'this is in entry {fault.entry} of it'] if fault.entry is not None and section in VECTORS else []
    return [*lines, f'{byte_place(fault.at)}: wanted: {fault.wanted}', bytes_around(data, fault.at)]


def _past_a_limit(_data, reading):
    limit = reading.fault
    return [most(limit.what, limit.found, limit.greatest)]


def _invalid(_data, reading):
    item, fault = reading.said.removeprefix('invalid '), reading.fault
    lines = [_item_line(item, reading)]
    if not fault.places:
        before = ['before its first instruction'] if item.startswith('function') else []
        return [*lines, *before, f'  wanted: {fault.wanted}']
    *around, innermost = fault.places[::-1]
    return [*lines, *_around_lines(around), *_innermost_lines(innermost, fault.wanted)]


def _around_lines(around):
    """The blocks around, of which only some are shown where they are many."""
    lines = [f'in {_instruction_line(each)}' for each in around]
    hidden = len(lines) - 2 * GREATEST_AROUND
    if hidden <= 0:
        return lines
    return [*lines[:GREATEST_AROUND], f'.. in {hidden} blocks more', *lines[-GREATEST_AROUND:]]


def _item_line(item, reading):
    """The item, with what tells it from others."""
    module, (kind, *number) = reading.module, item.split()
    number = int(number[0]) if number else None
    if kind == 'function':
        imported = len(reading.context.functions) - len(module.functions)
        index = module.functions[number]
        arrow = _arrow(reading.context.types, index)
        return f'function {number} of the module, whose index is {number + imported}, is of type {index}{arrow}'
    if kind == 'type':
        return f'type {number} of the module is {_declared(module.sub_types[number])}'
    if kind == 'import':
        each = module.imports[number]
        return f'import {number} of the module is {_quoted(each.module)} {_quoted(each.item)}'
    if kind == 'export':
        return f'export {number} of the module is {_quoted(module.exports[number].name)}'
    if kind == 'start':
        return f'the start function is {module.start}'
    return f'{item} of the module' if number is not None else f'the {item} of the module'


def _declared(sub_type):
    """What is declared of a type, and the type."""
    finality, supertypes = 'final' if sub_type.final else 'open', sub_type.supertypes
    hidden = len(supertypes) - GREATEST_SUPERTYPES
    shown = ' '.join(map(str, supertypes[:GREATEST_SUPERTYPES])) + (f' and {hidden} more' if hidden > 0 else '')
    above = f' with the {"supertype" if len(supertypes) == 1 else "supertypes"} {shown}' if supertypes else ''
    return f'{finality}{above}: {spelled_composite(sub_type.composite)}'


def _arrow(types, index):
    """A function type behind its index, where there is one."""
    function_type = types[index] if index < len(types) else None
    return f', {spelled_composite(function_type)}' if isinstance(function_type, FuncType) else ''


def _quoted(name):
    text = name.decode()
    return f"'{text}'" if text.isprintable() else ascii(text)


def _instruction_line(place):
    """An instruction with its immediates, or the end, and where it stands."""
    name = place.block.name if place.block.name.startswith('item') else f'the {place.block.name}'
    if place.instruction is None:
        return f'the end of {name}, behind {place.number} {"instruction" if place.number == 1 else "instructions"}'
    words = [place.instruction.name.removesuffix(' t'), *_immediates(place.instruction)]
    return f'instruction {place.number} of {name}: {" ".join(words)}'


def _immediates(instruction):
    """The immediates of an instruction in words, without the instructions of a block."""
    name, immediates = instruction
    if name in ('block', 'loop', 'if'):
        return [spelled_row(immediates[0]) if isinstance(immediates[0], list) else f'type {immediates[0]}']
    if name in ACCESSES:
        alignment, offset = immediates
        return [f'align={1 << alignment}', f'offset={offset}']
    if name == 'resume':
        return [str(immediates[0]), *(f'({" ".join(map(str, clause))})' for clause in immediates[1])]
    return [_spelled_list(each) if isinstance(each, list) else str(each) for each in immediates]


def _spelled_list(immediates):
    """A list of indices or of types."""
    return f'[{" ".join(str(spelled(each)) for each in immediates)}]'


def _innermost_lines(place, wanted):
    """What is known at the place of the rule that doesn't hold."""
    lines = [_instruction_line(place)]
    if place.operands is not None:
        lines.append(f'  operands: {_operands(place.operands)}')
    lines.append(f'  wanted: {wanted}')
    if not place.block.reachable:
        lines.append('  not reached: beneath the operands stand any others')
    if place.block.local_types:
        lines.append(f'  locals: {_locals(place.block)}')
    return lines


def _operands(operands):
    shown = spelled_row(operands[-GREATEST_OPERANDS:])
    hidden = len(operands) - GREATEST_OPERANDS
    return f'{hidden} others and {shown}' if hidden > 0 else shown


def _locals(block):
    """The locals, in runs of one type that are set or aren't."""
    runs, number = [], 0
    for (value_type, is_set), run in groupby(zip(block.local_types, block.set_locals)):
        count = len(list(run))
        numbers = str(number) if count == 1 else f'{number} to {number + count - 1}'
        runs.append(f'{numbers} {spelled(value_type)}{"" if is_set else " not set"}')
        number += count
    hidden = len(runs) - GREATEST_RUNS
    return ', '.join(runs[:GREATEST_RUNS]) + (f', and {hidden} runs more' if hidden > 0 else '')


LINES = {'ok': _accepted, 'malformed': _malformed, 'limit': _past_a_limit, 'invalid': _invalid}
