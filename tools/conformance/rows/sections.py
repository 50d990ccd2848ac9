"""Sections of rows: functions with the mark of whether they are valid, and modules with what is said of them.

A row has a name that no other row of its file has.
"""

from typing import NamedTuple

from assembler.instructions import UNREACHABLE, local_get
from assembler.modules import code_contents
from assembler.types import I32, I64, functype
from surroundings import words_with

STATUSES = {
    'ok': 0, 'malformed': 3, 'invalid': 4, 'lex': 5, 'parse': 5, 'deep': 5, 'rule': 5, 'limit': 9, 'text': 12}
HEADER_LENGTH = 8
VALID = 'ok module'


class FunctionRow(NamedTuple):
    """A function of the module of `surroundings`."""

    name: str
    mark: str               # '+' where it is valid, else '-'
    function_type: bytes
    code: bytes

    @property
    def answer(self):
        """What is to be said of the module."""
        return VALID if self.mark == '+' else 'invalid function 1'

    @property
    def fields(self):
        """The lines of the row."""
        given = words_with(self.function_type, self.code)
        return ['words stackwasm check x', f'file x {given}', *answered(self.answer)]


class ModuleRow(NamedTuple):
    """A whole module."""

    name: str
    answer: str             # what is to be said of it
    module: bytes
    command: str = 'check'

    @property
    def fields(self):
        """The lines of the row."""
        return [f'words stackwasm {self.command} x', f'file x {spelled(self.module)}'.rstrip(), *answered(self.answer)]


class BuiltRow(NamedTuple):
    """A module, and how it is written."""

    name: str
    given: str              # words that spell the bytes
    written: str

    @property
    def fields(self):
        """The lines of the row."""
        return ['words stackwasm build x', f'file x {self.given}', f'out {self.written}']


class CallRow(NamedTuple):
    """A call on a file."""

    name: str
    words: str              # behind the name of the program
    given: str              # words that spell the bytes
    wanted: tuple           # the lines that say what it comes to

    @property
    def fields(self):
        """The lines of the row."""
        return [f'words stackwasm {self.words}', f'file x {self.given}', *self.wanted]


class Section:
    """Rows of some kinds."""

    def __init__(self, name):
        self.name = name
        self.rows = []


class ModuleSection(Section):
    """Rows of modules."""

    def row(self, name, answer, module, command='check'):
        self.rows.append(ModuleRow(name, answer, module, command))

    def built(self, name, given, written):
        """A module that is written so, and once more, as it was written."""
        self.rows.append(BuiltRow(name, spelled(given), spelled(written)))
        if given != written:
            self.rows.append(BuiltRow(f'{name}/again', spelled(written), spelled(written)))


class FunctionSection(Section):
    """Rows of functions."""

    def row(self, name, mark, parameters, results, body, local_runs=()):
        """A function of these parameters, results, locals and instructions."""
        if mark not in ('+', '-'):
            raise ValueError(f'{name}: no mark: {mark}')
        self.rows.append(FunctionRow(name, mark, functype(parameters, results), code_contents(body, local_runs)))

    def standard(self, name, instruction, operands, results, wrong_operands=None):
        """The usual rows of an instruction that takes these operands and gives these results.

        `wrong_operands` are the places of the operands that are given wrongly one by one: all, where there is nothing.
        """
        self._reached(name, instruction, operands, results, wrong_operands)
        self._unreached(name, instruction, operands, results)

    def _reached(self, name, instruction, operands, results, wrong_operands):
        count = len(operands)
        self.row(name, '+', operands, results, local_gets(count) + instruction)
        for place in range(count) if wrong_operands is None else wrong_operands:
            suffix = '' if count == 1 else f'-{place + 1}'
            parameters = operands[:place] + [wrong_type(operands[place])] + operands[place + 1:]
            self.row(f'{name}/wrong-operand{suffix}', '-', parameters, results, local_gets(count) + instruction)
        if operands:
            self.row(f'{name}/missing-operand', '-', operands, results, local_gets(count, first=1) + instruction)
        if results:
            self.row(f'{name}/wrong-result', '-', operands, _wrong_at_last(results), local_gets(count) + instruction)
        else:
            self.row(f'{name}/no-result', '-', operands, [I32], local_gets(count) + instruction)

    def _unreached(self, name, instruction, operands, results):
        self.row(f'{name}/unreached', '+', operands, results, UNREACHABLE + instruction)
        if operands:
            body = UNREACHABLE + local_get(len(operands) - 1) + instruction
            self.row(f'{name}/unreached-operand', '+', operands, results, body)
            self.row(f'{name}/unreached-wrong-operand', '-', _wrong_at_last(operands), results, body)
        if results:
            self.row(
                f'{name}/unreached-wrong-result', '-', operands, _wrong_at_last(results), UNREACHABLE + instruction)
        else:
            self.row(f'{name}/unreached-result-from-beneath', '+', operands, [I32], UNREACHABLE + instruction)


def answered(answer):
    """The lines that say that this is answered: on out where the module is accepted, and else on err."""
    status = STATUSES[answer.split()[0]]
    return [f'out | {answer}'] if status == 0 else [f'err | {answer}', f'status {status}']


def spelled(module):
    """The words that spell a module: its header, and a word for each section."""
    words = [module[:HEADER_LENGTH]]
    rest = module[HEADER_LENGTH:]
    while rest:
        end = _section_end(rest)
        words.append(rest[:end])
        rest = rest[end:]
    return ' '.join(word.hex().upper() for word in words)


def _section_end(rest):
    """Where the section ends that is in front; where there is none, where the bytes end."""
    size, place = 0, 1
    for place in range(1, min(len(rest), 6)):
        size |= (rest[place] & 0x7f) << 7 * (place - 1)
        if rest[place] < 0x80:
            return min(place + 1 + size, len(rest))
    return len(rest)


def wrong_type(value_type):
    """A type that doesn't match this one."""
    return I64 if value_type == I32 else I32


def _wrong_at_last(value_types):
    return value_types[:-1] + [wrong_type(value_types[-1])]


def local_gets(count, first=0):
    """Gets of the locals below a number, from the first that is told."""
    return b''.join(local_get(local) for local in range(first, count))
