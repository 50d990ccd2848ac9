"""Rows of `link`, and files for it, each made piece by piece.

What a row is to come to is what the second reader of linking says when the row is made; where it is known by hand, the
two are to agree.
"""

from collections import Counter
from typing import NamedTuple

from assembler.encoding import signed
from assembler.instructions import ref_func
from assembler.modules import (
    as_func, as_global, as_memory, as_table, as_tag, code, export, global_, imported, module, table)
from assembler.segments import declared_functions
from assembler.types import I32, conttype, functype
from executing.linking_calls import USAGE, outcome_of_call, steps_of_files
from rows.runs import wanted_lines
from rows.sections import Section, spelled
from surroundings import TypeSection

NAMES = 'abcdefghijklmnopqrstuvwxyz'
EXTERN_TYPES = {'func': as_func, 'table': as_table, 'memory': as_memory, 'global': as_global, 'tag': as_tag}
SECTIONS = {'func': 'functions', 'table': 'tables', 'memory': 'memories', 'global': 'globals', 'tag': 'tags'}
HEADER = '0061736D01000000'
LEAST_SAVED = 40        # characters, for which a section becomes a piece


class SharedPieces:
    """The modules of rows, and pieces for those of them, and of their sections, that stand in several rows."""

    def __init__(self):
        self._rows = Counter()
        self._names = None

    def note(self, given):
        """A row has this module."""
        if not isinstance(given, str):
            self._rows[given] += 1

    def _named(self):
        """The names of pieces, by what they spell: a module, or the word of a section. All rows are made by now."""
        if self._names is None:
            times = Counter(word for given, rows in self._rows.items() for word in spelled(given).split()[1:])
            words = [word for word, count in times.items() if (count - 1) * len(word) > LEAST_SAVED + 10 * count]
            modules = [given for given, rows in self._rows.items() if rows > 1]
            self._names = {HEADER: 'header'}
            self._names |= {word: f'part_{number}' for number, word in enumerate(words)}
            self._names |= {given: f'module_{number}' for number, given in enumerate(modules)}
        return self._names

    def _words(self, given):
        names = self._named()
        return ' '.join(f'@{names[word]}' if word in names else word for word in spelled(given).split())

    def spelled(self, given):
        """The words that spell a module, which may be given by words."""
        if isinstance(given, str):
            return given
        return f'@{self._named()[given]}' if given in self._named() else self._words(given)

    def pieces(self):
        """The pieces, each in front of those that have it."""
        return [
            (name, self._words(given) if isinstance(given, bytes) else given) for given, name in self._named().items()]


PIECES = SharedPieces()


def bytes_of(given):
    """The bytes of a file, which may be given by words, each of digits and maybe repeated."""
    if isinstance(given, bytes):
        return given
    words = (word.partition('*') for word in given.split())
    return b''.join(bytes.fromhex(digits) * int(times or 1) for digits, _, times in words)


class LinkRow(NamedTuple):
    """A call of `link` on some files."""

    name: str
    words: list             # behind the command
    files: dict             # the bytes, or words that spell them, by name
    wanted: list            # the lines that say what it comes to
    more: tuple = ()        # further lines of the row
    command: str = 'link'

    @property
    def fields(self):
        """The lines of the row."""
        files = [f'file {name} {PIECES.spelled(given)}'.rstrip() for name, given in self.files.items()]
        words = ['words stackwasm', self.command, *(word or "''" for word in self.words)]
        return [' '.join(words), *files, *self.more, *self.wanted]


class LinkSection(Section):
    """Rows of `link`."""

    def call(self, name, words, files, wanted=None, more=()):
        """A call of these words, behind the command, with these files by name. What it comes to may be known."""
        said = wanted_lines(*outcome_of_call(words, {each: bytes_of(given) for each, given in files.items()}))
        if wanted is None and any(word in line for line in said for word in ('malformed', 'invalid')):
            raise ValueError(f'{name}: {said}')
        if wanted is not None and said != wanted:
            raise ValueError(f'{name}: {said} and not {wanted}')
        self.add(LinkRow(name, words, files, said, more))

    def add(self, row):
        """A row of which the second reader is not asked."""
        for given in row.files.values():
            PIECES.note(given)
        self.rows.append(row)

    def row(self, name, *files, wanted=None, steps=None, stats=False):
        """A call on these files in turn, for so many reductions at most where this is told, maybe with its statistics.
        What it comes to may be known."""
        names = [NAMES[number] for number in range(len(files))]
        words = [*names, *([] if steps is None else ['--steps', str(steps)]), *(['--stats'] if stats else [])]
        self.call(name, words, dict(zip(names, files)), wanted)

    def told(self, name, *files, wanted=None):
        """A call with its statistics."""
        self.row(name, *files, wanted=wanted, stats=True)

    def each_step(self, name, *files):
        """Calls with statistics, for each number of reductions up to one more than are needed."""
        for steps in range(steps_of_files(files) + 2):
            self.row(f'{name}/{steps}-reductions', *files, steps=steps, stats=True)


def written(*lines):
    """The lines that say that these are written to out."""
    return wanted_lines(''.join(f'{line}\n' for line in lines).encode(), b'', 0)


def gives(*numbers):
    """The lines of a run that ends with these values and prints nothing."""
    return written(*(f'= {number}' for number in numbers))


def says(line, status, *printed):
    """The lines of a call that is refused or ends with this line, behind what it prints."""
    return wanted_lines(''.join(f'{each}\n' for each in printed).encode(), f'{line}\n'.encode(), status)


USAGE_LINES = says(USAGE, 2)


def no_import(file, number=0):
    return says(f'file {file} no import {number}', 4)


def trap(kind, *printed):
    return says(f'trap {kind}', 1, *printed)


class File:
    """A module that is made piece by piece. What it imports of a kind stands in front of what it defines of it.

    Each piece that is made gives its index, and is exported where it is given a name.
    """

    def __init__(self, *groups):
        self.types = TypeSection()
        for group in groups:
            self.types.add(*group) if isinstance(group, list) else self.types.add(group)
        self.sections = {'imports': [], 'exports': [], 'elements': [], 'datas': [], 'codes': []}
        self.sections |= {kind: [] for kind in SECTIONS.values()}
        self.imported = Counter()
        self.start = None
        self.referred = []

    def func(self, parameters=(), results=()):
        """The index of this function type."""
        return self.types.index_of(functype(list(parameters), list(results)))

    def cont(self, parameters=(), results=()):
        """The index of the type of continuations of functions with these parameters and results."""
        return self.types.index_of(conttype(self.func(parameters, results)))

    def arrow(self, parameters=(), results=()):
        """The block type of these parameters and results."""
        return signed(self.func(parameters, results))

    def take(self, source, item, kind, *described):
        """Import what a file exports by a name. It is described as in the assembler."""
        if self.sections[SECTIONS[kind]]:
            raise ValueError(f'an import of {item} behind what is defined')
        self.sections['imports'].append(imported(EXTERN_TYPES[kind](*described), item, source))
        self.imported[kind] += 1
        return self.imported[kind] - 1

    def take_function(self, source, item, parameters=(), results=()):
        return self.take(source, item, 'func', self.func(parameters, results))

    def take_tag(self, source, item, parameters=(), results=()):
        return self.take(source, item, 'tag', self.func(parameters, results))

    def printer(self):
        """The index of the function of the host that prints an i32."""
        return self.take_function('host', 'print_i32', [I32])

    def give(self, name, kind, index):
        """Export what has this index."""
        self.sections['exports'].append(export(name, kind, index))
        return index

    def _define(self, kind, given, name):
        defined = self.sections[SECTIONS[kind]]
        defined.append(given)
        index = self.imported[kind] + len(defined) - 1
        return index if name is None else self.give(name, kind, index)

    def next_function(self):
        """The index that the next function will have."""
        return self.imported['func'] + len(self.sections['functions'])

    def function(self, parameters=(), results=(), body=b'', local_runs=(), name=None):
        return self.function_of(self.func(parameters, results), body, local_runs, name)

    def function_of(self, function_type, body=b'', local_runs=(), name=None):
        self.sections['codes'].append(code(body, local_runs))
        return self._define('func', function_type, name)

    def table(self, ref_type, given_limits, initial=None, name=None):
        return self._define('table', table(ref_type, given_limits, initial), name)

    def memory(self, given_limits, name=None):
        return self._define('memory', given_limits, name)

    def variable(self, value_type, initial, name=None):
        return self._define('global', global_(value_type, initial, mutable=True), name)

    def constant(self, value_type, initial, name=None):
        return self._define('global', global_(value_type, initial), name)

    def tag(self, parameters=(), results=(), name=None):
        return self.tag_of(self.func(parameters, results), name)

    def tag_of(self, function_type, name=None):
        return self._define('tag', function_type, name)

    def elements(self, segment):
        self.sections['elements'].append(segment)
        return len(self.sections['elements']) - 1

    def data(self, segment):
        self.sections['datas'].append(segment)
        return len(self.sections['datas']) - 1

    def ref(self, function):
        """A reference to a function, which is declared."""
        self.referred.append(function)
        return ref_func(function)

    def main(self, results=(), body=b'', local_runs=()):
        """The bytes of the module, with a function main behind all others."""
        self.function([], results, body, local_runs, name='main')
        return self.bytes()

    def bytes(self):
        """The bytes of the module."""
        sections = {kind: given for kind, given in self.sections.items() if given}
        if self.types.groups:
            sections['types'] = self.types.groups
        if self.referred:
            declared = declared_functions(sorted(set(self.referred)))
            sections['elements'] = [*sections.get('elements', []), declared]
        if self.start is not None:
            sections['start'] = self.start
        if 'datas' in sections:
            sections['data_count'] = len(sections['datas'])
        return module(**sections)


def running(results=(), body=b''):
    """A file of main alone."""
    return File().main(results, body)

