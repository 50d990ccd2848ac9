"""Links in which an index is not the address that it stands for: for each kind of index, and each instruction with one.

Three files have the same kinds of things, each with contents of its own, and the third one also imports some of them in
front of its own. Each row uses one of them in one of the files, and its results tell which this was.
"""

from typing import NamedTuple

from assembler.instructions import (
    I32_MUL, REF_IS_NULL, access, call, call_indirect, call_ref, data_drop, elem_drop, global_get, global_set,
    i32_const, i64_const, memory_copy, memory_fill, memory_grow, memory_init, memory_size, ref_func, ref_null,
    return_call, return_call_indirect, return_call_ref, table_copy, table_fill, table_get, table_grow, table_init,
    table_set, table_size)
from assembler.segments import active_data, active_functions_in, passive_data, passive_functions
from assembler.types import FUNC, FUNCREF, I32, I64, functype, limits
from rows.linking_samples import File, LinkSection, gives, trap

MEMORIES = LinkSection('memories')
TABLES = LinkSection('tables')
VARIABLES = LinkSection('variables')
FUNCTIONS = LinkSection('functions')

FILES = range(3)
OUT_OF_TABLE = trap('table out of bounds')
OUT_OF_MEMORY = trap('memory out of bounds')

# What index stands for which thing of which file, in each file: the third has imports in front of its own.
PLACES = [[(0, 0), (0, 1)], [(1, 0), (1, 1)], [(1, 1), (0, 0), (2, 0), (2, 1)]]


def number_of(file, place):
    """The number that a function gives of this file and place, with which a table of this file and place begins."""
    return 100 * file + 10 * place + 1


def size_of(file, place):
    """How many elements a table has."""
    return 4 + 3 * file + place


def value_of(file, place):
    """What a global has."""
    return 1000 + 10 * file + place


def word_of(*numbers):
    """The number that these four bytes spell, the least first."""
    return int.from_bytes(bytes(numbers), 'little')


def byte_of(file, place):
    """The byte of which a data segment is made."""
    return 16 * file + 4 * place + 3


class World(File):
    """One of the three files, with two of each kind of its own but a single memory."""

    def __init__(self, file, imports_memory=False):
        super().__init__(*[functype([I64] * (count + 1), []) for count in range(file + 1)])
        self.file = file
        self.number_type = self.func([], [I32])
        if file == 2:
            self._import(imports_memory)
        self._define_all()
        if file < 2 or not imports_memory:
            self.memory(limits(1 + file, 10 + file), name='memory')
        if file < 2 or not imports_memory:
            self.data(active_data(bytes([file + 1, file + 11, file + 21, file + 31] * 2)))
        self.segments = [self.elements(passive_functions([
            self.functions[place], self.functions[1 - place], self.functions[place]])) for place in range(2)]
        self.datas = [self.data(passive_data(bytes([byte_of(file, place)] * (4 + place)))) for place in range(2)]

    def _import(self, imports_memory):
        for file, place in PLACES[2][:2]:
            self.take_function(f'm{file}', f'function{place}', [], [I32])
            self.take(f'm{file}', f'table{place}', 'table', FUNCREF, limits(1))
            self.take(f'm{file}', f'global{place}', 'global', I32, True)
        if imports_memory:
            self.take('m1', 'memory', 'memory', limits(1))

    def _define_all(self):
        """Functions that give numbers, tables that begin with them, and variables."""
        for _ in range(self.file):
            self.function([], [], b'')
        self.functions = [self.function(
            [], [I32], i32_const(number_of(self.file, place)), name=f'function{place}') for place in range(2)]
        for place in range(2):
            size = size_of(self.file, place)
            index = self.table(FUNCREF, limits(size, size + 10 + self.file), name=f'table{place}')
            self.elements(active_functions_in(index, [self.functions[place], self.functions[1 - place]]))
            self.variable(I32, i32_const(value_of(self.file, place)), name=f'global{place}')

    def function_index(self, place):
        """The index of what `PLACES` tells for functions."""
        return place if self.file == 2 and place < 2 else self.functions[place - 2 if self.file == 2 else place]

    def using(self, results, body):
        """The bytes of the file with a function that uses something, which is main in the third one."""
        self.function([], results, body, [(1, I32)], name='main' if self.file == 2 else 'use')
        return self.bytes()


PLAIN = [World(file).bytes() for file in FILES]


def asking(file, results):
    """A third file whose main gives what the function `use` of this one gives."""
    asked = File()
    for _ in range(3):
        asked.func([I64], [])
    index = asked.take_function(f'm{file}', 'use', [], results)
    return asked.main(results, call(index))


def in_file(section, name, world, results, body, wanted):
    """A row in which these instructions stand in a file, and what it is known to come to."""
    given = world.using(results, body)
    if world.file == 2:
        files = [PLAIN[0], PLAIN[1], given]
    else:
        files = [*PLAIN[:world.file], given, *PLAIN[world.file + 1:2], asking(world.file, results)]
    section.row(f'{name}/in-file-{world.file}', *files, wanted=wanted)


class Case(NamedTuple):
    """An index in a file, for what it stands, and for what the index beside it does, by file and place."""

    world: World
    index: int
    place: tuple
    other: tuple

    def called(self, *elements):
        """Calls these elements of the table."""
        return b''.join(i32_const(each) + call_indirect(self.world.number_type, self.index) for each in elements)

    @property
    def size(self):
        """How many elements the table has."""
        return size_of(*self.place)

    @property
    def numbers(self):
        """What the functions give that are the first two elements of the table."""
        file, place = self.place
        return number_of(file, place), number_of(file, 1 - place)

    def own_number(self, place):
        """What a function of the file gives that is its own."""
        return number_of(self.world.file, place)


def each_place(section, name, results, body_of, wanted_of):
    """A row for each index in each of the files: its body, and what it is known to come to."""
    for file in FILES:
        places = PLACES[file]
        for index, place in enumerate(places):
            case = Case(World(file), index, place, places[index ^ 1])
            in_file(section, f'{name}-{index}', case.world, results, body_of(case), wanted_of(case))


def _variable_rows():
    each_place(
        VARIABLES, 'global.get', [I32], lambda case: global_get(case.index), lambda case: gives(value_of(*case.place)))
    each_place(
        VARIABLES, 'global.set', [I32] * 2,
        lambda case: i32_const(7) + global_set(case.index) + global_get(case.index) + global_get(case.index ^ 1),
        lambda case: gives(7, value_of(*case.other)))
    for number in range(4):
        world = World(2)
        in_file(
            VARIABLES, f'global.set-{number}-of-all', world, [I32] * 4, i32_const(7) + global_set(number)
            + b''.join(map(global_get, range(4))),
            gives(*(7 if place == number else value_of(*PLACES[2][place]) for place in range(4))))


def _table_rows():
    each_place(
        TABLES, 'table.size', [I32], lambda case: table_size(case.index), lambda case: gives(case.size))
    each_place(
        TABLES, 'table.get', [I32],
        lambda case: i32_const(case.size - 1) + table_get(case.index) + REF_IS_NULL, lambda case: gives(1))
    each_place(
        TABLES, 'table.get-past-the-end', [I32],
        lambda case: i32_const(case.size) + table_get(case.index) + REF_IS_NULL, lambda case: OUT_OF_TABLE)
    each_place(
        TABLES, 'call_indirect', [I32] * 2, lambda case: case.called(0, 1), lambda case: gives(*case.numbers))
    each_place(
        TABLES, 'return_call_indirect', [I32],
        lambda case: i32_const(1) + return_call_indirect(case.world.number_type, case.index),
        lambda case: gives(case.numbers[1]))
    each_place(
        TABLES, 'table.set', [I32] * 2,
        lambda case: i32_const(0) + ref_func(case.world.functions[1]) + table_set(case.index) + case.called(0, 1),
        lambda case: gives(case.own_number(1), case.numbers[1]))
    each_place(
        TABLES, 'table.grow', [I32] * 3,
        lambda case: ref_null(FUNC) + i32_const(2) + table_grow(case.index) + table_size(case.index)
        + table_size(case.index ^ 1), lambda case: gives(case.size, case.size + 2, size_of(*case.other)))
    each_place(
        TABLES, 'table.grow-to-the-greatest', [I32] * 2,
        lambda case: ref_null(FUNC) + i32_const(10 + case.place[0]) + table_grow(case.index)
        + ref_null(FUNC) + i32_const(1) + table_grow(case.index), lambda case: gives(case.size, -1))
    each_place(
        TABLES, 'table.fill', [I32] * 2,
        lambda case: i32_const(0) + ref_func(case.world.functions[0]) + i32_const(2) + table_fill(case.index)
        + case.called(0, 1), lambda case: gives(*[case.own_number(0)] * 2))
    each_place(
        TABLES, 'table.fill-past-the-end', [],
        lambda case: i32_const(1) + ref_null(FUNC) + i32_const(case.size) + table_fill(case.index),
        lambda case: OUT_OF_TABLE)


def _two_table_rows():
    """Copies between all pairs, segments for all tables, and segments that are dropped in one file alone."""
    for file in FILES:
        places = PLACES[file]
        for first, _ in enumerate(places):
            for second, source in enumerate(places):
                world = World(file)
                shown = i32_const(3) + call_indirect(world.number_type, first)
                in_file(
                    TABLES, f'table.copy-{first}-{second}', world, [I32],
                    i32_const(3) + i32_const(1) + i32_const(1) + table_copy(first, second) + shown,
                    gives(number_of(source[0], 1 - source[1])))
            for segment in range(2):
                world = World(file)
                shown = i32_const(2) + call_indirect(world.number_type, first)
                done = i32_const(2) + i32_const(0) + i32_const(1) + table_init(world.segments[segment], first)
                in_file(
                    TABLES, f'table.init-{first}-of-segment-{segment}', world, [I32], done + shown,
                    gives(number_of(file, segment)))
        for segment in range(2):
            for other in range(2):
                world = World(file)
                done = elem_drop(world.segments[segment]) + i32_const(2) + i32_const(0) + i32_const(2)
                done += table_init(world.segments[other], 0) + i32_const(3)
                in_file(
                    TABLES, f'elem.drop-{segment}-and-table.init-of-{other}', world, [I32],
                    done + call_indirect(world.number_type, 0),
                    OUT_OF_TABLE if segment == other else gives(number_of(file, 1 - other)))


def each_memory(name, results, body_of, wanted_of, files=FILES):
    """A row for the memory of each of some files, and one for that of the second file, which the third imports."""
    for file in files:
        world = World(file)
        in_file(MEMORIES, name, world, results, body_of(world), wanted_of(file, file))
    world = World(2, imports_memory=True)
    in_file(MEMORIES, f'{name}-imported', world, results, body_of(world), wanted_of(1, 2))


def _load_rows():
    for width in (8, 16, 32, 64):
        for result in (32, 64):
            if width > result:
                continue
            for sign in ('',) if width == result else ('_s', '_u'):
                name = f'i{result}.load{"" if width == result else width}{sign}'
                value_type = I32 if result == 32 else I64
                each_memory(
                    name, [value_type], lambda world: i32_const(1) + access(name, 0, 1),
                    lambda memory, file: gives(_loaded(memory, 2, width)), files=FILES[1:])


def _loaded(memory, address, width):
    """What so many bits of a memory's beginning spell. No byte there is above 127."""
    given = bytes([memory + 1, memory + 11, memory + 21, memory + 31] * 2 + [0] * 8)
    return int.from_bytes(given[address:address + width // 8], 'little')


def _store_rows():
    for name, constant, load in [
            ('i32.store', i32_const, 'i32.load'), ('i32.store8', i32_const, 'i32.load'),
            ('i32.store16', i32_const, 'i32.load'), ('i64.store', i64_const, 'i64.load'),
            ('i64.store8', i64_const, 'i64.load'), ('i64.store16', i64_const, 'i64.load'),
            ('i64.store32', i64_const, 'i64.load')]:
        width = int(name[1:3]) if name.endswith('store') else int(name.split('store')[1])
        value_type, bits = (I32, 32) if constant is i32_const else (I64, 64)
        each_memory(
            name, [value_type], lambda world: i32_const(0) + constant(0x11) + access(name, 0, 0) + i32_const(0)
            + access(load, 0, 0),
            lambda memory, file: gives((_loaded(memory, 0, bits) >> width << width) + 0x11), files=FILES[1:])


FIRST_WORD = i32_const(0) + access('i32.load', 2, 0)


def _memory_rows():
    each_memory('memory.size', [I32], lambda world: memory_size(0), lambda memory, file: gives(1 + memory))
    each_memory(
        'memory.grow', [I32] * 2, lambda world: i32_const(3) + memory_grow(0) + memory_size(0),
        lambda memory, file: gives(1 + memory, 4 + memory))
    each_memory(
        'memory.grow-past-the-greatest', [I32] * 2,
        lambda world: i32_const(9) + memory_grow(0) + i32_const(1) + memory_grow(0),
        lambda memory, file: gives(1 + memory, -1))
    each_memory(
        'memory.fill', [I32], lambda world: i32_const(1) + i32_const(2) + i32_const(2) + memory_fill(0)
        + FIRST_WORD, lambda memory, file: gives(word_of(memory + 1, 2, 2, memory + 31)))
    each_memory(
        'memory.copy', [I32], lambda world: i32_const(0) + i32_const(2) + i32_const(2) + memory_copy(0, 0)
        + FIRST_WORD, lambda memory, file: gives(word_of(memory + 21, memory + 31, memory + 21, memory + 31)))
    for segment in range(2):
        each_memory(
            f'memory.init-of-{segment}', [I32], lambda world: i32_const(0) + i32_const(0) + i32_const(3)
            + memory_init(world.datas[segment], 0) + FIRST_WORD,
            lambda memory, file: gives(word_of(*[byte_of(file, segment)] * 3, memory + 31)))
        each_memory(
            f'memory.init-of-{segment}-past-its-end', [I32], lambda world: i32_const(0) + i32_const(0) + i32_const(
                5 + segment) + memory_init(world.datas[segment], 0) + FIRST_WORD,
            lambda memory, file: OUT_OF_MEMORY)
        for other in range(2):
            each_memory(
                f'data.drop-{segment}-and-memory.init-of-{other}', [I32], lambda world: data_drop(
                    world.datas[segment]) + i32_const(1) + i32_const(0) + i32_const(1)
                + memory_init(world.datas[other], 0) + FIRST_WORD,
                lambda memory, file: OUT_OF_MEMORY if segment == other else gives(
                    word_of(memory + 1, byte_of(file, other), memory + 21, memory + 31)))
    each_memory(
        'i32.load-past-the-end', [I32], lambda world: memory_size(0) + i32_const(65536) + I32_MUL + access(
            'i32.load8_u', 0, 0), lambda memory, file: OUT_OF_MEMORY)


def _function_rows():
    def index_of(case):
        return case.world.function_index(case.index)

    def wanted(case):
        return gives(case.numbers[0])

    each_place(FUNCTIONS, 'call', [I32], lambda case: call(index_of(case)), wanted)
    each_place(FUNCTIONS, 'return_call', [I32], lambda case: return_call(index_of(case)), wanted)
    for name, made in [('call_ref', call_ref), ('return_call_ref', return_call_ref)]:
        each_place(
            FUNCTIONS, f'ref.func-and-{name}', [I32],
            lambda case: case.world.ref(index_of(case)) + made(case.world.number_type), wanted)


_variable_rows()
_table_rows()
_two_table_rows()
_load_rows()
_store_rows()
_memory_rows()
_function_rows()
