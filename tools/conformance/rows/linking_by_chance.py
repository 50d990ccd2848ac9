"""Files by chance, of a seed that stays, which export and import all kinds of things, and whose functions do something
with whatever they have: each prints what it finds."""

from assembler.instructions import (
    DROP, I32_ADD, I32_EQZ, REF_IS_NULL, access, block, br, call, call_indirect, cont_new, data_drop, elem_drop,
    global_get, global_set, i32_const, local_get, local_set, memory_copy, memory_fill, memory_grow, memory_init,
    memory_size, on, ref_null, resume, suspend, table_copy, table_fill, table_get, table_grow, table_init,
    table_set, table_size)
from assembler.segments import active_data, active_functions_in, passive_data, passive_functions
from assembler.types import EMPTY, FUNC, FUNCREF, I32, I64, functype, limits, nullable, ref
from rows.equivalence import Numbers
from rows.linking_samples import File, LinkSection

SECTION = LinkSection('by chance')
SEED = 1917
COUNT = 40
STEPS = 6000
KINDS = ('func', 'table', 'memory', 'global', 'tag')
PRINT = call(0)


class ChanceFile(File):
    """A file that imports some of what earlier ones export, and defines and exports more; each kind has one type."""

    def __init__(self, numbers, number, earlier):
        super().__init__(*[
            functype([I64] * (numbers.below(3) + 1), [I32] * numbers.below(2)) for _ in range(numbers.below(5))])
        self.numbers = numbers
        self.number = number
        self.names = []         # of what this file exports: each a kind and a name
        self.plain = self.func()
        self.nothing = self.cont()
        self.label = self.arrow([], [ref(self.nothing)])
        self.printer()
        self._import(earlier)
        self._define_some()

    def _import(self, earlier):
        described = {
            'func': (self.plain,), 'table': (FUNCREF, limits(self.numbers.below(3))), 'memory': (limits(
                self.numbers.below(2)),), 'global': (I32, True), 'tag': (self.plain,)}
        for source, kind, name in earlier:
            if self.numbers.is_within(45) and (kind, self.imported['memory']) != ('memory', 1):
                self._export(kind, self.take(source, name, kind, *described[kind]), 40)

    def _export(self, kind, index, percent):
        if self.numbers.is_within(percent):
            name = f'{kind[0]}{len(self.names)}'
            self.give(name, kind, index)
            self.names.append((f'm{self.number}', kind, name))

    def _define_some(self):
        numbers = self.numbers
        if not self.imported['memory']:
            self._export('memory', self.memory(limits(1 + numbers.below(2), 3 + numbers.below(2))), 80)
        for _ in range(1 + numbers.below(2)):
            self._export('global', self.variable(I32, i32_const(numbers.below(1000))), 80)
            self._export('table', self.table(FUNCREF, limits(3 + numbers.below(3), 9)), 80)
            self._export('tag', self.tag(), 80)
        self.counts = {kind: self.imported[kind] + len(self.sections[kinds]) for kind, kinds in (
            ('table', 'tables'), ('global', 'globals'), ('tag', 'tags'))}
        first = self.next_function()
        for _ in range(2 + numbers.below(2)):
            callees = range(1, self.next_function())
            self._export('func', self.function([], [], self._body(callees), [(1, nullable(self.nothing))]), 80)
        self.own = range(first, self.next_function())
        for kind in (passive_functions, None):
            listed = [self.own[numbers.below(len(self.own))] for _ in range(2)]
            self.elements(kind(listed) if kind else active_functions_in(numbers.below(self.counts['table']), listed))
        self.data(passive_data(bytes([numbers.below(100) for _ in range(5)])))
        self.data(active_data(bytes([numbers.below(100) for _ in range(3)]), i32_const(numbers.below(12))))

    def _body(self, callees):
        return b''.join(self._done(callees) for _ in range(2 + self.numbers.below(4)))

    def _done(self, callees):
        """Something that is done with what the file has, and mostly printed."""
        ways = [self._global_use, self._memory_use, self._table_use, self._segment_use]
        if callees:
            ways += [self._call, self._call, self.handled]
        ways.append(self._suspend)
        return self.numbers.one_of(ways)(callees)

    def _one(self, kind):
        return self.numbers.below(self.counts[kind])

    def _global_use(self, _callees):
        index = self._one('global')
        changed = global_get(index) + i32_const(self.numbers.below(50)) + I32_ADD + global_set(index)
        return changed + global_get(index) + PRINT

    def _memory_use(self, _callees):
        place = i32_const(self.numbers.below(16))
        return self.numbers.one_of([
            place + access('i32.load8_u', 0, 0) + PRINT,
            place + i32_const(self.numbers.below(200)) + access('i32.store8', 0, 0),
            place + i32_const(self.numbers.below(9)) + i32_const(2) + memory_fill(0),
            place + i32_const(self.numbers.below(9)) + i32_const(3) + memory_copy(0, 0),
            i32_const(self.numbers.below(2)) + memory_grow(0) + PRINT, memory_size(0) + PRINT])

    def _table_use(self, _callees):
        index, place = self._one('table'), i32_const(self.numbers.below(4))
        return self.numbers.one_of([
            place + call_indirect(self.plain, index), place + table_get(index) + REF_IS_NULL + PRINT,
            place + ref_null(FUNC) + table_set(index), table_size(index) + PRINT,
            ref_null(FUNC) + i32_const(self.numbers.below(3)) + table_grow(index) + PRINT,
            place + i32_const(self.numbers.below(2)) + i32_const(2) + table_copy(index, self._one('table')),
            place + ref_null(FUNC) + i32_const(1) + table_fill(index)])

    def _segment_use(self, _callees):
        count, place = i32_const(1 + self.numbers.below(2)), i32_const(self.numbers.below(3))
        if self.numbers.is_within(20):
            return self.numbers.one_of([elem_drop(0), data_drop(0)])
        return self.numbers.one_of([
            place + i32_const(0) + count + table_init(0, self._one('table')),
            place + i32_const(1) + count + memory_init(0, 0)])

    def _call(self, callees):
        return call(self.numbers.one_of(list(callees)))

    def _suspend(self, _callees):
        return suspend(self._one('tag')) if self.numbers.is_within(35) else i32_const(7) + PRINT

    def handled(self, callees):
        """Resume a continuation of a function. Where it is suspended, it is resumed once more or left."""
        fresh = self.ref(self.numbers.one_of(list(callees))) + cont_new(self.nothing)
        tags = [self._one('tag') for _ in range(1 + self.numbers.below(2))]
        inside = fresh + resume(self.nothing, *(on(tag, 0) for tag in tags)) + br(1)
        behind = self.numbers.one_of([DROP, resume(self.nothing), local_set(0) + local_get(0) + resume(self.nothing)])
        return block(EMPTY, block(self.label, inside) + i32_const(self.number) + PRINT + behind)


def _linked(numbers):
    """Some files, the last with main, which calls some functions."""
    files, earlier = [], []
    for number in range(3 + numbers.below(2)):
        file = ChanceFile(numbers, number, earlier)
        earlier += file.names
        files.append(file)
    last = files[-1]
    for file in files:
        if numbers.is_within(40):
            file.start = numbers.one_of(list(file.own))
    body = b''.join(last.handled(last.own) for _ in range(2)) + call(last.own[0]) + global_get(0) + I32_EQZ
    return [file.bytes() for file in files[:-1]] + [last.main([I32], body, [(1, nullable(last.nothing))])]


CHOSEN = Numbers(SEED)
for place in range(COUNT):
    SECTION.row(f'by-chance-{place}', *_linked(CHOSEN), steps=STEPS, stats=True)
