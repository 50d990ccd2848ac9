"""Which types are equivalent: modules whose functions give a parameter of one type as a result of another.

The types stand in groups, and behind them, each alone, the types of these functions. What is wanted comes from a plain
definition: the types of one position of groups that are equal, where an index into the group is its position, and
another one stands for all that are equivalent to it. `subtyping_by_chance` takes this definition too.
"""

from typing import NamedTuple

from assembler.encoding import indices, vector
from assembler.instructions import local_get
from assembler.modules import code, module, section
from assembler.types import (
    CONT, FUNC, I32, I64, NOCONT, NOFUNC, conttype, final_type, functype, nullable, open_type, rec_group, ref)
from rows.sections import VALID, CallRow, ModuleSection, answered
from rows.words import Pieces, shortest

SECTION = ModuleSection('equivalence')
SEED = 20
HEAPS = [FUNC, NOFUNC, CONT, NOCONT]


class Reference(NamedTuple):
    """A reference type, to the type of an index or to a heap type that is given by its bytes."""

    heap: int | bytes
    null: bool = False


class Func(NamedTuple):
    """A function type. A value type is a reference, or is given by its bytes."""

    parameters: tuple = ()
    results: tuple = ()


class Cont(NamedTuple):
    """A continuation type."""

    function: int


class Declared(NamedTuple):
    """A function or continuation type with supertypes, and whether it is final. One alone is final and has none."""

    composite: Func | Cont
    final: bool = True
    supertypes: tuple = ()


def declared(member):
    """A type of a group, which may be a function or continuation type alone, with what is declared of it."""
    return member if isinstance(member, Declared) else Declared(member)


def _value_bytes(value):
    if isinstance(value, Reference):
        return (nullable if value.null else ref)(value.heap)
    return value


def _type_bytes(comptype):
    if isinstance(comptype, Declared):
        spelled_type = final_type if comptype.final else open_type
        return spelled_type(_type_bytes(comptype.composite), *comptype.supertypes)
    if isinstance(comptype, Cont):
        return conttype(comptype.function)
    parameters, results = ([_value_bytes(each) for each in values] for values in comptype)
    return functype(parameters, results)


def group_bytes(group):
    members = [_type_bytes(each) for each in group]
    return members[0] if len(members) == 1 else rec_group(members)


def _places(groups):
    """For each type its group, and the index with which that begins."""
    places = []
    for group in groups:
        start = len(places)
        places += [(group, start) for _ in group]
    return places


def equivalent(groups, left, right):
    """Whether the types of these indices are equivalent, straight by the definition."""
    places = _places(groups)
    return _equivalent(places, left, right)


def _equivalent(places, left, right):
    (one, first), (other, second) = places[left], places[right]
    if left - first != right - second or len(one) != len(other):
        return False

    def same_index(x, y):
        if x >= first and y >= second:
            return x - first == y - second
        return x < first and y < second and _equivalent(places, x, y)

    def same_value(a, b):
        if isinstance(a, Reference) and isinstance(b, Reference):
            both = isinstance(a.heap, int) and isinstance(b.heap, int)
            return a.null == b.null and (same_index(a.heap, b.heap) if both else a.heap == b.heap)
        return a == b

    def same_values(a, b):
        return len(a) == len(b) and all(map(same_value, a, b))

    def same_composite(a, b):
        if isinstance(a, Func) and isinstance(b, Func):
            return same_values(a.parameters, b.parameters) and same_values(a.results, b.results)
        return isinstance(a, Cont) and isinstance(b, Cont) and same_index(a.function, b.function)

    def same_type(a, b):
        a, b = declared(a), declared(b)
        above = len(a.supertypes) == len(b.supertypes) and all(map(same_index, a.supertypes, b.supertypes))
        return a.final == b.final and above and same_composite(a.composite, b.composite)

    return all(map(same_type, one, other))


def given_for(groups, pairs):
    """A module of these groups, with a function for each pair, which gives what it takes."""
    count = sum(map(len, groups))
    types = [group_bytes(group) for group in groups]
    types += [functype([nullable(left)], [nullable(right)]) for left, right in pairs]
    functions = [count + place for place in range(len(pairs))]
    return module(types=types, functions=functions, codes=[code(local_get(0))] * len(pairs))


def row(name, groups, alike, unlike=()):
    """Types of these groups: pairs that are equivalent, in one module, and each pair that is not, in one of its own."""
    for expected, pairs in [(True, alike), (False, unlike)]:
        for left, right in pairs:
            if equivalent(groups, left, right) != expected:
                raise ValueError(f'{name}: {left} {right}')
    if alike:
        both_ways = [*alike, *((right, left) for left, right in alike)]
        SECTION.row(f'{name}/equivalent', VALID, given_for(groups, both_ways))
    for left, right in unlike:
        SECTION.row(f'{name}/{left}-and-{right}', 'invalid function 0', given_for(groups, [(left, right)]))


PLAIN = Func()


def takes(*values):
    return Func(parameters=values)


def gives(value):
    return Func(results=(value,))


def pair(function, continued):
    """A function type that takes a reference to the type of the first index, and a continuation type of the second."""
    return [takes(Reference(function)), Cont(continued)]


def swapped(function, continued):
    return list(reversed(pair(function, continued)))


def alone(*comptypes):
    return [[each] for each in comptypes]


row('groups-after-renaming', [pair(1, 0), pair(3, 2)], [(0, 2), (3, 1)], [(0, 1), (0, 3), (2, 1)])
row('one-group-of-two-and-two-of-one', [[PLAIN, PLAIN], [PLAIN], [PLAIN]], [(2, 3)], [(0, 1), (0, 2), (1, 3)])
row('order-of-members', [pair(1, 0), swapped(3, 3)], [], [(0, 3), (1, 2), (0, 2)])
row('a-group-that-refers-to-itself-or-to-such-a-one',
    alone(*(takes(Reference(x)) for x in [0, 0, 2, 2])), [(0, 2), (1, 3)], [(0, 1), (2, 3)])
PARTS = alone(
    PLAIN, takes(I32), takes(I64), gives(I32), takes(Reference(0)), takes(Reference(1)), Cont(0), Cont(1),
    takes(I32, I32), takes(Reference(0, null=True)))
row('every-part-of-a-type', PARTS, [], [(x, y) for x in range(10) for y in range(10) if x < y])


def agree(name, groups):
    """All pairs of types."""
    count = sum(map(len, groups))
    pairs = [(x, y) for x in range(count) for y in range(count) if x != y]
    alike = [each for each in pairs if equivalent(groups, *each)]
    row(name, groups, alike, [each for each in pairs if each not in alike and each[0] < each[1]])


agree('pairs', [pair(1, 0), swapped(3, 3), pair(5, 4), pair(1, 6)])
agree('layered', [pair(0, 0), pair(2, 2), pair(1, 0), pair(3, 2), pair(3, 2)])
agree('counted', [[PLAIN, PLAIN], [], [PLAIN], [PLAIN, PLAIN], [], [PLAIN]])
agree('continued', alone(PLAIN, Cont(0), PLAIN, Cont(2), gives(I32), Cont(0)))
agree('own-references', alone(*(takes(Reference(x)) for x in [0, 0, 2, 2, 1, 3])))
agree('nullable-references', alone(*(takes(Reference(x, null=True)) for x in [0, 1, 1, 0, 3])))
agree('numbers', alone(
    takes(I32), gives(I32), takes(I64), takes(I32), takes(Reference(0), Reference(3)),
    takes(Reference(3), Reference(0)), takes(Reference(3), Reference(1))))
agree('heap-types', alone(*(takes(Reference(heap, null)) for heap, null in [
    (FUNC, True), (FUNC, False), (NOFUNC, True), (FUNC, True), (NOCONT, False), (CONT, False)])))

# Large ones: 9,999 types, spelled by repeated words, and a function that gives a type for another.
TEN_THOUSAND = 10000
INVALID = 'invalid function 0'
CHAIN = ''.join(functype([ref(before)], []).hex().upper() for before in range(TEN_THOUSAND - 2))
PIECES = Pieces([('header', '0061736D01000000'), ('chain', CHAIN)])
REST = ' '.join(each.hex().upper() for each in [
    section('functions', indices([TEN_THOUSAND - 1])), section('codes', vector([code(local_get(0))]))])


def large(name, answer, groups, words, left, right):
    """So many groups, which these words spell, and the function."""
    words = [shortest(groups + 1), *words, functype([nullable(left)], [nullable(right)]).hex().upper()]
    given = f'@header 01{shortest(PIECES.length(words))} {" ".join(words)} {REST}'
    SECTION.rows.append(CallRow(f'large/{name}', 'check x', given, answered(answer)))


large('equal-groups', VALID, 9999, ['600000*9999'], 0, 9998)
for name, left in [('the-first-and-the-last', 0), ('the-last-two', 9997)]:
    large(f'each-refers-to-the-one-before/{name}', INVALID, 9999, ['600000', '@chain'], left, 9998)
ONE_GROUP = ['4E8D4E', '600000', '5D00*9996', '600000', '5D8DCE00']
for name, left, right in [('two-of-it', 9995, 9996), ('one-of-it-and-one-alone', 1, 9998)]:
    large(f'one-group/{name}', INVALID, 3, ONE_GROUP, left, right)


def hundreds():
    """Groups of 99 function types, of which the last has 0 to 98 parameters, and once more 0; and 99 types alone."""
    for parameters in [*range(99), 0]:
        yield from ['4E63', '600000*98', f'60{parameters:02X}', f'7F*{parameters}', '00']
    yield '600000*99'


for name, answer, left, right in [
        ('unlike-groups', INVALID, 0, 99), ('later-unlike-groups', INVALID, 9603, 9702),
        ('equal-groups', VALID, 0, 9801), ('last-members-of-equal-groups', VALID, 98, 9899),
        ('last-members-of-unlike-groups', INVALID, 98, 197)]:
    large(f'groups-that-differ-in-their-last-member/{name}', answer, 199, list(hundreds()), left, right)

# Groups by chance, of a seed that stays.


class Numbers:
    """Numbers by chance, the same wherever this runs."""

    def __init__(self, seed):
        self.state = seed

    def below(self, bound):
        self.state = (self.state * 6364136223846793005 + 1442695040888963407) % 2 ** 64
        return (self.state >> 33) % bound

    def one_of(self, items):
        return items[self.below(len(items))]

    def is_within(self, percent):
        return self.below(100) < percent


class Chance:
    """Groups that are chosen by chance, and valid."""

    def __init__(self, numbers):
        self.numbers = numbers

    def groups(self):
        groups, kinds = [], []
        for _ in range(3 + self.numbers.below(3)):
            if groups and self.numbers.is_within(40):
                added = self._again(groups)
            else:
                added = self._group(groups, kinds)
            groups.append(added)
            kinds += [isinstance(declared(each).composite, Func) for each in added]
        return groups

    def _group(self, _groups, kinds):
        """A new group: functions and continuations of functions in front, of it too."""
        new = [True] + [self.numbers.is_within(60) for _ in range(self.numbers.below(3))]
        known = kinds + new
        functions = [place for place, is_function in enumerate(known) if is_function]
        return [
            self._function(len(known)) if is_function else Cont(self.numbers.one_of(functions)) for is_function in new]

    def _function(self, count):
        return Func(self._values(count), self._values(count))

    def _values(self, count):
        return tuple(self._value(count) for _ in range(self.numbers.one_of([0, 1, 1, 2])))

    def _value(self, count):
        if self.numbers.is_within(30):
            return self.numbers.one_of([I32, I64])
        heap = self.numbers.below(count) if self.numbers.is_within(80) else self.numbers.one_of(HEAPS)
        return Reference(heap, self.numbers.is_within(30))

    def _again(self, groups):
        """A group that is there, once more: its own indices are of the new one, and others maybe those of equal types."""
        place = self.numbers.below(len(groups))
        start, end = (sum(map(len, groups[:number])) for number in (place, len(groups)))

        def moved(index):
            if index >= start:
                return index - start + end
            alike = [other for other in range(end) if equivalent(groups, index, other)]
            return self.numbers.one_of(alike)

        def moved_value(value):
            if isinstance(value, Reference) and isinstance(value.heap, int):
                return value._replace(heap=moved(value.heap))
            return value

        def moved_type(member):
            if isinstance(member, Declared):
                supertypes = tuple(map(moved, member.supertypes))
                return member._replace(composite=moved_type(member.composite), supertypes=supertypes)
            if isinstance(member, Cont):
                return Cont(moved(member.function))
            return Func(tuple(map(moved_value, member.parameters)), tuple(map(moved_value, member.results)))

        return list(map(moved_type, groups[place]))


CHOSEN = Numbers(SEED)
for number in range(60):
    GROUPS = Chance(CHOSEN).groups()
    COUNT = sum(map(len, GROUPS))
    PAIRS = [(x, y) for x in range(COUNT) for y in range(x + 1, COUNT)]
    ALIKE = [each for each in PAIRS if equivalent(GROUPS, *each)]
    UNLIKE = [each for each in PAIRS if each not in ALIKE]
    row(f'by-chance-{number}', GROUPS, ALIKE, UNLIKE[CHOSEN.below(3)::3][:6])
