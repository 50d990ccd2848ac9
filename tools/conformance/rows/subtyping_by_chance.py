"""Types with supertypes by chance, of a seed that stays: which is the first that isn't valid, and which match.

What is wanted comes from a plain definition, which is straight recursion over the few types of a module.
"""

from assembler.types import CONT, FUNC, NOCONT, NOFUNC
from rows.equivalence import Chance, Cont, Declared, Func, Numbers, Reference, declared, equivalent, given_for
from rows.sections import VALID, ModuleSection

SECTION = ModuleSection('subtyping_by_chance')
SEED = 50
COUNT = 140


class Definition:
    """The rules for the types of these groups."""

    def __init__(self, groups):
        self.groups = groups
        self.members = [declared(member) for group in groups for member in group]
        self.ends = list(_ends(groups))

    def matches_index(self, lower, upper):
        if equivalent(self.groups, lower, upper):
            return True
        above = self.members[lower].supertypes
        return len(above) == 1 and above[0] < lower and self.matches_index(above[0], upper)

    def _is_function(self, heap):
        return isinstance(heap, int) and isinstance(self.members[heap].composite, Func)

    def _is_continuation(self, heap):
        return isinstance(heap, int) and isinstance(self.members[heap].composite, Cont)

    def _matches_heap(self, lower, upper):
        if isinstance(lower, int) and isinstance(upper, int):
            return self.matches_index(lower, upper)
        return lower == upper or (
            upper == FUNC and (lower == NOFUNC or self._is_function(lower))
            or upper == CONT and (lower == NOCONT or self._is_continuation(lower))
            or lower == NOFUNC and self._is_function(upper) or lower == NOCONT and self._is_continuation(upper))

    def _matches_value(self, lower, upper):
        if isinstance(lower, Reference) and isinstance(upper, Reference):
            return (upper.null or not lower.null) and self._matches_heap(lower.heap, upper.heap)
        return lower == upper

    def _match_values(self, lowers, uppers):
        return len(lowers) == len(uppers) and all(map(self._matches_value, lowers, uppers))

    def _matches_type(self, lower, upper):
        if isinstance(lower, Func) and isinstance(upper, Func):
            return self._match_values(upper.parameters, lower.parameters) and self._match_values(
                lower.results, upper.results)
        return isinstance(lower, Cont) and isinstance(upper, Cont) and self.matches_index(
            lower.function, upper.function)

    def _is_valid(self, number):
        composite, _, supertypes = self.members[number]
        if any(index >= self.ends[number] for index in [*supertypes, *_indices(composite)]):
            return False
        if isinstance(composite, Cont) and not self._is_function(composite.function):
            return False
        if len(supertypes) > 1:
            return False
        return all(
            above < number and not self.members[above].final
            and self._matches_type(composite, self.members[above].composite) for above in supertypes)

    def answer(self):
        """What is to be said of the types."""
        for number in range(len(self.members)):
            if not self._is_valid(number):
                return f'invalid type {number}'
        return VALID


def _ends(groups):
    """For each type the end of its group."""
    end = 0
    for group in groups:
        end += len(group)
        yield from [end] * len(group)


def _indices(composite):
    if isinstance(composite, Cont):
        return [composite.function]
    values = composite.parameters + composite.results
    return [value.heap for value in values if isinstance(value, Reference) and isinstance(value.heap, int)]


class DeclaringChance(Chance):
    """Groups whose types have supertypes, most of them such as they may have."""

    def _group(self, groups, kinds):
        known = [declared(member) for group in groups for member in group]
        start = len(known)
        new = super()._group(groups, kinds)
        for composite in new:
            known.append(self._declared(known, composite, start + len(new)))
        return known[start:]

    def _declared(self, known, composite, end):
        """This type, or one that is like a type in front of it, with a supertype."""
        numbers = self.numbers
        final = numbers.is_within(25)
        alike = [place for place, each in enumerate(known) if isinstance(each.composite, type(composite))]
        if not alike or numbers.is_within(20):
            return Declared(composite, final)
        above = numbers.one_of(alike)
        if numbers.is_within(85):
            composite = self._below(known, known[above].composite)
        if numbers.is_within(5):
            return Declared(composite, final, (above, numbers.one_of(alike)))
        return Declared(composite, final, (numbers.below(end + 1) if numbers.is_within(5) else above,))

    def _below(self, known, composite):
        """A type that takes what is the same or above, and gives what is the same or below."""
        if isinstance(composite, Cont):
            return Cont(self._lower(known, composite.function))
        return Func(
            tuple(self._changed(known, value, self._upper, True) for value in composite.parameters),
            tuple(self._changed(known, value, self._lower, False) for value in composite.results))

    def _changed(self, known, value, changed, null):
        if not isinstance(value, Reference):
            return value
        heap = changed(known, value.heap) if isinstance(value.heap, int) else value.heap
        return Reference(heap, null if self.numbers.is_within(20) else value.null)

    def _lower(self, known, index):
        return self.numbers.one_of([index, *(
            place for place, each in enumerate(known) if index in each.supertypes)])

    def _upper(self, known, index):
        above = known[index].supertypes if index < len(known) else ()
        return self.numbers.one_of([index, *above])


CHOSEN = Numbers(SEED)
for number in range(COUNT):
    GROUPS = DeclaringChance(CHOSEN).groups()
    definition = Definition(GROUPS)
    ANSWER = definition.answer()
    if ANSWER != VALID:
        SECTION.row(f'by-chance-{number}', ANSWER, given_for(GROUPS, []))
        continue
    INDICES = range(len(definition.members))
    PAIRS = [(lower, upper) for lower in INDICES for upper in INDICES if lower != upper]
    MATCHING = [pair for pair in PAIRS if definition.matches_index(*pair)]
    SECTION.row(f'by-chance-{number}/matching', ANSWER, given_for(GROUPS, MATCHING))
    UNLIKE = [pair for pair in PAIRS if pair not in MATCHING]
    for pair in UNLIKE[CHOSEN.below(4)::4][:5]:
        SECTION.row(f'by-chance-{number}/{pair[0]}-for-{pair[1]}', 'invalid function 0', given_for(GROUPS, [pair]))
