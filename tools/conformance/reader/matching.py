"""Which types are equivalent, and which match."""

from reader.types import BOTTOM, BottomRef, ContType, FuncType, Ref


class TypeOrder:
    """Which types of a module, given by their indices, are equivalent, and which match.

    Types are judged by it too, so some groups may have indices that no valid one has. It speaks of what stands in front
    of the first type that is not valid, and of that type.
    """

    def __init__(self, groups):
        self.sub_types = [sub_type for group in groups for sub_type in group]
        self._keys = _type_keys(groups)

    def same(self, left, right):
        """Whether two indices are equivalent. One that no type has is equivalent to itself alone."""
        if left == right:
            return True
        return max(left, right) < len(self._keys) and self._keys[left] == self._keys[right]

    def matches(self, lower, upper):
        """Whether a type, or one above it, is equivalent to another."""
        return any(self.same(each, upper) for each in self._upwards(lower))

    def _upwards(self, index):
        """A type, its supertype, the supertype of that, and so on: as long as there is one, which stands in front."""
        yield index
        while index < len(self.sub_types):
            supertypes = self.sub_types[index].supertypes
            if len(supertypes) != 1 or supertypes[0] >= index:
                return
            index, = supertypes
            yield index


def _type_keys(groups):
    """For each type a key, which is the same for types that stand at the same position of equal recursive groups."""
    keys = []
    numbers = {}        # of the groups, by their spelling with all indices resolved
    for group in groups:
        spelling = tuple(_resolved(member, keys) for member in group)
        number = numbers.setdefault(spelling, len(numbers))
        keys += [(number, position) for position in range(len(group))]
    return keys


def _resolved(sub_type, keys):
    """A type of the group behind those with these keys. Indices into the group become positions, and others keys.

    One behind the group becomes a position that no valid group has.
    """
    start = len(keys)

    def index(number):
        return ('inner', number - start) if number >= start else ('outer', keys[number])

    def value(value_type):
        if isinstance(value_type, Ref) and value_type.index is not None:
            return 'ref', value_type.nullable, index(value_type.index)
        return value_type

    def composite(given):
        if isinstance(given, FuncType):
            return 'func', tuple(map(value, given.parameters)), tuple(map(value, given.results))
        return 'cont', index(given.function)

    return sub_type.final, tuple(map(index, sub_type.supertypes)), composite(sub_type.composite)


def _heap_matches(context, lower, upper):
    if lower == upper:
        return True
    if isinstance(lower, int):
        return context.order.matches(lower, upper) if isinstance(upper, int) else upper == context.kind(lower)
    if lower == 'nofunc':
        return upper == 'func' or context.kind(upper) == 'func'
    if lower == 'nocont':
        return upper == 'cont' or context.kind(upper) == 'cont'
    return False


def matches(context, lower, upper):
    """Whether a value type matches another."""
    if lower == BOTTOM:
        return True
    if isinstance(upper, BottomRef):
        return isinstance(lower, BottomRef) and (not lower.nullable or upper.nullable)
    if isinstance(lower, BottomRef):
        return isinstance(upper, Ref) and (not lower.nullable or upper.nullable)
    if isinstance(lower, Ref) and isinstance(upper, Ref):
        return (not lower.nullable or upper.nullable) and _heap_matches(context, lower.heap, upper.heap)
    return lower == upper


def all_match(context, lowers, uppers):
    """Whether as many value types match others one by one."""
    return len(lowers) == len(uppers) and all(
        matches(context, lower, upper) for lower, upper in zip(lowers, uppers))


def composite_matches(context, lower, upper):
    """Whether a function or continuation type matches another."""
    if isinstance(lower, FuncType) and isinstance(upper, FuncType):
        takes_as_much = all_match(context, upper.parameters, lower.parameters)
        return takes_as_much and all_match(context, lower.results, upper.results)
    if isinstance(lower, ContType) and isinstance(upper, ContType):
        return context.order.matches(lower.function, upper.function)
    return False


def _equal(context, left, right):
    """Whether two value types of a module are equal up to equivalence."""
    if isinstance(left, Ref) and isinstance(right, Ref) and None not in (left.index, right.index):
        return left.nullable == right.nullable and context.order.same(left.index, right.index)
    return left == right


def all_equal(context, lefts, rights):
    """Whether as many value types are equal up to equivalence."""
    return len(lefts) == len(rights) and all(_equal(context, left, right) for left, right in zip(lefts, rights))
