"""The context in which items and instructions are judged."""

from dataclasses import dataclass

from reader.matching import TypeOrder
from reader.types import ContType, FuncType, Ref


class Invalid(Exception):
    """A rule that doesn't hold: what it wants, and the places of instructions where it does, from the innermost one."""

    def __init__(self, wanted):
        super().__init__(wanted)
        self.wanted = wanted
        self.places = []


def require(condition, wanted):
    """Go on where the condition holds; else this is wanted."""
    if not condition:
        raise Invalid(wanted)


def entry(entries, index, kind):
    """The entry of this kind with this index, which has to be there."""
    if index >= len(entries):
        raise Invalid(f'{kind} {index}, which is not there; their number is {len(entries)}')
    return entries[index]


@dataclass
class Context:
    """The index spaces of a module, where what is imported stands in front of what it defines.

    Functions and tags stand for the indices of their types, tables for the types of their elements, memories for their
    limits, globals for their types and whether they may be set, and element segments for their types.
    """

    types: list                 # of functions and of continuations
    order: TypeOrder
    functions: list
    tables: list
    memories: list
    globals: list
    tags: list
    elements: list
    data_segments: int
    declared: set               # the functions that bodies may refer to

    def kind(self, heap):
        """Whether a heap type is the index of a type of functions or of continuations, or neither."""
        if isinstance(heap, int) and heap < len(self.types):
            return self.types[heap].kind
        return None

    def has_type(self, value_type):
        """Whether the index in a value type is in range."""
        return not isinstance(value_type, Ref) or value_type.index is None or value_type.index < len(self.types)

    def function_type(self, index):
        """The function type with this index."""
        function_type = entry(self.types, index, 'type')
        require(isinstance(function_type, FuncType), f'a function type; type {index} is none')
        return function_type

    def continuation_type(self, index):
        """The continuation type with this index."""
        continuation_type = entry(self.types, index, 'type')
        require(isinstance(continuation_type, ContType), f'a continuation type; type {index} is none')
        return continuation_type

    def continued(self, index):
        """The function type of the continuation type with this index."""
        return self.function_type(self.continuation_type(index).function)

    def tag(self, index):
        """The type of the tag with this index."""
        return self.function_type(entry(self.tags, index, 'tag'))
