"""The store: functions, tables, memories, globals, tags, segments and continuations, and what instructions do to them
(Core, execution).

A reference is null, which is nothing, or the address of a function, or a continuation. An address is a place among all
of one kind that are made in a store, whichever instance makes them.
"""

from dataclasses import dataclass, field

from executing.contexts import Continuation
from executing.ends import Exceeded, Trap
from executing.instances import Instance

PAGE = 65536                    # bytes
GREATEST_MEMORY = 256           # in pages
GREATEST_TABLE = 1048576        # in elements
GREATEST_LIVE = 65536           # continuations that aren't consumed
NULL = None


@dataclass(frozen=True)
class Function:
    """A function of a module: its instance, its type, by address and by counts, its body, and what its further locals
    begin with."""

    instance: Instance
    type: int
    parameters: int
    results: int
    defaults: list
    body: list


@dataclass(frozen=True)
class Printer:
    """A function of the host: its type, by address, and the bytes that it prints of a number."""

    type: int
    printed: object


class Table:
    """Elements, and how many they may become."""

    kind = 'table out of bounds'

    def __init__(self, elements, maximum):
        self.elements = elements
        self.greatest = GREATEST_TABLE if maximum is None else min(maximum, GREATEST_TABLE)

    def get(self, place):
        check_range(self.kind, self.elements, place, 1)
        return self.elements[place]

    def set(self, place, value):
        check_range(self.kind, self.elements, place, 1)
        self.elements[place] = value

    def size(self):
        return len(self.elements)

    def grow(self, value, count):
        """The size before, or -1 where nothing grew."""
        before = self.size()
        if before + count > self.greatest:
            return -1
        self.elements += [value] * count
        return before

    def fill(self, place, value, count):
        check_range(self.kind, self.elements, place, count)
        self.elements[place:place + count] = [value] * count

    def init(self, source, place, start, count):
        """Put so many elements here that stand in the source from the start on."""
        check_range(self.kind, source, start, count)
        check_range(self.kind, self.elements, place, count)
        self.elements[place:place + count] = source[start:start + count]


class Memory:
    """Bytes, and how many pages they may become."""

    kind = 'memory out of bounds'

    def __init__(self, minimum, maximum):
        self.bytes = bytearray(minimum * PAGE)
        self.greatest = GREATEST_MEMORY if maximum is None else min(maximum, GREATEST_MEMORY)

    def load(self, address, width):
        """The number that so many bytes spell, the least first."""
        check_range(self.kind, self.bytes, address, width)
        return int.from_bytes(self.bytes[address:address + width], 'little')

    def store(self, address, width, number):
        """Put so many low bytes of a number here."""
        check_range(self.kind, self.bytes, address, width)
        low = number % (1 << 8 * width)
        self.bytes[address:address + width] = low.to_bytes(width, 'little')

    def size(self):
        return len(self.bytes) // PAGE

    def grow(self, pages):
        """The size before, or -1 where nothing grew."""
        before = self.size()
        if before + pages > self.greatest:
            return -1
        self.bytes += bytes(pages * PAGE)
        return before

    def fill(self, address, number, count):
        check_range(self.kind, self.bytes, address, count)
        self.bytes[address:address + count] = bytes([number % 256]) * count

    def init(self, source, address, start, count):
        """Put so many bytes here that stand in the source from the start on."""
        check_range(self.kind, source, start, count)
        check_range(self.kind, self.bytes, address, count)
        self.bytes[address:address + count] = bytes(source[start:start + count])


def check_range(kind, sequence, place, count):
    """Trap where so many from this place on pass the end, though they be none."""
    if place + count > len(sequence):
        raise Trap(kind)


@dataclass
class Store:
    """All that modules and their run share. A segment that was dropped is empty."""

    functions: list = field(default_factory=list)
    tables: list = field(default_factory=list)
    memories: list = field(default_factory=list)
    globals: list = field(default_factory=list)
    tags: list = field(default_factory=list)        # their types, by address
    elements: list = field(default_factory=list)
    datas: list = field(default_factory=list)
    instances: list = field(default_factory=list)
    made: int = 0                                   # continuations so far
    consumed: int = 0                               # those of them that are empty

    @property
    def live(self):
        """How many continuations aren't consumed, whether or not a reference to them is left."""
        return self.made - self.consumed

    def make_continuation(self, context):
        """A new continuation of this context."""
        if self.live == GREATEST_LIVE:
            raise Exceeded('conts')
        self.made += 1
        return Continuation(context)

    def consume(self, continuation):
        """Leave a continuation empty."""
        continuation.context = None
        self.consumed += 1

    def drop_elements(self, segment):
        self.elements[segment] = []

    def drop_data(self, segment):
        self.datas[segment] = b''
