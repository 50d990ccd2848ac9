"""The types of the standard, and the two that only operands of unreachable code have."""

from dataclasses import dataclass

I32 = 'i32'
I64 = 'i64'
BOTTOM = 'bottom'       # below all value types


@dataclass(frozen=True)
class Ref:
    """A reference type. Its heap type is a name or the index of a type."""

    nullable: bool
    heap: str | int

    @property
    def index(self):
        """The index of the type that it refers to, where there is one."""
        return self.heap if isinstance(self.heap, int) else None


@dataclass(frozen=True)
class BottomRef:
    """The type of references to the bottom heap type, which is below all heap types."""

    nullable: bool


def spelled(value_type):
    """A type as the text of the standard spells it; `bottom` is its own."""
    if isinstance(value_type, (Ref, BottomRef)):
        heap = value_type.heap if isinstance(value_type, Ref) else BOTTOM
        return f'(ref null {heap})' if value_type.nullable else f'(ref {heap})'
    return value_type


def spelled_row(value_types):
    """Types in a row."""
    return f'[{" ".join(map(spelled, value_types))}]'


def spelled_composite(composite):
    """A function or continuation type, as the text of this tool spells it."""
    if isinstance(composite, FuncType):
        return f'{spelled_row(composite.parameters)} -> {spelled_row(composite.results)}'
    return f'(cont {composite.function})'


FUNCREF = Ref(True, 'func')


@dataclass(frozen=True)
class FuncType:
    """The type of functions."""

    kind = 'func'
    parameters: list
    results: list


@dataclass(frozen=True)
class ContType:
    """The type of continuations of a function type, which is given by its index."""

    kind = 'cont'
    function: int


@dataclass(frozen=True)
class SubType:
    """A type of a group: a function or continuation type, the indices of its supertypes, and whether it is final, so
    that no type may have it as its supertype."""

    final: bool
    supertypes: list
    composite: FuncType | ContType


@dataclass(frozen=True)
class Limits:
    """The limits of a table or of a memory."""

    minimum: int
    maximum: int | None
