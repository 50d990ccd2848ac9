"""What stands around the place that is reduced next, and contexts that were captured (the explainer, execution).

Handles divide a term into segments. They stand in one list, the innermost last, so that no depth is too much.
"""

from typing import NamedTuple

from executing.instances import Instance
from reader.instructions import Instruction


class Segment(NamedTuple):
    """What stands between two handles, outside of all or inside of the innermost: operands, labels and frames, how many
    of these are frames, the locals of the innermost and the instance of its function, and the place that is reduced
    next."""

    operands: list
    layers: list
    frames: int
    locals: list
    instance: Instance | None
    code: list
    place: int


class Handle(NamedTuple):
    """A handle: its clauses, whose tags are indices of the instance around, and the segment in which it stands."""

    clauses: list
    around: Segment


class Context(NamedTuple):
    """A context with one hole: the handles in it, the segment in which the hole is, and how many frames there are."""

    handles: list
    innermost: Segment
    frames: int


class Continuation:
    """A continuation, which has a context until it is consumed."""

    __slots__ = ('context',)

    def __init__(self, context):
        self.context = context


def of_function(address):
    """The context that invokes a function."""
    return Context([], sequence([Instruction('invoke', (address,))]), 0)


def sequence(instructions):
    """The segment of these instructions alone."""
    return Segment([], [], 0, [], None, instructions, 0)
