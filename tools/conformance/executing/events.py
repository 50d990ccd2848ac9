"""Events of continuations: what the reductions of a run do to continuations, which are counted as they are made.

They are seen from outside, by what stands next and what is on top before and behind a reduction, so that the rules know
nothing of them.
"""

from typing import NamedTuple

from executing.running import reduced

KINDS = {'cont.new': 'new', 'cont.bind': 'bind', 'resume': 'resume', 'suspend': 'suspend', 'switch': 'switch'}
EXIT = 'exit'           # that of a handle
CONSUMING = ('bind', 'resume', 'switch')
TAGGED = ('suspend', 'switch')
MAKING = ('new', 'bind', 'suspend', 'switch')


class Event(NamedTuple):
    """What a reduction does to continuations: its number, from 1, and the kind; the address of what it consumes, the
    tag's address, and the address of what it makes, where there are such."""

    reduction: int
    kind: str
    consumed: int | None = None
    tag: int | None = None
    made: int | None = None


class Notes:
    """The events of a run, all of whose reductions are taken here. One that ends the run has no event."""

    def __init__(self):
        self.events = []
        self._taken = 0
        self._addresses = {}        # of continuations

    def reduced(self, machine):
        """Take one reduction; how it ends the run, if it does so before the term is values."""
        self._taken += 1
        kind = _next_kind(machine)
        if kind is None:
            return reduced(machine)
        consumed = machine.operands[-1] if kind in CONSUMING else None
        tag = _tag(machine) if kind in TAGGED else None
        ending = reduced(machine)
        if not ending:
            made = machine.operands[-1] if kind in MAKING else None
            self.events.append(Event(self._taken, kind, self._addresses.get(consumed), tag, self._made(made)))
        return ending

    def _made(self, continuation):
        """The address of a continuation that is made, which is the next one."""
        if continuation is None:
            return None
        return self._addresses.setdefault(continuation, len(self._addresses))


def _next_kind(machine):
    """The kind of the event that the next reduction is, if it is one."""
    if machine.place < len(machine.code):
        return KINDS.get(machine.code[machine.place].name)
    return None if machine.layers else EXIT


def _tag(machine):
    """The address of the tag of the instruction that is next."""
    *_, tag = machine.code[machine.place].immediates
    return machine.instance.tags[tag]
