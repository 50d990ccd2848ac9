"""Runs: what at most so many reductions come to.

Each instruction takes one. A call takes one, straight to the frame; so do a tail call, a call of the host's, the
invoke of the start function, that of main, and that of a continuation that begins. The exit of a label takes one, and
so does that of a frame and that of a handle. A suspend that is caught takes one, and the branch that it leaves another.
What traps or passes a limit counts.
"""

from typing import NamedTuple

from executing import control_rules, plain_rules, switching_rules
from executing.ends import Exceeded, Trap
from executing.machine import Machine
from reader.instructions import Instruction
from reader.matching import TypeOrder

RULES = control_rules.RULES | plain_rules.RULES | switching_rules.RULES


class Outcome(NamedTuple):
    """What a run comes to: the reductions that were taken, the continuations that were made and those that were
    consumed, what was printed, the values if it has ended, and else why not: a line and a status."""

    taken: int
    made: int
    consumed: int
    printed: bytes
    values: list | None = None
    line: str | None = None
    status: int = 0


def begun(module, store, main):
    """The machine of a run of one module with no reduction taken."""
    return begun_in(store, module.types, TypeOrder(module.groups), [module], main)


def begun_in(store, types, order, modules, main):
    """The machine of a run of modules with no reduction taken: first the start functions of those that have one, and
    then main, which is given by its address."""
    started = [
        instance.functions[module.start] for module, instance in zip(modules, store.instances, strict=True)
        if module.start is not None]
    invokes = [Instruction('invoke', (address,)) for address in [*started, main]]
    return Machine(types, order, store, invokes)


def run(module, store, main, steps):
    """The outcome of at most so many reductions of one module."""
    return outcome_after(begun(module, store, main), steps)


def outcome_after(machine, steps, noting=None):
    """The outcome of at most so many reductions of a machine that has taken none. Where something notes events, it
    takes each of these in place of `reduced`, and gives the same."""
    taken, ending, reduce = 0, {}, noting or reduced
    while taken < steps and not ending and not machine.is_ended():
        taken += 1
        ending = reduce(machine)
    if not ending:
        ending = {'values': machine.operands} if machine.is_ended() else {'line': 'running', 'status': 10}
    return Outcome(taken, machine.store.made, machine.store.consumed, bytes(machine.out), **ending)


def reduced(machine):
    """Take one reduction; how it ends the run, if it does so before the term is values."""
    try:
        _reduce(machine)
    except Trap as trap:
        return {'line': f'trap {trap}', 'status': 1}
    except Exceeded as limit:
        return {'line': f'limit {limit}', 'status': 9}
    return {}


def _reduce(machine):
    """One reduction: of the next instruction, or of an exit."""
    if machine.place == len(machine.code):
        machine.leave()
        return
    name, immediates = machine.code[machine.place]
    machine.place += 1
    RULES[name](machine, *immediates)
