"""Judges the instructions of a block, of a body or of a constant expression."""

from typing import NamedTuple

from reader import control_rules, plain_rules, switching_rules
from reader.context import Invalid, require
from reader.matching import matches
from reader.types import BOTTOM, BottomRef, Ref, spelled_row

RULES = control_rules.RULES | plain_rules.RULES | switching_rules.RULES


class Place(NamedTuple):
    """A place at which a rule doesn't hold: the number of an instruction, and the instruction, or nothing at the end;
    the operands in front of it, and the block in which it stands."""

    number: int
    instruction: object
    operands: list
    block: object


class Block:
    """What is known at a place of a block: its operands, whether it can be reached, and which locals are set.

    The labels are the lists of types that they take, the innermost one last; a block lends its own to those within.
    What is taken are the operands that went away since the last instruction began, from the top.
    """

    def __init__(self, name, context, local_types, set_locals, returned, labels, operands=()):
        self.name = name
        self.context = context
        self.local_types = local_types
        self.set_locals = list(set_locals)
        self.returned = returned
        self.labels = labels
        self.operands = list(operands)
        self.taken = []
        self.reachable = True

    def judge(self, instructions, results):
        """Judge the instructions, which are to leave these results and nothing else."""
        number, instruction = 0, None
        try:
            for number, instruction in enumerate(instructions):
                self.taken.clear()
                RULES[instruction.name](self, *instruction.immediates)
            number, instruction = len(instructions), None
            self.taken.clear()
            self.take(*results)
            if self.operands:
                raise Invalid(f'nothing but {spelled_row(results)}')
        except Invalid as fault:
            fault.places.append(Place(number, instruction, self.operands + self.taken[::-1], self))
            raise

    def judge_inner(self, name, instructions, label, parameters, results):
        """Judge a block of this name within this one, whose label takes these types."""
        self.labels.append(label)
        inner = Block(name, self.context, self.local_types, self.set_locals, self.returned, self.labels, parameters)
        inner.judge(instructions, results)
        self.labels.pop()

    def label(self, number):
        """What a label takes, where the innermost one has the number 0."""
        if number >= len(self.labels):
            raise Invalid(f'label {number}, which is not there; their number is {len(self.labels)}')
        return self.labels[-1 - number]

    def pop(self):
        """The type of the operand on top, which goes away."""
        if self.operands:
            self.taken.append(self.operands.pop())
            return self.taken[-1]
        require(not self.reachable, 'an operand more')
        return BOTTOM

    def pop_ref(self):
        """The type of the reference on top, which goes away."""
        operand = self.pop()
        if operand == BOTTOM:
            return BottomRef(True)
        require(isinstance(operand, (Ref, BottomRef)), 'a reference on top of the operands')
        return operand

    def take(self, *value_types):
        """Take operands that match these types, the last on top."""
        for value_type in reversed(value_types):
            is_there = self.operands or not self.reachable
            if not is_there or not matches(self.context, self.pop(), value_type):
                raise Invalid(f'operands {spelled_row(value_types)}')

    def give(self, *value_types):
        """Put operands of these types on top."""
        self.operands += value_types

    def leave(self):
        """Go on with code that can't be reached."""
        self.operands.clear()
        self.reachable = False
