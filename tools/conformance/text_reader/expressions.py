"""Expressions one instruction behind the other, as a text has them, and not as trees."""

from dataclasses import replace

from reader.instructions import Instruction
from text_reader.forms import BLOCKS, ELSE, END, IF

_END = Instruction(END, ())
_ELSE = Instruction(ELSE, ())


def in_order(instructions):
    """The instructions of an expression up to its end. Of a block there is its name with its type, then what stands in
    it, and its end. Blocks may stand in one another to any depth."""
    left = [_END, *reversed(instructions)]
    while left:
        each = left.pop()
        if each.name in BLOCKS:
            shape, body = each.immediates
            left += [_END, *reversed(body)]
            each = Instruction(each.name, (shape,))
        elif each.name == IF:
            shape, then, otherwise = each.immediates
            left.append(_END)
            if otherwise is not None:
                left += [*reversed(otherwise), _ELSE]
            left += reversed(then)
            each = Instruction(IF, (shape,))
        yield each


def joined(runs):
    """Runs of locals, neighbours of one type in one run, and without those of none."""
    all_runs = []
    for count, value_type in runs:
        if count and all_runs and all_runs[-1][1] == value_type:
            all_runs[-1] = (all_runs[-1][0] + count, value_type)
        elif count:
            all_runs.append((count, value_type))
    return all_runs


def flat(module):
    """A module whose expressions stand in order, whose locals are joined, and which has no data count. Those of two
    modules are equal where the modules have one text."""
    def steps(instructions):
        return None if instructions is None else list(in_order(instructions))

    def active(place):
        return None if place is None else place._replace(offset=steps(place.offset))

    return replace(
        module, data_count=None,
        tables=[each._replace(initial=steps(each.initial)) for each in module.tables],
        globals=[each._replace(initial=steps(each.initial)) for each in module.globals],
        elements=[each._replace(active=active(each.active), items=[steps(item) for item in each.items])
                  for each in module.elements],
        datas=[each._replace(active=active(each.active)) for each in module.datas],
        codes=[each._replace(runs=joined(each.runs), body=steps(each.body)) for each in module.codes])
