"""How many reductions programs take, and what they print, by small runs in the second reader of execution."""

import sys
from typing import NamedTuple

from executing import outcome_of, steps_of

ON_A_LINE = 1, 2        # repeats of the small runs that give the line
FURTHER = 3, 4          # repeats of those that are to lie on it
DEEPEST_NEST = 10000    # calls within each other: the reader judges a block in a call from the one around


class Counted(NamedTuple):
    """The reductions around all repeats and of each, and what small runs print, by their repeats."""

    around: int
    each: int
    printed: dict

    def reductions(self, repeats):
        return self.around + self.each * repeats

    def repeats_within(self, reductions):
        """The most repeats that take no more than this, or one where that takes more."""
        return max(1, (reductions - self.around) // self.each)


def counted(make):
    """The reductions of a program, which is a function from repeats to a module."""
    sys.setrecursionlimit(DEEPEST_NEST)
    modules = {repeats: make(repeats) for repeats in ON_A_LINE + FURTHER}
    taken = {repeats: steps_of(module) for repeats, module in modules.items()}
    less, more = ON_A_LINE
    each = (taken[more] - taken[less]) // (more - less)
    found = Counted(taken[less] - less * each, each, {repeats: _printed(modules[repeats]) for repeats in ON_A_LINE})
    for repeats, reductions in taken.items():
        if reductions != found.reductions(repeats):
            raise ValueError(f'{repeats} repeats take {reductions} reductions, and not {found.reductions(repeats)}')
    return found


def _printed(module):
    """What a run prints, which is to end with values."""
    out, err, status = outcome_of(module)
    if status:
        raise ValueError(f'a run ends with status {status}: {err!r}')
    return out.decode().strip()
