"""Evaluations: what a script has come to after so many steps, and what its counts were along the way."""

from dataclasses import dataclass

from script_evaluator.contexts import Context
from script_evaluator.ends import Fault


@dataclass
class Stretch:
    """Steps between which nothing is printed: the first configuration, by its number of steps, how many bytes are
    printed there, and the most activations and handles, handles, and kept resumptions and coroutines of any
    configuration of it; groups count as handles."""

    first: int
    printed: int
    places: int = 0
    hands: int = 0
    kept: int = 0


class Evaluation:
    """A script that has taken some steps. `end` is nothing while it goes on, and then what is said of it."""

    def __init__(self, declarations):
        self.context = Context(declarations)
        self.taken = 0
        self.output = bytearray()
        self.end = None
        self.stretches = [Stretch(0, 0)]
        self._count()

    def go_to(self, steps):
        """Take steps, until there are so many, or it has ended."""
        while self.taken < steps and self.end is None:
            self._step()

    def output_after(self, steps):
        """What is printed after at most so many steps."""
        self.go_to(steps)
        printed = max(stretch.printed for stretch in self.stretches if stretch.first <= steps)
        return bytes(self.output[:printed])

    def end_after(self, steps):
        """How it has ended after at most so many steps, or nothing."""
        self.go_to(steps)
        return self.end if self.taken <= steps else None

    def stretch_of(self, output, steps):
        """The stretch with this output, as far as it is known after at most so many steps, or nothing."""
        self.go_to(steps)
        if not self.output.startswith(output):
            return None
        return next((stretch for stretch in self.stretches if stretch.printed == len(output)), None)

    def _step(self):
        self.taken += 1
        try:
            number = self.context.step()
        except Fault as fault:
            self.end = f'fault {fault}'
            return
        if self.context.value is not None:
            self.end = f'= {self.context.value}'
            return
        if number is not None:
            self.output += b'%d\n' % number
            self.stretches.append(Stretch(self.taken, len(self.output)))
        self._count()

    def _count(self):
        """Count the configuration that is there now."""
        stretch, context = self.stretches[-1], self.context
        stretch.places = max(stretch.places, context.acts + context.hands)
        stretch.hands = max(stretch.hands, context.hands)
        stretch.kept = max(stretch.kept, context.kept)
