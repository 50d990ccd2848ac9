"""Scripts for `run`, beside the same programs in Lua and in Guile, which `scripts/` has.

A script does its work as often as the number says that stands in the place of REPEATS, and its effects, steps and
reductions grow along a line with that. The generated script is the one of `gen`.
"""

from pathlib import Path
from typing import NamedTuple

from counting import FURTHER, ON_A_LINE
from executing import outcome_of, steps_of
from generated_scripts import GREATEST_NUMBER, generated
from script_compiler import built
from script_evaluator import evaluation_of

FOLDER = Path(__file__).resolve().parent / 'scripts'
FEWEST_TASKS = 3        # of a generated script
STEPS_OF_ANY = 100000000    # more reductions than a run of a small number takes
LEAST_SCRIPT = 'a generator'
COMPILING = '(use-modules (system base compile)) (compile-file "{}" #:output-file "{}")'
LOADING = '(load-compiled "{}")'


class Taken(NamedTuple):
    """What a run takes: steps of its script, and reductions of its module."""

    steps: int
    reductions: int


class ScriptRun(NamedTuple):
    """A program: the name of its files, the bytes of its script by a number, the small numbers that it is tried with,
    the effects, tail calls or switches that each repeat performs, and what it is. A generated script has no number of repeats."""

    stem: str
    script: object
    small: tuple
    effects_each: int | None
    about: str

    @property
    def is_generated(self):
        return self.effects_each is None

    def number_within(self, effects):
        """The number for about so many effects."""
        return GREATEST_NUMBER if self.is_generated else max(1, effects // self.effects_each)

    def effects(self, number):
        """How many effects a run of this number performs. That of a generated script prints it behind the number."""
        if self.is_generated:
            return int(taken_by(self.script(number))[1].split()[1])
        return number * self.effects_each

    def taken(self, number):
        """What a run of this number takes. That of repeats is read off a line through small numbers."""
        if self.is_generated:
            return taken_by(self.script(number))[0]
        small = {repeats: taken_by(self.script(repeats))[0] for repeats in ON_A_LINE + FURTHER}
        first, second = (small[repeats] for repeats in ON_A_LINE)
        for repeats, taken in small.items():
            if taken != _on_a_line(first, second, repeats):
                raise ValueError(f'{repeats} repeats take {taken}')
        return _on_a_line(first, second, number)

    def call(self, program, number, path, steps):
        """The call of the program on this script, which is written to a file where it isn't generated."""
        if self.is_generated:
            return [program, 'gen', str(number)]
        path.write_bytes(self.script(number))
        return [program, 'run', str(path), '--steps', str(steps)]


def taken_by(script):
    """What the run of a script takes, which ends with a value, and what it prints, by the second readers."""
    evaluation, module = evaluation_of(script), built(script)
    evaluation.go_to(STEPS_OF_ANY)
    printed = bytes(evaluation.output) + f'{evaluation.end}\n'.encode()
    if outcome_of(module) != (printed, b'', 0):
        raise ValueError(f'{outcome_of(module)}, and not {printed!r}')
    return Taken(evaluation.taken, steps_of(module)), printed.decode().rstrip()


def _on_a_line(first, second, repeats):
    """What so many repeats take, by what one and two do."""
    return Taken(*(less + (more - less) * (repeats - 1) for less, more in zip(first, second)))


def _repeating(stem):
    text = (FOLDER / f'{stem}.script').read_text()
    return lambda repeats: text.replace('(REPEATS)', f'({repeats})').encode()


def others(stem, number, programs, folder):
    """The calls of other programs that are there, by their names; what Guile runs is compiled before."""
    calls = {}
    if programs.get('lua5.4'):
        calls['lua5.4'] = [programs['lua5.4'], str(FOLDER / f'{stem}.lua'), str(number)]
    if programs.get('guile'):
        compiled = folder / f'{stem}.go'
        calls['guile'] = guile(programs['guile'], LOADING.format(compiled)) + [str(number)]
    return calls


def guile(program, expression):
    return [program, '--no-auto-compile', '-c', expression]


def compiling(program, stem, folder):
    """The call that compiles a program of Guile."""
    return guile(program, COMPILING.format(FOLDER / f'{stem}.scm', folder / f'{stem}.go'))


SCRIPT_RUNS = {
    'a state handler': ScriptRun('state', _repeating('state'), ON_A_LINE, 2, 'Counts up by get and put.'),
    'a loop of tail calls': ScriptRun(
        'countdown', _repeating('countdown'), ON_A_LINE, 1, 'Counts down by tail calls, and adds up.'),
    'two coroutines': ScriptRun(
        'coroutines', _repeating('coroutines'), ON_A_LINE, 2, 'Switches between two coroutines, which give each other numbers.'),
    'a generator': ScriptRun('generator', _repeating('generator'), ON_A_LINE, 1, 'Yields numbers, which are added up.'),
    'generated tasks': ScriptRun(
        'tasks', generated, (FEWEST_TASKS,), None, 'The script of `gen 500`, of calls that tick.')}
