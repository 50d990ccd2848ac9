"""Rows of runs. What a run is to come to is what the second reader of execution says when the row is made."""

from assembler.instructions import call, i32_const
from assembler.modules import as_func, code, export, imported, module
from assembler.types import I32, I64, functype
from executing import USUAL_STEPS, outcome_of, steps_of
from rows.sections import CallRow, Section, spelled

# The types of modules of runs: of main, of what prints a number, and of what takes and gives nothing; then others.
MAIN_TYPE, PRINTER_OF_I32, PRINTER_OF_I64, NOTHING_TYPE, FIRST_TYPE = range(5)
PRINTERS = {'print_i32': PRINTER_OF_I32, 'print_i64': PRINTER_OF_I64, 'print_byte': PRINTER_OF_I32}


def printer(item, function_type=None, source='host'):
    """The import of a printer."""
    return imported(as_func(PRINTERS[item] if function_type is None else function_type), item, source)


def main_module(results, body, local_runs=(), types=(), functions=(), printing=(), **sections):
    """A module whose main gives these results.

    The functions are those that print, by these names, then main, and then others, each a type and its code.
    """
    main = len(printing)
    if printing:
        sections['imports'] = [printer(item) for item in printing]
    exports = [export('main', 'func', main), *sections.pop('exports', [])]
    return module(
        types=[functype([], results), functype([I32], []), functype([I64], []), functype([], []), *types],
        functions=[MAIN_TYPE] + [function_type for function_type, _ in functions], exports=exports,
        codes=[code(body, local_runs)] + [each for _, each in functions], **sections)


def printed(*numbers):
    """Prints these numbers by function 0."""
    return b''.join(i32_const(number) + call(0) for number in numbers)


class RunSection(Section):
    """Rows of runs."""

    def row(self, name, given, steps=None, valid=True, words=None, stats=False):
        """A run of a module, of so many reductions at most where this is told, maybe with its statistics. Words that
        spell the module may be given."""
        command = 'run x' if steps is None else f'run x --steps {steps}'
        command += ' --stats' if stats else ''
        out, err, status = outcome_of(given, USUAL_STEPS if steps is None else steps, stats)
        if valid == err.startswith((b'malformed', b'invalid')):
            raise ValueError(f'{name}: {err!r}')
        self.rows.append(CallRow(name, command, words or spelled(given), wanted_lines(out, err, status)))

    def known(self, name, wanted, given, words_of=spelled, steps=None):
        """A run of a module that is known to come to these lines; how it is spelled by words may be given."""
        self.row(name, given, steps, words=words_of(given))
        if self.rows[-1].wanted != wanted:
            raise ValueError(f'{name}: {self.rows[-1].wanted} and not {wanted}')

    def told(self, name, given, steps=None):
        """A run of a module with its statistics."""
        self.row(name, given, steps, stats=True)

    def each_step(self, name, given):
        """Runs of a module with their statistics, of each number of reductions up to one more than are needed."""
        for steps in range(steps_of(given) + 2):
            self.told(f'{name}/{steps}-reductions', given, steps)

    def main(self, name, results, body, *more, **sections):
        """A run of a module whose main gives these results."""
        self.row(name, main_module(results, body, *more, **sections))

    def counted(self, name, results, body, *more, **sections):
        """The same, and runs of just as many reductions as are needed, and of one less."""
        self.counted_row(name, main_module(results, body, *more, **sections))

    def counted_row(self, name, given):
        """A run of a module, one of just as many reductions as are needed, and one of one less."""
        self.row(name, given)
        steps = steps_of(given)
        self.row(f'{name}/{steps}-reductions', given, steps)
        self.row(f'{name}/{steps - 1}-reductions', given, steps - 1)


def wanted_lines(out, err, status):
    """The lines that say what a run comes to."""
    lines = [*_written('out', out), *_written('err', err)]
    return lines + [f'status {status}'] if status else lines


def _written(key, written):
    """The lines that say what is written: as text where this is lines of it."""
    if not written:
        return []
    *lines, rest = written.split(b'\n')
    if rest or not all(byte in range(0x20, 0x7f) for line in lines for byte in line):
        return [f'{key} {written.hex().upper()}']
    first, *more = (f'| {line.decode()}'.rstrip() for line in lines)
    return [f'{key} {first}', *more]
