"""Refuses memory to the program, over rows of runs. README.md says how."""

import argparse
import collections
import contextlib
import os
import subprocess
import sys
import tempfile
from concurrent.futures import ThreadPoolExecutor
from pathlib import Path

HERE = Path(__file__).resolve().parent
ROOT = HERE.parent.parent
sys.path.insert(0, str(ROOT / 'tools' / 'conformance'))

from executing.ends import Exceeded, Trap     # noqa: E402
from executing.instantiating import Refused, instantiated     # noqa: E402
from executing.running import begun, reduced     # noqa: E402
from reader.byte_source import Malformed     # noqa: E402
from reader.module_decoding import decode     # noqa: E402
from row_files import rows_of     # noqa: E402

SWITCHING = [
    'running_clauses', 'running_continuations', 'running_coroutines', 'running_passing', 'running_suspends',
    'running_switches', 'running_switching_limits', 'running_switching_traps']
# Runs of which each refusal is answered by want of memory: the files of their rows, and the rows' names.
EACH = [
    ('calls', 'a continuation is resumed twice'), ('calls', 'two coroutines switch to one another'),
    ('script_runs', 'asking'), ('script_slot_runs', 'jobs'), ('trace', 'a-ring/trace'), ('trace', 'a-ring/audit')]
MAY_ASK = {
    'call', 'call_indirect', 'call_ref', 'return_call', 'return_call_indirect', 'return_call_ref', 'invoke', 'cont.new',
    'memory.grow', 'table.grow'}
RUNNING, WANTING = 10, 8      # statuses
MOST_SECONDS = 60


class Program:
    """The program, with the library in front of its allocator."""

    def __init__(self, path, folder):
        self.path, self.folder = path, folder
        self.library = folder / 'refusing.so'
        subprocess.run(
            ['cc', '-O2', '-shared', '-fPIC', '-o', self.library, HERE / 'refusing.c', '-ldl'], check=True)

    def call(self, words, folder, refused=0):
        """Status, out and err of a call, and how often it asked for memory."""
        counted = folder / f'counted-{refused}-{"-".join(words[-1:])}'
        environment = dict(os.environ, LD_PRELOAD=str(self.library), COUNTED=str(counted), REFUSED=str(refused))
        made = subprocess.run(
            [self.path, *words], cwd=folder, env=environment, capture_output=True, timeout=MOST_SECONDS)
        asked = int(counted.read_text())
        counted.unlink()
        return (made.returncode, made.stdout, made.stderr), asked


def rows_in(name):
    """The rows of a file."""
    return rows_of((ROOT / 'crates' / 'conformance' / 'data' / f'{name}.rows').read_text())


@contextlib.contextmanager
def folder_of(row):
    """A folder that has the files of a row."""
    with tempfile.TemporaryDirectory() as folder:
        for file, held in row.files.items():
            (Path(folder) / file).write_bytes(held)
        yield Path(folder)


def runs(names):
    """The rows of these files that run something, each with a folder of its own that has its files."""
    for name in names:
        for row in rows_in(name):
            if row.words[1:2] == ['run'] and not row.fails:
                with folder_of(row) as folder:
                    yield name, row, folder


def answers_where_refused(program, row, folder, places, workers):
    """The answers of the call of a row where these growths are refused, one for each call."""
    with ThreadPoolExecutor(workers) as pool:
        return list(pool.map(lambda at: program.call(row.words[1:], folder, at)[0], places))


def is_wanting(answer, whole):
    """Whether an answer is want of memory, with a first part of what the whole answer has, out before err."""
    (status, out, err), (_, whole_out, whole_err) = answer, whole
    is_part = whole_out.startswith(out) and whole_err.startswith(err) and (out == whole_out or not err)
    return status == WANTING and is_part


def refuse(program, names, workers, most):
    """Refuses each growth in turn, or so many of a row that has more. The answer is the whole one, or want of memory
    with a first part of it."""
    told, odd = collections.Counter(), []
    for name, row, folder in runs(names):
        whole, asked = program.call(row.words[1:], folder)
        places = range(1, asked + 1, max(1, asked // most))
        for at, answer in zip(places, answers_where_refused(program, row, folder, places, workers)):
            wanting = is_wanting(answer, whole)
            told['the whole answer' if answer == whole else 'want of memory' if wanting else 'odd'] += 1
            if answer != whole and not wanting:
                odd.append(f'{name}, {row.name}: refused at {at} it answers {answer}')
        told['rows'] += 1
    return told, odd


def each(program, workers):
    """Refuses each growth of some runs in turn, and prints how many each has, and how many are answered by want of
    memory. All are to be, so that the whole answer is odd."""
    odd = []
    for name, row_name in EACH:
        row, = (row for row in rows_in(name) if row.name == row_name)
        with folder_of(row) as folder:
            whole, asked = program.call(row.words[1:], folder)
            answers = answers_where_refused(program, row, folder, range(1, asked + 1), workers)
        wrong = [(at, answer) for at, answer in enumerate(answers, 1) if not is_wanting(answer, whole)]
        print(f'{name}, {row_name}: {asked} growths, {asked - len(wrong)} answered by want of memory')
        if whole != (row.status, row.out, row.err) or not asked:
            odd.append(f'{name}, {row_name}: with no growth refused it answers {whole}')
        odd += [f'{name}, {row_name}: refused at {at} it answers {answer}' for at, answer in wrong]
    return odd


def reductions(module_bytes, most):
    """What each of the first reductions of a run is of, in order: an instruction, an invoke or an exit."""
    module = decode(module_bytes)
    machine = begun(module, *instantiated(module))
    named = []
    while len(named) < most and not machine.is_ended():
        named.append('exit' if machine.place == len(machine.code) else machine.code[machine.place][0])
        if reduced(machine):
            break
    return named


def ask(program, names, workers, most):
    """Tells which of so many reductions ask for memory, by runs of one reduction more each."""
    told, odd = collections.Counter(), []
    for name, row, folder in runs(names):
        module_bytes = row.files.get(row.words[2], b'')
        try:
            named = reductions(module_bytes, most) if module_bytes[:4] == b'\0asm' else []
        except (Malformed, Refused, Exceeded, Trap):
            continue
        with ThreadPoolExecutor(workers) as pool:
            calls = list(pool.map(
                lambda steps: program.call(['run', row.words[2], '--steps', str(steps)], folder),
                range(len(named) + 1)))
        for at, (reduction, (_, before), (answer, after)) in enumerate(zip(named, calls, calls[1:])):
            if answer[0] != RUNNING:
                break
            told['reductions'] += 1
            if after > before:
                told[reduction] += 1
                if reduction not in MAY_ASK:
                    odd.append(f'{name}, {row.name}: reduction {at}, {reduction}, asks for memory')
    return told, odd


def main():
    parser = argparse.ArgumentParser(description=__doc__)
    parser.add_argument('what', choices=['refuse', 'each', 'ask'])
    parser.add_argument('--program', default=ROOT / 'crates' / 'stackwasm' / 'out' / 'stackwasm')
    parser.add_argument('--rows', nargs='+', default=SWITCHING, metavar='NAME')
    parser.add_argument('--most', type=int, default=300)
    parser.add_argument('--workers', type=int, default=os.cpu_count())
    options = parser.parse_args()
    with tempfile.TemporaryDirectory() as folder:
        program = Program(Path(options.program).resolve(), Path(folder))
        if options.what == 'each':
            odd = each(program, options.workers)
        else:
            kind = {'refuse': refuse, 'ask': ask}[options.what]
            told, odd = kind(program, options.rows, options.workers, options.most)
            for what, often in told.most_common():
                print(what, often)
    print('\n'.join(odd))
    sys.exit(1 if odd else 0)


main()
