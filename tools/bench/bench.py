#!/usr/bin/env python3
"""Makes modules, and times the program on them: checks beside wasm-validate, runs beside wasm-interp, or dump and asm;
or runs of scripts beside Lua and Guile.

Modules are made in a process of their own, so that this one stays small: a child begins as a copy of it, and the
system counts the copy as the child's peak.
"""

import argparse
import re
import resource
import shutil
import sys
import tempfile
from dataclasses import replace
from functools import partial
from multiprocessing import Pipe, Process
from pathlib import Path

ROOT = Path(__file__).resolve().parents[2]
# The assembler of the rows makes these modules too, and the reader of execution counts their reductions. Both stand in
# front of packages of the machine, which may have the same names.
sys.path.insert(1, str(ROOT / 'tools' / 'conformance'))

import tables                                               # noqa: E402
from counting import counted                                # noqa: E402
from executing.numbers import WIDTHS, signed                # noqa: E402
from forms import FORMS, STRAIGHT                           # noqa: E402
from measuring import best_of, measured                     # noqa: E402
from runs import RUNS as PLAIN_RUNS, returning_at_once      # noqa: E402
from script_runs import LEAST_SCRIPT, SCRIPT_RUNS, STEPS_OF_ANY, compiling, others, taken_by    # noqa: E402
from switching import MOST_REPEATS, RUNS as SWITCHING_RUNS  # noqa: E402

PROGRAM = ROOT / 'crates' / 'stackwasm' / 'out' / 'stackwasm'
MEBI = 1 << 20
GREATEST_TEXT = 16 * MEBI       # as much as the program reads
RUNS = PLAIN_RUNS | SWITCHING_RUNS
STRAIGHT_NAME = next(name for name, form in FORMS.items() if form is STRAIGHT)
INTERPRETED = re.compile(r'main\(\) => (i32|i64):(\d+)')     # what wasm-interp says of a result


def arguments():
    parser = argparse.ArgumentParser(description=__doc__, formatter_class=argparse.RawDescriptionHelpFormatter)
    parser.add_argument('--program', default=PROGRAM, type=Path, help='the program to time')
    parser.add_argument('--size', type=float,
                        help='MiB of each module (16, the most that it reads; 0.9 with --texts, whose texts are longer)')
    parser.add_argument('--forms', nargs='+', metavar='WORDS',
                        help='only forms, or programs or scripts to run, whose names have one of these words')
    parser.add_argument('--rounds', default=3, type=int, help='each figure is the best of so many (3)')
    parser.add_argument('--limit', default=60, type=int, help='seconds after which a call is ended (60)')
    parser.add_argument('--memory', default=8, type=int, help='GiB that a call may take (8)')
    parser.add_argument('--build', action='store_true', help='time build too')
    parser.add_argument('--keep', type=Path, metavar='FOLDER', help='keep the modules there')
    parser.add_argument('--list', action='store_true', help='name the forms, programs or scripts, and what they are')
    parser.add_argument('--run', action='store_true', help='time run, on programs that run long')
    parser.add_argument('--steps', default=100000000, type=int, help='about so many reductions a run (100,000,000)')
    parser.add_argument('--texts', action='store_true', help='time dump, and asm of what it writes')
    parser.add_argument('--scripts', action='store_true', help='time run on scripts, beside lua5.4 and guile')
    parser.add_argument('--effects', default=10000000, type=int, help='about so many effects a script (10,000,000)')
    return parser.parse_args()


def apart(what, work):
    """What some work comes to in a process of its own."""
    answer, told = Pipe(duplex=False)
    worker = Process(target=lambda: told.send(work()))
    worker.start()
    told.close()
    try:
        return answer.recv()
    except EOFError:
        sys.exit(f'{what} failed')
    finally:
        worker.join()


def timed(given, folder, name, make, calls_of):
    """Make a module, and time calls on it: its size in bytes, and the best call of each program."""
    path = folder / f'{name.replace(" ", "_")}.wasm'
    size = apart(f'making {name}', lambda: path.write_bytes(make()))
    best = best_of(calls_of(path), given.rounds, given.limit)
    if not given.keep:
        path.unlink()
    return size, best


def calls_with(other, words, calls):
    """These calls, and that of another program where it is on the path."""
    program = shutil.which(other)
    return calls | {other: ([program, *words], True)} if program else calls


def check_calls(given, path):
    """The calls to time on a form: the words, and whether out is listened to."""
    calls = calls_with('wasm-validate', ['--enable-all', str(path)], {
        'check': ([str(given.program), 'check', str(path)], True)})
    if given.build:
        calls['build'] = ([str(given.program), 'build', str(path)], False)
    return calls


def run_calls(given, steps, switches, path):
    """The calls to time on a program that takes so many reductions; wasm-interp knows none that switches stacks."""
    calls = {'run': ([str(given.program), 'run', str(path), '--steps', str(steps)], True)}
    words = ['--enable-tail-call', '--run-all-exports', str(path)]
    return calls if switches else calls_with('wasm-interp', words, calls)


def chosen(names, words, always=None):
    """The names that have one of these words, and one that is wanted always."""
    return [name for name in names if not words or name == always or any(word in name for word in words)]


def time_forms(given, folder):
    """Print the table of forms, and give what is odd in it."""
    print(tables.heading(tables.FORM_HEADINGS), flush=True)
    straight_rate, odd = None, []
    for name in chosen(FORMS, given.forms, STRAIGHT_NAME):
        make = partial(FORMS[name], int((given.size or 16) * MEBI))
        size, best = timed(given, folder, name, make, partial(check_calls, given))
        straight_rate = straight_rate or tables.rate(best['check'], size)
        print(tables.form_row(name, size, best, straight_rate), flush=True)
        odd += form_oddities(name, best, straight_rate / tables.rate(best['check'], size))
    return odd


def form_oddities(name, best, times):
    """What a reader is to look at: a module that isn't accepted, and a form that takes too long."""
    check, build = best['check'], best.get('build')
    if check.ended:
        return [f'{name}: check took longer than {check.seconds:.0f} seconds, {times:.0f} times mixed code or more']
    if check.said != 'ok module':
        return [f'{name}: check said {check.said!r}, with status {check.status}']
    found = [f'{name}: check took {times:.1f} times as long as mixed code'] if times > tables.MOST_TIMES else []
    if build and (build.status or build.ended):
        found.append(f'{name}: build ended with status {build.status}: {build.said!r}')
    return found


def time_texts(given, folder):
    """Print the table of forms as text, and give what is odd in it."""
    print(tables.heading(tables.TEXT_HEADINGS), flush=True)
    straight, odd = None, []
    for name in chosen(FORMS, given.forms, STRAIGHT_NAME):
        text = folder / f'{name.replace(" ", "_")}.text'
        make = partial(FORMS[name], int((given.size or 0.9) * MEBI))
        size, best = timed(given, folder, name, make, partial(text_calls, given, text))
        text_size = text.stat().st_size
        straight = straight or {program: tables.rate(call, text_size) for program, call in best.items()}
        print(tables.text_row(name, size, text_size, best, straight), flush=True)
        odd += text_oddities(name, text_size, best)
        if not given.keep:
            text.unlink()
    return odd


def text_calls(given, text, path):
    """The calls to time on a form: its text is written, and read where it has been written."""
    return {'dump': ([str(given.program), 'dump', str(path)], str(text)),
            'asm': ([str(given.program), 'asm', str(text)], False)}


def text_oddities(name, text_size, best):
    """What a reader is to look at: a module that isn't written, a text that isn't read, and one that is too long."""
    if text_size > GREATEST_TEXT:
        return [f'{name}: its text has {text_size:,} bytes, more than asm reads']
    return [f'{name}: {program} said {call.said!r}, with status {call.status}'
            for program, call in best.items() if call.status or call.ended]


def time_runs(given, folder):
    """Print the table of runs, and give what is odd in it."""
    names = chosen(RUNS, given.forms)
    counts = {name: apart(f'counting {name}', partial(counted, RUNS[name])) for name in names}
    print(tables.heading(tables.RUN_HEADINGS), flush=True)
    odd = []
    for name, count in counts.items():
        odd += small_oddities(given, folder, name, count)
        repeats = min(count.repeats_within(given.steps), MOST_REPEATS.get(name, given.steps))
        steps = count.reductions(repeats)
        best = timed_run(given, folder, name, partial(RUNS[name], repeats), steps)
        print(tables.run_row(name, steps, best), flush=True)
        odd += run_oddities(name, best)
    at_once = timed_run(given, folder, 'returning at once', returning_at_once, given.steps)
    print('\nWhere main returns at once: ' + ', '.join(
        f'{program} {call.seconds:.3f} seconds' for program, call in at_once.items()))
    return odd + run_oddities('returning at once', at_once)


def timed_run(given, folder, name, make, steps):
    """The best call of each program on a module to run, that of wasm-interp as run would have ended it."""
    _, best = timed(given, folder, name, make, partial(run_calls, given, steps, name in SWITCHING_RUNS))
    return {program: as_run_ends(call) if program == 'wasm-interp' else call for program, call in best.items()}


def as_run_ends(call):
    """A call of wasm-interp with its result as run says it. One without a result has failed, whatever its status is."""
    result = INTERPRETED.fullmatch(call.said)
    if result:
        return replace(call, said=f'= {signed(WIDTHS[result[1]], int(result[2]))}')
    return replace(call, status=call.status or 1)


def run_oddities(name, best):
    """What a reader is to look at: a run that didn't end with a result, and results that aren't the same."""
    odd, results = [], {}
    for program, call in best.items():
        if call.ended:
            odd.append(f'{name}: {program} took longer than {call.seconds:.0f} seconds')
        elif call.status:
            odd.append(f'{name}: {program} said {call.said!r}, with status {call.status}')
        else:
            results[program] = call.said
    if len(set(results.values())) > 1:
        odd.append(f'{name}: ' + ', '.join(f'{program} said {said!r}' for program, said in results.items()))
    return odd


def small_oddities(given, folder, name, count):
    """Results of small runs that aren't those of the reader of execution."""
    odd = []
    for repeats, printed in count.printed.items():
        best = timed_run(given, folder, name, partial(RUNS[name], repeats), count.reductions(repeats))
        odd += [f'{name}: {program} said {call.said!r} of {repeats} repeats, and not {printed!r}'
                for program, call in best.items() if call.status == 0 and call.said != printed]
    return odd


def time_scripts(given, folder):
    """Print the table of scripts, and give what is odd in it."""
    programs = {name: shutil.which(name) for name in ('lua5.4', 'guile')}
    names = chosen(SCRIPT_RUNS, given.forms)
    odd = compiled_oddities(given, folder, programs['guile']) if programs['guile'] else []
    taken = {name: apart(f'counting {name}', partial(taken_of, given, name)) for name in names}
    print(tables.heading(tables.SCRIPT_HEADINGS), flush=True)
    for name, (number, took, small) in taken.items():
        for less, printed in small.items():
            best = timed_script(given, folder, programs, name, less, STEPS_OF_ANY)
            odd += [f'{name}: {program} said {call.said!r} of {less}, and not {printed!r}'
                    for program, call in best.items() if call.said != printed]
        best = timed_script(given, folder, programs, name, number, took.reductions)
        print(tables.script_row(name, SCRIPT_RUNS[name].effects(number), took, best), flush=True)
        odd += run_oddities(name, best)
    least = timed_script(given, folder, programs, LEAST_SCRIPT, 1, STEPS_OF_ANY)
    print(f'\nOf {LEAST_SCRIPT} of one number: ' + ', '.join(
        f'{program} {call.seconds:.3f} seconds' for program, call in least.items()))
    return odd + run_oddities(f'{LEAST_SCRIPT} of one number', least)


def taken_of(given, name):
    """The number that a script is given, what this takes, and what the small ones print."""
    script = SCRIPT_RUNS[name]
    number = script.number_within(given.effects)
    return number, script.taken(number), {less: taken_by(script.script(less))[1] for less in script.small}


def timed_script(given, folder, programs, name, number, steps):
    """The best call of each program on a script of this number."""
    script = SCRIPT_RUNS[name]
    path = folder / f'{script.stem}.script'
    calls = {'run': script.call(str(given.program), number, path, steps)}
    calls |= others(script.stem, number, programs, folder)
    return best_of({program: (words, True) for program, words in calls.items()}, given.rounds, given.limit)


def compiled_oddities(given, folder, guile):
    """Compile the programs of Guile, and give what went wrong."""
    calls = {name: measured(compiling(guile, script.stem, folder), given.limit) for name, script in SCRIPT_RUNS.items()}
    return [f'{name}: guile said {call.said!r} when it compiled' for name, call in calls.items() if call.status]


def kinds(given):
    """What there is to time, by name, and what it is."""
    if given.scripts:
        return {name: script.about for name, script in SCRIPT_RUNS.items()}
    return {name: made.__doc__.strip().splitlines()[0] for name, made in (RUNS if given.run else FORMS).items()}


def timing_of(given):
    """What is to be timed."""
    if given.scripts:
        return time_scripts
    if given.texts:
        return time_texts
    return time_runs if given.run else time_forms


def main():
    given = arguments()
    if given.list:
        for name, about in kinds(given).items():
            print(f'{name}: {about}')
        return 0
    resource.setrlimit(resource.RLIMIT_AS, (given.memory << 30, given.memory << 30))    # children have it too
    with tempfile.TemporaryDirectory() as temporary:
        folder = given.keep or Path(temporary)
        folder.mkdir(parents=True, exist_ok=True)
        odd = timing_of(given)(given, folder)
    for line in odd:
        print(f'\n{line}', end='')
    print()
    return 1 if odd else 0


if __name__ == '__main__':
    sys.exit(main())
