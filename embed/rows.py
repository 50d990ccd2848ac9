"""Puts the rows of `crates/conformance` to the library, by the C program `rows`, and compares its answers with what the rows say.

    python3 embed/rows.py PROGRAM [WORD ..]

PROGRAM is called with these words, once for each processor, and given a part of the rows. A run of a module is put to it a second time, by a
handle in steps. A row is passed over, and counted, where the library has no such function: `gen`, calls that fail, words that ask for nothing,
and a file that isn't there.
"""

import os
import struct
import subprocess
import sys
from collections import Counter
from concurrent.futures import ThreadPoolExecutor
from pathlib import Path

HERE = Path(__file__).resolve().parent
sys.path.insert(0, str(HERE.parent / 'tools' / 'conformance'))
from row_files import rows_of  # noqa: E402

ACTIONS = ('check', 'build', 'dump', 'asm', 'run', 'link', 'trace', 'audit')
MODULE = b'\0asm'
USAGE_STATUS = 2


def asked(row):
    """The action, steps, statistics and bytes of a row, and the second bytes, or why it is passed over."""
    if row.fails:
        return None, 'calls that fail'
    if row.status == USAGE_STATUS:
        return None, 'words that ask for nothing'
    words = row.words[1:]
    if not words or words[0] not in ACTIONS:
        return None, 'other commands'
    steps, stats, names = 100_000_000, 0, []
    rest = iter(words[1:])
    for word in rest:
        if word == '--':
            names += list(rest)
        elif word == '--stats':
            stats = 1
        elif word == '--steps':
            steps = int(next(rest))
        elif word.startswith('--steps='):
            steps = int(word.removeprefix('--steps='))
        else:
            names.append(word)
    if any(name not in row.files for name in names):
        return None, 'files that are not there'
    files = [row.files[name] for name in names]
    if words[0] == 'link':
        return ('link', steps, stats, b''.join(files), struct.pack(f'<{len(files)}Q', *map(len, files))), None
    data, second = (files + [b''])[:2]
    return (words[0], steps, stats, data, second), None


def calls_of(row):
    """The calls by which a row is put to the library, or why it is passed over."""
    call, why = asked(row)
    if call is None:
        return [], why
    if call[0] == 'run' and call[3].startswith(MODULE):
        return [call, ('held', *call[1:])], None
    return [call], None


def answers_of(command, calls):
    """What the program answers to calls: a status, out and err each."""
    given = b''.join(b'%s %d %d %d %d\n%s%s' % (action.encode(), steps, stats, len(data), len(second), data, second)
                     for action, steps, stats, data, second in calls)
    done = subprocess.run(command, input=given, stdout=subprocess.PIPE, check=False)
    at, answers = 0, []
    while at < len(done.stdout):
        end = done.stdout.index(b'\n', at)
        status, out, err = map(int, done.stdout[at:end].split())
        middle, last = end + 1 + out, end + 1 + out + err
        answers.append((status, done.stdout[end + 1:middle], done.stdout[middle:last]))
        at = last
    return done.returncode, answers


def answers_of_all(command, calls):
    """The same by several processes at once: whether each ended well, and the answers in order."""
    parts = os.cpu_count() or 1
    with ThreadPoolExecutor(parts) as pool:
        done = list(pool.map(lambda part: answers_of(command, calls[part::parts]), range(parts)))
    answers = [None] * len(calls)
    for part, (_, some) in enumerate(done):
        answers[part::parts] = (some + [None] * len(calls))[:len(calls[part::parts])]
    return all(status == 0 for status, _ in done), answers


def main(command):
    calls, rows, passed_over = [], [], Counter()
    for path in sorted((HERE.parent / 'crates' / 'conformance' / 'data').glob('*.rows')):
        for row in rows_of(path.read_text(encoding='utf-8')):
            some, why = calls_of(row)
            if why:
                passed_over[why] += 1
            calls += some
            rows += [(path.name, row, call[0]) for call in some]
    well, answers = answers_of_all(command, calls)
    wrong = [f'{name}: {row.name}: {action}' for (name, row, action), answer in zip(rows, answers) if answer != (row.status, row.out, row.err)]
    for line in wrong[:20]:
        print(line)
    answered = Counter('a handle' if action == 'held' else 'a call' for (_, _, action), answer in zip(rows, answers) if answer is not None)
    print(f'{answered["a call"]} rows answered by a call, {answered["a handle"]} of them by a handle too, '
          f'{len(rows) - answered.total()} not, {len(wrong)} otherwise than the command; '
          + ', '.join(f'{count} passed over for {why}' for why, count in sorted(passed_over.items())))
    return 0 if well and not wrong else 1


if __name__ == '__main__':
    sys.exit(main(sys.argv[1:]))
