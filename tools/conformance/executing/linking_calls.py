"""Calls of `link`: what their words ask for, and what they come to."""

import re
from typing import NamedTuple

from executing import STATUSES, USUAL_STEPS, VALID, refusal, results_of_main, said_before_a_run, told
from executing.linking import Unlinked, linked
from executing.running import begun_in, outcome_after
from reader.module_decoding import decode

GREATEST_FILES = 16
GREATEST_STEPS = 2 ** 40
NUMBER = re.compile('0|[1-9][0-9]*')
USAGE = (
    'usage: stackwasm check FILE | run FILE [--steps N] [--stats] | build FILE | gen N | dump FILE | asm FILE'
    ' | link FILE.. [--steps N] [--stats] | trace FILE [--steps N] | audit FILE TRACE [--steps N]')


class Call(NamedTuple):
    """What a call asks for: the names of its files, the reductions, and whether statistics are told."""

    names: list
    steps: int
    stats: bool


def call_of(words):
    """What these words, which are those behind the command, ask for; nothing where they aren't understood."""
    names, options = [], {}
    words = list(words)
    while words:
        word = words.pop(0)
        key, equals, value = word.partition('=')
        if word == '--':
            names += words
            break
        if not word.startswith('-') or word == '-':
            names.append(word)
        elif key in options or key not in ('--steps', '--stats') or (key == '--stats' and equals):
            return None
        elif key == '--steps':
            options[key] = value if equals else words.pop(0) if words else ''
        else:
            options[key] = True
    steps = options.get('--steps', str(USUAL_STEPS))
    if not names or not NUMBER.fullmatch(steps) or int(steps) > GREATEST_STEPS:
        return None
    return Call(names, int(steps), '--stats' in options)


def outcome_of_call(words, files):
    """What a call of these words, behind the command, comes to: out, err and the status. Of each name the bytes of its
    file are told, where there is one."""
    call = call_of(words)
    if call is None:
        return refusal(USAGE, 2)
    return outcome_of_files([files.get(name) for name in call.names], call.steps, call.stats)


def outcome_of_files(files, steps=USUAL_STEPS, stats=False):
    """What running these files together for so many reductions is to come to: out, err and the status. Each is given by
    its bytes, or by nothing where it isn't there."""
    if len(files) > GREATEST_FILES:
        return refusal('limit files', 9)
    for number, data in enumerate(files):
        if data is None:
            return refusal('read fault', 6)
        said = said_before_a_run(data)
        if said != VALID:
            return refusal(f'file {number} {said}', STATUSES[said.split()[0]])
    return _outcome_of_modules([decode(data) for data in files], steps, stats)


def _outcome_of_modules(modules, steps, stats):
    try:
        machine = _machine_of(modules)
    except Unlinked as unlinked:
        return refusal(unlinked.line, unlinked.status)
    return told(outcome_after(machine, steps), results_of_main(modules[-1]), stats)


def _machine_of(modules):
    store, types, order, main = linked(modules)
    return begun_in(store, types, order, modules, main)


def steps_of_files(files):
    """How many reductions the run of files takes that can be run together."""
    return outcome_after(_machine_of([decode(data) for data in files]), USUAL_STEPS).taken
