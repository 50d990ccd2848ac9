"""Runs of scripts that are made at random, of which those are kept whose runs are of interest."""

from collections import Counter
from random import Random

from random_scripts import RandomScript
from rows.script_run_samples import ScriptRunSection, data_of
from script_evaluator import evaluation_of
from script_reader import VALID, answer

SECTION = ScriptRunSection('random')
WITH_COROUTINES = ScriptRunSection('random-with-coroutines')
WITH_SLOTS = ScriptRunSection('random-with-slots')
WITH_TAIL_CALLS = ScriptRunSection('random-with-tail-calls')
SEED, SEED_WITH_SLOTS, SEED_WITH_TAIL_CALLS, SEED_WITH_COROUTINES = 20240229, 20260714, 20261201, 20261202
GREATEST_STEPS = 6000
SHORTEST, LONGEST = 250, 1300       # bytes
LONGEST_WITH_SLOTS, LONGEST_WITH_COROUTINES = 1600, 2200
# How many are kept that end so, each with effects that are handled.
WANTED = {'=': 100, 'divzero': 35, 'failed': 20, 'reused': 40, 'unhandled': 25}
# The same where resumptions are stored and taken; some are kept whose first take is the fault.
WANTED_WITH_SLOTS = {'=': 25, 'divzero': 8, 'failed': 6, 'reused': 15, 'unhandled': 8, 'empty': 15}
# The same where most returns are tail calls.
WANTED_WITH_TAIL_CALLS = {'=': 25, 'divzero': 8, 'failed': 6, 'reused': 12, 'unhandled': 10}

# The same where coroutines are switched to, some of them twice, or outside any group.
WANTED_WITH_COROUTINES = {'=': 12, 'divzero': 4, 'reused': 8, 'unhandled': 6, 'unhandled group': 4}
LEAST_SWITCHES = 3


def kind_of(text, longest):
    """How a script ends that is of interest, or nothing."""
    if not SHORTEST <= len(text) <= longest:
        return None
    data = data_of(text)
    if answer(data) != VALID:
        raise ValueError(f'{answer(data)}: {text}')
    evaluation = evaluation_of(data)
    evaluation.go_to(GREATEST_STEPS)
    captures = any(stretch.kept for stretch in evaluation.stretches)
    if evaluation.end is None or not captures or not evaluation.output:
        return None
    return evaluation.end.removeprefix('fault ').split()[0]


def taking_kind_of(text):
    """The same for a script with slots, of which something is taken, or whose take is a fault."""
    kind = kind_of(text, LONGEST_WITH_SLOTS)
    takes = evaluation_of(data_of(text)).context.takes if kind else 0
    return kind if takes or kind == 'empty' else None


def switching_kind_of(text):
    """The same for a script with coroutines, of which some are switched to."""
    kind = kind_of(text, LONGEST_WITH_COROUTINES)
    if kind is None or evaluation_of(data_of(text)).context.switches < LEAST_SWITCHES:
        return None
    return 'unhandled group' if evaluation_of(data_of(text)).end == 'fault unhandled group' else kind


def with_coroutines(random):
    """A script with coroutines, maybe with slots and many tail calls."""
    return RandomScript(random, random.random() < 0.3, random.choice([0, 0, 0.5]), has_coroutines=True)


def fill(section, made, kind_of_made, wanted, tries):
    """Rows of scripts, until there are enough of each kind, or too many were tried."""
    kept = Counter()
    random, make = made
    for number in range(tries):
        text = make(random).text
        kind = kind_of_made(text)
        if kind is None or kept[kind] >= wanted.get(kind, 5):
            continue
        kept[kind] += 1
        add(section, random, number, text)
        if all(kept[kind] >= count for kind, count in wanted.items()):
            return


def add(section, random, number, text):
    """The rows of one script, whose name is its number; in files of other scripts too, behind a word."""
    name = f'{number}' if section is SECTION else f'random/{number}'
    section.row(name, text)
    steps = random.randrange(evaluation_of(data_of(text)).taken * 3)
    section.row(f'{name}/{steps}-reductions', text, steps)
    if number % 5 == 0:
        section.module(f'{name}/module', text)


fill(SECTION, (Random(SEED), RandomScript), lambda text: kind_of(text, LONGEST), WANTED, 6000)
fill(
    WITH_SLOTS, (Random(SEED_WITH_SLOTS), lambda random: RandomScript(random, has_slots=True)), taking_kind_of,
    WANTED_WITH_SLOTS, 1000)
fill(
    WITH_TAIL_CALLS, (Random(SEED_WITH_TAIL_CALLS), lambda random: RandomScript(random, tailing=0.7)),
    lambda text: kind_of(text, LONGEST), WANTED_WITH_TAIL_CALLS, 1000)
fill(
    WITH_COROUTINES, (Random(SEED_WITH_COROUTINES), with_coroutines), switching_kind_of, WANTED_WITH_COROUTINES, 800)
