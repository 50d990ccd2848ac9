"""Judges rows by the second readers of modules, of their texts, of scripts and of linking, by the second compiler of
scripts, by the second reader of their meaning, and by the second writer and the second auditor of traces."""

import re
from collections import Counter

from assembler.canonical import canonical
from executing import USUAL_STEPS
from executing.linking_calls import outcome_of_call
from following import contradiction, outcome_of_script
from generated_scripts import GENERATED_STEPS, GREATEST_NUMBER, generated
from reader import answer
from reader.module_decoding import decode
from rows.sections import STATUSES, VALID
from script_compiler import built
from script_reader import answer as answer_to_script, is_script
from text_reader import reading_of as reading_of_text
from text_reader.expressions import flat
from text_reader.reading import WrongLine, module_of
from text_reader.writing import text_of
from tracing.calls import FILES as TRACING
from tracing.calls import outcome_of_call as outcome_of_tracing

OPTIONS = ('--steps', '--stats')
GENERATED = re.compile('[1-9][0-9]{0,2}')
GREATEST_FILE = 100000      # what the second reader reads in due time, and without too deep a nesting


def faults(name, rows):
    """What is wrong with the rows of a file: names that several have, and answers that the reader contradicts."""
    counts = Counter(row.name for row in rows)
    found = [f'{name}: {row}: {count} rows of this name' for row, count in counts.items() if count > 1]
    found += [f'{name}: a row without a name' for row in rows if not row.name]
    for row in rows:
        fault = _contradiction(row)
        if fault:
            found.append(f'{name}: {row.name}: {fault}')
    return found


def is_judged(row):
    """Whether the second readers judge a row: a call on a file that is there and not too large, or on a generated
    script, where nothing fails, and no run of a script that is too long; or any call of `link`, `trace` or `audit`
    where nothing fails."""
    if _is_link(row) or _is_tracing(row):
        return not row.fails
    command, given = _call(row)
    if given is None or len(given) > GREATEST_FILE or row.fails:
        return False
    return not _is_script_run(command, given) or outcome_of_script(given, _steps(row)) is not None


def _is_link(row):
    return row.words[:2] == ['stackwasm', 'link']


def _is_tracing(row):
    return any(row.words[:2] == ['stackwasm', command] for command in TRACING)


def _call(row):
    """The command, and the contents of the file that is named behind it, where the call is of this form; those of a
    generated script are told by its number."""
    program, command, file, *more = [*row.words, None, None, None][:max(3, len(row.words))]
    if program != 'stackwasm' or (more and (command != 'run' or more[0] not in OPTIONS)):
        return None, None
    if command == 'gen':
        number = int(file) if GENERATED.fullmatch(file or '') else 0
        return command, generated(number) if 1 <= number <= GREATEST_NUMBER else None
    return command, row.files.get(file)


def _is_script_run(command, given):
    return command in ('run', 'gen') and is_script(given)


def _steps(row):
    """How many reductions a call of `run` or `gen` is for."""
    if row.words[1] == 'gen':
        return GENERATED_STEPS
    return int(row.words[row.words.index('--steps') + 1]) if '--steps' in row.words else USUAL_STEPS


def _contradiction(row):
    """What the second reader says against a row, if it judges it and says otherwise."""
    if not is_judged(row):
        return None
    if _is_link(row):
        return _contradicted_outcome(row, outcome_of_call(row.words[2:], row.files))
    if _is_tracing(row):
        return _contradicted_outcome(row, outcome_of_tracing(row.words[1:], row.files))
    command, given = _call(row)
    if _is_script_run(command, given):
        return _contradicted_run(row, given)
    if command == 'asm':
        return _contradicted_assembly(row, given)
    if command == 'build' and is_script(given):
        return _contradicted_module(row, built(given))
    said = answer_to_script(given) if command == 'check' and is_script(given) else answer(given)
    if said != VALID or command == 'check':
        return _contradicted_answer(row, said)
    if command == 'build':
        return _contradicted_spelling(row, decode(given))
    if command == 'dump':
        return _contradicted_text(row, decode(given))
    return None


def _contradicted_run(row, given):
    """The run of a script is to come to what its module comes to, and to follow the script."""
    contradicted = _contradicted_outcome(row, outcome_of_script(given, _steps(row)))
    return contradicted or contradiction(given, _steps(row))


def _contradicted_outcome(row, outcome):
    """The out, err and status of a row are to be these."""
    if (row.out, row.err, row.status) != outcome:
        return f'the row says {row.out!r}, {row.err!r}, {row.status}, and the second reader {outcome}'
    return None


def _contradicted_answer(row, said):
    status = STATUSES[said.split()[0]]
    line = said.encode() + b'\n'
    written = (line, b'') if status == 0 else (b'', line)
    if (row.out, row.err, row.status) != (*written, status):
        return f'the row says {row.out!r}, {row.err!r}, {row.status}, and the second reader {said!r}'
    return None


def _contradicted_module(row, wanted):
    """What is written of a script is to be what the second compiler gives, which is to be a module."""
    if isinstance(wanted, str):
        return _contradicted_answer(row, wanted)
    if len(wanted) <= GREATEST_FILE and answer(wanted) != VALID:
        return 'the second reader says that what the second compiler gives is not valid'
    if (row.out, row.err, row.status) != (wanted, b'', 0):
        return f'the second compiler writes {wanted.hex().upper()}'
    return None


def _contradicted_assembly(row, given):
    """What is written of a text is to be the module that it has."""
    reading = reading_of_text(given)
    if reading.said != VALID:
        return _contradicted_answer(row, reading.said)
    return _contradicted_spelling(row, reading.module)


def _contradicted_spelling(row, module):
    """What is written is to be this module, to be valid, and to be the canonical spelling."""
    if row.status or row.err:
        return 'the second reader says that it is valid'
    if answer(row.out) != VALID:
        return 'the second reader says that what is written is not valid'
    if flat(decode(row.out)) != flat(module):
        return 'the second reader says that another module is written'
    if canonical(module) != row.out:
        return f'the canonical spelling is {canonical(module).hex().upper()}'
    return None


def _contradicted_text(row, module):
    """What is written is to be the text of the module, of which the second reader of texts reads the module again."""
    text = text_of(module)
    try:
        is_read_again = flat(module_of(text)) == flat(module)
    except WrongLine:
        is_read_again = False
    if not is_read_again:
        return 'the second reader reads another module from the text'
    if (row.out, row.err, row.status) != (text, b'', 0):
        return f'the second writer writes {text!r}'
    return None
