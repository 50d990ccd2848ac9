"""The rows, by topic, and the files in which they stand.

This goes through the topics in the order of the files, since the types of the module of `surroundings` are numbered in
the order in which rows ask for them.
"""

from typing import NamedTuple

from rows import (
    numeric, memory, tables, variables, references, control, branches, calls, making, suspending, handling, switching,
    tail_calls, whole_modules, without_a_memory, types_and_imports, tables_and_memories, constant_expressions, segments,
    starts_exports_and_functions, orders, decoding, framing, fields, spellings, instructions, equivalence, matching,
    subtyping_spellings, subtyping, subtyping_of_operands, subtyping_by_chance, limits, arithmetic, sizes, long_runs,
    running_numbers, running_memory, running_tables, running_control, running_instances, running_suspends,
    running_clauses, running_switches, running_continuations, running_passing, running_subtyping,
    running_switching_traps, running_coroutines, running_switching_limits, running_tail_calls, linking_samples,
    linking_files, linking_imports, linking_instances, linking_indices, linking_switching, linking_runs,
    linking_by_chance, example_linked, scripts, script_rules, script_sizes, script_names, script_modules, script_runs,
    script_operators, script_effects, script_random, script_edges, script_slots, script_slot_sizes, script_slot_runs,
    script_tail_calls, script_coroutines, script_coroutine_sizes, script_coroutine_runs, script_coroutine_modules,
    examples, example_modules, texts, text_refusals, text_lines, text_instructions, trace_samples, trace_calls,
    trace_lines, trace_changes, trace_runs)
from surroundings import pieces


class RowFile(NamedTuple):
    """A file of rows."""

    name: str
    heading: str
    pieces: list
    sections: list


def _functions(name, topic, *sections):
    return lambda: RowFile(name, f'Functions of {topic}, each the second of one module.', pieces(), sections)


def _modules(name, heading, *sections):
    return lambda: RowFile(name, heading, [], sections)


_FILES = [
    _functions(
        'numeric', 'numeric instructions', numeric.CONVERSIONS, numeric.COMPARISONS, numeric.ARITHMETIC_OF_I32,
        numeric.ARITHMETIC_OF_I64),
    _functions(
        'memory', 'instructions of the memory and of data segments', memory.LOAD_ROWS, memory.STORE_ROWS,
        memory.MEMORY_AND_DATA),
    _functions('tables', 'instructions of tables and of element segments', tables.SECTION),
    _functions('variables', 'parametric and variable instructions', variables.SECTION),
    _functions(
        'references', 'instructions of references, and the matching of types', references.REFERENCES,
        references.MATCHING),
    _functions('control', 'blocks, branches and calls', control.SECTION, branches.SECTION, calls.SECTION,
        tail_calls.SECTION),
    _functions(
        'switching', 'stack switching', making.SECTION, suspending.SECTION, handling.SECTION, switching.SECTION),
    _modules(
        'modules', 'Whole modules, and the item that is named where one is not valid.',
        whole_modules.SECTION, without_a_memory.SECTION, types_and_imports.SECTION, tables_and_memories.SECTION,
        constant_expressions.SECTION, segments.SECTION, starts_exports_and_functions.SECTION, orders.SECTION),
    lambda: RowFile(
        'equivalence', 'Types that are equivalent, and types that are not.', equivalence.PIECES, [equivalence.SECTION]),
    _modules('matching', 'Types that match and types that are equal.', matching.SECTION),
    lambda: RowFile(
        'subtyping', 'Types with supertypes: how they are spelled, which are valid, and what matches by them.',
        subtyping.PIECES, [
            subtyping_spellings.DECODING, subtyping_spellings.WRITING, subtyping.TYPES, subtyping.MATCHING,
            subtyping.LARGE, subtyping.LARGE_RUNS, subtyping_of_operands.OPERANDS, subtyping_of_operands.CONSTANTS,
            subtyping_of_operands.SWITCHING, subtyping_by_chance.SECTION]),
    _modules('limits', 'Limits on modules.', limits.SECTION),
    _modules('arithmetic', 'Runs of one operation.', arithmetic.SECTION),
    _modules('decoding', 'Bytes that spell a module, and bytes that spell none.', decoding.SECTION),
    _modules('sections', 'Sections: their frames, order, contents and counts.', framing.SECTION),
    _modules('fields', 'Types, names, lists, imports, exports and segments, and bytes that are none.', fields.SECTION),
    _modules('spellings', 'Modules that are written, each also as it was written.', spellings.SECTION),
    lambda: RowFile(
        'instructions', 'How each instruction is spelled, and what spells none.', instructions.PIECES,
        [instructions.SECTION]),
    lambda: RowFile(
        'sizes', 'Modules as large as a file may be, or nested deeply.', sizes.PIECES, [sizes.SECTION]),
    _modules('long_runs', 'Runs of ten million reductions, and of ten million tail calls.', long_runs.SECTION),
    _modules(
        'running_numbers', 'Runs of each operation of integers.', running_numbers.CONSTANTS,
        running_numbers.ONE_OPERAND, running_numbers.TWO_OPERANDS, running_numbers.DIVISIONS),
    _modules(
        'running_memory', 'Runs of instructions of the memory and of data segments.', running_memory.LOADING,
        running_memory.STORING, running_memory.GROWING, running_memory.BULK),
    _modules(
        'running_tables', 'Runs of instructions of tables and of element segments.', running_tables.ELEMENTS,
        running_tables.GROWING, running_tables.BULK),
    _modules(
        'running_control', 'Runs of blocks, branches, calls and traps.', running_control.BLOCKS,
        running_control.BRANCHES, running_control.CALLS, running_control.TRAPS),
    _modules(
        'running_instances', 'Where runs begin: imports, entries, limits, segments, start functions and globals.',
        running_instances.IMPORTS, running_instances.ENTRIES, running_instances.LIMITS, running_instances.SEGMENTS,
        running_instances.ORDER, running_instances.STARTS, running_instances.GLOBALS),
    _modules(
        'running_suspends', 'Runs of suspend and resume.', running_suspends.VALUES, running_suspends.LABELS,
        running_suspends.ENDS),
    _modules(
        'running_clauses', 'Runs of handles in one another.', running_clauses.DEPTHS, running_clauses.LISTS,
        running_clauses.INNER, running_clauses.AGAIN),
    _modules(
        'running_switches', 'Runs of switch.', running_switches.VALUES, running_switches.TARGETS,
        running_switches.RINGS),
    _modules(
        'running_continuations', 'Runs in which continuations are made and bound.', running_continuations.MAKING,
        running_continuations.BINDING, running_continuations.EQUIVALENCE),
    _modules(
        'running_passing', 'Runs in which continuations are kept and passed on.', running_passing.KEEPING,
        running_passing.PASSING),
    _modules(
        'running_subtyping', 'Runs with types below one another.', running_subtyping.CALLS, running_subtyping.PRINTERS,
        running_subtyping.KEEPING, running_subtyping.SWITCHING),
    _modules(
        'running_switching_traps', 'Runs in which stack switching traps.', running_switching_traps.NULLS,
        running_switching_traps.CONSUMED, running_switching_traps.UNHANDLED),
    _modules(
        'running_coroutines', 'Runs of generators and start functions, and runs that are cut.',
        running_coroutines.GENERATORS, running_coroutines.STARTS, running_coroutines.STEPS),
    _modules(
        'running_switching_limits', 'Runs of stack switching at the limits.', running_switching_limits.HANDLES,
        running_switching_limits.FRAMES, running_switching_limits.LIVE, running_switching_limits.CHAINS),
    _modules(
        'running_tail_calls', 'Runs of tail calls.', running_tail_calls.CALLS, running_tail_calls.PRINTING,
        running_tail_calls.TRAPS, running_tail_calls.SWITCHING, running_tail_calls.LIMITS, running_tail_calls.STEPS),
    lambda: RowFile(
        'link', 'Runs of several files together.', linking_samples.PIECES.pieces(), [
            linking_files.WORDS, linking_files.COUNTS, linking_files.READING, linking_files.JUDGING,
            linking_files.ORDER, linking_imports.FUNCTION_TYPES, linking_imports.TYPES_BY_CHANCE,
            linking_imports.TABLES_AND_MEMORIES, linking_imports.GLOBALS, linking_imports.TAGS, linking_imports.KINDS,
            linking_imports.NAMES, linking_imports.PRINTERS, linking_instances.HANDED_ON, linking_instances.ENTRIES,
            linking_instances.MEMORIES, linking_instances.TABLES, linking_instances.VARIABLES, linking_instances.TWICE,
            linking_instances.SEGMENTS, linking_indices.MEMORIES, linking_indices.TABLES, linking_indices.VARIABLES,
            linking_indices.FUNCTIONS, linking_switching.SUSPENDS, linking_switching.HANDLES,
            linking_switching.SWITCHES, linking_switching.CONTINUATIONS, linking_runs.STARTS, linking_runs.INSTANCES,
            linking_runs.TYPES, linking_runs.SUBTYPES, linking_runs.LIMITS, linking_runs.STEPS,
            linking_by_chance.SECTION, example_linked.SECTION]),
    lambda: RowFile(
        'trace', 'Traces of runs, and audits of them.', trace_samples.PIECES.pieces(), [
            trace_calls.WORDS, trace_calls.FILES, trace_calls.TRACES, trace_calls.OUTSIDE, trace_lines.FORMS,
            trace_lines.WRONG, trace_lines.RANGES, trace_lines.LAST, trace_lines.SPLITTING, trace_changes.RIGHT,
            trace_changes.SOUNDNESS, trace_changes.ORDER, trace_changes.CHANGES, trace_changes.CHANCE,
            trace_runs.STEPS, trace_runs.TRAPS, trace_runs.LIMITS, trace_runs.LONG, trace_runs.OTHERS]),
    _modules('script_tokens', 'Bytes that are cut into tokens, and bytes that are not.', scripts.LEXING),
    _modules('script_grammar', 'Tokens that are a script, and tokens that are none.', scripts.GRAMMAR, scripts.NESTING),
    _modules(
        'script_rules', 'Rules of scripts that are broken, and their neighbours.', script_rules.SECTION,
        script_rules.ORDER),
    _modules('script_sizes', 'Scripts as long or as large as one may be.', script_sizes.SECTION),
    lambda: RowFile('script_names', 'Scripts of many names.', script_names.PIECES, [script_names.SECTION]),
    _modules('script_modules', 'Scripts that are compiled.', script_modules.SECTION),
    _modules(
        'script_runs', 'Runs of scripts, and of their modules.', script_runs.CALLS, script_runs.LIMITS,
        script_runs.GENERATED, script_operators.OPERATORS, script_operators.STATEMENTS, script_operators.FAULTS,
        script_effects.EFFECTS, script_effects.RESUMPTIONS, script_effects.HANDLES, script_random.SECTION),
    _modules(
        'script_edges', 'Scripts at the edges of what the language says.', script_edges.TEXTS, script_edges.NAMES,
        script_edges.ORDER, script_edges.HANDLERS, script_edges.LIMITS),
    _modules(
        'script_slots', 'Scripts with slots that are checked.', script_slots.GRAMMAR, script_slots.NESTING,
        script_slots.RULES, script_slots.ORDER, script_slot_sizes.SECTION),
    _modules(
        'script_slot_runs', 'Runs of scripts with slots, and how these are compiled.', script_slot_runs.RUNS,
        script_slot_runs.PLACES, script_slot_runs.RESUMPTIONS, script_slot_runs.ORDER, script_slot_runs.STEPS,
        script_slot_runs.LIMITS, script_slot_runs.MODULES, script_random.WITH_SLOTS),
    _modules(
        'script_tail_calls', 'Runs of scripts with tail calls, and how these are compiled.', script_tail_calls.CALLS,
        script_tail_calls.ORDER, script_tail_calls.EFFECTS, script_tail_calls.NO_TAIL_CALLS, script_tail_calls.STEPS,
        script_tail_calls.LIMITS, script_tail_calls.MODULES, script_random.WITH_TAIL_CALLS),
    _modules(
        'script_coroutines', 'Scripts with coroutines that are checked.', script_coroutines.GRAMMAR,
        script_coroutines.NESTING, script_coroutines.RULES, script_coroutines.ORDER, script_coroutine_sizes.SECTION),
    _modules(
        'script_coroutine_runs', 'Runs of scripts with coroutines, and how these are compiled.',
        script_coroutine_runs.RUNS, script_coroutine_runs.GROUPS, script_coroutine_runs.HANDLERS,
        script_coroutine_runs.FAULTS, script_coroutine_runs.STEPS, script_coroutine_modules.LIMITS,
        script_coroutine_modules.MODULES, script_random.WITH_COROUTINES),
    _modules('examples', 'The scripts and modules of examples/.', examples.SECTION, example_modules.SECTION),
    _modules('texts', 'Modules and their texts, each from the other.', texts.ITEMS, texts.BODIES, texts.WRITTEN),
    _modules(
        'text_refusals', 'Texts of modules that are refused, and files that have no text.', text_refusals.ORDER,
        text_refusals.COUNTS, text_refusals.BLOCKS, text_refusals.LEAST, text_refusals.JUDGED, text_refusals.FILES,
        text_refusals.DUMPED),
    _modules('text_lines', 'Lines of texts of modules, made wrong in many ways.', text_lines.SECTION),
    _modules(
        'text_instructions', 'Instructions in texts of modules, and lines that are none.', text_instructions.NAMES,
        text_instructions.EDGES, text_instructions.WRONG),
]

# All rows are made by now, and with them the module in which functions are judged.
FILES = [make() for make in _FILES]
