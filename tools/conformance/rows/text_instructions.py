"""Each instruction by its name, with immediates at the edges of their ranges, and lines of instructions that are wrong.

An instruction stands between two unreachable ones, so that it needs no operands, in a module that has what it names.
"""

from assembler import instructions as bytes_of
from assembler.instructions import LOADS, NUMERIC_OPCODES, STORES, UNREACHABLE, access, i32_const, i64_const, numeric
from assembler.modules import code, global_, module, table
from assembler.segments import passive_data, passive_expressions
from assembler.types import (
    CONT, EMPTY, FUNC, FUNCREF, I32, I64, NOCONT, NOFUNC, conttype, functype, limits, nullable, ref)
from rows.text_mutations import right_text, sample, wrong_texts
from rows.text_samples import TextSection

NAMES = TextSection('names')
EDGES = TextSection('edges')
WRONG = TextSection('wrong')
EMPTY_FUNC = functype([], [])

# What modules have beside a function of type [] to []: lines and sections.
NOTHING = (['func ->'], {'types': [EMPTY_FUNC]})
CONTINUATIONS = (['func ->', 'cont 0'], {'types': [EMPTY_FUNC, conttype(0)]})
SWITCHES = (
    ['func ->', 'cont 0', 'func null:1 ->', 'cont 2', 'tag 0'],
    {'types': [EMPTY_FUNC, conttype(0), functype([nullable(1)], []), conttype(2)], 'tags': [0]})
TAG = (['func ->', 'cont 0', 'tag 0'], {'types': [EMPTY_FUNC, conttype(0)], 'tags': [0]})
MEMORY = (['func ->', 'memory 0 -'], {'types': [EMPTY_FUNC], 'memories': [limits(0)]})
DATA = (
    ['func ->', 'memory 0 -', 'data passive x', 'data passive x'],
    {'types': [EMPTY_FUNC], 'memories': [limits(0)], 'data_count': 2, 'datas': [passive_data(b'')] * 2})
TABLES = (
    ['func ->', 'table null:func 0 -', 'table null:func 0 -', 'elem passive null:func 0', 'elem passive null:func 0'],
    {'types': [EMPTY_FUNC], 'tables': [table(FUNCREF, limits(0))] * 2,
     'elements': [passive_expressions(FUNCREF, [])] * 2})
GLOBALS = (
    ['func ->', 'global i32 var', 'i32.const 0', 'end'] + ['global i64 var', 'i64.const 0', 'end'],
    {'types': [EMPTY_FUNC], 'globals': [global_(I32, i32_const(0), True), global_(I64, i64_const(0), True)]})
NAMED = (
    ['func ->', 'global null:func const', 'ref.func 0', 'end'],
    {'types': [EMPTY_FUNC], 'globals': [global_(FUNCREF, bytes_of.ref_func(0))]})
LOCALS = ['local 1 i32', 'local 1 i64']
LOCAL_RUNS = [(1, I32), (1, I64)]


def row(line, spelling, around=NOTHING, more=(), local_lines=(), runs=(), name=None):
    """An instruction by its line and its bytes, and the lines that stand in it, if it is a block."""
    lines, sections = around
    body = UNREACHABLE + spelling + UNREACHABLE
    given = module(**{'functions': [0], 'codes': [code(body, runs)]}, **sections)
    NAMES.both(name or line.replace(' ', '-'), given, [
        'module', *lines, 'function 0', *local_lines, 'unreachable', line, *more, 'unreachable', 'end'])


for name in NUMERIC_OPCODES:
    row(name, numeric(name))
for name, (_, _, width) in (LOADS | STORES).items():
    row(f'{name} {width} 4294967295', access(name, width, 2 ** 32 - 1), MEMORY)
for name in ('i32.load', 'i64.store'):
    row(f'{name} 0 0', access(name, 0, 0), MEMORY)
for number in (0, 1, -1, 63, 64, -64, -65, 127, 128, 2 ** 31 - 1, -2 ** 31):
    row(f'i32.const {number}', i32_const(number))
for number in (0, 1, -1, 63, 64, -64, -65, 624485, 2 ** 31, 2 ** 32, -2 ** 31 - 1, 2 ** 63 - 1, -2 ** 63):
    row(f'i64.const {number}', i64_const(number))
for name in ('unreachable', 'nop', 'return', 'drop', 'select'):
    row(name, getattr(bytes_of, name.upper()))
row('ref.is_null', bytes_of.REF_IS_NULL)
row('ref.as_non_null', bytes_of.REF_AS_NON_NULL)
row('br 0', bytes_of.br(0))
row('br_if 0', bytes_of.br_if(0))
row('br_on_null 0', bytes_of.br_on_null(0))
row('br_table 0', bytes_of.br_table([], 0))
row('br_table 0 0', bytes_of.br_table([0], 0))
row('br_table' + ' 0' * 200, bytes_of.br_table([0] * 199, 0), name='br_table-of-200-labels')
row('call 0', bytes_of.call(0))
row('return_call 0', bytes_of.return_call(0))
row('call_ref 0', bytes_of.call_ref(0))
row('return_call_ref 0', bytes_of.return_call_ref(0))
for name, immediates in [
        ('call_indirect', (0, 0)), ('call_indirect', (0, 1)), ('return_call_indirect', (0, 0)),
        ('return_call_indirect', (0, 1)), ('table.get', (1,)), ('table.set', (1,)), ('table.size', (1,)),
        ('table.grow', (1,)), ('table.fill', (1,)), ('table.copy', (0, 1)), ('table.copy', (1, 0)),
        ('table.init', (0, 1)), ('table.init', (1, 0)), ('elem.drop', (1,))]:
    row(' '.join([name, *map(str, immediates)]), getattr(bytes_of, name.replace('.', '_'))(*immediates), TABLES)
for value_type, word in [
        (I32, 'i32'), (I64, 'i64'), (FUNCREF, 'null:func'), (NOFUNC, 'null:nofunc'), (nullable(CONT), 'null:cont'),
        (nullable(NOCONT), 'null:nocont'), (ref(FUNC), 'ref:func'), (nullable(0), 'null:0'), (ref(0), 'ref:0')]:
    row(f'select_t {word}', bytes_of.select(value_type))
for name in ('get', 'set', 'tee'):
    row(f'local.{name} 1', getattr(bytes_of, f'local_{name}')(1), local_lines=LOCALS, runs=LOCAL_RUNS)
row('local.get 300', bytes_of.local_get(300), local_lines=['local 301 i32'], runs=[(301, I32)])
row('global.get 1', bytes_of.global_get(1), GLOBALS)
row('global.set 1', bytes_of.global_set(1), GLOBALS)
row('memory.size 0', bytes_of.memory_size(0), MEMORY)
row('memory.grow 0', bytes_of.memory_grow(0), MEMORY)
row('memory.fill 0', bytes_of.memory_fill(0), MEMORY)
row('memory.copy 0 0', bytes_of.memory_copy(0, 0), MEMORY)
row('memory.init 1 0', bytes_of.memory_init(1, 0), DATA)
row('data.drop 1', bytes_of.data_drop(1), DATA)
for heap, word in [(FUNC, 'func'), (NOFUNC, 'nofunc'), (CONT, 'cont'), (NOCONT, 'nocont'), (0, '0')]:
    row(f'ref.null {word}', bytes_of.ref_null(heap))
row('ref.func 0', bytes_of.ref_func(0), NAMED)
row('cont.new 1', bytes_of.cont_new(1), CONTINUATIONS)
row('cont.bind 1 1', bytes_of.cont_bind(1, 1), CONTINUATIONS)
row('cont.bind 3 1', bytes_of.cont_bind(3, 1), SWITCHES)
row('suspend 0', bytes_of.suspend(0), TAG)
row('resume 1', bytes_of.resume(1), TAG)
row('resume 1 switch:0', bytes_of.resume(1, bytes_of.on_switch(0)), TAG)
row('switch 3 0', bytes_of.switch(3, 0), SWITCHES)

# Instructions that need a block around or behind, or have one.
for name, line, inner in [
        ('a-clause', 'resume 1 on:0:0', bytes_of.resume(1, bytes_of.on(0, 0))),
        ('clauses-of-both-kinds', 'resume 1 on:0:0 switch:0 on:0:0',
         bytes_of.resume(1, bytes_of.on(0, 0), bytes_of.on_switch(0), bytes_of.on(0, 0))),
        ('no-clause-in-a-block', 'resume 1', bytes_of.resume(1))]:
    row('block ref:1', bytes_of.block(ref(1), UNREACHABLE + inner + UNREACHABLE), TAG,
        ['unreachable', line, 'unreachable', 'end'], name=f'resume/{name}')
row('block ref:0', bytes_of.block(ref(0), UNREACHABLE + bytes_of.br_on_non_null(0) + UNREACHABLE),
    more=['unreachable', 'br_on_non_null 0', 'unreachable', 'end'], name='br_on_non_null')
for name, opening in [('block', bytes_of.block), ('loop', bytes_of.loop), ('if', bytes_of.if_)]:
    row(f'{name} void', opening(EMPTY, b''), more=['end'], name=name)
row('if void', bytes_of.if_(EMPTY, b'', b''), more=['else', 'end'], name='else')
DEEP = 12
deep = UNREACHABLE + bytes_of.br_table([0, DEEP], DEEP - 1)
for _ in range(DEEP):
    deep = bytes_of.block(EMPTY, deep)
row('block void', deep, name='br_table-of-far-labels', more=[
    *['block void'] * (DEEP - 1), 'unreachable', f'br_table 0 {DEEP} {DEEP - 1}', *['end'] * DEEP])

# Immediates at the ends of their ranges, and past these. Nothing has such an index.
GREATEST = {'index': 2 ** 32 - 1, 'alignment': 63, 'offset': 2 ** 64 - 1}
IMMEDIATES = {
    'index': (
        'br br_if call return_call call_ref return_call_ref local.get local.set local.tee global.get global.set '
        'table.get table.set table.size table.grow table.fill elem.drop data.drop ref.func br_on_null '
        'br_on_non_null memory.size memory.grow memory.fill cont.new suspend resume ref.null br_table'),
    'index index': (
        'call_indirect return_call_indirect table.copy table.init memory.init memory.copy cont.bind switch br_table'),
    'alignment offset': 'i32.load i64.load16_u i32.store8 i64.store'}


def edge(name, answer, line):
    """What is said of a body with this line in its middle, in a module that has nothing else."""
    EDGES.refused(name, answer, ['module', 'func ->', 'function 0', 'unreachable', line, 'unreachable', 'end'])


for told, names in IMMEDIATES.items():
    kinds = told.split()
    greatest = [str(GREATEST[kind]) for kind in kinds]
    for name in names.split():
        line = ' '.join([name, *greatest])
        edge(f'{name}/{len(kinds)}-greatest', 'invalid function 0', line)
        for place, kind in enumerate(kinds):
            past = [*greatest[:place], str(GREATEST[kind] + 1), *greatest[place + 1:]]
            edge(f'{name}/{len(kinds)}-greatest-but-number-{place}-past-it', 'text 4', ' '.join([name, *past]))
for name, line in [
        ('an-alignment-above-that-of-the-width', 'i32.load 3 0'), ('an-offset-of-2^32', 'i32.load 2 4294967296'),
        ('a-type-of-a-block', 'block type:4294967295'), ('a-result-of-a-block', 'loop null:4294967295'),
        ('a-type-of-an-if', 'if type:4294967295'), ('a-type-of-select', 'select_t ref:4294967295'),
        ('no-type-of-select', 'select_t'), ('two-types-of-select', 'select_t i32 i64'),
        ('a-tag-of-a-clause', 'resume 0 on:4294967295:0'), ('a-label-of-a-clause', 'resume 0 on:0:4294967295'),
        ('a-tag-of-switch', 'resume 0 switch:4294967295'), ('a-label-of-a-table', 'br_table 4294967295 0'),
        ('a-default-of-a-table', 'br_table 0 4294967295')]:
    more = ['end'] if line.split()[0] in ('block', 'loop', 'if') else []
    EDGES.refused(f'valid-text/{name}', 'invalid function 0', [
        'module', 'func ->', 'function 0', 'unreachable', line, *more, 'unreachable', 'end'])
for line in ('memory.size', 'memory.size 0 0', 'memory.grow', 'memory.fill', 'memory.fill 0 0', 'memory.copy 0',
             'memory.copy 0 0 0', 'memory.init 0', 'memory.init 0 0 0', 'memory.init',
             'data.drop', 'br_table', 'select 0', 'call_indirect 0', 'i32.load 0', 'i32.load', 'i32.add 0',
             'ref.null', 'ref.func func', 'resume', 'cont.new', 'cont.bind 0', 'switch 0', 'suspend', 'suspend 0 0'):
    edge(f'count/{line.replace(" ", "-")}', 'text 4', line)


# Lines of each form that are made wrong in many ways.


def form(name, line, front='module; func ->; function 0', behind='end'):
    """The wrong texts of a sample."""
    given = sample(name, front, line, behind)
    WRONG.is_right(right_text(given))
    for way, place, lines in wrong_texts(given):
        WRONG.wrong(f'form/{name}/{way}', place, lines)


form('no-immediate', 'nop')
form('one-index', 'call 0@index/any')
form('two-indices', 'call_indirect 0@index 1@index')
form('access', 'i32.load 2@alignment 64@offset')
form('i32', 'i32.const 7@i32')
form('i64', 'i64.const -7@i64')
form('block', 'block void@shape/any', behind='end; end')
form('if', 'if type:0@shape', behind='else; end; end')
form('else', 'else', 'module; func ->; function 0; i32.const 0; if void', 'end; end')
form('end-of-a-body', 'end', behind='function 0; end')
form('labels', 'br_table 0@index* 1@index* 2@index*')
form('one-label', 'br_table 0@index+')
form('types', 'select_t i32@type* null:func@type*')
form('heap-type', 'ref.null func@heap')
form('clauses', 'resume 0@index on:0:1@clause/on* switch:0@clause/switch*')
form('in-a-constant-expression', 'i32.add', 'module; global i32 const; i32.const 1; i32.const 2', 'end')

# Each name without its last letter, or with this letter twice where that is another name.
WITHOUT = 'unreachable nop else end return drop select ref.is_null ref.as_non_null'
WORDS = {'block': ' void', 'loop': ' void', 'if': ' void', 'select_t': ' i32', 'i32.const': ' 0', 'i64.const': ' 0'}
for told, names in IMMEDIATES.items():
    WORDS |= {name: ' 0' * len(told.split()) for name in names.split()}
WORDS |= dict.fromkeys([*LOADS, *STORES], ' 0 0') | dict.fromkeys([*NUMERIC_OPCODES, *WITHOUT.split()], '')
for name, words in WORDS.items():
    edge(f'name/{name}', 'text 4', (name[:-1] if name[:-1] not in WORDS else name + name[-1]) + words)
for name in (
        'NOP', 'i32.ADD', 'i32', 'i32.', 'i32_add', 'i33.add', 'select-t', 'get_local', 'f32.add', 'v128.not',
        'i31.get_s', 'ref.eq', 'array.len', 'throw_ref', 'i32.trunc_f32_s', 'i32.extend32_s', 'i64.wrap_i32', 'i32.neg',
        'then', 'module', 'return.', '0'):
    edge(f'no-name/{name}', 'text 4', name)
for line in (
        'f64.const 0', 'throw 0', 'resume_throw 0 0', 'struct.new 0', 'try_table void', 'ref.test null:func',
        'i64.load64_u 0 0', 'i32.load32_s 0 0', 'i32.store32 0 0', 'data.init 0', 'local 0', 'func 0', 'start 0',
        'cont 0'):
    edge(f'no-name/{line.replace(" ", "-")}', 'text 4', line)
edge('no-name/a-letter-that-is-not-ascii', 'text 4', 'n\u00f6p')
edge('no-name/a-digit-that-is-not-ascii', 'text 4', 'br \u0661')
