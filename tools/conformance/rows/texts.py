"""Modules and their texts, each from the other: items of each kind, bodies, and modules that `build` writes."""

from rows import instructions, spellings, subtyping_spellings
from rows.decoding import spelled
from rows.fields import sec
from rows.sections import BuiltRow
from rows.text_samples import TextSection, text, text_of_bytes
from rows.words import shortest

ITEMS = TextSection('items')
BODIES = TextSection('bodies')
WRITTEN = TextSection('written')

# A type [] to [], and the same with an imported function of it.
TYPE = sec('types', '01 600000')
FUNCTION = TYPE + sec('imports', '01 016D 0166 00 00')
TYPE_LINE = 'module; func ->'
FUNCTION_LINES = f'{TYPE_LINE}; import x6d x66 func 0'

ITEMS.both('module-of-nothing', spelled(''), 'module')


def types(name, digits, lines):
    """A module of types."""
    ITEMS.both(f'type/{name}', spelled(sec('types', digits)), f'module; {lines}')


types('of-nothing', '01 600000', 'func ->')
types('parameter', '01 60017F00', 'func i32 ->')
types('result', '01 6000017E', 'func -> i64')
types('parameters-and-results', '01 60037F7E7E027E7F', 'func i32 i64 i64 -> i64 i32')
types('each-reference', '02 600000 60 08 70 73 6368 6375 6470 6473 6468 6475 02 6300 6400',
      'func ->; func null:func null:nofunc null:cont null:nocont ref:func ref:nofunc ref:cont ref:nocont -> '
      'null:0 ref:0')
types('that-refers-to-itself', '01 6001630001 6400', 'func null:0 -> ref:0')
types('continuation', '02 600000 5D00', 'func ->; cont 0')
types('continuation-in-front', '01 4E02 5D01 600000', 'rec 2; cont 1; func ->')
types('twice', '02 600000 600000', 'func ->; func ->')
types('1000-parameters', f'01 60E807{"7F" * 1000}00', f'func{" i32" * 1000} ->')
types('group-of-none', '01 4E00', 'rec 0')
types('groups-of-none', '02 4E00 4E00', 'rec 0; rec 0')
types('group-of-two', '01 4E02 60000164015D00', 'rec 2; func -> ref:1; cont 0')
types('group-of-three', '01 4E03 5D02 5D02 600000', 'rec 3; cont 2; cont 2; func ->')
types('group-of-ten', '01 4E0A' + '600000' * 10, 'rec 10' + '; func ->' * 10)
types('groups-of-none-one-and-two', '03 4E00 600000 4E02 5D00 60016301 00',
      'rec 0; func ->; rec 2; cont 0; func null:1 ->')
types('groups-of-two-one-and-none', '03 4E02 600000 5D00 5D00 4E00', 'rec 2; func ->; cont 0; cont 0; rec 0')
types('groups-of-two', '02 4E02 600000 5D00 4E02 600000 5D02', 'rec 2; func ->; cont 0; rec 2; func ->; cont 2')
types('open', '01 5000 600000', 'open : func ->')
types('open-with-parameters', '01 5000 60017F017E', 'open : func i32 -> i64')
types('open-with-a-supertype', '02 5000 600000 500100 600000', 'open : func ->; open 0 : func ->')
types('final-with-a-supertype', '02 5000 600000 4F0100 600000', 'open : func ->; final 0 : func ->')
types('final-with-a-supertype-and-parameters', '02 5000 60017F017E 4F0100 60017F017E',
      'open : func i32 -> i64; final 0 : func i32 -> i64')
types('open-continuation', '02 600000 5000 5D00', 'func ->; open : cont 0')
types('continuations-with-supertypes', '04 5000 600000 5000 5D00 500101 5D00 4F0102 5D00',
      'open : func ->; open : cont 0; open 1 : cont 0; final 2 : cont 0')
types('with-supertypes-in-a-group', '01 4E04 5000 600000 500100 600000 4F0101 600000 5D02',
      'rec 4; open : func ->; open 0 : func ->; final 1 : func ->; cont 2')
types('with-a-supertype-in-front-of-its-group', '02 5000 600000 4E02 4F0100 600000 5000 600000',
      'open : func ->; rec 2; final 0 : func ->; open : func ->')
types('groups-of-none-around-types-with-supertypes', '04 4E00 5000 600000 4F0100 600000 4E00',
      'rec 0; open : func ->; final 0 : func ->; rec 0')


def imported(name, digits, described, names='016D 0166', words='x6d x66'):
    """A module of a type and an import."""
    ITEMS.both(f'import/{name}', spelled(TYPE + sec('imports', f'01 {names} {digits}')),
               f'{TYPE_LINE}; import {words} {described}')


for name, digits, described in [
        ('function', '00 00', 'func 0'), ('table', '01 70 00 00', 'table null:func 0 -'),
        ('table-with-a-greatest-size', '01 6368 01 01 02', 'table null:cont 1 2'),
        ('table-of-references', '01 6400 00 AC02', 'table ref:0 300 -'),
        ('table-of-no-functions', '01 73 01 00 00', 'table null:nofunc 0 0'),
        ('table-as-large-as-one-may-be', '01 70 01 FFFFFFFF0F FFFFFFFF0F', 'table null:func 4294967295 4294967295'),
        ('memory', '02 00 01', 'memory 1 -'), ('memory-with-a-greatest-size', '02 01 00 808004', 'memory 0 65536'),
        ('memory-as-large-as-one-may-be', '02 00 808004', 'memory 65536 -'),
        ('constant', '03 7F 00', 'global i32 const'), ('variable', '03 7E 01', 'global i64 var'),
        ('constant-reference', '03 6400 00', 'global ref:0 const'),
        ('variable-reference', '03 6375 01', 'global null:nocont var'), ('tag', '04 00 00', 'tag 0')]:
    imported(name, digits, described)
NAMES = [
    ('empty', '00', 'x'), ('of-one-byte', '0161', 'x61'), ('of-two-bytes', '02C3A9', 'xc3a9'),
    ('of-three-bytes', '03E282AC', 'xe282ac'), ('of-four-bytes', '04F09F9880', 'xf09f9880'),
    ('zero', '0100', 'x00'), ('line-feed', '010A', 'x0a'), ('blank', '0120', 'x20'), ('delete', '017F', 'x7f'),
    ('last', '04F48FBFBF', 'xf48fbfbf'), ('of-many-signs', '0961C3A9E282AC0A6261', 'x61c3a9e282ac0a6261'),
    ('of-200-bytes', f'C801{"7A" * 200}', f'x{"7a" * 200}')]
for name, digits, word in NAMES:
    imported(f'name-{name}', '00 00', 'func 0', f'{digits} {digits}', f'{word} {word}')
imported('of-an-empty-module', '00 00', 'func 0', '00 0166', 'x x66')
imported('of-an-empty-item', '00 00', 'func 0', '016D 00', 'x6d x')
ITEMS.both('import/each-kind-in-any-order', spelled(
    TYPE + sec('imports', '06 016D0161 040000 016D0162 037F00 016D0163 020001 016D0164 01700000 016D0165 0000 '
               '016D0161 0000')),
    f'{TYPE_LINE}; import x6d x61 tag 0; import x6d x62 global i32 const; import x6d x63 memory 1 -; '
    'import x6d x64 table null:func 0 -; import x6d x65 func 0; import x6d x61 func 0')


def item(name, sections, lines, behind_function=True):
    """A module of an item, behind a type and an imported function or behind nothing."""
    front, front_lines = (FUNCTION, FUNCTION_LINES) if behind_function else ('', 'module')
    ITEMS.both(name, spelled(front + sections), f'{front_lines}; {lines}')


for name, digits, lines in [
        ('of-functions', '01 70 00 00', 'table null:func 0 -'),
        ('with-a-greatest-size', '01 70 01 01 02', 'table null:func 1 2'),
        ('of-continuations', '01 6368 00 05', 'table null:cont 5 -'),
        ('of-references', '01 6300 01 00 80808008', 'table null:0 0 16777216'),
        ('with-an-expression', '01 400070 00 05 D0700B', 'table null:func 5 - init; ref.null func; end'),
        ('that-is-not-nullable', '01 40006400 01 01 01 D2000B', 'table ref:0 1 1 init; ref.func 0; end'),
        ('with-and-without-an-expression', '03 70 00 00 400073 00 00 D0730B 70 00 01',
         'table null:func 0 -; table null:nofunc 0 - init; ref.null nofunc; end; table null:func 1 -')]:
    item(f'table/{name}', sec('tables', digits), lines)
for name, digits, lines in [
        ('empty', '00 00', 'memory 0 -'), ('with-a-greatest-size', '01 00 808004', 'memory 0 65536'),
        ('of-equal-sizes', '01 07 07', 'memory 7 7'), ('as-large-as-one-may-be', '00 808004', 'memory 65536 -')]:
    item(f'memory/{name}', sec('memories', f'01 {digits}'), lines, behind_function=False)
item('tag/one', sec('tags', '01 0000'), 'tag 0')
item('tag/two', sec('tags', '02 0000 0000'), 'tag 0; tag 0')
ITEMS.both('tag/of-types-that-are-not-equal', spelled(
    sec('types', '02 60017F00 6000017E') + sec('tags', '02 0001 0000')),
    'module; func i32 ->; func -> i64; tag 1; tag 0')
for name, digits, lines in [
        ('constant', '01 7F00 41000B', 'global i32 const; i32.const 0; end'),
        ('variable', '01 7E01 427F0B', 'global i64 var; i64.const -1; end'),
        ('null', '01 7001 D0700B', 'global null:func var; ref.null func; end'),
        ('null-of-a-type', '01 630000 D0000B', 'global null:0 const; ref.null 0; end'),
        ('function', '01 640000 D2000B', 'global ref:0 const; ref.func 0; end'),
        ('sum', '01 7F00 4101 4102 6A 0B', 'global i32 const; i32.const 1; i32.const 2; i32.add; end'),
        ('two-of-which-one-has-the-others-value', '02 7F00 41050B 7F01 23000B',
         'global i32 const; i32.const 5; end; global i32 var; global.get 0; end')]:
    item(f'global/{name}', sec('globals', digits), lines)

# Exports: a function, a table, a memory, a global and a tag, and exports of them.
EXPORTED = (
    FUNCTION + sec('tables', '02 70 00 00 70 00 00') + sec('memories', '01 00 00') + sec('tags', '01 0000')
    + sec('globals', '01 7F 00 41000B'))
EXPORTED_LINES = (
    f'{FUNCTION_LINES}; table null:func 0 -; table null:func 0 -; memory 0 -; tag 0; global i32 const; i32.const 0; '
    'end')
for name, digits, lines in [
        ('function', '01 0161 00 00', 'export x61 func 0'), ('table', '01 0161 01 01', 'export x61 table 1'),
        ('memory', '01 0161 02 00', 'export x61 memory 0'), ('global', '01 0161 03 00', 'export x61 global 0'),
        ('tag', '01 0161 04 00', 'export x61 tag 0'),
        ('one-item-by-two-names', '02 0161 0101 0162 0101', 'export x61 table 1; export x62 table 1'),
        ('each-kind', '05 0165 0400 0164 0300 0163 0200 0162 0100 0161 0000',
         'export x65 tag 0; export x64 global 0; export x63 memory 0; export x62 table 0; export x61 func 0')]:
    ITEMS.both(f'export/{name}', spelled(EXPORTED + sec('exports', digits)), f'{EXPORTED_LINES}; {lines}')
for name, digits, word in [NAMES[0], *NAMES[4:6], *NAMES[-2:]]:
    item(f'export/name-{name}', sec('exports', f'01 {digits} 00 00'), f'export {word} func 0')
item('start', sec('start', '00'), 'start 0')

# Element segments: each form of the bytes, and modes and types that have one.
TABLES = sec('tables', '03 70 00 00 70 00 00 6368 00 00')
TABLE_LINES = 'table null:func 0 -; table null:func 0 -; table null:cont 0 -'
for name, digits, lines in [
        ('functions-for-table-0', '00 41030B 02 00 00',
         'active 0 ref:func 2; i32.const 3; end; ref.func 0; end; ref.func 0; end'),
        ('functions', '01 00 01 00', 'passive ref:func 1; ref.func 0; end'),
        ('functions-for-table-1', '02 01 41000B 00 01 00', 'active 1 ref:func 1; i32.const 0; end; ref.func 0; end'),
        ('declared-functions', '03 00 01 00', 'declare ref:func 1; ref.func 0; end'),
        ('expressions-for-table-0', '04 41000B 02 D2000B D0700B',
         'active 0 null:func 2; i32.const 0; end; ref.func 0; end; ref.null func; end'),
        ('expressions', '05 70 01 D2000B', 'passive null:func 1; ref.func 0; end'),
        ('expressions-for-table-1', '06 01 41030B 70 01 D2000B',
         'active 1 null:func 1; i32.const 3; end; ref.func 0; end'),
        ('declared-expressions', '07 70 01 D2000B', 'declare null:func 1; ref.func 0; end'),
        ('functions-of-a-type', '05 6400 01 D2000B', 'passive ref:0 1; ref.func 0; end'),
        ('nulls-of-a-type-for-table-0', '06 00 41000B 6300 01 D0000B',
         'active 0 null:0 1; i32.const 0; end; ref.null 0; end'),
        ('continuations-for-table-2', '06 02 41030B 6368 01 D0680B',
         'active 2 null:cont 1; i32.const 3; end; ref.null cont; end'),
        ('declared-continuations', '07 6368 00', 'declare null:cont 0'),
        ('no-functions-for-table-0', '00 41000B 00', 'active 0 ref:func 0; i32.const 0; end'),
        ('no-functions-for-table-1', '02 01 41000B 00 00', 'active 1 ref:func 0; i32.const 0; end'),
        ('no-functions', '01 00 00', 'passive ref:func 0'), ('no-declared-functions', '03 00 00', 'declare ref:func 0'),
        ('no-expressions-for-table-0', '04 41000B 00', 'active 0 null:func 0; i32.const 0; end'),
        ('no-expressions', '05 70 00', 'passive null:func 0'),
        ('no-continuations-for-table-2', '06 02 41000B 6368 00', 'active 2 null:cont 0; i32.const 0; end')]:
    item(f'element/{name}', TABLES + sec('elements', f'01 {digits}'), f'{TABLE_LINES}; elem {lines}')
item('element/ten-functions', sec('elements', '01 01 00 0A' + '00' * 10),
     'elem passive ref:func 10' + '; ref.func 0; end' * 10)
item('element/three-segments', sec('elements', '03 01 00 01 00 03 00 00 05 70 01 D0700B'),
     'elem passive ref:func 1; ref.func 0; end; elem declare ref:func 0; elem passive null:func 1; ref.null func; end')
WITH_GLOBAL = TYPE + sec('imports', '02 016D 0166 00 00 016D 0167 03 6470 00') + sec('tables', '01 70 00 00')
WITH_GLOBAL_LINES = f'{FUNCTION_LINES}; import x6d x67 global ref:func const; table null:func 0 -'
for name, digits, mode in [
        ('for-table-0', '06 00 41000B 6470', 'active 0 ref:func 2; i32.const 0; end'),
        ('for-none', '05 6470', 'passive ref:func 2'), ('declared', '07 6470', 'declare ref:func 2')]:
    ITEMS.both(f'element/by-the-value-of-a-global/{name}', spelled(
        WITH_GLOBAL + sec('elements', f'01 {digits} 02 D2000B 23000B')),
        f'{WITH_GLOBAL_LINES}; elem {mode}; ref.func 0; end; global.get 0; end')

# Data segments.
EACH_BYTE = bytes(range(256)).hex()
for name, digits, lines in [
        ('for-memory-0', '00 41030B 026162', 'active 0 x6162; i32.const 3; end'),
        ('for-none', '01 026162', 'passive x6162'),
        ('empty', '00 41000B 00', 'active 0 x; i32.const 0; end'), ('empty-for-none', '01 00', 'passive x'),
        ('each-byte', f'01 8002 {EACH_BYTE}', f'passive x{EACH_BYTE}'),
        ('each-byte-for-memory-0', f'00 417F0B 8002 {EACH_BYTE}', f'active 0 x{EACH_BYTE}; i32.const -1; end'),
        ('not-utf-8', '01 03 FFC080', 'passive xffc080')]:
    item(f'data/{name}', sec('memories', '01 00 00') + sec('datas', f'01 {digits}'), f'memory 0 -; data {lines}',
         behind_function=False)
item('data/without-a-memory', sec('datas', '01 01 01AB'), 'data passive xab', behind_function=False)
item('data/three-segments', sec('memories', '01 00 00') + sec('datas', '03 01 00 00 41010B 01AA 01 01BB'),
     'memory 0 -; data passive x; data active 0 xaa; i32.const 1; end; data passive xbb', behind_function=False)

# Functions.


def code(*bodies):
    """A code section of functions, each by its locals and instructions."""
    sizes = [f'{shortest(len(bytes.fromhex(body)))} {body}' for body in bodies]
    return sec('codes', f'{len(bodies):02X} {" ".join(sizes)}')


def function(name, digits, lines, types='01 600000', type_lines='func ->'):
    """A module of a function of type 0, whose code and lines are told."""
    BODIES.both(f'body/{name}', spelled(sec('types', types) + sec('functions', '01 00') + code(digits)),
                f'module; {type_lines}; function 0; {lines}')


function('nothing', '00 0B', 'end')
function('nop', '00 01 0B', 'nop; end')
for name, digits, lines in [
        ('one', '01 017F', 'local 1 i32'), ('two', '01 027E', 'local 2 i64'),
        ('runs', '03 017F 017E 027F', 'local 1 i32; local 1 i64; local 2 i32'),
        ('references', '04 0170 016400 016300 026368',
         'local 1 null:func; local 1 ref:0; local 1 null:0; local 2 null:cont'),
        ('300', '01 AC02 7F', 'local 300 i32'), ('50000', '01 D08603 7F', 'local 50000 i32'),
        ('50000-in-two-runs', '02 CF8603 7F 01 7E', 'local 49999 i32; local 1 i64')]:
    function(f'locals/{name}', f'{digits} 0B', f'{lines}; end')
function('locals/behind-parameters', '01 027F 2002 1A 0B', 'local 2 i32; local.get 2; drop; end', '01 60017F00',
         'func i32 ->')
for name, digits, word, constant, line in [
        ('i32', '7F', 'i32', '41 05', 'i32.const 5'), ('i64', '7E', 'i64', '42 05', 'i64.const 5'),
        ('functions', '70', 'null:func', 'D0 70', 'ref.null func'),
        ('no-functions', '73', 'null:nofunc', 'D0 73', 'ref.null nofunc'),
        ('continuations', '6368', 'null:cont', 'D0 68', 'ref.null cont'),
        ('no-continuations', '6375', 'null:nocont', 'D0 75', 'ref.null nocont'),
        ('functions-that-are-not-null', '6470', 'ref:func', '00', 'unreachable'),
        ('a-reference', '6300', 'null:0', 'D0 00', 'ref.null 0'),
        ('a-reference-that-is-not-null', '6400', 'ref:0', '00', 'unreachable')]:
    for kind, opening in [('block', '02'), ('loop', '03')]:
        function(f'{kind}/of-{name}', f'00 {opening} {digits} {constant} 0B 1A 0B',
                 f'{kind} {word}; {line}; end; drop; end')
    function(f'if/of-{name}', f'00 4100 04 {digits} {constant} 05 {constant} 0B 1A 0B',
             f'i32.const 0; if {word}; {line}; else; {line}; end; drop; end')
for name, digits, word in [('nothing', '40', 'void'), ('a-type', '00', 'type:0')]:
    function(f'block/of-{name}', f'00 02 {digits} 0B 0B', f'block {word}; end; end')
    function(f'loop/of-{name}', f'00 03 {digits} 0B 0B', f'loop {word}; end; end')
    function(f'if/of-{name}', f'00 4100 04 {digits} 05 0B 0B', f'i32.const 0; if {word}; else; end; end')
function('if/without-an-else', '00 41 00 04 40 01 0B 0B', 'i32.const 0; if void; nop; end; end')
function('if/with-an-else-of-nothing', '00 41 00 04 40 01 05 0B 0B', 'i32.const 0; if void; nop; else; end; end')
function('if/of-nothing-without-an-else', '00 41 00 04 40 0B 0B', 'i32.const 0; if void; end; end')
function('if/in-each-branch-of-one', '00 41 00 04 40 41 01 04 40 05 0B 05 41 02 04 40 0B 0B 0B',
         'i32.const 0; if void; i32.const 1; if void; else; end; else; i32.const 2; if void; end; end; end')
function('block/in-one-another', '00 02 40 03 40 02 40 0B 0B 03 40 0B 0B 02 40 0B 0B',
         'block void; loop void; block void; end; end; loop void; end; end; block void; end; end')
function('block/thirty-in-one-another', f'00 {"02 40 " * 30}{"0B " * 30}0B',
         '; '.join(['block void'] * 30 + ['end'] * 31))
function('block/of-a-type-with-parameters', '00 41 01 02 01 0B 1A 0B', 'i32.const 1; block type:1; end; drop; end',
         '02 600000 60017F017F', 'func ->; func i32 -> i32')
BODIES.both('functions/two', spelled(TYPE + sec('functions', '02 00 00') + code('00 10 01 0B', '01 01 7E 01 0B')),
            f'{TYPE_LINE}; function 0; call 1; end; function 0; local 1 i64; nop; end')
BODIES.both('functions/of-two-types', spelled(
    sec('types', '02 600000 6000017F') + sec('functions', '03 01 00 01') + code('00 41 07 0B', '00 0B', '00 10 00 0B')),
    'module; func ->; func -> i32; function 1; i32.const 7; end; function 0; end; function 1; call 0; end')
BODIES.both('functions/a-product', spelled(
    sec('types', '01 6000017E') + sec('functions', '01 00') + sec('exports', '01 046D61696E 00 00')
    + code('00 42 06 42 07 7E 0B')),
    'module; func -> i64; export x6d61696e func 0; function 0; i64.const 6; i64.const 7; i64.mul; end')
BODIES.both('functions/that-name-data', spelled(
    TYPE + sec('functions', '01 00') + sec('memories', '01 00 00') + sec('data_count', '02')
    + code('00 00 FC0801 00 FC0900 0B') + sec('datas', '02 01 00 01 01FF')),
    f'{TYPE_LINE}; memory 0 -; data passive x; data passive xff; function 0; unreachable; memory.init 1 0; data.drop 0; '
    'end')

# Indices of two bytes: a function of the last of 200 types.
FRONT_OF_TYPES = '0061736D01000000 01DA04C801 600000*200 0303 01C701'
BODIES.spelled_both(
    'body/indices-of-two-bytes', f'{FRONT_OF_TYPES} 0A14 0112 0101638001 02C000 D0FF00 1A D08001 1A 0B 0B',
    f'{text("module").hex().upper()} {text("func ->").hex().upper()}*200',
    'function 199', 'local 1 null:128', 'block type:64', 'ref.null 127', 'drop', 'ref.null 128', 'drop', 'end', 'end')

# A module of an item of each kind.
EACH_KIND = spelled(
    sec('types', '03 600000 4E02 5000 60017F00 5D01 4F0101 60017F00') + sec('imports', '01 016D 0166 00 00')
    + sec('functions', '02 00 03') + sec('tables', '01 4000 70 00 01 D0700B') + sec('memories', '01 01 01 02')
    + sec('tags', '01 0000') + sec('globals', '01 7F 01 412A0B') + sec('exports', '02 0161 00 01 0162 02 00')
    + sec('start', '01') + sec('elements', '02 00 41000B 01 02 03 00 01 00') + sec('data_count', '02')
    + code('01 027F FC0901 0B', '00 41 00 04 40 01 05 00 0B 0B') + sec('datas', '02 00 41070B 02ABCD 01 00'))
EACH_KIND_LINES = [
    'module', 'func ->', 'rec 2', 'open : func i32 ->', 'cont 1', 'final 1 : func i32 ->', 'import x6d x66 func 0',
    'table null:func 1 - init', 'ref.null func', 'end', 'memory 1 2', 'tag 0', 'global i32 var', 'i32.const 42', 'end',
    'export x61 func 1', 'export x62 memory 0', 'start 1', 'elem active 0 ref:func 1', 'i32.const 0', 'end',
    'ref.func 2', 'end', 'elem declare ref:func 1', 'ref.func 0', 'end', 'data active 0 xabcd', 'i32.const 7', 'end',
    'data passive x', 'function 0', 'local 2 i32', 'data.drop 1', 'end', 'function 3', 'i32.const 0', 'if void', 'nop',
    'else', 'unreachable', 'end', 'end']
BODIES.both('functions/an-item-of-each-kind', EACH_KIND, EACH_KIND_LINES)


# Modules of rows of `build`: the text of what is given there, and what is written there of this text.
NAMED_PIECES = dict(instructions.PIECES)
MANY_DIGITS = 600


def bytes_of(words):
    """The bytes that words of a row spell."""
    return bytes.fromhex(''.join(NAMED_PIECES[word[1:]] if word.startswith('@') else word for word in words.split()))


def written(topic, rows):
    """Rows of `build`: the text of what is given, which is that of what is written, and what is written of the text."""
    for row in rows:
        if len(row.written) < MANY_DIGITS and not row.name.endswith('/again'):
            given, canonical = bytes_of(row.given), bytes_of(row.written)
            lines = text_of_bytes(canonical)
            WRITTEN.dumped(f'{topic}/{row.name}/dump', given, lines)
            WRITTEN.assembled(f'{topic}/{row.name}/asm', lines, canonical)


written('spelling', [
    row for row in spellings.SECTION.rows if isinstance(row, BuiltRow) and row.given != row.written])
written('supertypes', [row for row in subtyping_spellings.WRITING.rows if isinstance(row, BuiltRow)])
written('instruction', [
    row for row in instructions.SECTION.rows if row.name in ('ifs-in-blocks', 'resume/with-clauses', 'memory.init')])
