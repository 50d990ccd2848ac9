"""Texts whose lines stand in a wrong order or number, which of several wrong lines is told, and what is said behind
that of limits and of validity; and what is no text, or no module."""

from rows.decoding import FRONT, NOTHING, spelled
from rows.fields import sec
from rows.sections import CallRow, answered
from rows.text_samples import TextSection, text

ORDER = TextSection('order')
COUNTS = TextSection('counts')
BLOCKS = TextSection('blocks')
LEAST = TextSection('least')
JUDGED = TextSection('judged')
FILES = TextSection('files')
DUMPED = TextSection('dumped')

# Items of each kind, in their order.
ITEMS = {
    'type': ['func ->'], 'import': ['import x x memory 0 -'],
    'table': ['table null:func 0 - init', 'ref.null func', 'end'],
    'memory': ['memory 0 -'], 'tag': ['tag 0'], 'global': ['global i32 const', 'i32.const 0', 'end'],
    'export': ['export x func 0'], 'start': ['start 0'],
    'elements': ['elem active 0 ref:func 1', 'i32.const 0', 'end', 'ref.func 0', 'end'],
    'data': ['data active 0 x', 'i32.const 0', 'end'], 'function': ['function 0', 'local 1 i32', 'nop', 'end']}
NAMES = list(ITEMS)
for place, later in enumerate(NAMES):
    for earlier in NAMES[:place]:
        ORDER.wrong(f'order/{earlier}-behind-{later}', 1 + len(ITEMS[later]), [
            'module', *ITEMS[later], *ITEMS[earlier]])
    ORDER.wrong(f'order/module-behind-{later}', 1 + len(ITEMS[later]), ['module', *ITEMS[later], 'module'])
    ORDER.wrong(f'order/{later}-without-a-module', 0, ITEMS[later])
    if len(ITEMS[later]) > 1:
        for number in range(1, len(ITEMS[later])):
            ORDER.wrong(f'order/{later}/first-{number}-lines', 1 + number, ['module', *ITEMS[later][:number]])
            ORDER.wrong(f'order/{later}/first-{number}-lines-and-another', 1 + number, [
                'module', *ITEMS[later][:number], *ITEMS[later]])
        ORDER.wrong(f'order/{later}/its-last-line-twice', 1 + len(ITEMS[later]), ['module', *ITEMS[later], 'end'])
ORDER.wrong('order/group-behind-an-import', 2, 'module; import x x memory 0 -; rec 2; func ->; func ->')
ORDER.wrong('order/group-of-none-behind-a-memory', 2, 'module; memory 0 -; rec 0')
ORDER.wrong('order/module-twice', 1, 'module; module')
ORDER.wrong('order/start-twice', 3, 'module; func ->; start 0; start 0')
ORDER.wrong('order/two-starts', 2, 'module; start 0; start 1; function 0; end')
ORDER.wrong('order/start-on-both-sides-of-elements', 3, 'module; start 0; elem passive null:func 0; start 0')

# Groups, and the counts of types and of expressions.
FUNCTION_TYPES = '; func ->'
for name, line, lines in [
        ('of-one', 1, 'module; rec 1; func ->'), ('of-one-open-type', 1, 'module; rec 1; open : func ->'),
        ('of-two-without-types', 2, 'module; rec 2'), ('of-two-with-one', 3, 'module; rec 2; func ->'),
        ('of-two-with-one-and-an-import', 3, 'module; rec 2; func ->; import x x func 0'),
        ('of-two-with-one-and-a-module', 3, 'module; rec 2; func ->; module'),
        ('of-two-with-a-group', 2, 'module; rec 2; rec 2; func ->; func ->'),
        ('of-two-with-a-group-of-none', 3, 'module; rec 2; func ->; rec 0; func ->'),
        ('of-three-with-two-and-a-group', 4, 'module; rec 3; func ->; cont 0; rec 0'),
        ('of-two-behind-types', 4, 'module; func ->; rec 2; func ->'),
        ('of-a-hundred-with-99', 101, f'module; rec 100{FUNCTION_TYPES * 99}'),
        ('of-2^32', 3, 'module; rec 4294967296; func ->'),
        ('of-2^32-and-a-memory', 3, 'module; rec 4294967296; func ->; memory 0 -'),
        ('of-2^64', 2, 'module; rec 18446744073709551616'),
        ('of-2^64-and-one-and-a-group', 4, 'module; rec 18446744073709551617; func ->; cont 0; rec 0'),
        ('of-2^70', 4, 'module; rec 1180591620717411303424; func ->; cont 0; start 0'),
        ('of-2^70-of-none', 2, 'module; rec 1180591620717411303424; module')]:
    COUNTS.wrong(f'group/{name}', line, lines)
ONE_ITEM = 'ref.null func; end'
for name, line, lines in [
        ('one-of-two', 4, f'module; elem passive null:func 2; {ONE_ITEM}'),
        ('half-a-second', 5, f'module; elem passive null:func 2; {ONE_ITEM}; ref.null func'),
        ('one-of-two-and-data', 4, f'module; elem passive null:func 2; {ONE_ITEM}; data passive x'),
        ('one-of-none', 2, f'module; elem passive null:func 0; {ONE_ITEM}'),
        ('two-of-one', 4, f'module; elem passive null:func 1; {ONE_ITEM}; {ONE_ITEM}'),
        ('no-offset', 4, f'module; elem active 0 null:func 1; {ONE_ITEM}'),
        ('an-offset-of-none', 4, f'module; elem declare null:func 1; i32.const 0; end; {ONE_ITEM}'),
        ('two-offsets', 6, f'module; elem active 0 null:func 1; i32.const 0; end; i32.const 0; end; {ONE_ITEM}'),
        ('2^32', 4, f'module; elem passive null:func 4294967296; {ONE_ITEM}'),
        ('2^64', 2, 'module; elem passive null:func 18446744073709551616'),
        ('2^70', 6, f'module; elem declare null:func 1180591620717411303424; {ONE_ITEM}; {ONE_ITEM}; start 0'),
        ('2^70-with-an-offset', 3, 'module; elem active 0 null:func 1180591620717411303424; i32.const 0')]:
    COUNTS.wrong(f'elements/{name}', line, lines)
for name, line, lines in [
        ('data/no-offset', 2, 'module; data active 0 x61'),
        ('data/no-offset-and-data', 2, 'module; data active 0 x61; data passive x'),
        ('data/an-offset-of-none', 2, 'module; data passive x61; i32.const 0; end'),
        ('data/two-offsets', 4, 'module; data active 0 x61; i32.const 0; end; i32.const 0; end'),
        ('global/no-expression', 2, 'module; global i32 const'),
        ('global/no-expression-and-a-global', 2, 'module; global i32 const; global i32 const; i32.const 0; end'),
        ('global/two-expressions', 4, 'module; global i32 const; i32.const 0; end; i32.const 0; end'),
        ('global/locals', 2, 'module; global i32 const; local 1 i32; i32.const 0; end'),
        ('imported-global/an-expression', 2, 'module; import x x global i32 const; i32.const 0; end'),
        ('table/no-expression', 2, 'module; table null:func 0 - init; table null:func 0 -'),
        ('table/an-expression-of-none', 2, 'module; table null:func 0 -; ref.null func; end'),
        ('imported-table/an-expression', 1, 'module; import x x table null:func 0 - init; ref.null func; end'),
        ('function/no-body', 2, 'module; function 0; function 0; end'),
        ('function/two-bodies', 3, 'module; function 0; end; end'),
        ('function/a-body-alone', 1, 'module; end'), ('function/an-instruction-alone', 1, 'module; nop; end'),
        ('function/locals-alone', 1, 'module; local 1 i32; end'),
        ('function/locals-behind-an-instruction', 3, 'module; function 0; nop; local 1 i32; end'),
        ('function/locals-behind-its-end', 3, 'module; function 0; end; local 1 i32; end'),
        ('function/locals-in-a-block', 3, 'module; function 0; block void; local 1 i32; end; end')]:
    COUNTS.wrong(name, line, lines)

# Numbers of very many digits.
MANY_ZEROS = '30*5000'


def long_number(name, said, front, behind):
    """A text in which a one with 5,000 zeros stands between these lines and bytes."""
    given = f'{text(front)[:-1].hex().upper()} 20 31 {MANY_ZEROS} {behind.encode().hex().upper()}'
    COUNTS.rows.append(CallRow(name, 'asm x', given, answered(said)))


long_number('long-number/types-of-a-group', 'text 3', 'module; rec', '\nfunc ->\n')
long_number('long-number/elements', 'text 2', 'module; elem passive null:func', '\nstart 0\n')
long_number('long-number/an-index', 'text 1', 'module; start', '\n')
long_number('long-number/a-size-of-a-memory', 'text 1', 'module; memory 0', '\n')
long_number('long-number/a-constant', 'text 2', 'module; global i64 const; i64.const', '\nend\n')
long_number('long-number/locals', 'text 2', 'module; function 0; local', ' i32\nend\n')

# Locals.
BODY = 'module; func ->; function 0; '
for name, said, lines in [
        ('none', 'text 3', 'local 0 i32; end'), ('2^32', 'text 3', 'local 4294967296 i32; end'),
        ('2^32-less-1', 'limit locals', 'local 4294967295 i32; end'),
        ('2^32-less-1-in-two-runs', 'limit locals', 'local 4294967294 i32; local 1 i64; end'),
        ('2^32-in-two-runs', 'text 4', 'local 4294967295 i32; local 1 i64; end'),
        ('2^32-less-1-in-halves', 'limit locals', 'local 2147483648 i32; local 2147483647 i64; end'),
        ('2^32-in-halves', 'text 4', 'local 2147483648 i32; local 2147483648 i64; end'),
        ('2^32-in-three-runs', 'text 5', 'local 2147483648 i32; local 2147483647 i64; local 1 i32; end'),
        ('2^32-and-more-behind', 'text 4', 'local 4294967295 i32; local 4294967295 i64; local 1 i32; end'),
        ('2^32-in-two-functions', 'limit locals', 'local 4294967295 i32; end; function 0; local 4294967295 i32; end'),
        ('2^32-in-the-second-function', 'text 7',
         'local 4294967295 i32; end; function 0; local 4294967295 i32; local 1 i64; end'),
        ('of-one-type', 'text 4', 'local 1 i32; local 1 i32; end'),
        ('of-one-type-of-references', 'text 4', 'local 1 null:0; local 2 null:0; end'),
        ('of-one-type-behind-another', 'text 5', 'local 1 i64; local 1 i32; local 1 i32; end'),
        ('of-one-type-thrice', 'text 4', 'local 1 i32; local 1 i32; local 1 i32; end'),
        ('of-a-type-that-is-not-there', 'invalid function 0', 'local 1 ref:1; end'),
        ('50001', 'limit locals', 'local 50001 i32; end'),
        ('50001-in-two-runs', 'limit locals', 'local 50000 i32; local 1 i64; end')]:
    COUNTS.refused(f'locals/{name}', said, BODY + lines)
for name, digits, lines in [
        ('of-one-type-with-another-between', '03 017F 017E 017F', 'local 1 i32; local 1 i64; local 1 i32'),
        ('of-types-that-are-alike', '03 016300 016400 0170', 'local 1 null:0; local 1 ref:0; local 1 null:func')]:
    COUNTS.both(f'locals/{name}', spelled(
        sec('types', '01 600000') + sec('functions', '01 00')
        + sec('codes', f'01 {len(bytes.fromhex(digits)) + 1:02X} {digits} 0B')), f'{BODY}{lines}; end')
COUNTS.both('locals/of-equal-types', spelled(
    sec('types', '02 600000 600000') + sec('functions', '01 00') + sec('codes', '01 08 02 016300 016301 0B')),
    'module; func ->; func ->; function 0; local 1 null:0; local 1 null:1; end')

# Blocks, `else` and `end`. The lines stand behind the first three of a text.
for name, line, lines in [
        ('else-in-a-body', 3, 'else; end'), ('else-behind-an-instruction', 4, 'nop; else; end'),
        ('else-in-a-block', 4, 'block void; else; end; end'), ('else-in-a-loop', 5, 'loop void; nop; else; end; end'),
        ('second-else', 5, 'if void; else; else; end; end'),
        ('second-else-behind-an-instruction', 7, 'if void; nop; else; nop; else; end; end'),
        ('else-of-an-if-around-a-block', 5, 'if void; block void; else; end; end; end'),
        ('else-behind-the-end-of-its-if', 5, 'if void; end; else; end'),
        ('second-else-behind-an-if-inside', 8, 'if void; else; if void; else; end; else; end; end'),
        ('third-else-inside', 7, 'if void; else; if void; else; else; end; end; end'),
        ('else-with-a-label', 4, 'if void; else 0; end; end'), ('end-with-a-label', 4, 'if void; end 0; end'),
        ('body-without-an-end', 4, 'nop'),
        ('block-without-an-end', 5, 'block void; end'), ('if-without-an-end', 6, 'if void; else; end'),
        ('three-blocks-with-three-ends', 9, 'block void; loop void; if void; end; end; end'),
        ('one-end-too-many', 4, 'end; end'), ('one-end-too-many-behind-a-block', 6, 'block void; end; end; end'),
        ('a-function-in-a-body', 3, 'function 0; end; end'),
        ('a-function-in-a-block', 4, 'block void; function 0; end'),
        ('a-module-in-a-body', 3, 'module; end'), ('a-type-in-a-body', 3, 'func ->; end'),
        ('data-in-a-body', 4, 'nop; data passive x; end'), ('an-item-behind-a-body', 4, 'end; memory 0 -'),
        ('an-instruction-behind-a-body', 4, 'end; nop'), ('a-hundred-blocks', 203, '; '.join(
            ['block void'] * 100 + ['end'] * 100))]:
    BLOCKS.wrong(f'block/{name}', line, BODY + lines)

# Which of several wrong lines is told: the least.
for name, line, lines in [
        ('two-words', 1, 'module; typ; func -; func ->'),
        ('a-word-and-the-order', 2, 'module; memory 0 -; bad; func ->'),
        ('the-order-and-a-word', 2, 'module; memory 0 -; func ->; bad'),
        ('two-numbers', 2, 'module; func ->; start 00; function 4294967296; end'),
        ('a-number-and-the-end', 3, 'module; func ->; function 0; i32.const 00'),
        ('an-else-and-a-name', 3, 'module; func ->; function 0; else; i32.ad; end'),
        ('a-name-and-an-else', 3, 'module; func ->; function 0; i32.ad; else; end'),
        ('the-module-and-a-type', 0, 'modul; func'), ('the-module-alone', 0, 'modul; func ->'),
        ('in-a-group', 2, 'module; rec 3; func; func ->; cont'),
        ('behind-a-group-that-lacks-types', 3, 'module; rec 3; func ->; start 00'),
        ('behind-the-first-type-of-a-group-of-2^70', 3, 'module; rec 1180591620717411303424; func ->; cont 00; cont'),
        ('in-the-offset-of-2^70-elements', 2,
         'module; elem active 0 null:func 1180591620717411303424; i32.const 00; end'),
        ('in-the-second-of-2^70-elements', 4,
         'module; elem passive null:func 1180591620717411303424; ref.null func; end; ref.null fun; end'),
        ('in-an-import-in-front-of-a-wrong-sum-of-locals', 1,
         'module; import x x func; function 0; local 4294967295 i32; local 1 i64; end'),
        ('a-wrong-sum-of-locals-in-front-of-a-wrong-end', 3,
         'module; function 0; local 4294967295 i32; local 1 i64; en'),
        ('neighbours-of-one-type-whose-sum-is-wrong', 3,
         'module; function 0; local 4294967295 i32; local 4294967295 i32'),
        ('a-wrong-line-that-is-not-the-last-of-its-block', 4, 'module; function 0; block void; nop; nop 0; end; en')]:
    LEAST.wrong(f'least/{name}', line, lines)
    LEAST.wrong(f'least/{name}/without-the-last-end-of-a-line', line, text(lines)[:-1])

# A text of an item of each kind that ends behind each of its lines, but where it is whole, and in each of its lines.
WHOLE = [['module'], ['func ->'], ['rec 2', 'open : func i32 ->', 'final 1 : func i32 ->']] + [
    ITEMS[name] for name in NAMES[1:]]
LINES = [line for item in WHOLE for line in item]
end = 0
for item in WHOLE:
    for number in range(end + 1, end + len(item)):
        LEAST.wrong(f'ends/behind-{number}-lines', number, LINES[:number])
    end += len(item)
for number in range(end):
    LEAST.wrong(f'ends/in-line-{number}', number, text(LINES[:number + 1])[:-1])
LEAST.wrong('ends/an-empty-line-behind-all', end, [*LINES, ''])
LEAST.wrong('ends/two-empty-lines-behind-all', end, [*LINES, '', ''])
LEAST.wrong('ends/a-blank-behind-all', end, text(LINES) + b' ')
LEAST.wrong('ends/a-zero-behind-all', end, text(LINES) + b'\0')
LEAST.wrong('ends/carriage-returns', 0, text(LINES).replace(b'\n', b'\r\n'))
LEAST.wrong('ends/carriage-returns-alone', 0, text(LINES).replace(b'\n', b'\r'))

# The order of what is said: of the text, then of the limits, then of validity.
for name, said, lines in [
        ('type', 'invalid type 0', 'cont 4294967295'),
        ('type-of-a-parameter', 'invalid type 0', 'func ref:4294967295 ->'),
        ('supertype', 'invalid type 0', 'open 4294967295 : func ->'),
        ('final-supertype', 'invalid type 1', 'func ->; final 0 : func ->'),
        ('two-supertypes', 'invalid type 2', 'open : func ->; open : func ->; final 0 1 : func ->'),
        ('type-of-a-group', 'invalid type 1', 'rec 2; func ->; cont 1'),
        ('import', 'invalid import 0', 'import x x func 4294967295'),
        ('imported-table', 'invalid import 0',
         'import x x table null:func 18446744073709551615 18446744073709551615'),
        ('imported-memory', 'invalid import 0', 'import x x memory 18446744073709551615 -'),
        ('imported-tag', 'invalid import 0', 'import x x tag 4294967295'),
        ('imported-global', 'invalid import 0', 'import x x global ref:4294967295 const'),
        ('table', 'invalid table 0', 'table null:func 18446744073709551615 -'),
        ('table-that-is-not-nullable', 'invalid table 0', 'table ref:func 0 -'),
        ('table-with-its-greatest-size-below-the-least', 'invalid table 0', 'table null:func 2 1'),
        ('memory', 'invalid memory', 'memory 0 18446744073709551615'),
        ('two-memories', 'invalid memory', 'memory 0 -; memory 0 -'), ('tag', 'invalid tag 0', 'tag 4294967295'),
        ('global', 'invalid global 0', 'global null:4294967295 const; ref.null func; end'),
        ('expression-of-a-global', 'invalid global 0', 'global i32 const; i64.const 0; end'),
        ('empty-expression', 'invalid global 0', 'global i32 const; end'),
        ('block-in-an-expression', 'invalid global 0',
         'global i32 const; block i32; if void; else; end; i32.const 0; end; end'),
        ('export', 'invalid export 0', 'export x func 4294967295'),
        ('exports-of-one-name', 'invalid export 1', 'memory 0 -; export x61 memory 0; export x61 memory 0'),
        ('start', 'invalid start', 'start 4294967295'),
        ('elements', 'invalid element 0', 'elem active 4294967295 ref:func 0; i32.const 0; end'),
        ('type-of-elements', 'invalid element 0', 'elem declare ref:4294967295 0'),
        ('elements-that-are-none', 'invalid element 0', 'elem passive null:func 1; i32.const 0; end'),
        ('element-of-nothing', 'invalid element 0', 'elem passive ref:func 1; end'),
        ('element-of-two-functions', 'invalid element 0',
         'func ->; import x x func 0; elem passive ref:func 1; ref.func 0; ref.func 0; end'),
        ('data', 'invalid data 0', 'memory 0 -; data active 4294967295 x; i32.const 0; end'),
        ('data-without-a-memory', 'invalid data 0', 'data active 0 x; i32.const 0; end'),
        ('function', 'invalid function 0', 'function 4294967295; end'),
        ('function-of-a-continuation-type', 'invalid function 0', 'func ->; cont 0; function 1; end'),
        ('second-function', 'invalid function 1', 'func ->; func -> i32; function 0; end; function 1; end'),
        ('product-of-nothing', 'invalid function 0', 'func -> i64; function 0; i64.mul; end'),
        ('memory.size-without-a-memory', 'invalid function 0', 'func -> i32; function 0; memory.size 0; end')]:
    JUDGED.refused(f'invalid/{name}', said, f'module; {lines}')
for name, said, lines in [
        ('text-before-a-type', 'text 2', 'cont 9; tag'), ('text-before-a-type-at-the-end', 'text 2', 'cont 9; tag 0 0'),
        ('text-before-locals', 'text 5', 'func ->; function 0; local 50001 i32; end; en'),
        ('text-before-locals-that-lack-their-end', 'text 4', 'func ->; function 0; local 50001 i32'),
        ('locals-before-a-type', 'limit locals', 'cont 9; function 0; local 50001 i32; end'),
        ('locals-before-an-export', 'limit locals', 'func ->; export x tag 7; function 0; local 50001 i32; drop; end'),
        ('locals-of-the-second-function', 'limit locals',
         'func ->; function 0; drop; end; function 0; local 50001 i32; end'),
        ('locals-with-parameters', 'limit locals', 'func i32 i64 ->; function 0; local 49999 i32; end'),
        ('locals-and-parameters-of-no-type', 'limit locals', 'function 7; local 50001 i32; end'),
        ('the-first-item', 'invalid table 0', 'table ref:func 0 -; memory 1 0; tag 0; start 0'),
        ('data-before-the-start-and-exports', 'invalid data 0',
         'export x func 0; start 0; data active 0 x; i32.const 0; end')]:
    JUDGED.refused(f'first/{name}', said, f'module; {lines}')
EMPTY_TYPE = text('func ->').hex().upper()


def large(name, said, words):
    """A text of `module` and what these words spell."""
    JUDGED.rows.append(CallRow(f'limit/{name}', 'asm x', f'{text("module").hex().upper()} {words}', answered(said)))


def long_type(parameters, results):
    """A function type of so many parameters and results of i32."""
    types = [f'20693332*{count} ' if count else '' for count in (parameters, results)]
    return f'66756E63 {types[0]}202D3E {types[1]}0A'


large('10001-types', 'limit types', f'{EMPTY_TYPE}*10001')
large('10001-types-in-a-group', 'limit types', f'{text("rec 10001").hex().upper()} {EMPTY_TYPE}*10001')
large('10001-types-that-are-not-valid', 'limit types', f'{text("cont 9").hex().upper()} {EMPTY_TYPE}*10000')
large('10001-types-and-a-wrong-line', 'text 10002', f'{EMPTY_TYPE}*10001 {text("tag 00").hex().upper()}')
large('10001-types-and-no-end', 'text 10003', f'{EMPTY_TYPE}*10001 {text("function 0").hex().upper()}')
large('10000-types-of-10001-in-a-group', 'text 10002', f'{text("rec 10001").hex().upper()} {EMPTY_TYPE}*10000')
large('1001-parameters', 'limit params', long_type(1001, 0))
large('1001-results', 'limit params', long_type(1000, 1001))
large('1001-parameters-behind-a-type-that-is-not-valid', 'limit params',
      f'{text("cont 9").hex().upper()} {long_type(1001, 1)}')
large('1001-parameters-and-a-wrong-line', 'text 2', f'{long_type(1001, 0)} {text("cont").hex().upper()}')
large('1001-parameters-and-half-a-line', 'text 2', f'{long_type(1001, 0)} 636F')
large('1001-parameters-and-50001-locals', 'limit params',
      f'{long_type(1001, 0)} {text("function 0; local 50001 i64; end").hex().upper()}')
JUDGED.spelled_both('limit/10000-types', '0061736D01000000 01B2EA01 904E 600000*10000',
                    f'{text("module").hex().upper()} {EMPTY_TYPE}*10000')

# Blocks in one another, some thousands.
BLOCK, END = text('block void').hex().upper(), text('end').hex().upper()
DEEP_FRONT = text('module; func ->; function 0').hex().upper()
JUDGED.spelled_both(
    'deep/blocks', '0061736D01000000 010401600000 03020100 0AE55D 01E25D00 0240*4000 0B*4001',
    f'{DEEP_FRONT} {BLOCK}*4000 {END}*4001')
JUDGED.rows.append(CallRow(
    'deep/blocks-of-which-one-has-no-end', 'asm x', f'{DEEP_FRONT} {BLOCK}*4000 {END}*4000', answered('text 8003')))
JUDGED.rows.append(CallRow(
    'deep/an-else-in-the-innermost-block', 'asm x',
    f'{DEEP_FRONT} {BLOCK}*4000 {text("else").hex().upper()} {END}*4001', answered('text 4003')))

# Files that are no text, whatever they are else.
SCRIPT = b'fn main() { return 0; }\n'
PRODUCT = spelled(FRONT + '0A09010700420642077E0B')
for name, data in [
        ('nothing', b''), ('a-line-feed', b'\n'), ('two-line-feeds', b'\n\n'), ('a-blank', b' '), ('a-zero', b'\0'),
        ('the-header-of-a-module', spelled('')), ('four-bytes-of-a-header', b'\0asm'),
        ('a-module', PRODUCT), ('a-module-and-a-line-feed', PRODUCT + b'\n'),
        ('a-module-behind-a-line-feed', b'\n' + PRODUCT), ('a-script', SCRIPT),
        ('a-comment-of-a-script', b'# module\n'),
        ('a-text-of-the-standard', b'(module)\n'), ('module-in-capitals', b'MODULE\n'),
        ('module-without-a-line-feed', b'module'), ('half-a-module', b'mod'), ('module-behind-a-blank', b' module\n'),
        ('module-behind-a-line-feed', b'\nmodule\n'), ('module-behind-a-byte-order-mark', b'\xef\xbb\xbfmodule\n'),
        ('module-in-front-of-a-blank', b'module \n'), ('module-in-front-of-a-carriage-return', b'module\r\n'),
        ('module-in-front-of-a-zero', b'module\0\n'), ('module-in-two-bytes-each', 'module\n'.encode('utf-16-le')),
        ('module-with-a-name', b'module x6d\n'), ('modules', b'modules\n'), ('a-byte-that-is-not-ascii', b'\xff\n')]:
    FILES.wrong(f'file/{name}', 0, data)
for name, line, data in [
        ('module-and-a-blank', 1, b'module\n '), ('module-and-an-empty-line', 1, b'module\n\n'),
        ('module-and-a-carriage-return', 1, b'module\n\r'), ('module-and-a-script', 1, b'module\n' + SCRIPT),
        ('module-and-a-module', 1, b'module\n' + PRODUCT), ('module-and-a-comment', 1, b'module\n;; nothing\n'),
        ('module-and-a-byte-that-is-not-ascii', 1, b'module\nfunc \xc2\xa0->\n'),
        ('module-and-a-vertical-tab', 1, b'module\nfunc\x0b->\n'),
        ('module-and-a-line-separator', 1, b'module\nfunc ->\xe2\x80\xa8\n'),
        ('a-form-feed-between-lines', 1, b'module\nfunc ->\x0cfunc ->\n'),
        ('module-and-a-zero-in-a-name', 1, b'module\nexport x\0 func 0\n')]:
    FILES.wrong(f'file/{name}', line, data)

# `dump` of what isn't dumped: scripts, bytes that are no module, and modules past limits or not valid.
for name, data in [
        ('nothing', b''), ('a-script', SCRIPT), ('a-text', text('module; func ->')),
        ('a-script-that-breaks-a-rule', b'#\n'), ('no-token', b'?'), ('three-bytes-of-a-header', b'\0as'),
        ('four-bytes-of-a-header', b'\0asm'),
        ('seven-bytes-of-a-header', spelled('')[:7]), ('another-version', b'\0asm\2\0\0\0'),
        ('a-module-behind-a-blank', b' ' + PRODUCT)]:
    DUMPED.not_dumped(f'dump/{name}', 'malformed header', data)
EMPTY_FUNCTION = sec('types', '01 600000') + sec('functions', '01 00')
for name, said, digits in [
        ('frame', 'malformed frame 1', '0601000D0100'), ('frame-without-a-size', 'malformed frame 0', '01'),
        ('content', 'malformed content 0', '0503010200'), ('name-that-is-not-utf-8', 'malformed content 0', '000201FF'),
        ('opcode', 'malformed content 3', NOTHING + '0A05010300E40B'),
        ('second-else', 'malformed content 3', NOTHING + '0A0B0109004100044005050B0B'),
        ('2^32-locals', 'malformed content 2',
         EMPTY_FUNCTION + sec('codes', '01 0A 02 FFFFFFFF0F7F 017E 0B')),
        ('counts', 'malformed counts', '03020100'), ('data-count', 'malformed counts', '0C0101'),
        ('no-data-count', 'malformed counts', NOTHING + '0A08010600FC0800000B'),
        ('locals', 'limit locals', NOTHING + '0A08010601D186037F0B'),
        ('params', 'limit params', sec('types', f'01 60E907{"7F" * 1001}00')),
        ('params-before-a-type-that-is-not-valid', 'limit params', sec('types', f'02 5D05 60E907{"7E" * 1001}00')),
        ('type', 'invalid type 0', sec('types', '01 5D00')),
        ('import', 'invalid import 0', sec('imports', '01 00000005')),
        ('table', 'invalid table 0', sec('tables', '01 6470 00 00')),
        ('memory', 'invalid memory', sec('memories', '02 00 00 00 00')),
        ('tag', 'invalid tag 0', sec('tags', '01 0000')),
        ('global', 'invalid global 0', sec('globals', '01 7F 00 42000B')),
        ('elements', 'invalid element 0', sec('elements', '01 00 41000B 00')),
        ('data', 'invalid data 0', sec('datas', '01 00 41000B 00')), ('start', 'invalid start', sec('start', '00')),
        ('export', 'invalid export 0', sec('exports', '01 00 00 00')),
        ('function', 'invalid function 0', FRONT + '0A050103007E0B'),
        ('memory-5-of-an-instruction', 'invalid function 0',
         EMPTY_FUNCTION + sec('memories', '01 00 00') + sec('codes', '01 05 00 3F 05 1A 0B')),
        ('data-of-memory-1', 'invalid data 0', sec('memories', '01 00 00') + sec('datas', '01 02 01 41000B 00'))]:
    DUMPED.not_dumped(f'dump/{name}', said, spelled(digits))
DUMPED.rows.append(CallRow(
    'dump/types', 'dump x', '0061736D01000000 01B5EA01 914E 600000*10001', answered('limit types')))
