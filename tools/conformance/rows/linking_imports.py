"""Imports of each kind that fit what an earlier file exports, and imports that don't; and by which names."""

from itertools import product

from assembler.instructions import UNREACHABLE, call, i32_const, i64_const, ref_func, ref_null
from assembler.types import (
    CONTREF, FUNC, FUNCREF, I32, I64, NOCONT, NOFUNC, NULLCONTREF, NULLFUNCREF, conttype, final_type, functype,
    limits, nullable, open_type, rec_group, ref)
from rows.equivalence import Cont, Declared, Func, Numbers, Reference, declared, equivalent, group_bytes
from rows.linking_samples import File, LinkSection, gives, no_import, says
from rows.sections import VALID
from rows.subtyping_by_chance import DeclaringChance, Definition

FUNCTION_TYPES = LinkSection('function types')
TYPES_BY_CHANCE = LinkSection('types by chance')
TABLES_AND_MEMORIES = LinkSection('tables and memories')
GLOBALS = LinkSection('globals')
TAGS = LinkSection('tags')
KINDS = LinkSection('kinds')
NAMES = LinkSection('names')
PRINTERS = LinkSection('printers')

DONE = gives(1)
ONE = i32_const(1)


def importing(kind, *described, groups=(), source='m0', item='x', printer=False):
    """A file that imports this, maybe behind a printer, and whose main gives 1."""
    file = File(*groups)
    if printer:
        file.printer()
    file.take(source, item, kind, *described)
    return file.main([I32], ONE)


def told(section, name, fits, given, wanting, number=0):
    section.row(name, given, wanting, wanted=DONE if fits else no_import(1, number))


# Function types, as a list of groups of which the last type, or the one of a number, is that of the function.

NOTHING = functype([], [])
GROUPS = {
    'nothing': ([NOTHING], 0), 'i32': ([functype([I32], [])], 0), 'i64': ([functype([I64], [])], 0),
    'giving-i32': ([functype([], [I32])], 0), 'giving-i64': ([functype([], [I64])], 0),
    'two-i32': ([functype([I32, I32], [])], 0), 'funcref': ([functype([FUNCREF], [])], 0),
    'giving-funcref': ([functype([], [FUNCREF])], 0), 'nullfuncref': ([functype([NULLFUNCREF], [])], 0),
    'not-null': ([functype([ref(FUNC)], [])], 0),
    'behind-others': ([functype([I64], []), functype([], [I64]), NOTHING], 2),
    'behind-itself': ([NOTHING, NOTHING], 1), 'open': ([open_type(NOTHING)], 0), 'final': ([final_type(NOTHING)], 0),
    'below-open': ([open_type(NOTHING), open_type(NOTHING, 0)], 1),
    'final-below-open': ([open_type(NOTHING), final_type(NOTHING, 0)], 1),
    'two-below-open': ([open_type(NOTHING), open_type(NOTHING, 0), open_type(NOTHING, 1)], 2),
    'below-an-equal-one': ([open_type(NOTHING), open_type(NOTHING), open_type(NOTHING, 1)], 2),
    'first-of-a-pair': ([[NOTHING, NOTHING]], 0), 'second-of-a-pair': ([[NOTHING, NOTHING]], 1),
    'first-of-three': ([[NOTHING] * 3], 0), 'in-a-group-of-one': ([rec_group([NOTHING])], 0),
    'second-of-a-pair-behind-i64': ([functype([I64], []), [NOTHING, NOTHING]], 2),
    'taking-itself': ([rec_group([functype([nullable(0)], [])])], 0),
    'taking-itself-behind-i64': ([functype([I64], []), rec_group([functype([nullable(1)], [])])], 1),
    'taking-nothing-s': ([NOTHING, functype([nullable(0)], [])], 1),
    'taking-nothing-s-behind-i64': ([functype([I64], []), NOTHING, functype([nullable(1)], [])], 2),
    'taking-i64-s': ([functype([I64], []), functype([nullable(0)], [])], 1),
    'taking-a-continuation': ([NOTHING, conttype(0), functype([nullable(1)], [])], 2),
    'taking-a-continuation-behind-i64': ([
        functype([I64], []), NOTHING, conttype(1), functype([nullable(2)], [])], 3),
    'taking-a-continuation-of-i64': ([functype([I64], []), conttype(0), functype([nullable(1)], [])], 2),
}
# Types that are the same, and pairs of others of which the first is below the second.
SAME = [
    {'nothing', 'behind-others', 'behind-itself', 'final', 'in-a-group-of-one'},
    {'taking-itself', 'taking-itself-behind-i64'}, {'second-of-a-pair', 'second-of-a-pair-behind-i64'},
    {'taking-nothing-s', 'taking-nothing-s-behind-i64'}, {'below-open', 'below-an-equal-one'},
    {'taking-a-continuation', 'taking-a-continuation-behind-i64'}]
BELOW = [
    ('below-open', 'open'), ('final-below-open', 'open'), ('two-below-open', 'open'), ('two-below-open', 'below-open'),
    ('below-an-equal-one', 'open'), ('two-below-open', 'below-an-equal-one')]


def _are_same(given, wanted):
    return given == wanted or any({given, wanted} <= each for each in SAME)


# Pairs that don't fit, though little is between them.
CLOSE = [
    *((upper, lower) for lower, upper in BELOW), ('open', 'nothing'), ('nothing', 'open'), ('below-open', 'nothing'),
    ('nothing', 'below-open'), ('final-below-open', 'nothing'), ('final-below-open', 'below-open'),
    ('first-of-a-pair', 'second-of-a-pair'), ('first-of-a-pair', 'nothing'), ('nothing', 'second-of-a-pair'),
    ('first-of-a-pair', 'first-of-three'), ('taking-itself', 'taking-nothing-s'), ('taking-nothing-s', 'taking-itself'),
    ('taking-nothing-s', 'taking-i64-s'), ('taking-a-continuation', 'taking-a-continuation-of-i64'),
    ('giving-funcref', 'giving-i32'), ('funcref', 'not-null'), ('not-null', 'funcref'), ('funcref', 'nullfuncref')]


def _is_kept(given, wanted, part):
    """Whether a pair has a row: where it doesn't fit but is close, and one of so many of the others."""
    places = list(GROUPS)
    return (given, wanted) in CLOSE or not (7 * places.index(given) + places.index(wanted)) % part


def function_file(groups, number):
    """A file that exports a function of this type."""
    file = File(*groups)
    file.function_of(number, UNREACHABLE, name='x')
    return file.bytes()


def _function_rows():
    """Each pair that fits, and of the others those whose files differ little."""
    for given, wanted in product(GROUPS, GROUPS):
        groups, number = GROUPS[given]
        wanted_groups, wanted_number = GROUPS[wanted]
        fits = _are_same(given, wanted) or (given, wanted) in BELOW
        if not _is_kept(given, wanted, 4 if fits else 29) and (given, wanted) not in BELOW:
            continue
        told(FUNCTION_TYPES, f'function/{given}-for-{wanted}', fits, function_file(groups, number),
             importing('func', wanted_number, groups=wanted_groups))


# Types by chance, which both files have, behind a number of others in the second one: a function or a tag of one of
# them for an import of another. The plain definition says which match and which are equivalent.

CHOSEN = Numbers(17)


def _moved(member, count):
    """A type of a group that stands behind so many more types."""
    composite, final, supertypes = declared(member)

    def value(given):
        if isinstance(given, Reference) and isinstance(given.heap, int):
            return Reference(given.heap + count, given.null)
        return given

    if isinstance(composite, Cont):
        moved = Cont(composite.function + count)
    else:
        moved = Func(*(tuple(map(value, row)) for row in composite))
    return Declared(moved, final, tuple(above + count for above in supertypes))


def _chance_file(groups, count=0):
    """A file with these types behind so many others."""
    file = File(*[functype([I64] * (number + 1), []) for number in range(count)])
    for group in groups:
        file.types.groups.append(group_bytes([_moved(member, count) for member in group]))
        file.types.count += len(group)
    return file


def _chance_rows():
    number = 0
    while number < 8:
        groups = DeclaringChance(CHOSEN).groups()
        definition = Definition(groups)
        if definition.answer() == VALID:
            number += 1
            _chance_pairs(number, groups, definition)


def _chance_pairs(number, groups, definition):
    functions = [index for index, each in enumerate(definition.members) if isinstance(each.composite, Func)]
    pairs = list(product(functions, functions))
    below = [pair for pair in pairs if pair[0] != pair[1] and definition.matches_index(*pair)]
    others = [pair for pair in pairs if not definition.matches_index(*pair)]
    chosen = [pairs[CHOSEN.below(len(pairs))], *below[:2], *others[CHOSEN.below(3)::7][:1]]
    count = 1 + CHOSEN.below(3)
    for lower, upper in dict.fromkeys(chosen):
        name = f'{number}/{lower}-for-{upper}'
        file, wanting = _chance_file(groups), _chance_file(groups, count)
        file.function_of(lower, UNREACHABLE, name='x')
        wanting.take('m0', 'x', 'func', upper + count)
        told(TYPES_BY_CHANCE, f'function-by-chance-{name}', definition.matches_index(lower, upper), file.bytes(),
             wanting.main([I32], ONE))
        file, wanting = _chance_file(groups), _chance_file(groups, count)
        file.tag_of(lower, name='x')
        wanting.take('m0', 'x', 'tag', upper + count)
        told(TYPES_BY_CHANCE, f'tag-by-chance-{name}', equivalent(groups, lower, upper), file.bytes(),
             wanting.main([I32], ONE))


def _table_rows():
    given_limits = {'2': (2, None), '2-5': (2, 5), '0-0': (0, 0)}
    wanted_limits = {
        **given_limits, '3': (3, None), '3-5': (3, 5), '1-5': (1, 5), '2-4': (2, 4), '1': (1, None),
        '0-65536': (0, 65536)}
    for given, wanted in product(given_limits, wanted_limits):
        (minimum, maximum), (least, greatest) = given_limits[given], wanted_limits[wanted]
        fits = minimum >= least and (greatest is None or maximum is not None and maximum <= greatest)
        file = File()
        file.table(FUNCREF, limits(minimum, maximum), name='x')
        told(TABLES_AND_MEMORIES, f'table/{given}-for-{wanted}', fits, file.bytes(),
             importing('table', FUNCREF, limits(least, greatest)))
        file = File()
        file.memory(limits(minimum, maximum), name='x')
        told(TABLES_AND_MEMORIES, f'memory/{given}-for-{wanted}', fits, file.bytes(),
             importing('memory', limits(least, greatest)))
    for kind, greatest in [('table', 2 ** 32 - 1), ('memory', 65536)]:
        described = (FUNCREF,) if kind == 'table' else ()
        file = File()
        getattr(file, kind)(*described, limits(1), name='x')
        told(TABLES_AND_MEMORIES, f'{kind}/none-for-the-greatest', False, file.bytes(),
             importing(kind, *described, limits(1, greatest)))
        told(TABLES_AND_MEMORIES, f'{kind}/none-for-the-greatest-least', False, file.bytes(),
             importing(kind, *described, limits(greatest, greatest)))
        file = File()
        getattr(file, kind)(*described, limits(1, greatest), name='x')
        told(TABLES_AND_MEMORIES, f'{kind}/the-greatest-for-itself', True, file.bytes(),
             importing(kind, *described, limits(1, greatest)))
        told(TABLES_AND_MEMORIES, f'{kind}/the-greatest-for-one-less', False, file.bytes(),
             importing(kind, *described, limits(1, greatest - 1)))


# Reference types, with the groups in which their indices are, and a name for what is equal.
REFERENCES = {
    'funcref': ([], FUNCREF, 'func'), 'contref': ([], CONTREF, 'cont'), 'nullfuncref': ([], NULLFUNCREF, 'nofunc'),
    'nullcontref': ([], NULLCONTREF, 'nocont'), 'not-null-func': ([], ref(FUNC), 'func!'),
    'of-nothing': ([NOTHING], nullable(0), 'nothing'),
    'of-nothing-behind': ([functype([I64], []), NOTHING], nullable(1), 'nothing'),
    'not-null-of-nothing': ([NOTHING], ref(0), 'nothing!'),
    'not-null-of-nothing-behind': ([functype([I64], []), NOTHING], ref(1), 'nothing!'),
    'of-i64': ([functype([I64], [])], nullable(0), 'i64'),
    'of-a-continuation': ([NOTHING, conttype(0)], nullable(1), 'continuation'),
    'of-a-continuation-behind': ([functype([I64], []), NOTHING, conttype(1)], nullable(2), 'continuation'),
    'of-an-open-type': ([open_type(NOTHING)], nullable(0), 'open'),
    'of-one-below': ([open_type(NOTHING), final_type(NOTHING, 0)], nullable(1), 'below'),
    'of-a-pair': ([[NOTHING, NOTHING]], nullable(0), 'pair'),
}
# What the heap type of each is below. A name with `!` is one of references that can't be null.
ABOVE = {
    'nofunc': {'func', 'nothing', 'i64', 'open', 'below', 'pair'}, 'nocont': {'cont', 'continuation'},
    'nothing': {'func'}, 'i64': {'func'}, 'open': {'func'}, 'below': {'open', 'func'}, 'pair': {'func'},
    'continuation': {'cont'}}


def _is_below(given, wanted):
    lower, upper = given.rstrip('!'), wanted.rstrip('!')
    return (lower == upper or upper in ABOVE.get(lower, ())) and ('!' in given or '!' not in wanted)


def _initial(name, groups, file):
    """What makes a value of a reference type: null, or a reference to a function where it may not be null."""
    if '!' not in REFERENCES[name][2]:
        return ref_null(NOCONT if REFERENCES[name][2] in ('cont', 'nocont', 'continuation') else NOFUNC)
    return ref_func(file.function_of(len(groups) - 1, UNREACHABLE) if groups else file.function([], [], b''))


def _reference_rows():
    """Tables and variables of equal types, and constants whose types match."""
    for given, wanted in product(REFERENCES, REFERENCES):
        groups, value_type, name = REFERENCES[given]
        wanted_groups, wanted_type, wanted_name = REFERENCES[wanted]
        equal = name == wanted_name
        below = _is_below(name, wanted_name)
        if not below and (len(given) + 2 * len(wanted)) % 8:
            continue
        kinds = [('constant', below), ('table', equal), ('variable', equal)]
        for kind, fits in kinds if equal else [kinds[len(wanted) % 3]] if below else kinds[:1]:
            file = File(*groups)
            initial = _initial(given, groups, file)
            if kind == 'table':
                file.table(value_type, limits(1), initial, name='x')
            else:
                getattr(file, kind)(value_type, initial, name='x')
            described = (wanted_type, limits(1)) if kind == 'table' else (wanted_type, kind == 'variable')
            told(TABLES_AND_MEMORIES if kind == 'table' else GLOBALS, f'{kind}/{given}-for-{wanted}', fits,
                 file.bytes(), importing('table' if kind == 'table' else 'global', *described, groups=wanted_groups))


def _global_rows():
    for given, wanted in product([(I32, False), (I32, True), (I64, False), (I64, True), (FUNCREF, True)], repeat=2):
        file = File()
        initial = {I32: ONE, I64: i64_const(1)}.get(given[0], ref_null(FUNC))
        (file.variable if given[1] else file.constant)(given[0], initial, name='x')
        names = {I32: 'i32', I64: 'i64', FUNCREF: 'funcref'}
        name = '-for-'.join(f'{"variable" if mutable else "constant"}-{names[value_type]}' for value_type, mutable in (
            given, wanted))
        told(GLOBALS, f'global/{name}', given == wanted, file.bytes(), importing('global', *wanted))


def _tag_rows():
    """Tags by equivalence: one below isn't enough."""
    for given, wanted in product(GROUPS, GROUPS):
        alike = _are_same(given, wanted)
        if not _is_kept(given, wanted, 6 if alike else 61) and (given, wanted) not in BELOW:
            continue
        groups, number = GROUPS[given]
        wanted_groups, wanted_number = GROUPS[wanted]
        file = File(*groups)
        file.tag_of(number, name='x')
        told(TAGS, f'tag/{given}-for-{wanted}', alike, file.bytes(), importing(
            'tag', wanted_number, groups=wanted_groups))


def everything(names='xxxxx'):
    """A file that exports one of each kind, by these names where they are not empty."""
    file = File()
    function, table, memory = file.function([], [], b''), file.table(FUNCREF, limits(1)), file.memory(limits(1))
    constant, tag = file.constant(I32, ONE), file.tag()
    for name, kind, index in zip(names, ('func', 'table', 'memory', 'global', 'tag'), (
            function, table, memory, constant, tag)):
        if name.strip():
            file.give(name, kind, index)
    return file.bytes()


DESCRIBED = {
    'func': (0,), 'table': (FUNCREF, limits(1)), 'memory': (limits(1),), 'global': (I32,), 'tag': (0,)}


def _kind_rows():
    """Exports of one kind for imports of another, which can't fit though all else is right."""
    for place, given in enumerate(DESCRIBED):
        names = ''.join('x' if number == place else ' ' for number in range(5))
        for wanted, described in DESCRIBED.items():
            told(KINDS, f'kind/{given}-for-{wanted}', given == wanted, everything(names), importing(
                wanted, *described, groups=[NOTHING]))
            told(KINDS, f'kind/{given}-for-{wanted}-behind-a-printer', given == wanted, everything(names), importing(
                wanted, *described, groups=[NOTHING, functype([I32], [])], printer=True), number=1)


def _name_rows():
    given = everything('ftmgx')
    for kind, item in zip(DESCRIBED, 'ftmgx'):
        wanting = {'groups': [NOTHING], 'item': item}
        sources = ['m0', 'm', 'm00', 'm1', 'm2', 'host', 'm0 ', 'M0', '0', '', 'm-0', 'm0x', 'a', 'm+0', ' m0', 'm0\0']
        for source in sources if kind == 'func' else sources[:4]:
            fits = source == 'm0'
            told(NAMES, f'{kind}/of-{source!r}', fits, given, importing(
                kind, *DESCRIBED[kind], source=source, **wanting))
        for other in ('y', '', item * 2, item.upper(), f'{item} ', 'main')[:6 if kind == 'func' else 2]:
            told(NAMES, f'{kind}/named-{other!r}', False, given, importing(
                kind, *DESCRIBED[kind], groups=[NOTHING], item=other))
        own = File(NOTHING)
        own.take('m1', item, kind, *DESCRIBED[kind])
        own.give(item, kind, 0)
        told(NAMES, f'{kind}/of-the-file-itself', False, given, own.main([I32], ONE))
        first = importing(kind, *DESCRIBED[kind], source='m1', **wanting)
        NAMES.row(f'{kind}/of-a-later-file', first, given, File().main(), wanted=no_import(0))
        NAMES.row(f'{kind}/of-the-first-of-three', given, File().bytes(), importing(
            kind, *DESCRIBED[kind], **wanting), wanted=DONE)
        NAMES.row(f'{kind}/of-the-second-of-three', File().bytes(), given, importing(
            kind, *DESCRIBED[kind], source='m1', **wanting), wanted=DONE)
        NAMES.row(f'{kind}/of-the-third-of-three', File().bytes(), given, importing(
            kind, *DESCRIBED[kind], source='m2', **wanting), wanted=no_import(2))
    for name in ('', 'm0', 'host', 'ä', '\U00012345', 'a b', '"', '\0'):
        file = File()
        file.function([], [I32], i32_const(8), name=name)
        taken = File()
        index = taken.take_function('m0', name, [], [I32])
        NAMES.row(f'exported-as-{ascii(name)}', file.bytes(), taken.main([I32], call(index)), wanted=gives(8))


def _printer_rows():
    """Printers in the second file, those that are handed on, and what isn't a printer."""
    types = {'print_i32': [I32], 'print_i64': [I64], 'print_byte': [I32]}
    for item, parameters in types.items():
        constant = i32_const if parameters == [I32] else i64_const
        for name, wanted_parameters, results, fits in [
                ('its-type', parameters, [], True), ('of-nothing', [], [], False), ('of-two', [I32, I64], [], False),
                ('with-a-result', parameters, [I32], False), ('of-funcref', [FUNCREF], [], False),
                ('of-the-other-number', [I64 if parameters == [I32] else I32], [], False)]:
            file = File(functype([I64, I64], []))
            index = file.take_function('host', item, wanted_parameters, results)
            body = constant(66) + call(index) if fits else b''
            shown = ['out 42'] if item == 'print_byte' else ['out | 66']
            PRINTERS.row(f'{item}/{name}', File().bytes(), file.main([], body), wanted=shown if fits else no_import(1))
        PRINTERS.row(f'{item}/of-m0', File().bytes(), importing(
            'func', 0, groups=[functype(parameters, [])], item=item), wanted=no_import(1))
        named = File()
        named.function(parameters, [], UNREACHABLE, name=item)
        PRINTERS.row(f'{item}/a-function-of-m0-of-this-name', named.bytes(), importing(
            'func', 0, groups=[functype(parameters, [])], item=item), wanted=DONE)
    for item in ('print', 'print_f32', '', 'main', 'print_i32 ', 'Print_i32'):
        PRINTERS.row(f'host/{item!r}', File().bytes(), importing(
            'func', 0, groups=[functype([I32], [])], source='host', item=item), wanted=no_import(1))
    for name, described in DESCRIBED.items():
        PRINTERS.row(f'host/print_i32-as-{name}', File().bytes(), importing(
            name, *described, groups=[NOTHING], source='host', item='print_i32'), wanted=no_import(1))


def _order_rows():
    """The first file with an import that nothing fits, and its first such import; all kinds are counted together."""
    given = everything('ftmgx')
    for bad in range(6):
        file = File(NOTHING)
        for number, (kind, item) in enumerate(zip(DESCRIBED, 'ftmgx')):
            file.take('m0', '?' if number == bad else item, kind, *DESCRIBED[kind])
        KINDS.row(f'all-kinds/import-{bad}-is-wrong', given, file.main([I32], ONE),
                  wanted=DONE if bad == 5 else no_import(1, bad))
    for first, second in [(0, 4), (4, 0), (2, 2), (1, 3), (3, 1)]:
        files = []
        for bad in (first, second):
            file = File(NOTHING)
            for number, (kind, item) in enumerate(zip(DESCRIBED, 'ftmgx')):
                file.take('m0', '?' if number == bad else item, kind, *DESCRIBED[kind])
            files.append(file.main([I32], ONE))
        KINDS.row(f'two-files/import-{first}-and-then-{second}', given, *files, wanted=no_import(1, first))
    twice = File(NOTHING)
    for _ in range(2):
        for number, (kind, item) in enumerate(zip(DESCRIBED, 'ftmgx')):
            if kind != 'memory' or twice.imported['memory'] == 0:
                twice.take('m0', item, kind, *DESCRIBED[kind])
    KINDS.row('all-kinds/each-twice', given, twice.main([I32], ONE), wanted=DONE)
    bad = File(NOTHING)
    bad.take('m0', '?', 'func', 0)
    KINDS.row('no-entry-and-no-import', given, bad.bytes(), wanted=says('no entry', 4))
    KINDS.row('the-first-file-has-no-import', bad.bytes(), given, File().main(), wanted=no_import(0))


_function_rows()
_chance_rows()
_table_rows()
_reference_rows()
_global_rows()
_tag_rows()
_kind_rows()
_name_rows()
_printer_rows()
_order_rows()
