"""Lines of instructions, and what stands for them in .wat."""

from words import constant, heap_type, number, row_of_types, value_type

OPENING = ('block', 'loop', 'if')
ELSE, END = 'else', 'end'

_WITHOUT_WORDS = 'unreachable nop else end return drop select ref.is_null ref.as_non_null'
_OF_ONE_INDEX = (
    'br br_if call return_call call_ref return_call_ref br_on_null br_on_non_null local.get local.set local.tee '
    'global.get global.set table.get table.set table.grow table.size table.fill elem.drop data.drop ref.func cont.new '
    'suspend')
_OF_TWO_INDICES = 'table.copy cont.bind switch'
_OF_INTEGERS = (
    'eqz eq ne lt_s lt_u gt_s gt_u le_s le_u ge_s ge_u clz ctz popcnt add sub mul div_s div_u rem_s rem_u and or xor '
    'shl shr_s shr_u rotl rotr extend8_s extend16_s')
_CONVERSIONS = 'i32.wrap_i64 i64.extend_i32_s i64.extend_i32_u i64.extend32_s'
_ACCESSES = 'load store load8_s load8_u load16_s load16_u store8 store16'
_LONG_ACCESSES = 'i64.load32_s i64.load32_u i64.store32'


def _alike(*reads):
    """What has these words behind its name, in both formats in this order."""
    def told(name, *words):
        return ' '.join([name, *(read(word) for read, word in zip(reads, words, strict=True))])
    return told


def _labels(name, *words):
    """Labels, one at least."""
    return _alike(*[number] * max(1, len(words)))(name, *words)


def _block(name, shape):
    """A block, whose type is none, that of a result, or the index of a type."""
    kind, _, index = shape.partition(':')
    if kind == 'type':
        return f'{name} (type {number(index)})'
    return name if shape == 'void' else f'{name} {row_of_types("result", [shape])}'


def _select(_name, *types):
    return ' '.join(['select', *(f'(result {value_type(each)})' for each in types)])


def _access(name, alignment, offset):
    """A load or a store. The alignment is told by its exponent."""
    front = name if offset == '0' else f'{name} offset={number(offset)}'
    return f'{front} align={2 ** int(number(alignment))}'


def _indirect(name, function_type, table):
    return f'{name} {number(table)} (type {number(function_type)})'


def _table_init(name, segment, table):
    return f'{name} {number(table)} {number(segment)}'


def _with_memories(indices, memories):
    """What has so many indices and then so many memories, which are 0 and are left out."""
    def told(name, *words):
        if words[indices:] != ('0',) * memories:
            raise ValueError('another memory than the one that there is')
        return _alike(*[number] * indices)(name, *words[:indices])
    return told


def _resume(name, continuation, *clauses):
    return ' '.join([name, number(continuation), *map(_clause, clauses)])


def _clause(word):
    """A clause of a resume: a tag and a label, or `switch` and a tag."""
    kind, *numbers = word.split(':')
    if (kind, len(numbers)) == ('on', 2):
        return f'(on {number(numbers[0])} {number(numbers[1])})'
    if (kind, len(numbers)) == ('switch', 1):
        return f'(on {number(numbers[0])} switch)'
    raise ValueError(f'no clause: {word}')


def _each(names, told):
    return {name: told for name in names.split()}


def _of_both(names):
    """These names of instructions of i32, and of i64."""
    return ' '.join(f'{integer}.{name}' for integer in ('i32', 'i64') for name in names.split())


# What tells each instruction, by its name in a text.
FORMS = {
    **_each(f'{_WITHOUT_WORDS} {_of_both(_OF_INTEGERS)} {_CONVERSIONS}', _alike()),
    **_each(_OF_ONE_INDEX, _alike(number)), **_each(_OF_TWO_INDICES, _alike(number, number)),
    **_each('i32.const i64.const', _alike(constant)), 'ref.null': _alike(heap_type), 'br_table': _labels,
    **_each('block loop if', _block), 'select_t': _select,
    **_each(f'{_of_both(_ACCESSES)} {_LONG_ACCESSES}', _access),
    **_each('call_indirect return_call_indirect', _indirect), 'table.init': _table_init,
    **_each('memory.size memory.grow memory.fill', _with_memories(0, 1)), 'memory.copy': _with_memories(0, 2),
    'memory.init': _with_memories(1, 1),
    'resume': _resume,
}


def instruction(name, *words):
    """The name of an instruction in a text, and the instruction in .wat."""
    return name, FORMS[name](name, *words)
