"""What is said of a script beside the program's line."""

from pictures import most, place
from rule_texts import rule_texts
from script_reader import GREATEST_LENGTH, GREATEST_NESTING, first_deep
from script_reader.sizes import GREATEST_SIZE, declaration_size, size_of
from script_reader.tokens import KEYWORDS

READABLE = {'NAME': 'a name', 'INT': 'a number'}
EXPRESSION = {'NAME', 'INT', "'('", "'-'", "'!'", "'do'", "'handle'", "'resume'", "'group'"}
STATEMENT = EXPRESSION | {
    "'let'", "'if'", "'while'", "'print'", "'return'", "'fail'", "'store'", "'take'", "'spawn'", "'switch'"}
COMPARISON = {"'=='", "'!='", "'<'", "'<='", "'>'", "'>='"}
ARITHMETIC = {"'+'", "'-'", "'*'", "'/'", "'%'"}
# Names of sets of tokens, of which the first that is wholly there is taken.
SETS = {
    'a statement': STATEMENT, 'an expression': EXPRESSION, 'a comparison': COMPARISON,
    'an operator of arithmetic': ARITHMETIC}
KINDS = {'effect': 'the effect', 'fn': 'the function', 'handler': 'the handler', 'slots': 'the slots'}


def script_lines(data, reading):
    """The lines about a script and its reading."""
    kind = reading.said if reading.said.startswith(('ok', 'limit')) else reading.said.split()[0]
    return LINES[kind](data, reading)


def _accepted(_data, reading):
    return [f'it breaks no rule, and its size is {size_of(reading.declarations):,}']


def _too_long(data, _reading):
    passed = most('the bytes of the script', len(data), GREATEST_LENGTH)
    return place(data, GREATEST_LENGTH, f'{passed}; here stands the first one too many')


def _uncut(data, reading):
    fault = reading.fault
    byte = data[fault.at]
    shown = '' if 0x20 <= byte < 0x7f else f', {byte:02X}'
    return place(data, fault.at, f'{fault.reason}{shown}')


def _too_deep(data, reading):
    token = reading.tokens[first_deep(reading.tokens)]
    return place(data, token.start, most('the brackets that are open here', GREATEST_NESTING + 1, GREATEST_NESTING))


def _no_script(data, reading):
    wrong, wanted = reading.derivations.first_wrong, _wanted(reading.derivations)
    if wrong == len(reading.tokens):
        return place(data, reading.tokens[-1].end, f'the script ends too early; here could stand {wanted}')
    token = reading.tokens[wrong]
    return place(data, token.start, f'{_named(token)} doesn\'t fit; here could stand {wanted}')


def _named(token):
    """A token in words."""
    if token.kind in READABLE:
        return f'the {READABLE[token.kind].split()[1]} {token.text}'
    return f"the word '{token.text}'" if token.kind in KEYWORDS else f"'{token.text}'"


def _wanted(derivations):
    """The tokens by which some script goes on, in words."""
    left, words = derivations.fitting(), []
    for name, members in SETS.items():
        if members <= left:
            left, words = left - members, [*words, name]
    words += [READABLE.get(word, word) for word in left]
    words += ['the end of the file'] if derivations.end_fits else []
    *words, last = sorted(words)
    return f'{", ".join(words)} or {last}' if words else last


def _rule_broken(data, reading):
    number, rule, token = reading.breach
    text = f'rule {rule} is broken where {rule_texts()[rule]}'
    if token is None:
        end = reading.tokens[-1].end if reading.tokens else 0
        return [*place(data, end, f'up to here rule {rule} is broken'), text]
    lines = place(data, token.start, f'rule {rule} is broken by {_named(token)}')
    if number == len(reading.declarations):
        return [*lines, text]
    declaration = reading.declarations[number]
    owner = f'this is in declaration {number}, {KINDS[declaration.kind]} {declaration.name}'
    if declaration.token == token:
        return [*lines, owner, text]
    return [*lines, *place(data, declaration.token.start, owner), text]


def _too_large(data, reading):
    size = 0
    for number, declaration in enumerate(reading.declarations):
        own = declaration_size(declaration)
        size += own
        if size > GREATEST_SIZE:
            break
    passed = f'the size of the script is {size_of(reading.declarations):,}, and {GREATEST_SIZE:,} is the most'
    owner = f'it is passed in declaration {number}, {KINDS[declaration.kind]} {declaration.name}, whose size is {own:,}'
    return place(data, declaration.token.start, f'{passed}; {owner}')


LINES = {
    'ok script': _accepted, 'limit script': _too_long, 'lex': _uncut, 'deep': _too_deep, 'parse': _no_script,
    'rule': _rule_broken, 'limit size': _too_large,
}
