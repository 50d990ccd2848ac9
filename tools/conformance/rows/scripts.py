"""Scripts: what begins a token, each production, nesting, and each rule."""

from rows.script_samples import ScriptSection
from script_reader.tokens import GREATEST_NUMBER, KEYWORDS, SYMBOLS

LEXING = ScriptSection('lexing')
GRAMMAR = ScriptSection('grammar')
NESTING = ScriptSection('nesting')

MAIN = 'fn main() { }\n'


def main(statements):
    """A script whose main is these statements."""
    return f'fn main() {{ {statements} }}\n'


# ## Tokens

for byte in range(256):
    LEXING.row(f'a-byte/{byte:02x}', bytes([byte]))
    LEXING.row(f'a-byte-in-a-script/{byte:02x}', b'fn main() { ' + bytes([byte]) + b' }')
for symbol in SYMBOLS:
    LEXING.row(f'a-symbol/{symbol}', f'{symbol}\n')
    for other in SYMBOLS:
        LEXING.row(f'two-symbols/{symbol}-and-{other}', main(f'print 1 {symbol}{other} 2;'))
for keyword in KEYWORDS:
    LEXING.row(f'a-keyword/{keyword}', f'{keyword}\n')
    LEXING.row(f'a-keyword-is-no-name/{keyword}', f'effect {keyword}/1;\n' + MAIN)
    LEXING.row(f'a-name-that-begins-as-a-keyword/{keyword}', f'effect {keyword}s/1;\n' + MAIN)
    LEXING.row(f'a-name-in-capitals/{keyword}', f'effect {keyword.upper()}/1;\n' + MAIN)
for name, text in [
        ('an-underscore', '_'), ('two-underscores', '__'), ('digits-in-a-name', 'a1b2'), ('a-digit-in-front', '1a'),
        ('an-underscore-behind-digits', '12_'), ('a-dot', 'a.b'), ('a-letter-that-is-not-ascii', 'ä'),
        ('a-dash', 'a-b')]:
    LEXING.row(f'a-name/{name}', f'effect {text}/1;\n' + MAIN)
for name, text in [
        ('zero', '0'), ('zeros-in-front', '0007'), ('the-greatest', str(GREATEST_NUMBER)),
        ('one-more', str(GREATEST_NUMBER + 1)), ('the-greatest-behind-zeros', f'000{GREATEST_NUMBER}'),
        ('of-64-bits', str(2 ** 64)), ('of-200-digits', '1' * 200), ('of-200-zeros', '0' * 200),
        ('a-letter-behind', '1x'), ('a-keyword-behind', '1if'), ('a-symbol-behind', '1+1'),
        ('a-comment-behind', '1#\n'), ('hexadecimal', '0x10')]:
    LEXING.row(f'a-number/{name}', main(f'return {text};'))
for name, text in [
        ('of-nothing', '#\n'), ('to-the-end', MAIN + '# no end'), ('of-any-bytes', b'# \x00\xff\x80\n' + MAIN.encode()),
        ('that-hides-a-brace', 'fn main() { # }\n}\n'), ('of-a-carriage-return', b'# a\rfn main() { }\n'),
        ('within-a-name', 'fn ma#\nin() { }\n'), ('alone', '# nothing else')]:
    LEXING.row(f'a-comment/{name}', text)
for name, text in [('tabs', '\t'), ('line-feeds', '\n'), ('carriage-returns', '\r'), ('all', ' \t\r\n ')]:
    LEXING.row(f'separators/{name}', text.join(['', 'fn', 'main', '(', ')', '{', '}', '']))
LEXING.row('no-separators', 'fn main(){let x=1;print x;}')
LEXING.is_said('a-single-ampersand', 'lex 21', 'fn main() { return 1 & 2; }')
LEXING.is_said('one-above-the-greatest', 'lex 19', 'fn main() { return 9223372036854775808; }')
LEXING.is_said('an-empty-script', 'rule 0 18', '')

# ## Productions

# A declaration or a statement of each form: its name, what stands before it, its tokens, and what stands behind.
EXPRESSIONS = {
    'a-number': '1', 'a-name': 'x', 'a-call': 'f ( )', 'a-call-with-an-argument': 'g ( x )',
    'a-call-with-arguments': 'p ( x , 2 )', 'parentheses': '( x )', 'a-do': 'do e ( 1 )', 'a-do-of-nothing': 'do z ( )',
    'a-handle': 'handle f ( ) with h ( )', 'a-handle-with-arguments': 'handle p ( 1 , x ) with i ( 3 , 4 )',
    'a-resume': 'resume k ( x ) with ( )', 'minus': '- x', 'not': '! x', 'or': 'x || 1 || 2', 'and': 'x && 1 && 2',
    'equal': 'x == 1', 'not-equal': 'x != 1', 'less': 'x < 1', 'at-most': 'x <= 1', 'greater': 'x > 1',
    'at-least': 'x >= 1', 'plus-and-minus': 'x + 1 - 2', 'times': 'x * 1 / 2 % 3',
    'levels': '1 || x && 2 == 3 + 4 * - 5'}
STATEMENTS = {
    'a-let': 'let y = 1 ;', 'an-assignment': 'x = 1 ;', 'an-if': 'if x { }',
    'an-if-with-else': 'if x { x = 1 ; } else { x = 2 ; }',
    'a-while': 'while x { x = 0 ; }', 'a-print': 'print x ;', 'a-return': 'return x ;', 'a-fail': 'fail ;',
    'an-expression': 'f ( ) ;', 'statements': 'x = 1 ; x = 2 ; print x ;'}
DECLARATIONS = {
    'an-effect': 'effect y / 3 ;', 'a-function': 'fn y ( ) { }', 'a-function-with-a-parameter': 'fn y ( a ) { }',
    'a-function-with-parameters': 'fn y ( a , b : res h , c ) { }', 'a-handler': 'handler y ( ) { return ( a ) { } }',
    'a-handler-with-parameters': 'handler y ( a : res h , b ) { return ( c ) { } }',
    'a-handler-with-a-clause': 'handler y ( ) { return ( a ) { } on z ( ) l { } }',
    'a-handler-with-clauses': 'handler y ( ) { return ( a ) { } on e ( b ) l { } on z ( ) l { } on w ( b , c ) l { } }'}
AROUND = (
    'effect e/1; effect z/0; effect w/2; fn f() { } fn g(a) { } fn p(a, b) { } '
    'handler h() { return(a) { } on z() l { let x = 1; l; } } handler i(a, b) { return(c) { } } ')
IN_CLAUSE = 'handler j() { return(a) { } on e(x) k { '
OTHERS = [';', 'else', 'NEW', '7']


def scripts_of(tokens, front, back, others=OTHERS):
    """Scripts in which a token of these is left out, stands twice, or is another one."""
    yield 'whole', front + ' '.join(tokens) + back
    for place, token in enumerate(tokens):
        def with_part(part, place=place):
            return front + ' '.join(tokens[:place] + part + tokens[place + 1:]) + back
        yield f'without-token-{place}', with_part([])
        yield f'token-{place}-twice', with_part([token, token])
        for other in others:
            if other != token:
                yield f'{other}-for-token-{place}', with_part([other])
    for place in range(len(tokens) - 1):
        swapped = tokens[:place] + [tokens[place + 1], tokens[place]] + tokens[place + 2:]
        yield f'tokens-{place}-and-{place + 1}-swapped', front + ' '.join(swapped) + back
    for place in range(len(tokens) + 1):
        yield f'ends-behind-{place}', front + ' '.join(tokens[:place])


for kind, forms, front, back in [
        ('expression', EXPRESSIONS, AROUND + IN_CLAUSE + 'print ', '; } } fn main() { }\n'),
        ('statement', STATEMENTS, AROUND + IN_CLAUSE, '} } fn main() { }\n'),
        ('declaration', DECLARATIONS, AROUND, ' fn main() { }\n')]:
    for name, tokens in forms.items():
        for change, text in scripts_of(tokens.split(), front, back):
            GRAMMAR.row(f'{kind}/{name}/{change}', text)
for first in ['||', '&&', '==', '<', '+', '-', '*', '%']:
    for second in ['||', '&&', '==', '<', '+', '-', '*', '%', '!']:
        GRAMMAR.row(f'two-operators/{first}{second}', main(f'print 1 {first} 2 {second} 3;'))
for name, text in [
        ('comparisons-do-not-chain', 'print 1 < 2 < 3;'), ('two-prefixes', 'print - - 1;'),
        ('a-prefix-of-a-run', 'print -1 - -1;'),
        ('an-if-in-an-if', 'if 1 { if 2 { } else { } } else { }'), ('two-elses', 'if 1 { } else { } else { }'),
        ('else-if', 'if 1 { } else if 2 { }'), ('a-block-alone', '{ }'), ('a-semicolon-alone', ';'),
        ('an-if-and-a-semicolon', 'if 1 { };'), ('an-assignment-is-no-expression', 'print x = 1;'),
        ('a-call-of-a-call', 'f()();'), ('a-call-of-a-number', '1();'), ('a-comma-at-the-end', 'f(1,);'),
        ('a-comma-alone', 'f(,);'),
        ('no-comma', 'f(1 2);'), ('a-let-without-a-value', 'let x;'), ('a-return-of-nothing', 'return;'),
        ('resume-without-an-argument', 'resume k() with ();'), ('resume-with-two-arguments', 'resume k(1, 2) with ();'),
        ('a-declaration-within', 'fn f() { }')]:
    GRAMMAR.row(f'statements/{name}', main(text))
GRAMMAR.is_said('a-parameter-is-no-bracket', 'parse 3', 'fn main( { }')
GRAMMAR.row('no-return-clause', 'handler h() { } ' + MAIN)
GRAMMAR.row('a-return-clause-behind', 'effect e/0; handler h() { on e() k { } return(x) { } } ' + MAIN)
GRAMMAR.row('two-return-clauses', 'handler h() { return(x) { } return(y) { } } ' + MAIN)
GRAMMAR.row('a-statement-at-the-top', 'print 1;\n')
GRAMMAR.row('a-brace-too-many', MAIN + '}')

# ## Nesting

for count in (62, 63, 64, 65):
    opened, closed = '(' * count, ')' * count
    NESTING.row(f'parentheses/{count}', main(f'return {opened}1{closed};'))
    NESTING.row(f'parentheses/{count}/a-wrong-token-within', main(f'return {opened};{closed};'))
    NESTING.row(f'parentheses/{count}/a-wrong-token-in-front', main(f'return ; ; else {opened}1{closed};'))
    NESTING.row(f'parentheses/{count}/none-is-closed', f'fn main() {{ return {opened}1')
    NESTING.row(f'calls/{count}', main('print ' + 'f(' * count + '1' + ')' * count + ';'))
    NESTING.row(f'blocks/{count}', main('if 1 { ' * count + '} ' * count))
    NESTING.row(f'blocks/{count}/none-is-closed', 'fn main() { ' + 'while 1 { ' * count)
    NESTING.row(f'blocks-behind-one-another/{count}', main('if 1 { } ' * count))
    NESTING.row(f'closed-before-they-open/{count}', '} ' * count + '{ ' * (2 * count))
NESTING.is_said('a-bracket-that-cannot-stand-there', 'parse 196', 'fn main() {' + 'if 1 {' * 63 + 'if 1 ;')
NESTING.is_said('sixty-four-parentheses-in-a-body', 'deep', main('return ' + '(' * 64 + '1' + ')' * 64 + ';'))
NESTING.is_said('sixty-three-parentheses-in-a-body', 'ok script', main('return ' + '(' * 63 + '1' + ')' * 63 + ';'))
NESTING.row('deep-in-a-handler', 'handler h() { return(x) { ' + '(' * 62 + '1' + ')' * 62 + '; } } ' + MAIN)
NESTING.row('deeper-in-a-handler', 'handler h() { return(x) { ' + '(' * 63 + '1' + ')' * 63 + '; } } ' + MAIN)
NESTING.row('parameters-are-nested-too', 'fn f' + '(' * 65)
