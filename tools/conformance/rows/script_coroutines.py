"""Scripts with coroutines that are checked: the grammar, nesting, and rules that are broken, with their neighbours.
What is said of a script where this is told was worked out by hand; of changed tokens the second reader says it
alone."""

from rows.script_rules import BODIES, H, MAIN, ONES, R
from rows.script_samples import ScriptSection
from rows.scripts import scripts_of

GRAMMAR = ScriptSection('grammar')
NESTING = ScriptSection('nesting')
RULES = ScriptSection('rules')
ORDER = ScriptSection('order')
WORDS = ('group', 'switch', 'spawn', 'coro')

# ## Productions

AROUND = 'fn f(a) { } fn c(y, p: coro) { } handler h() { return(a) { } } '
IN_FUNCTION = 'fn g(x, t: coro) { '
EXPRESSIONS = {
    'a-group': 'group f ( x )', 'a-group-of-a-group': 'group f ( group f ( 1 ) )'}
STATEMENTS = {
    'a-spawn': 'spawn y = c ;', 'a-switch': 'switch y , u = t ( 1 ) ;',
    'a-switch-of-a-group': 'switch y , u = t ( group f ( x ) ) ;'}
DECLARATIONS = {
    'a-parameter': 'fn y ( a : coro ) { }', 'a-parameter-between': 'fn y ( a : res h , b : coro , d ) { }',
    'of-a-handler': 'handler y ( a : coro ) { return ( b ) { } }'}
for kind, forms, front, back, others in [
        ('expression', EXPRESSIONS, AROUND + IN_FUNCTION + 'print ', '; } fn main() { }\n',
         [';', ',', '(', 'NEW', '7', 'spawn']),
        ('statement', STATEMENTS, AROUND + IN_FUNCTION, '} fn main() { }\n',
         [';', ',', '=', 'NEW', '7', 'group', 'switch']),
        ('declaration', DECLARATIONS, AROUND, ' fn main() { }\n', [',', ':', 'NEW', 'coro'])]:
    for name, tokens in forms.items():
        for change, text in scripts_of(tokens.split(), front, back, others):
            GRAMMAR.row(f'{kind}/{name}/{change}', text)


def main(statements):
    """A script whose main is these statements, beside functions for a group and for a coroutine."""
    return f'fn f(a) {{ }} fn c(y, p: coro) {{ }} fn main() {{ {statements} }}\n'


def in_main(tokens):
    """The number of the token behind so many in main. In front stand 7 of f, 11 of c, and 5 of main up to its brace."""
    return 23 + tokens


SWITCHED = 'spawn t = c; switch x, u = t(1);'
for name, said, text in [
        ('a-spawn-and-a-switch', 'ok script', main(SWITCHED)),
        ('a-spawn-with-parentheses', f'parse {in_main(4)}', main('spawn t = c();')),
        ('a-spawn-of-a-number', f'parse {in_main(3)}', main('spawn t = 1;')),
        ('a-spawn-of-a-name-in-parentheses', f'parse {in_main(3)}', main('spawn t = (c);')),
        ('a-spawn-of-a-run', f'parse {in_main(4)}', main('spawn t = c + 1;')),
        ('a-spawn-of-a-spawn', f'parse {in_main(3)}', main('spawn t = spawn c;')),
        ('a-spawn-without-a-name', f'parse {in_main(1)}', main('spawn = c;')),
        ('a-spawn-without-a-function', f'parse {in_main(2)}', main('spawn c;')),
        ('a-spawn-of-two-names', f'parse {in_main(2)}', main('spawn t, u = c;')),
        ('a-spawn-in-an-expression', f'parse {in_main(1)}', main('print spawn t = c;')),
        ('a-spawn-at-the-top', 'parse 0', 'spawn t = c; fn main() { }'),
        ('a-let-of-a-spawn', f'parse {in_main(3)}', main('let t = spawn c;')),
        ('a-switch-of-one-name', f'parse {in_main(2)}', main('switch x = t(1);')),
        ('a-switch-of-three-names', f'parse {in_main(4)}', main('switch x, u, w = t(1);')),
        ('a-switch-without-names', f'parse {in_main(2)}', main('switch t(1);')),
        ('a-switch-of-names-in-parentheses', f'parse {in_main(1)}', main('switch (x, u) = t(1);')),
        ('a-switch-without-a-comma', f'parse {in_main(2)}', main('switch x u = t(1);')),
        ('a-switch-without-a-number', f'parse {in_main(7)}', main('switch x, u = t();')),
        ('a-switch-with-two-numbers', f'parse {in_main(8)}', main('switch x, u = t(1, 2);')),
        ('a-switch-without-parentheses', f'parse {in_main(6)}', main('switch x, u = t;')),
        ('a-switch-with-brackets', f'parse {in_main(6)}', main('switch x, u = t[1];')),
        ('a-switch-to-a-number', f'parse {in_main(5)}', main('switch x, u = 1(1);')),
        ('a-switch-to-a-name-in-parentheses', f'parse {in_main(5)}', main('switch x, u = (t)(1);')),
        ('a-switch-to-a-call', f'parse {in_main(9)}', main('switch x, u = t(1)(2);')),
        ('a-switch-and-a-sum', f'parse {in_main(9)}', main('switch x, u = t(1) + 1;')),
        ('a-switch-in-an-expression', f'parse {in_main(1)}', main('print switch x, u = t(1);')),
        ('a-switch-in-a-return', f'parse {in_main(1)}', main('return switch x, u = t(1);')),
        ('a-switch-at-the-top', 'parse 0', 'switch x, u = t(1); fn main() { }'),
        ('a-switch-with-types', f'parse {in_main(4)}', main('switch x, u: coro = t(1);')),
        ('a-group-without-a-number', f'parse {in_main(4)}', main('print group f();')),
        ('a-group-with-two-numbers', f'parse {in_main(5)}', main('print group f(1, 2);')),
        ('a-group-without-parentheses', f'parse {in_main(3)}', main('print group f;')),
        ('a-group-of-a-number', f'parse {in_main(2)}', main('print group 1;')),
        ('a-group-of-an-expression', f'parse {in_main(2)}', main('print group (f(1));')),
        ('a-group-with-a-handler', f'parse {in_main(6)}', main('print group f(1) with f(1);')),
        ('a-group-as-a-statement', 'ok script', main('group f(1);')),
        ('a-group-that-is-assigned', f'parse {in_main(5)}', main('group f(1) = 1;')),
        ('a-group-behind-two-prefixes', f'parse {in_main(2)}', main('print !!group f(1);')),
        ('a-group-in-the-list-of-a-call', 'ok script', main('print f(group f(1));')),
        ('a-type-alone', 'parse 3', 'fn main(coro) { }'),
        ('a-type-of-two-words', 'parse 6', 'fn g(t: coro c) { } fn main() { }'),
        ('a-type-of-res', 'parse 6', 'fn g(t: res coro) { } fn main() { }'),
        ('a-type-without-a-colon', 'parse 4', 'fn g(t coro) { } fn main() { }'),
        ('a-type-in-a-let', f'parse {in_main(2)}', main('let t: coro = 1;')),
        ('a-type-in-a-clause', 'parse 20',
         'effect e/1; handler h() { return(x) { } on e(w: coro) k { } } fn main() { }'),
        ('slots-of-coroutines', 'parse 3', 'slots s: coro [1]; fn main() { }'),
        ('a-comment-and-separators-between', 'ok script', main(
            'spawn t = c; switch # a comment, (\nx\t,u\n=\rt ( 1 ) ;')),
        ('no-semicolon-behind-a-spawn', f'parse {in_main(4)}', main('spawn t = c')),
        ('no-semicolon-behind-a-switch', f'parse {in_main(9)}', main('switch x, u = t(1)'))]:
    GRAMMAR.is_said(f'known/{name}', said, text)
GRAMMAR.is_said('known/tokens-without-separators', 'ok script',
                'fn f(a){}fn c(y,p:coro){}fn main(){spawn t=c;switch x,u=t(group f(1));print-group f(x);}')
for word in WORDS:
    first = 5 if word == 'coro' else 6      # wrong where a statement begins so
    GRAMMAR.is_said(f'no-name/{word}/an-effect', 'parse 1', f'effect {word}/0; fn main() {{ }}')
    GRAMMAR.is_said(f'no-name/{word}/a-function', 'parse 1', f'fn {word}() {{ }} fn main() {{ }}')
    GRAMMAR.is_said(f'no-name/{word}/a-handler', 'parse 1', f'handler {word}() {{ return(x) {{ }} }} fn main() {{ }}')
    GRAMMAR.is_said(f'no-name/{word}/slots', 'parse 1', f'slots {word}: res h [1]; fn main() {{ }}')
    GRAMMAR.is_said(f'no-name/{word}/a-parameter', 'parse 3', f'fn main({word}) {{ }}')
    GRAMMAR.is_said(f'no-name/{word}/a-let', 'parse 6', f'fn main() {{ let {word} = 1; }}')
    GRAMMAR.is_said(f'no-name/{word}/read', f'parse {6 + (word == "group")}', f'fn main() {{ print {word}; }}')
    GRAMMAR.is_said(f'no-name/{word}/assigned', f'parse {first}', f'fn main() {{ {word} = 1; }}')
    GRAMMAR.is_said(f'no-name/{word}/called', f'parse {first}', f'fn main() {{ {word}(); }}')
    GRAMMAR.is_said(f'no-name/{word}/performed', 'parse 6', f'fn main() {{ do {word}(); }}')
    GRAMMAR.is_said(f'no-name/{word}/spawned', 'parse 8', f'fn main() {{ spawn t = {word}; }}')
    GRAMMAR.is_said(f'no-name/{word}/longer', 'rule 0 10', f'fn main() {{ print {word}_; }}')
    GRAMMAR.is_said(f'no-name/{word}/another-case', 'rule 0 10', f'fn main() {{ print {word.upper()}; }}')

# ## Nesting

# Of 64, main's brace is one; the parentheses of a group, and those of a switch, count.
for count, said in [(63, 'ok script'), (64, 'deep')]:
    NESTING.is_said(f'groups/{count}', said, main('print ' + 'group f(' * count + '1' + ')' * count + ';'))
    NESTING.is_said(f'parentheses-in-a-group/{count}', said, main(
        'print group f(' + '(' * (count - 1) + '1' + ')' * count + ';'))
    NESTING.is_said(f'parentheses-in-a-switch/{count}', said, main(
        'spawn t = c; switch x, u = t(' + '(' * (count - 1) + '1' + ')' * count + ';'))
    NESTING.is_said(f'a-semicolon-within/{count}', f'parse {in_main(6 + count)}' if count == 63 else 'deep', main(
        'switch x, u = t(' + '(' * (count - 1) + ';' + ')' * count + ';'))
for count, said in [(62, 'ok script'), (63, 'ok script'), (64, 'deep')]:
    NESTING.is_said(f'blocks/{count}', said, main('if 1 { ' * count + 'spawn t = c; ' + '} ' * count))
NESTING.is_said('behind-a-switch', 'deep', main(SWITCHED + ' print ' + '(' * 64))
NESTING.is_said('behind-a-wrong-group', f'parse {in_main(1)}', main('group = ' + '(' * 70))

# ## Rules

# Declarations 0 to 4, 5, 6 to 8 and 9; what is judged is declaration 10.
C = 'fn c(y, p: coro) { return y; } fn d(p: coro) { } handler hc(p: coro) { return(x) { return x; } }\n'
S = 'slots s: res h [3];\n'
FRONT = H + R + C + S


def in_function(statements, front=FRONT):
    """A script with a function of a coroutine t, a resumption k of h and a number v."""
    return f'{front}fn g(t: coro, k: res h, v) {{ {statements} }}\n{MAIN}'


def in_handler(clause, result='', parameters='p: coro'):
    """A script with a handler h2 of a coroutine p, and of these statements."""
    return f'{FRONT}handler h2({parameters}) {{ return(x) {{ {result} }} on e(w) k {{ {clause} }} }}\n{MAIN}'


def alone(text):
    """A script of these declarations behind others, of which they are number 9 and those behind it, and of main."""
    return f'{H}{R}{C}{text}\n{MAIN}'


# For each rule, what breaks it alone, and neighbours that break none: pairs of what is said and of the script.
BROKEN = {
    3: {
        'nine': ('9 3', alone('fn a(' + ', '.join(f'p{number}: coro' for number in range(9)) + ') { }')),
        'neighbour/eight': (None, alone('fn a(' + ', '.join(f'p{number}: coro' for number in range(8)) + ') { }')),
    },
    5: {
        'a-function-for-a-handler': ('9 5', alone('fn a(p: coro, k: res c) { }')),
        'neighbour/a-coroutine': (None, alone('fn a(p: coro, q: coro) { } handler b(p: coro) { return(x) { } }')),
    },
    6: {
        'two-spawns': ('10 6', in_function('spawn l = c; spawn l = c;')),
        'a-spawn-and-a-let': ('10 6', in_function('spawn l = c; let l = 1;')),
        'a-let-and-a-spawn': ('10 6', in_function('let l = 1; spawn l = c;')),
        'a-spawn-and-a-take': ('10 6', in_function('spawn l = c; take l = s[0];')),
        'a-spawn-and-a-parameter': ('10 6', in_function('spawn t = c;')),
        'a-spawn-and-a-number-that-is-a-parameter': ('10 6', in_function('spawn v = c;')),
        'a-spawn-and-a-switched-number': ('10 6', in_function('spawn x = c; switch x, u = t(1);')),
        'a-spawn-and-a-switched-coroutine': ('10 6', in_function('switch x, u = t(1); spawn u = c;')),
        'both-names-of-a-switch': ('10 6', in_function('switch x, x = t(1);')),
        'two-switched-numbers': ('10 6', in_function('switch x, u = t(1); switch x, w = u(1);')),
        'two-switched-coroutines': ('10 6', in_function('switch x, u = t(1); switch y, u = t(1);')),
        'a-number-and-a-coroutine': ('10 6', in_function('switch x, u = t(1); switch u, w = t(1);')),
        'a-coroutine-and-a-number': ('10 6', in_function('switch x, u = t(1); switch y, x = t(1);')),
        'the-target-is-bound-again': ('10 6', in_function('switch x, t = t(1);')),
        'the-target-is-bound-again-as-a-number': ('10 6', in_function('switch t, u = t(1);')),
        'a-spawned-target-is-bound-again': ('10 6', in_function('spawn l = c; switch x, l = l(1);')),
        'a-switched-number-and-a-parameter': ('10 6', in_function('switch v, u = t(1);')),
        'a-switched-coroutine-and-a-parameter': ('10 6', in_function('switch x, k = t(1);')),
        'a-switched-number-and-a-let': ('10 6', in_function('switch x, u = t(1); let x = 1;')),
        'a-let-and-a-switched-coroutine': ('10 6', in_function('let u = 1; switch x, u = t(1);')),
        'in-two-blocks': ('10 6', in_function('if v { spawn l = c; } else { spawn l = c; }')),
        'in-two-blocks-by-switches': ('10 6', in_function('if v { switch x, u = t(1); } else { switch y, u = t(1); }')),
        'in-a-block-and-behind-it': ('10 6', in_function('while v { spawn l = c; } switch l, u = t(1);')),
        'two-parameters': ('9 6', alone('fn a(p: coro, p: coro) { }')),
        'two-parameters-of-two-types': ('9 6', alone('fn a(p, p: coro) { }')),
        'two-parameters-of-a-handler': ('9 6', alone('handler a(p: coro, p: res h) { return(x) { } }')),
        'a-clauses-argument': ('10 6', in_handler('spawn w = c;')),
        'a-clauses-argument-by-a-switch': ('10 6', in_handler('switch w, u = p(1);')),
        'a-clauses-resumption': ('10 6', in_handler('switch y, k = p(1);')),
        'a-parameter-of-the-handler': ('10 6', in_handler('spawn p = c;')),
        'a-parameter-of-the-handler-by-a-switch': ('10 6', in_handler('switch y, p = p(1);')),
        'the-return-clauses-name': ('10 6', in_handler('', 'spawn x = c;')),
        'the-return-clauses-name-by-a-switch': ('10 6', in_handler('', 'switch x, u = p(1);')),
        'a-parameter-in-the-return-clause': ('10 6', in_handler('', 'switch p, u = p(1);')),
        'functions-that-are-missing': ('10 6', in_function('spawn l = nothing; spawn l = nothing;')),
        'neighbour/in-two-functions': (None, in_function('spawn l = c;', FRONT + 'fn g2() { spawn l = c; }\n')),
        'neighbour/in-a-clause-and-the-return-clause': (
            None, in_handler('spawn l = c; switch y, u = l(1);', 'spawn l = c; switch y, u = l(1);')),
        'neighbour/in-a-loop': (None, in_function('while v { spawn l = c; switch x, u = l(v); v = x; }')),
        'neighbour/of-declarations': (None, in_function('spawn c = c; switch f, r = c(f(1)); switch d, h = r(f);')),
        'neighbour/both-names-are-new': (None, in_function('switch x, u = t(1); switch y, w = u(x);')),
    },
    10: {
        'the-target': ('10 10', in_function('switch x, u = y(1);')),
        'the-target-before-its-spawn': ('10 10', in_function('switch x, u = l(1); spawn l = c;')),
        'the-target-behind-its-block': ('10 10', in_function('if v { spawn l = c; } switch x, u = l(1);')),
        'the-target-in-the-other-block': (
            '10 10', in_function('if v { spawn l = c; } else { switch x, u = l(1); }')),
        'the-target-behind-its-loop': ('10 10', in_function('while v { switch x, u = t(1); } switch y, w = u(1);')),
        'the-target-of-another-function': ('10 10', FRONT + 'fn g() { switch x, u = p(1); } ' + MAIN),
        'the-target-is-a-function': ('10 10', in_function('switch x, u = c(1);')),
        'the-target-is-its-own-coroutine': ('10 10', in_function('switch x, u = u(1);')),
        'the-target-is-its-own-number': ('10 10', in_function('switch x, u = x(1);')),
        'in-its-own-expression': ('10 10', in_function('switch x, u = t(x);')),
        'a-coroutine-in-its-own-expression': ('10 10', in_function('switch x, u = t(u);')),
        'in-the-expression-of-a-switch': ('10 10', in_function('switch x, u = t(y + 1);')),
        'in-a-group': ('10 10', in_function('group f(y);')),
        'a-function-in-a-group': ('10 10', in_function('group f(f);')),
        'a-number-behind-its-block': ('10 10', in_function('if v { switch x, u = t(1); } print x;')),
        'a-spawned-one-by-its-function': ('10 10', in_function('spawn l = c; d(c);')),
        'passed-before-its-spawn': ('10 10', in_function('d(l); spawn l = c;')),
        'resumed-before-its-spawn': ('10 10', in_function('resume l(1) with (1); spawn l = c;')),
        'the-resumption-in-the-return-clause': ('10 10', in_handler('', 'switch y, u = k(1);')),
        'an-argument-in-the-return-clause': ('10 10', in_handler('', 'group f(w);')),
        'neighbour/in-an-inner-block': (
            None, in_function('spawn l = c; if v { while v { switch x, u = l(1); d(u); print x; } }')),
        'neighbour/behind-an-inner-block': (None, in_function('spawn l = c; if v { spawn m = c; } d(l);')),
        'neighbour/a-parameter-of-the-handler': (None, in_handler('switch y, u = p(w);', 'switch y, u = p(x);')),
    },
    11: {
        'a-parameter-assigned': ('10 11', in_function('t = 1;')),
        'a-spawned-one-assigned': ('10 11', in_function('spawn l = c; l = 1;')),
        'a-switched-one-assigned': ('10 11', in_function('switch x, u = t(1); u = x;')),
        'a-spawned-one-read': ('10 11', in_function('spawn l = c; print l;')),
        'a-switched-one-read': ('10 11', in_function('switch x, u = t(1); print u;')),
        'in-a-let': ('10 11', in_function('let l = t;')),
        'returned': ('10 11', in_function('return t;')),
        'alone': ('10 11', in_function('t;')),
        'in-parentheses': ('10 11', in_function('(t);')),
        'behind-a-prefix': ('10 11', in_function('d(-t);')),
        'in-a-run': ('10 11', in_function('d(t + 1);')),
        'for-do': ('10 11', in_function('do e(t);')),
        'as-a-condition': ('10 11', in_function('if t { }')),
        'the-value-of-a-group': ('10 11', in_function('group f(t);')),
        'the-value-of-a-group-in-parentheses': ('10 11', in_function('group f((t));')),
        'the-value-of-a-group-of-a-coroutine': ('10 11', in_function('group d(t);')),
        'the-value-of-its-switch': ('10 11', in_function('switch x, u = t(t);')),
        'the-value-of-a-switch': ('10 11', in_function('spawn l = c; switch x, u = t(l);')),
        'the-value-of-a-resume': ('10 11', in_function('resume k(t) with (1);')),
        'stored': ('10 11', in_function('store s[0] = t;')),
        'a-spawned-one-stored': ('10 11', in_function('spawn l = c; store s[0] = l;')),
        'stored-into-nothing': ('10 11', in_function('store nothing[0] = t;')),
        'the-place-of-a-store': ('10 11', in_function('store s[t] = k;')),
        'the-place-of-a-take': ('10 11', in_function('take l = s[t];')),
        'a-resumption-as-the-value-of-a-group': ('10 11', in_function('group f(k);')),
        'a-resumption-as-the-value-of-a-switch': ('10 11', in_function('switch x, u = t(k);')),
        'a-parameter-of-the-handler': ('10 11', in_handler('return p;')),
        'a-parameter-of-the-handler-in-the-return-clause': ('10 11', in_handler('', 'return x + p;')),
        'neighbour/a-target': (None, in_function('switch x, u = t(1); switch y, w = u(x); x = y;')),
        'neighbour/an-argument': (None, in_function('spawn l = c; d(l); d((t)); c(v, l); f(c(1, t));')),
        'neighbour/in-the-lists-of-handle': (None, in_function('handle d(t) with hc(t);')),
        'neighbour/in-with': (None, in_handler('resume k(w) with (p);')),
        'neighbour/in-with-in-parentheses': (None, in_handler('spawn l = c; return resume k(w) with ((l));')),
        'neighbour/in-a-group': (None, in_function('group f(c(1, t));')),
        'neighbour/in-a-switch': (None, in_function('switch x, u = t(d(t));')),
    },
    12: {
        'a-spawn-of-nothing': ('10 12', in_function('spawn l = nothing;')),
        'a-spawn-of-an-effect': ('10 12', in_function('spawn l = e;')),
        'a-spawn-of-a-handler': ('10 12', in_function('spawn l = hc;')),
        'a-spawn-of-slots': ('10 12', in_function('spawn l = s;')),
        'a-spawn-of-a-coroutine': ('10 12', in_function('spawn l = t;')),
        'a-spawn-of-itself': ('10 12', in_function('spawn l = l;')),
        'a-spawn-of-another-case': ('10 12', in_function('spawn l = C;')),
        'a-group-of-nothing': ('10 12', in_function('group nothing(1);')),
        'a-group-of-an-effect': ('10 12', in_function('group e(1);')),
        'a-group-of-a-handler': ('10 12', in_function('group h(1);')),
        'a-group-of-slots': ('10 12', in_function('group s(1);')),
        'a-group-of-a-value': ('10 12', in_function('group v(1);')),
        'a-group-of-a-coroutine': ('10 12', in_function('group t(1);')),
        'a-group-in-a-switch': ('10 12', in_function('switch x, u = t(group nothing(1));')),
        'a-function-behind-an-effect': (
            '9 12', alone('fn b() { spawn l = a; } effect a/0; fn a(y, p: coro) { }')),
        'a-call-of-a-coroutine': ('10 12', in_function('t(1);')),
        'a-handle-of-a-coroutine': ('10 12', in_function('handle t(1) with h(1);')),
        # The name is bound, so that its use breaks no rule.
        'a-spawn-of-nothing-and-its-use': (
            '10 12', in_function('spawn l = nothing; switch x, u = l(1); d(l); d(u); handle d(l) with hc(l);')),
        'neighbour/declared-behind': (
            None, in_function('spawn l = a; group b(1);') + 'fn a(y, p: coro) { } fn b(y) { }'),
        'neighbour/itself': (None, alone('fn a(y, p: coro) { spawn l = a; } fn b(y) { return group b(y); }')),
        'neighbour/value-names': (None, in_function('let c = 1; spawn l = c; let f = 2; group f(f);')),
    },
    15: {
        'a-call-too-few': ('10 15', in_function('d();')),
        'a-call-too-many': ('10 15', in_function('d(t, t);')),
        'a-handler-too-many': ('10 15', in_function('handle n() with hc(t, v);')),
        'in-a-group': ('10 15', in_function('group f(f());')),
        'in-a-switch': ('10 15', in_function('switch x, u = t(f(1, 2));')),
        'in-with': ('10 15', in_handler('resume k(1) with (p, p);')),
        'neighbour/as-many': (None, in_function('d(t); group f(f(1)); switch x, u = t(f(1));')),
    },
    16: {
        'a-number': ('10 16', in_function('d(1);')),
        'a-number-by-name': ('10 16', in_function('d(v);')),
        'a-number-in-parentheses': ('10 16', in_function('d((v));')),
        'a-call': ('10 16', in_function('d(n());')),
        'a-group': ('10 16', in_function('d(group f(1));')),
        'a-resumption': ('10 16', in_function('d(k);')),
        'a-switched-number': ('10 16', in_function('switch x, u = t(1); d(x);')),
        'a-coroutine-for-a-resumption': ('10 16', in_function('r(t, v);')),
        'a-spawned-one-for-a-resumption': ('10 16', in_function('spawn l = c; r(l, v);')),
        'a-coroutine-for-a-number': ('10 16', in_function('f(t);')),
        'a-coroutine-for-a-number-in-parentheses': ('10 16', in_function('f((t));')),
        'a-switched-one-for-a-number': ('10 16', in_function('switch x, u = t(1); f(u);')),
        'exchanged': ('10 16', in_function('c(t, v);')),
        'two-coroutines': ('10 16', in_function('c(t, t);')),
        'two-numbers': ('10 16', in_function('c(v, v);')),
        'in-a-handle': ('10 16', in_function('handle d(v) with hc(t);')),
        'for-a-handler': ('10 16', in_function('handle n() with hc(v);')),
        'a-resumption-for-a-handler': ('10 16', in_function('handle n() with hc(k);')),
        'for-a-handlers-number': ('10 16', in_function('handle n() with h(t);')),
        'in-with': ('10 16', in_handler('resume k(1) with (w);')),
        'a-resumption-in-with': ('10 16', in_handler('resume k(1) with (k);')),
        'a-coroutine-in-with-for-a-number': ('10 16', in_function('resume k(1) with (t);')),
        'in-a-group': ('10 16', in_function('group f(d(v));')),
        'in-a-switch': ('10 16', in_function('switch x, u = t(f(t));')),
        # A type that no handler has is one of resumptions all the same.
        'a-resumption-from-slots-that-are-missing': ('10 16', in_function('take l = nothing[0]; d(l);')),
        'for-a-resumption-of-nothing': (
            '9 16', alone('fn a(t: coro) { b(t); } fn b(k: res nothing) { }')),
        'a-resumption-of-nothing': (
            '9 16', alone('fn a() { take l = b[0]; d(l); } slots b: res nothing [1];')),
        'neighbour/coroutines': (
            None, in_function('spawn l = c; switch x, u = t(1); d(t); d(l); d((u)); c(x, l); handle d(u) with hc(t);')),
        'neighbour/in-with': (None, in_handler('resume k(1) with (p);')),
    },
    17: {
        'a-parameter': ('10 17', in_function('resume t(1) with ();')),
        'a-spawned-one': ('10 17', in_function('spawn l = c; resume l(1) with (1);')),
        'a-switched-one': ('10 17', in_function('switch x, u = t(1); return resume u(1) with ();')),
        'a-switched-number': ('10 17', in_function('switch x, u = t(1); resume x(1) with ();')),
        'a-parameter-of-the-handler': ('10 17', in_handler('resume p(1) with (p);')),
        'neighbour/a-resumption': (None, in_function('switch x, u = t(1); resume k(x) with (1);')),
    },
    22: {
        'a-spawn-of-no-parameter': ('10 22', in_function('spawn l = n;')),
        'a-spawn-of-main': ('10 22', in_function('spawn l = main;')),
        'a-spawn-of-a-number': ('10 22', in_function('spawn l = f;')),
        'a-spawn-of-a-coroutine': ('10 22', in_function('spawn l = d;')),
        'a-spawn-of-itself': ('10 22', in_function('spawn l = g;')),
        'a-spawn-of-two-numbers': ('9 22', alone('fn a(y, p) { spawn l = a; }')),
        'a-spawn-of-two-coroutines': ('9 22', alone('fn a(y: coro, p: coro) { spawn l = a; }')),
        'a-spawn-of-both-exchanged': ('9 22', alone('fn a(p: coro, y) { spawn l = a; }')),
        'a-spawn-of-a-number-and-a-resumption': ('9 22', alone('fn a(y, k: res h) { spawn l = a; }')),
        'a-spawn-of-a-resumption-and-a-coroutine': ('9 22', alone('fn a(k: res h, p: coro) { spawn l = a; }')),
        'a-spawn-of-three': ('9 22', alone('fn a(y, p: coro, z) { spawn l = a; }')),
        'a-spawn-of-a-number-and-a-resumption-of-nothing': (
            '9 22', alone('fn b() { spawn l = a; } fn a(y, k: res nothing) { }')),
        'a-group-of-no-parameter': ('10 22', in_function('group n(1);')),
        'a-group-of-main': ('10 22', in_function('return group main(1);')),
        'a-group-of-a-number-and-a-coroutine': ('10 22', in_function('group c(1);')),
        'a-group-of-a-coroutine': ('10 22', in_function('group d(1);')),
        'a-group-of-two-numbers': ('9 22', alone('fn a(y, z) { group a(1); }')),
        'a-group-of-a-resumption': ('9 22', alone('fn a(k: res h) { group a(1); }')),
        'a-group-of-eight': ('9 22', alone('fn a(b, c, d, e, f, g, h, i) { group a(1); }')),
        'in-a-clause': ('10 22', in_handler('spawn l = f;')),
        'in-a-return-clause': ('10 22', in_handler('', 'return group c(x);')),
        'in-an-argument': ('10 22', in_function('f(group n(1));')),
        'by-the-first-declaration': ('9 22', alone('fn b() { spawn l = a; } fn a() { } fn a(y, p: coro) { }')),
        'by-the-first-declaration-of-a-group': ('9 22', alone('fn b() { group a(1); } fn a() { } fn a(y) { }')),
        # The name is bound, so that its use breaks no rule.
        'a-spawn-and-its-use': ('10 22', in_function('spawn l = n; switch x, u = l(1); d(l);')),
        'neighbour/a-spawn': (None, in_function('spawn l = c;')),
        'neighbour/a-group': (None, in_function('group f(v);')),
        'a-main-that-suits': ('12 18', in_function('spawn l = main;').replace(MAIN, 'fn main(y, p: coro) { }\n')),
    },
    23: {
        'a-parameter': ('10 23', in_function('switch x, u = v(1);')),
        'a-let': ('10 23', in_function('let l = 1; switch x, u = l(1);')),
        'a-switched-number': ('10 23', in_function('switch x, u = t(1); switch y, w = x(1);')),
        'a-resumption': ('10 23', in_function('switch x, u = k(1);')),
        'a-taken-one': ('10 23', in_function('take l = s[0]; switch x, u = l(1);')),
        'one-taken-from-nothing': ('10 19', in_function('take l = nothing[0]; switch x, u = l(1);')),
        'a-clauses-argument': ('10 23', in_handler('switch y, u = w(1);')),
        'a-clauses-resumption': ('10 23', in_handler('switch y, u = k(1);')),
        'the-return-clauses-name': ('10 23', in_handler('', 'switch y, u = x(1);')),
        'a-parameter-of-the-handler': ('10 23', in_handler('switch y, u = p(1);', parameters='p')),
        'a-resumption-of-the-handler': ('10 23', in_handler('switch y, u = p(1);', parameters='p: res h')),
        'a-value-by-the-name-of-a-function': ('10 23', in_function('let c = 1; switch x, u = c(1);')),
        # The names are bound, so that their use breaks no rule.
        'and-the-use-of-its-names': ('10 23', in_function('switch x, u = v(1); switch y, w = u(x); d(w);')),
        'neighbour/a-parameter': (None, in_function('switch x, u = t(1);')),
        'neighbour/a-spawned-one': (None, in_function('spawn l = c; switch x, u = l(1);')),
        'neighbour/a-switched-one': (None, in_function('switch x, u = t(1); switch y, w = u(1);')),
        'neighbour/a-parameter-of-the-handler': (None, in_handler('switch y, u = p(w);', 'switch y, u = p(x);')),
    },
}
for rule, scripts in BROKEN.items():
    for name, (broken, text) in scripts.items():
        RULES.is_said(f'rule-{rule}/{name}', 'ok script' if broken is None else f'rule {broken}', text)
RULES.is_said('no-main/a-coroutine', 'rule 6 18', H + 'fn main(t: coro) { }')
# An effect of the name `spawn` was a script before the word was one of the language.
RULES.is_said('an-effect-of-the-name-spawn', 'parse 6', '''effect yield/0;
effect spawn/0;
fn start() { do spawn(); return 1; }
fn main() { return start(); }''')

# ## Which of two rules is told

COROUTINE_ONES = {
    22: 'fn NAME() { spawn l = main; }', 23: 'fn NAME(v) { switch x, u = v(1); }',
    12: 'fn NAME() { spawn l = nothing; }',
    6: 'fn NAME(t: coro) { switch x, x = t(1); }', 10: 'fn NAME() { switch x, u = y(1); }',
    11: 'fn NAME(t: coro) { group f(t); }', 16: 'fn NAME(t: coro) { r(t, 1); }'}
ORDER_FRONT = H + R + C
FIRST = 9       # the number of the declaration behind these
for first, one in COROUTINE_ONES.items():
    for second, other in ONES.items() if first in (22, 23) else ():
        mine, others = one.replace('NAME', 'a'), other.replace('NAME', 'b')
        ORDER.is_said(f'{first}-before-{second}', f'rule {FIRST} {first}', f'{ORDER_FRONT}{mine} {others} {MAIN}')
        # Of the two declarations that break rule 1 together it is the second.
        ORDER.is_said(f'{second}/before-{first}', f'rule {FIRST + (second == 1)} {second}',
                      f'{ORDER_FRONT}{others} {mine} {MAIN}')
    ORDER.is_said(f'a-name-again-by-{first}', f'rule {FIRST + 1} 1',
                  f'{ORDER_FRONT}effect a/0; {one.replace("NAME", "a")} {MAIN}')
# Each alone breaks its rule in a body.
COROUTINE_BODIES = {
    10: 'switch o, p = y(1);', 11: 'group f(t);', 12: 'spawn l = nothing;', 15: 'group f(main(1));', 16: 'd(v);',
    17: 'resume t(1) with ();', 21: 'store s[0] = v;', 22: 'spawn m = main;', 23: 'switch x, u = v(1);'}
for first, one in COROUTINE_BODIES.items():
    for second, other in (BODIES | COROUTINE_BODIES).items():
        if first != second and (first in (22, 23) or second in (22, 23) or first < second):
            said = f'rule 10 {min(first, second)}'
            ORDER.is_said(f'in-one-body/{first}-and-{second}', said, in_function(f'{one} {other}', FRONT))
    ORDER.is_said(f'in-one-body/6-and-{first}', 'rule 10 6', in_function(f'{one} spawn v = c;'))
for name, said, statements in [
        ('23-and-10', 10, 'switch x, u = v(y);'), ('23-and-11', 11, 'switch x, u = v(k);'),
        ('23-and-6', 6, 'switch x, v = v(1);'), ('23-and-12', 12, 'switch x, u = v(group nothing(1));'),
        ('23-and-22', 22, 'switch x, u = v(group main(1));'), ('23-and-13', 13, 'switch x, u = v(do nothing());'),
        ('22-and-10', 10, 'group main(y);'), ('22-and-11', 11, 'group main(t);'), ('22-and-6', 6, 'spawn v = main;'),
        ('22-and-12', 12, 'group main(nothing());'), ('22-and-14', 14, 'group main(handle n() with nothing());'),
        ('22-and-15', 15, 'group main(f());'), ('22-and-16', 16, 'group main(f(t));'),
        ('12-and-10', 10, 'group nothing(y);'), ('12-and-11', 11, 'group nothing(k);'),
        ('12-and-6', 6, 'spawn t = nothing;'), ('11-and-21', 11, 'store s[0] = t;'),
        ('11-and-19', 11, 'store nothing[0] = t;'), ('10-and-6', 6, 'switch x, t = y(1);')]:
    ORDER.is_said(f'in-one-statement/{name}', f'rule 10 {said}', in_function(statements))
