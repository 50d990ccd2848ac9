"""Scripts with slots that are checked: the grammar, nesting, and rules that are broken, with their neighbours. What is
said of a script where this is told was worked out by hand; of changed tokens the second reader says it alone."""

from rows.script_rules import BODIES, H, J, MAIN, ONES, R
from rows.script_samples import ScriptSection
from rows.scripts import AROUND, IN_CLAUSE, OTHERS, scripts_of

GRAMMAR = ScriptSection('grammar')
NESTING = ScriptSection('nesting')
RULES = ScriptSection('rules')
ORDER = ScriptSection('order')

# ## Productions

KEPT = 'slots s : res j [ 3 ] ; '
STATEMENTS = {
    'a-store': 'store s [ x ] = k ;', 'a-store-at-a-sum': 'store s [ x + 1 ] = k ;', 'a-take': 'take y = s [ 2 ] ;',
    'a-take-at-a-call': 'take y = s [ g ( x ) ] ;', 'a-store-and-a-take': 'store s [ 0 ] = k ; take y = s [ 0 ] ;'}
DECLARATIONS = {
    'slots': 'slots y : res h [ 4 ] ;', 'slots-and-slots': 'slots y : res h [ 4 ] ; slots u : res i [ 1 ] ;'}
for kind, forms, front, back in [
        ('statement', STATEMENTS, AROUND + KEPT + IN_CLAUSE, '} } fn main() { }\n'),
        ('declaration', DECLARATIONS, AROUND, ' fn main() { }\n')]:
    for name, tokens in forms.items():
        for change, text in scripts_of(tokens.split(), front, back, [*OTHERS, '(', '[', ']', 'slots', 'take']):
            GRAMMAR.row(f'{kind}/{name}/{change}', text)


def main(statements):
    """A script whose main is these statements, beside a handler and its slots."""
    return f'handler h() {{ return(x) {{ }} }} slots s: res h [2]; fn main() {{ {statements} }}\n'


def in_main(tokens):
    """The number of the token behind so many in main. In front stand 12 of the handler, 9 of the slots, and 5 of main
    up to its brace."""
    return 26 + tokens


for name, said, text in [
        ('no-number-of-slots', 'parse 18', 'handler h() { return(x) { } } slots s: res h []; fn main() { }'),
        ('a-name-for-a-number', 'parse 18', 'handler h() { return(x) { } } slots s: res h [s]; fn main() { }'),
        ('a-sum-for-a-number', 'parse 19', 'handler h() { return(x) { } } slots s: res h [1 + 1]; fn main() { }'),
        ('a-negative-number', 'parse 18', 'handler h() { return(x) { } } slots s: res h [-1]; fn main() { }'),
        ('a-number-above-the-greatest', 'lex 46',
         'handler h() { return(x) { } } slots s: res h [9223372036854775808]; fn main() { }'),
        ('parentheses-for-brackets', 'parse 17', 'handler h() { return(x) { } } slots s: res h (2); fn main() { }'),
        ('no-type', 'parse 14', 'handler h() { return(x) { } } slots s [2]; fn main() { }'),
        ('no-res', 'parse 15', 'handler h() { return(x) { } } slots s: h [2]; fn main() { }'),
        ('slots-in-a-body', f'parse {in_main(0)}', main('slots t: res h [2];')),
        ('a-store-at-the-top', 'parse 0', 'store s[0] = k; fn main() { }'),
        ('a-take-at-the-top', 'parse 0', 'take k = s[0]; fn main() { }'),
        ('a-store-without-a-place', f'parse {in_main(3)}', main('store s[] = k;')),
        ('a-store-without-brackets', f'parse {in_main(2)}', main('store s = k;')),
        ('a-store-of-two-places', f'parse {in_main(4)}', main('store s[0, 1] = k;')),
        ('a-store-of-a-number', f'parse {in_main(6)}', main('store s[0] = 1;')),
        ('a-store-of-a-name-in-parentheses', f'parse {in_main(6)}', main('store s[0] = (k);')),
        ('a-store-of-a-run', f'parse {in_main(7)}', main('store s[0] = k + 1;')),
        ('a-store-of-a-place', f'parse {in_main(7)}', main('store s[0] = s[1];')),
        ('a-take-of-a-name', f'parse {in_main(4)}', main('take k = s;')),
        ('a-take-of-a-run', f'parse {in_main(7)}', main('take k = s[0] + 1;')),
        ('a-take-without-a-name', f'parse {in_main(1)}', main('take = s[0];')),
        ('a-take-without-an-equals-sign', f'parse {in_main(2)}', main('take k s[0];')),
        ('a-take-in-an-expression', f'parse {in_main(1)}', main('print take k = s[0];')),
        ('a-let-of-a-place', f'parse {in_main(4)}', main('let k = s[0];')),
        ('a-place-in-an-expression', f'parse {in_main(2)}', main('print s[0];')),
        ('a-place-that-is-assigned', f'parse {in_main(1)}', main('s[0] = 1;')),
        ('two-pairs-of-brackets', f'parse {in_main(5)}', main('take k = s[[0]];')),
        ('brackets-around-a-number', f'parse {in_main(1)}', main('print [0];')),
        ('no-semicolon', f'parse {in_main(7)}', main('take k = s[0]')),
        ('a-comment-and-separators-between', 'ok script', main('take # a comment, ]\nk\t=s\n[\r0 ] ;'))]:
    GRAMMAR.is_said(f'known/{name}', said, text)
GRAMMAR.is_said('known/tokens-without-separators', 'ok script',
                'handler h(){return(x){}}slots s:res h[2];fn main(){take k=s[0];store s[1]=k;}')
for word in ('slots', 'store', 'take'):
    GRAMMAR.is_said(f'no-name/{word}/an-effect', 'parse 1', f'effect {word}/0; fn main() {{ }}')
    GRAMMAR.is_said(f'no-name/{word}/a-function', 'parse 1', f'fn {word}() {{ }} fn main() {{ }}')
    GRAMMAR.is_said(f'no-name/{word}/a-handler', 'parse 1', f'handler {word}() {{ return(x) {{ }} }} fn main() {{ }}')
    GRAMMAR.is_said(f'no-name/{word}/slots', 'parse 1', f'slots {word}: res h [1]; fn main() {{ }}')
    GRAMMAR.is_said(f'no-name/{word}/a-parameter', 'parse 3', f'fn main({word}) {{ }}')
    GRAMMAR.is_said(f'no-name/{word}/a-let', 'parse 6', f'fn main() {{ let {word} = 1; }}')
    GRAMMAR.is_said(f'no-name/{word}/read', 'parse 6', f'fn main() {{ print {word}; }}')
    GRAMMAR.is_said(f'no-name/{word}/assigned', f'parse {5 + (word != "slots")}', f'fn main() {{ {word} = 1; }}')
    GRAMMAR.is_said(f'no-name/{word}/called', f'parse {5 + (word != "slots")}', f'fn main() {{ {word}(); }}')
    GRAMMAR.is_said(f'no-name/{word}/longer', 'rule 0 10', f'fn main() {{ print {word}_; }}')
for bracket in ('[', ']'):
    GRAMMAR.is_said(f'alone/{bracket}', 'parse 0', bracket)
    GRAMMAR.is_said(f'alone/{bracket}-in-a-body', 'parse 5', f'fn main() {{ {bracket} }}')
    GRAMMAR.is_said(f'alone/{bracket}-behind-a-script', 'parse 6', f'fn main() {{ }} {bracket}')

# ## Nesting: brackets don't count

# Of 64, main's brace is one.
for count, said in [(63, 'ok script'), (64, 'deep')]:
    place = '(' * count + '0' + ')' * count
    NESTING.is_said(f'a-take/{count}', said, main(f'take k = s[{place}];'))
    NESTING.is_said(f'a-store/{count}', said, main(f'take k = s[0]; store s[{place}] = k;'))
    NESTING.is_said(
        f'a-bracket-within/{count}', f'parse {in_main(2 + count)}' if count == 63 else 'deep',
        main('print ' + '(' * count + 's[0]' + ')' * count + ';'))
for count, said in [(62, 'ok script'), (63, 'ok script'), (64, 'deep')]:
    NESTING.is_said(f'blocks/{count}', said, main('if 1 { ' * count + 'take k = s[0]; ' + '} ' * count))
NESTING.is_said('opened-brackets', f'parse {in_main(5)}', main('take k = s' + '[' * 100 + '0' + ']' * 100 + ';'))
NESTING.is_said('opened-brackets-and-no-end', f'parse {in_main(3)}',
                'handler h() { return(x) { } } slots s: res h [2]; fn main() { store s' + '[' * 100)
NESTING.is_said('a-bracket-closes-no-parenthesis', f'parse {in_main(7)}', main('take k = s[(0];'))
NESTING.is_said('a-parenthesis-closes-no-bracket', f'parse {in_main(6)}', main('take k = s[0);'))
NESTING.is_said('behind-brackets', 'deep', main('take k = s[0]; take l = s[1]; print ' + '(' * 64))
NESTING.is_said('behind-a-wrong-bracket', f'parse {in_main(0)}', main('[ print ' + '(' * 70))

# ## Rules

# Declarations 0 to 4, 5, 6, 7 and 8; what is judged is declaration 9.
S = 'slots s: res h [3];\nslots t: res j [2];\n'
FRONT = H + R + J + S


def in_function(statements, front=FRONT):
    """A script with a function of a resumption k of h and a number v."""
    return f'{front}fn g(k: res h, v) {{ {statements} }}\n{MAIN}'


def in_handler(clause, result='', parameters='p'):
    """A script with a handler h2 of a number p, and of these statements."""
    return (
        f'{FRONT}handler h2({parameters}) {{ return(x) {{ {result} }} on e(w) k {{ {clause} }} }}\n'
        f'slots own: res h2 [1];\n{MAIN}')


def alone(text):
    """A script of these declarations behind H, of which they are number 5 and those behind it, and of main."""
    return f'{H}{text}\n{MAIN}'


# For each rule, what breaks it alone, and neighbours that break none: pairs of what is said and of the script.
BROKEN = {
    1: {
        'slots-twice': ('6 1', alone('slots a: res h [1]; slots a: res h [2];')),
        'a-function': ('5 1', alone('slots f: res h [1];')),
        'an-effect': ('5 1', alone('slots e: res h [1];')),
        'its-handler': ('5 1', alone('slots h: res h [1];')),
        'a-function-behind': ('6 1', alone('slots a: res h [1]; fn a() { }')),
        'an-effect-behind': ('6 1', alone('slots a: res h [1]; effect a/0;')),
        'a-handler-behind': ('6 1', alone('slots a: res h [1]; handler a() { return(x) { } }')),
        'main-behind': ('6 1', alone('slots main: res h [1];')),
        'neighbour/two-names': (None, alone('slots a: res h [1]; slots b: res h [1];')),
        'neighbour/value-names': (None, in_function('let s = v; take t = s[s]; store s[s] = t;')),
    },
    5: {
        'nothing': ('5 5', alone('slots a: res nothing [1];')),
        'a-function': ('5 5', alone('slots a: res f [1];')),
        'an-effect': ('5 5', alone('slots a: res e [1];')),
        'itself': ('5 5', alone('slots a: res a [1];')),
        'other-slots': ('6 5', alone('slots a: res h [1]; slots b: res a [1];')),
        'a-parameter-of-slots': ('6 5', alone('slots a: res h [1]; fn b(k: res a) { }')),
        'a-handler-behind-slots': (
            '5 5', alone('slots b: res a [1]; slots a: res h [1]; handler a() { return(x) { } }')),
        'neighbour/a-handler': (None, alone('slots a: res h [1];')),
        'neighbour/a-handler-behind': (None, alone('slots a: res b [1]; handler b() { return(x) { } }')),
    },
    6: {
        'two-takes': ('9 6', in_function('take l = s[0]; take l = s[1];')),
        'two-takes-of-other-slots': ('9 6', in_function('take l = s[0]; take l = t[0];')),
        'a-take-and-a-let': ('9 6', in_function('take l = s[0]; let l = 1;')),
        'a-let-and-a-take': ('9 6', in_function('let l = 1; take l = s[0];')),
        'a-take-and-a-parameter': ('9 6', in_function('take k = s[0];')),
        'in-two-blocks': ('9 6', in_function('if v { take l = s[0]; } else { take l = s[1]; }')),
        'in-a-block-and-behind-it': ('9 6', in_function('while v { take l = s[0]; } take l = s[1];')),
        'in-two-loops': ('9 6', in_function('while v { take l = s[0]; } while v { let l = 1; }')),
        'a-clauses-argument': ('9 6', in_handler('take w = s[0];')),
        'a-clauses-resumption': ('9 6', in_handler('take k = s[0];')),
        'a-parameter-of-the-handler': ('9 6', in_handler('take p = s[0];')),
        'the-return-clauses-name': ('9 6', in_handler('', 'take x = s[0];')),
        'a-parameter-in-the-return-clause': ('9 6', in_handler('', 'take p = s[0];')),
        'two-in-the-return-clause': ('9 6', in_handler('', 'take l = s[0]; take l = s[0];')),
        'slots-that-are-missing': ('9 6', in_function('take l = nothing[0]; take l = nothing[0];')),
        'neighbour/in-two-functions': (
            None, in_function('take l = s[0];', FRONT + 'fn g2() { take l = s[0]; }\n')),
        'neighbour/in-a-clause-and-the-return-clause': (None, in_handler('take l = s[0];', 'take l = s[0];')),
        'neighbour/in-a-loop': (None, in_function('while v { take l = s[0]; resume l(1) with (2); }')),
        'neighbour/of-a-declaration': (None, in_function('take s = s[0]; store s[0] = s; take g = t[0];')),
        'neighbour/stored-twice': (None, in_function('store s[0] = k; store s[0] = k;')),
    },
    10: {
        'stored': ('9 10', in_function('store s[0] = l;')),
        'stored-before-its-take': ('9 10', in_function('store s[0] = l; take l = s[0];')),
        'stored-behind-its-block': ('9 10', in_function('if v { take l = s[0]; } store s[0] = l;')),
        'stored-in-the-other-block': ('9 10', in_function('if v { take l = s[0]; } else { store s[0] = l; }')),
        'stored-behind-its-loop': ('9 10', in_function('while v { take l = s[0]; } store s[1] = l;')),
        'stored-of-another-function': ('9 10', FRONT + 'fn g() { store s[0] = k; } ' + MAIN),
        'stored-by-the-name-of-slots': ('9 10', in_function('store s[0] = s;')),
        'the-resumption-in-the-return-clause': ('9 10', in_handler('', 'store own[0] = k;')),
        'resumed-before-its-take': ('9 10', in_function('resume l(1) with (2); take l = s[0];')),
        'resumed-behind-its-block': ('9 10', in_function('if v { take l = s[0]; } resume l(1) with (2);')),
        'passed-before-its-take': ('9 10', in_function('r(l, v); take l = s[0];')),
        'in-its-own-place': ('9 10', in_function('take l = s[l];')),
        'in-the-place-of-a-store': ('9 10', in_function('store s[y] = k;')),
        'in-the-place-of-a-take': ('9 10', in_function('take l = s[y + 1];')),
        'slots-as-a-value': ('9 10', in_function('print s;')),
        'neighbour/in-an-inner-block': (
            None, in_function('take l = s[0]; if v { while v { store s[1] = l; resume l(1) with (2); } }')),
        'neighbour/a-parameter': (None, in_function('store s[v] = k;')),
        'neighbour/behind-an-inner-block': (
            None, in_function('take l = s[0]; if v { take m = t[0]; } store s[1] = l;')),
    },
    11: {
        'a-taken-one-assigned': ('9 11', in_function('take l = s[0]; l = 1;')),
        'a-taken-one-read': ('9 11', in_function('take l = s[0]; print l;')),
        'a-taken-one-in-a-let': ('9 11', in_function('take l = s[0]; let m = l;')),
        'a-taken-one-returned': ('9 11', in_function('take l = s[0]; return l;')),
        'a-taken-one-alone': ('9 11', in_function('take l = s[0]; l;')),
        'a-taken-one-for-do': ('9 11', in_function('take l = s[0]; do e(l);')),
        'a-taken-one-as-a-value-of-resume': ('9 11', in_function('take l = s[0]; resume l(l) with (1);')),
        'a-taken-one-as-a-condition': ('9 11', in_function('take l = s[0]; while l { }')),
        'the-place-of-a-store': ('9 11', in_function('store s[k] = k;')),
        'in-the-place-of-a-store': ('9 11', in_function('store s[v + k] = k;')),
        'the-place-of-a-take': ('9 11', in_function('take l = s[k];')),
        'from-slots-that-are-missing': ('9 11', in_function('take l = nothing[0]; print l;')),
        'neighbour/stored': (None, in_function('store s[0] = k; take l = s[v]; store s[1] = l;')),
        'neighbour/an-argument': (None, in_function('take l = s[0]; r(l, v); r((l), v);')),
        'neighbour/in-the-lists-of-handle': (
            None, in_function('take l = s[0]; handle r(l, v) with j(l);')),
        'neighbour/in-a-place': (None, in_function('take l = s[r(k, v)];')),
    },
    15: {
        'a-taken-one-resumed-with-too-few': ('9 15', in_function('take l = s[0]; resume l(1) with ();')),
        'a-taken-one-resumed-with-too-many': ('9 15', in_function('take l = s[0]; resume l(1) with (1, 2);')),
        'by-the-handler-of-the-slots': ('9 15', in_function('take l = t[0]; resume l(1) with ();')),
        'in-a-place': ('9 15', in_function('store s[f()] = k;')),
        'a-handler-for-slots': ('9 15', in_function('take l = h[0]; resume l(1) with ();')),
        'neighbour/of-the-handler': (None, in_function('take l = s[0]; resume l(1) with (2);')),
        'neighbour/of-the-other-handler': (None, in_function('take l = t[0]; resume l(1) with (k);')),
    },
    16: {
        'a-taken-one-of-another-handler': ('9 16', in_function('take l = t[0]; r(l, v);')),
        'a-taken-one-for-a-handlers-parameter': ('9 16', in_function('take l = t[0]; handle n() with j(l);')),
        'a-taken-one-for-a-number': ('9 16', in_function('take l = s[0]; f(l);')),
        'a-taken-one-for-a-number-in-parentheses': ('9 16', in_function('take l = s[0]; f((l));')),
        'in-with': ('9 16', in_function('take l = t[0]; resume l(1) with (l);')),
        'in-a-place': ('9 16', in_function('take l = s[f(k)];')),
        'from-slots-that-are-missing-for-a-number': ('9 16', in_function('take l = nothing[0]; f(l);')),
        'another-handler-for-slots': ('9 16', in_function('take l = j[0]; r(l, v);')),
        'neighbour/of-the-handler': (None, in_function('take l = s[0]; r(l, v); handle n() with j(l);')),
        'neighbour/in-with': (None, in_function('take l = t[0]; take m = s[0]; resume l(1) with (m);')),
    },
    17: {
        'a-let-behind-a-take': ('9 17', in_function('take l = s[0]; let m = 1; resume m(1) with (2);')),
        'neighbour/a-taken-one': (None, in_function('take l = s[0]; resume l(1) with (2);')),
    },
    19: {
        'a-store-into-nothing': ('9 19', in_function('store nothing[0] = k;')),
        'a-take-from-nothing': ('9 19', in_function('take l = nothing[0];')),
        'a-store-into-a-function': ('9 19', in_function('store f[0] = k;')),
        'a-take-from-a-function': ('9 19', in_function('take l = f[0];')),
        'a-store-into-an-effect': ('9 19', in_function('store e[0] = k;')),
        'a-take-from-an-effect': ('9 19', in_function('take l = e[0];')),
        'a-store-into-a-handler': ('9 19', in_function('store h[0] = k;')),
        'a-take-from-a-handler': ('9 19', in_function('take l = h[0];')),
        'a-store-into-a-value': ('9 19', in_function('let a = 1; store a[0] = k;')),
        'a-take-from-a-value': ('9 19', in_function('let a = 1; take l = a[0];')),
        'a-store-into-itself': ('9 19', in_function('store k[0] = k;')),
        'slots-behind-a-function': (
            '9 19', in_function('take l = a[0];') + 'fn a() { } slots a: res h [1];'),
        'a-function-behind-slots': ('12 1', in_function('take l = a[0];') + 'slots a: res h [1]; fn a() { }'),
        'a-number-into-nothing': ('9 19', in_function('store nothing[0] = v;')),
        'another-case': ('9 19', in_function('take l = S[0];')),
        # The name is bound, so that its use breaks no rule.
        'a-take-from-nothing-and-a-resume': ('9 19', in_function('take l = nothing[0]; resume l(1) with ();')),
        'a-take-from-nothing-and-a-resume-of-many': (
            '9 19', in_function('take l = nothing[0]; return resume l(1) with (1, k, 3);')),
        'a-take-from-nothing-and-a-call': ('9 19', in_function('take l = nothing[0]; r(l, v);')),
        'a-take-from-nothing-and-a-handle': ('9 19', in_function('take l = nothing[0]; handle r(l, v) with j((l));')),
        'a-take-from-nothing-and-a-store': ('9 19', in_function('take l = nothing[0]; store s[0] = l;')),
        'a-take-from-nothing-and-stores': ('9 19', in_function(
            'take l = nothing[0]; store s[0] = l; store t[0] = l;')),
        'a-take-from-a-function-and-a-call': ('9 19', in_function('take l = f[0]; r(l, v);')),
        # It is of the type of the handler whose name stands there.
        'a-take-from-a-handler-and-its-resume': ('9 19', in_function('take l = h[0]; resume l(1) with (2);')),
        'a-take-from-a-handler-and-a-call': ('9 19', in_function('take l = h[0]; r(l, v);')),
        'a-take-from-another-handler-and-a-store': ('9 19', in_function('take l = j[0]; store s[0] = l;')),
        'neighbour/declared-behind': (None, in_function('take l = a[0]; store a[0] = k;') + 'slots a: res h [1];'),
        'neighbour/of-a-handler-behind': (None, in_handler('store own[0] = k; take l = own[0];')),
    },
    20: {
        'none': ('5 20', alone('slots a: res h [0];')),
        'zeros': ('5 20', alone('slots a: res h [000];')),
        '65-537': ('5 20', alone('slots a: res h [65537];')),
        'the-greatest-number': ('5 20', alone('slots a: res h [9223372036854775807];')),
        '2-to-the-32-and-one': ('5 20', alone('slots a: res h [4294967297];')),
        'the-second': ('6 20', alone('slots a: res h [1]; slots b: res h [0];')),
        'neighbour/one': (None, alone('slots a: res h [1];')),
        'neighbour/65-536': (None, alone('slots a: res h [65536];')),
        'neighbour/zeros-in-front': (None, alone('slots a: res h [00065536];')),
    },
    21: {
        'a-number': ('9 21', in_function('store s[0] = v;')),
        'a-let': ('9 21', in_function('let l = 1; store s[0] = l;')),
        'a-clauses-argument': ('9 21', in_handler('store own[0] = w;')),
        'the-return-clauses-name': ('9 21', in_handler('', 'store own[0] = x;')),
        'of-another-handler': ('9 21', in_function('store t[0] = k;')),
        'a-clauses-resumption': ('9 21', in_handler('store s[0] = k;')),
        'a-taken-one': ('9 21', in_function('take l = s[0]; store t[0] = l;')),
        'a-parameter-of-the-handler': ('9 21', in_handler('store own[0] = p;', parameters='p: res h')),
        'a-handler-that-is-missing': ('0 21', 'fn g(k: res a) { store b[0] = k; } handler a() { return(x) { } } '
                                      'slots b: res nothing [1]; ' + MAIN),
        'neighbour/of-the-handler': (None, in_function('store s[0] = k; take l = s[0]; store s[1] = l;')),
        'neighbour/a-clauses-resumption': (None, in_handler('store own[0] = k;')),
        'neighbour/a-parameter-of-the-handler': (None, in_handler('', 'store s[0] = p;', parameters='p: res h')),
    },
}
for rule, scripts in BROKEN.items():
    for name, (broken, text) in scripts.items():
        RULES.is_said(f'rule-{rule}/{name}', 'ok script' if broken is None else f'rule {broken}', text)
# Slots of a handler that is missing break rule 5, and what is done with them breaks none before.
for name, statements in [
        ('taken', 'take l = a[0];'), ('taken-and-resumed', 'take l = a[0]; resume l(1) with (1, 2);'),
        ('taken-and-passed', 'take l = a[0]; r(l, v);'), ('taken-and-stored', 'take l = a[0]; store s[0] = l;'),
        ('taken-and-stored-again', 'take l = a[0]; store a[0] = l;')]:
    RULES.is_said(f'slots-of-nothing/{name}', 'rule 11 5', in_function(statements) + 'slots a: res nothing [1];')
RULES.is_said('no-main/slots', 'rule 6 18', H + 'slots main: res h [1];')
RULES.is_said('no-main/a-number-of-slots', 'rule 5 20', H + 'slots main: res h [0];')

# Of two rules one is broken by an earlier declaration, or both by one body.
SLOTS_ONES = {
    '19': 'fn NAME() { take l = nothing[0]; }', '20': 'slots NAME: res h [0];', '21': 'fn NAME(v) { store s[0] = v; }',
    '5': 'slots NAME: res nothing [1];', '6': 'fn NAME(l) { take l = s[0]; }', '10': 'fn NAME() { store s[0] = y; }',
    '11': 'fn NAME() { take l = s[0]; print l; }'}
ORDER_FRONT = H + R + 'slots s: res h [3];\n'
FIRST = 7       # the number of the declaration behind these
for first, one in SLOTS_ONES.items():
    for second, other in ONES.items():
        mine, others = one.replace('NAME', 'a'), other.replace('NAME', 'b')
        ORDER.is_said(f'{first}-before-{second}', f'rule {FIRST} {first}', f'{ORDER_FRONT}{mine} {others} {MAIN}')
        # Of the two declarations that break rule 1 together it is the second.
        ORDER.is_said(f'{second}/before-{first}', f'rule {FIRST + (second == 1)} {second}',
                      f'{ORDER_FRONT}{others} {mine} {MAIN}')
    ORDER.is_said(f'a-name-again-by-{first}', f'rule {FIRST + 1} 1',
                  f'{ORDER_FRONT}effect a/0; {one.replace("NAME", "a")} {MAIN}')
    for second, other in SLOTS_ONES.items():
        ORDER.is_said(f'{first}-before-slots-{second}', f'rule {FIRST} {first}',
                      f'{ORDER_FRONT}{one.replace("NAME", "a")} {other.replace("NAME", "b")} {MAIN}')
SLOTS_BODIES = {
    10: 'store s[0] = y;', 11: 'store s[k] = k;', 15: 'take l = s[main(1)];', 19: 'take n = nothing[0];',
    21: 'store s[0] = v;'}
for first, one in SLOTS_BODIES.items():
    for second, other in (BODIES | SLOTS_BODIES).items():
        if first != second:
            for way, text in [('', f'{one} {other}'), ('/turned', f'{other} {one}')]:
                said = f'rule 9 {min(first, second)}'
                ORDER.is_said(f'in-one-body/{first}-and-{second}{way}', said, in_function(text))
    ORDER.is_said(f'in-one-body/6-and-{first}', 'rule 9 6', in_function(f'{one} take v = s[0];'))
ORDER.is_said('in-one-statement/19-and-10', 'rule 9 10', in_function('store nothing[0] = y;'))
ORDER.is_said('in-one-statement/19-and-11', 'rule 9 11', in_function('take l = nothing[k];'))
ORDER.is_said('in-one-statement/19-and-6', 'rule 9 6', in_function('take v = nothing[0];'))
ORDER.is_said('in-one-statement/21-and-12', 'rule 9 12', in_function('store s[nothing()] = v;'))
ORDER.is_said('in-one-statement/21-and-13', 'rule 9 13', in_function('store s[do nothing()] = v;'))
ORDER.is_said('in-one-declaration/5-and-20', 'rule 5 5', alone('slots a: res nothing [0];'))
ORDER.is_said('in-one-declaration/1-and-20', 'rule 5 1', alone('slots f: res h [65537];'))
ORDER.is_said('in-one-declaration/1-and-5-and-20', 'rule 5 1', alone('slots f: res f [0];'))
