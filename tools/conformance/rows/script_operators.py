"""Runs of scripts: operators and their edge cases, statements, and faults behind what is printed."""

from rows.script_run_samples import ScriptRunSection

OPERATORS = ScriptRunSection('operators')
STATEMENTS = ScriptRunSection('statements')
FAULTS = ScriptRunSection('faults')

LETS = '''let least = -9223372036854775807 - 1; let greatest = 9223372036854775807;
let big = 3037000500; let minus = 0 - 1;
'''
EDGES = ['0', '1', 'minus', '7', '(-7)', '2', '(-2)', 'big', 'greatest', 'least', '(least + 1)']
NUMBERS = dict(zip(EDGES, [0, 1, -1, 7, -7, 2, -2, 3037000500, 2 ** 63 - 1, -2 ** 63, 1 - 2 ** 63]))


def main(statements):
    """A script of main alone."""
    return f'fn main() {{\n{statements}\n}}'


def faults(operator, left, right):
    """Whether an operator on these edges is a fault."""
    return operator in ('/', '%') and NUMBERS[right] == 0 or (
        operator == '/' and NUMBERS[left] == -2 ** 63 and NUMBERS[right] == -1)


# Operators.
for operator in ['+', '-', '*', '/', '%', '==', '!=', '<', '<=', '>', '>=', '&&', '||']:
    prints = '\n'.join(
        ' '.join(f'print {left} {operator} {right};' for right in EDGES if not faults(operator, left, right))
        for left in EDGES)
    OPERATORS.row(f'on-edges/{operator}', main(LETS + prints))
    OPERATORS.whole(f'once/{operator}', main(f'print 9 {operator} 4; return (-9) {operator} 4;'))
for operator in ['-', '!']:
    OPERATORS.row(f'on-edges/prefix/{operator}', main(LETS + ' '.join(f'print {operator} {edge};' for edge in EDGES)))
for name, expression, value in [
        ('quotient/both-positive', '7 / 2', 3), ('quotient/left-negative', '-7 / 2', -3),
        ('quotient/right-negative', '7 / -2', -3), ('quotient/both-negative', '-7 / -2', 3),
        ('remainder/both-positive', '7 % 2', 1), ('remainder/left-negative', '-7 % 2', -1),
        ('remainder/right-negative', '7 % -2', 1), ('remainder/both-negative', '-7 % -2', -1),
        ('remainder/of-the-least-by-minus-one', '(0 - 9223372036854775807 - 1) % -1', 0),
        ('least-by-one', '(0 - 9223372036854775807 - 1) / 1', -2 ** 63),
        ('minus-of-the-least', '-(0 - 9223372036854775807 - 1)', -2 ** 63),
        ('sum-wraps', '9223372036854775807 + 1', -2 ** 63),
        ('difference-wraps', '0 - 9223372036854775807 - 2', 2 ** 63 - 1),
        ('product-wraps', '9223372036854775807 * 2', -2),
        ('product-of-the-least-and-minus-one', '(0 - 9223372036854775807 - 1) * -1', -2 ** 63),
        ('from-the-left', '100 - 10 - 1 + 2', 91), ('quotients-from-the-left', '100 / 10 / 5 % 3 * 7', 14),
        ('comparison-of-comparisons', '(1 < 2) == (3 > 2)', 1), ('not-not', '!(!7)', 1), ('minus-of-not', '-(!0)', -1)]:
    OPERATORS.whole(f'known/{name}', main(f'return {expression};'), f'= {value}')

SEEN = 'fn t(n) { print n; return n; }\n'
for name, expression, value, *printed in [
        ('and/both', 't(2) && t(3)', 1, 2, 3), ('and/left-decides', 't(0) && t(3)', 0, 0),
        ('and/right-is-0', 't(2) && t(0)', 0, 2, 0), ('or/left-decides', 't(5) || t(3)', 1, 5),
        ('or/right', 't(0) || t(3)', 1, 0, 3), ('or/neither', 't(0) || t(0)', 0, 0, 0),
        ('and/run', 't(1) && t(2) && t(0) && t(4)', 0, 1, 2, 0), ('or/run', 't(0) || t(0) || t(9) || t(4)', 1, 0, 0, 9),
        ('or-of-ands', 't(1) && t(0) || t(2) && t(3)', 1, 1, 0, 2, 3),
        ('and-of-ors', '(t(0) || t(4)) && (t(0) || t(0))', 0, 0, 4, 0, 0),
        ('in-the-right-side', 't(1) && (t(0) || (t(2) && t(-3)))', 1, 1, 0, 2, -3),
        ('within-sums', '(t(7) && t(8)) + (t(0) || t(0)) * 5 + (t(6) || t(1))', 2, 7, 8, 0, 0, 6),
        ('not-of-and', '!(t(1) && t(0))', 1, 1, 0), ('of-comparisons', 't(1) < t(2) && t(3) >= t(4)', 0, 1, 2, 3, 4)]:
    OPERATORS.whole(f'connectives/{name}', SEEN + main(f'return {expression};'), f'= {value}', *printed)

# Statements.
for name, statements, value, *printed in [
        ('if-chain', '''let x = 5;
if x == 1 { print 1; } else { if x == 5 { print 5; } else { print 9; } }
return x;''', 5, 5),
        ('while-nest', '''let i = 0; let s = 0;
while i < 4 { let j = i; while j { s = s + j; if s % 3 == 0 { print s; } j = j - 1; } i = i + 1; }
return s;''', 10, 3, 9),
        ('return-out-of-nests', 'while 1 { if 1 { while 2 { if 0 { } else { return 42; } } } } print 1;', 42),
        ('return-out-of-an-else', 'let i = 3; while i { if i > 1 { i = i - 1; } else { return i * 100; } }', 100),
        ('end-of-a-body', 'let x = 1; print x;', 0, 1),
        ('lets-in-a-loop', 'let i = 0; let s = 0; while i < 5 { let t = i * i; s = s + t; i = i + 1; } return s;', 30),
        ('assign-itself', 'let x = 3; x = x * x - x; x = x; return x;', 6),
        ('while-never', 'while 0 { print 1; } return 2;', 2), ('if-of-a-negative', 'if -1 { return 1; } return 2;', 1),
        ('nothing-behind-a-return', 'print 1; return 2; fail;', 2, 1),
        ('condition-of-a-call', 'while main2() { return 5; } return 6;', 6)]:
    front = 'fn main2() { return 0; }\n' if 'main2' in statements else ''
    STATEMENTS.whole(name, front + main(statements), f'= {value}', *printed)
STATEMENTS.whole('dropped-values', SEEN + main('t(1); t(2) + t(3); 4; !t(0);'), '= 0', 1, 2, 3, 0)
STATEMENTS.whole('fibonacci', '''fn f(n) { if n < 2 { return n; } return f(n - 1) + f(n - 2); }
''' + main('return f(11);'), '= 89')
STATEMENTS.whole('collatz', 'fn steps(n) { let c = 0; while n != 1 { if n % 2 { n = 3 * n + 1; } else { n = n / 2; } '
                 'c = c + 1; } return c; }\n' + main('print steps(27); return steps(97);'), '= 118', 111)
STATEMENTS.whole('even-and-odd', '''fn even(n) { if n == 0 { return 1; } return odd(n - 1); }
fn odd(n) { if n == 0 { return 0; } return even(n - 1); }
''' + main('print even(10); return even(7);'), '= 0', 1)
STATEMENTS.whole('eight-parameters', '''fn f(a, b, c, d, e, f, g, h) {
a = a + h;
return a - b + c - d + e - f + g - h;
}
''' + main('return f(1, 2, 3, 4, 5, 6, 7, 80);'), '= 4')

# Faults.
FAULTS.whole('overflow', main('return (0 - 9223372036854775807 - 1) / (0 - 1);'), 'fault overflow')
for name, statement, fault in [
        ('divzero/quotient', 'let z = 0; print 1 / z;', 'divzero'),
        ('divzero/remainder', 'return 5 % (1 - 1);', 'divzero'),
        ('divzero/zero-by-zero', 'return 0 / 0;', 'divzero'), ('failed', 'fail;', 'failed'),
        ('failed/in-a-loop', 'while 1 { fail; }', 'failed'),
        ('overflow', 'let l = -9223372036854775807; return (l - 1) / -1;', 'overflow')]:
    FAULTS.whole(f'behind-output/{name}', main(f'print 1; print 22; {statement}'), f'fault {fault}', 1, 22)
    FAULTS.row(f'in-a-function/{name}', f'fn f() {{ print 3; {statement} }}\n' + main('print 4; print f(); print 5;'))
FAULTS.whole('not-evaluated', main('print 0 && 1 / 0; print 1 || 1 % 0; return 3;'), '= 3', 0, 1)
FAULTS.whole('first-of-two', main('return 1 / 0 + (0 - 9223372036854775807 - 1) / -1;'), 'fault divzero')
