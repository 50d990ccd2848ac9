"""Scripts that are compiled. What is written of one is what the second compiler says when the row is made, and a run of
it is to come to what is known by hand."""

from itertools import product
from pathlib import Path

from executing import outcome_of
from rows.script_run_samples import data_of
from rows.script_samples import spelled_script
from rows.sections import CallRow, Section, answered, spelled
from script_compiler import built

SECTION = Section('script_modules')
COUNTER = Path(__file__).resolve().parents[3] / 'crates' / 'stackwasm' / 'data' / 'counter.script'
LONGEST = 1048576


class BuildRow:
    """A script, and the lines that say what its build comes to."""

    def __init__(self, name, data, wanted):
        self.name, self.data, self.wanted = name, data, wanted

    @property
    def fields(self):
        """The lines of the row."""
        return ['words stackwasm build x', f'file x{spelled_script(self.data)}', *self.wanted]


def module_of(name, data):
    """The module of a script, which is not to be refused."""
    module = built(data)
    if isinstance(module, str):
        raise ValueError(f'{name}: {module}')
    return module


def compiled_row(name, text, *codes):
    """How a script is compiled, and codes that its module has somewhere."""
    data = data_of(text)
    module = module_of(name, data)
    for code in codes:
        if bytes.fromhex(code) not in module:
            raise ValueError(f'{name}: {code} is not in {module.hex().upper()}')
    return BuildRow(f'{name}/build', data, [f'out {spelled(module)}'])


def ends(name, text, printed, line, status):
    """A script whose module prints these numbers, and whose run ends with this line and status."""
    data = (text.strip() + '\n').encode()
    module = module_of(name, data)
    lines = ''.join(f'{number}\n' for number in printed)
    wanted = (f'{lines}{line}\n', '') if status == 0 else (lines, f'{line}\n')
    outcome = outcome_of(module)
    if outcome != (wanted[0].encode(), wanted[1].encode(), status):
        raise ValueError(f'{name}: {outcome}')
    SECTION.rows.append(BuildRow(name, data, [f'out {spelled(module)}']))


def gives(name, text, value, *printed):
    """A script whose main gives this value, when its module has printed these numbers."""
    ends(name, text, printed, f'= {value}', 0)


def traps(name, text, kind, *printed):
    """A script whose module ends with a trap, when it has printed these numbers."""
    ends(name, text, printed, f'trap {kind}', 1)


def main(name, body, value, *printed):
    """A script of main alone."""
    gives(name, f'fn main() {{ {body} }}', value, *printed)


def refused(name, said, text):
    """A script that is refused so."""
    data = (text + '\n').encode()
    if built(data) != said:
        raise ValueError(f'{name}: {built(data)} and not {said}')
    SECTION.rows.append(BuildRow(name, data, answered(said)))


# Expressions.
main('no-statement', '', 0)
main('literals', 'print 0; print 63; print 64; print 127; print 128; print 8192; return 9223372036854775807;',
     9223372036854775807, 0, 63, 64, 127, 128, 8192)
for operator, left, right, value in [
        ('+', '7', '3', 10), ('-', '3', '7', -4), ('*', '6', '-7', -42), ('/', '-7', '2', -3), ('%', '-7', '2', -1),
        ('==', '3', '3', 1), ('!=', '3', '3', 0), ('<', '-1', '0', 1), ('<=', '2', '1', 0), ('>', '3', '2', 1),
        ('>=', '2', '3', 0), ('&&', '2', '4', 1), ('||', '0', '0', 0)]:
    main(f'operator-{operator}', f'return {left} {operator} {right};', value)
main('negations', 'print -5; print -(-6); print -(9223372036854775807 + 1); return -(0 - 7);', 7,
     -5, 6, -9223372036854775808)
main('not', 'print !5; print !(!5); return !0;', 1, 0, 1)
main('sums-wrap', 'return 9223372036854775807 + 1;', -9223372036854775808)
main('runs-of-operators', 'return 20 - 5 - 3 * 2 % 4 / 1;', 13)
main('operators-in-parentheses', 'return (1 + 2) * (3 - (4 - 5));', 12)
main('comparisons-of-sums', 'return (1 + 2 < 2 + 2) == 1;', 1)
main('runs-of-connectives', 'print 0 || 1 && 2 && 0; return 0 || 1 && 2 && 0 || 4;', 1, 0)
SEEN = 'fn seen() { print 5; return 7; }\n'
gives('and-of-calls', SEEN + 'fn main() { print 2 && seen(); return 0 && seen(); }', 0, 5, 1)
gives('or-of-calls', SEEN + 'fn main() { print 0 || seen(); return 2 || seen(); }', 1, 5, 1)
gives('calls-in-one-another', '''
fn main() { return twice(twice(seven())); }
fn seven() { return 7; }
fn twice(x) { return x + x; }''', 28)
gives('a-call-with-eight-arguments', '''
fn f(a, b, c, d, e, f, g, h) { return a - b + c - d + e - f + g - h; }
fn main() { return f(8, 1, 7, 2, 6, 3, 5, 4); }''', 16)
gives('arguments-from-the-left', '''
fn shown(x) { print x; return x; }
fn f(a, b) { return a * 10 + b; }
fn main() { return f(shown(1), shown(2)) - shown(3) * shown(4); }''', 0, 1, 2, 3, 4)
gives('a-function-that-calls-itself', '''
fn factorial(n) { if n <= 1 { return 1; } return n * factorial(n - 1); }
fn main() { return factorial(10); }''', 3628800)
gives('one-name-for-a-function-and-its-parameter', 'fn main() { return x(3); } fn x(x) { return x; }', 3)

# Statements.
main('lets-in-blocks', '''let a = 1;
if a { let b = a + 1; print b; } else { let c = a + 2; print c; }
let d = 4;
return a + d;''', 5, 2)
main('assignments', 'let a = 1; a = a + 1; a = a * 5; return a;', 10)
main('if-without-else', 'if 0 { print 1; } if -1 { print 2; } return 3;', 3, 2)
main('if-with-else', 'if 1 { if 0 { print 1; } else { print 2; } } else { print 3; } if 0 { } else { return 5; }', 5, 2)
main('empty-blocks', 'if 1 { } else { } if 1 { } while 0 { }', 0)
main('while', 'let i = 0; let s = 0; while i < 10 { i = i + 1; s = s + i; } return s;', 55)
main('while-in-while', '''let i = 0;
while 1 { let j = 0; while j < 3 { if i * j == 4 { return i * 10 + j; } j = j + 1; } i = i + 1; }''', 22)
main('prints', 'print 1; print -1; print -9223372036854775807 - 1;', 0, 1, -1, -9223372036854775808)
main('return-before-statements', 'return 1; print 2; return 3;', 1)
gives('dropped-values', SEEN + 'fn main() { 1; seen(); 2 + seen(); }', 0, 5, 5)
traps('fail', 'fn main() { print 1; fail; print 2; }', 'unreachable', 1)
traps('a-quotient-by-0', 'fn main() { let zero = 0; return 1 / zero; }', 'divide by zero')
traps('a-remainder-by-0', 'fn main() { return 1 % 0; }', 'divide by zero')
traps('a-quotient-of-2-to-the-63', 'fn main() { return (-9223372036854775807 - 1) / -1; }', 'integer overflow')

# Effects and handlers.
gives('counter', COUNTER.read_text(), 19, 21)
gives('an-effect-of-one-argument', '''
effect twice/1;
fn body(x) { return do twice(x + 1) + do twice(x); }
handler h() { return(x) { return x; } on twice(y) k { return resume k(y + y) with (); } }
fn main() { return handle body(4) with h(); }''', 18)
gives('an-effect-of-eight-arguments', '''
effect e/8;
fn body() { return do e(1, 2, 3, 4, 5, 6, 7, 8); }
handler h() {
return(x) { return x; }
on e(a, b, c, d, e, f, g, h) k {
return resume k(((((((a * 10 + b) * 10 + c) * 10 + d) * 10 + e) * 10 + f) * 10 + g) * 10 + h) with ();
}
}
fn main() { return handle body() with h(); }''', 12345678)
traps('an-effect-without-a-handler', 'effect one/0; effect two/0; fn main() { print 5; return do two(); }',
      'unhandled 1', 5)
gives('a-handler-without-clauses', '''
fn body(x) { return x * 2; }
handler plus(n) { return(x) { print x; return x + n; } }
fn main() { return handle body(3) with plus(5); }''', 11, 6)
gives('an-empty-return-clause', '''
fn body() { return 4; }
handler h() { return(x) { } }
fn main() { return handle body() with h(); }''', 0)
gives('a-handler-of-three-clauses', '''
effect put/1;
effect get/0;
effect stop/1;
fn body() { do put(do get() + 1); do put(do get() * 10); do stop(do get()); return 1; }
handler state(s) {
return(x) { return x; }
on stop(v) k { return v + s; }
on get() k { return resume k(s) with (s); }
on put(v) k { print v; return resume k(0) with (v); }
}
fn main() { return handle body() with state(6); }''', 140, 7, 70)
EFFECTS = ''.join(f'effect e{number}/0;\n' for number in range(16))
CLAUSES = ''.join(f'on e{number}() k {{ return resume k({number}) with (s + 1); }}\n' for number in range(16))
SUM = ' + '.join(f'do e{number}() * 2' for number in range(16))
gives('a-handler-of-sixteen-clauses', f'''
{EFFECTS}handler h(s) {{
return(x) {{ return x + s; }}
{CLAUSES}}}
fn body() {{ return {SUM}; }}
fn main() {{ return handle body() with h(1000); }}''', 1256)
ASKING = '''effect ask/0;
fn body() { print do ask() + do ask(); return 7; }
'''
HANDLED = 'fn main() { return handle body() with h(10); }'
gives('a-resume-that-is-not-last', ASKING + '''handler h(s) {
return(x) { return x + s; }
on ask() k { return 100 + resume k(s) with (s + 1); }
}
''' + HANDLED, 219, 21)
gives('a-resume-whose-value-is-bound', ASKING + '''handler h(s) {
return(x) { return x + s; }
on ask() k { let v = resume k(s * 2) with (s + 1); print s; return v * 2; }
}
''' + HANDLED, 76, 42, 11, 10)
gives('a-resume-that-is-dropped', ASKING + '''handler h(s) {
return(x) { return x + s; }
on ask() k { resume k(s) with (0); return s; }
}
''' + HANDLED, 10, 10)
gives('a-resumption-that-is-dropped', ASKING + '''handler h(s) {
return(x) { return x + s; }
on ask() k { print s; }
}
''' + HANDLED, 0, 10)
gives('a-last-resume-in-parentheses', ASKING + '''handler h(s) {
return(x) { return x + s; }
on ask() k { return (resume k(s) with (s + 1)); }
}
''' + HANDLED, 19, 21)
gives('a-last-resume-of-two-parameters-exchanged', '''effect ask/0;
fn body() { print do ask(); print do ask(); return do ask(); }
handler h(a, b) {
return(x) { return x; }
on ask() k { return resume k(a * 10 + b) with (b, a); }
}
fn main() { return handle body() with h(1, 2); }''', 12, 12, 21)
gives('a-last-resume-in-blocks', ASKING + '''handler h(s) {
return(x) { return x + s; }
on ask() k {
while s { if s > 10 { return resume k(s) with (3); } else { while 1 { return resume k(s) with (s * 2); } } }
}
}
''' + HANDLED, 10, 30)
traps('a-resumption-used-twice', '''effect ask/0;
fn body() { return do ask(); }
handler h() {
return(x) { print x; return x; }
on ask() k { let v = resume k(3) with (); return resume k(v) with (); }
}
fn main() { return handle body() with h(); }''', 'consumed continuation', 3)
gives('an-effect-in-a-clause-and-in-a-return-clause', '''effect ask/0;
effect tell/1;
fn body() { return do ask(); }
fn handled() { return handle body() with inner(); }
handler inner() {
return(x) { return do tell(x) + 1; }
on ask() k { do tell(7); return resume k(do tell(8)) with (); }
}
handler outer() {
return(x) { return x; }
on tell(v) k { print v; return resume k(v * 2) with (); }
}
fn main() { return handle handled() with outer(); }''', 33, 7, 8, 16)
gives('generators', '''effect tick/1;
fn task(id, n) { let i = 0; while i < n { do tick(id); i = i + 1; } return 0; }
fn all() { task(1, 38); task(2, 75); task(3, 15); }
handler count(ticks, total) {
return(x) { print ticks; return total; }
on tick(w) k { return resume k(0) with (ticks + 1, total + w); }
}
fn main() { return handle all() with count(0, 0); }''', 233, 128)

# Resumptions that are passed on.
gives('a-resumption-as-an-argument', '''fn go(a, k: res h, b) { return resume k(a * 10 + b) with (b); }
effect ask/0;
fn body() { return do ask() + 1; }
handler h(s) { return(x) { return x + s; } on ask() k { return go(1, k, 2); } }
fn main() { return handle body() with h(100); }''', 15)
gives('a-resumption-that-is-handled', '''effect ask/0;
fn body() { return do ask() + 100; }
fn go(a, k: res h, b) { print a; return resume k(b) with (a); }
handler plus(n) { return(x) { return x + n; } }
handler h(s) { return(x) { return x * s; } on ask() k { return 1 + handle go(2, (k), s) with plus(1000); } }
fn main() { return handle body() with h(3); }''', 1207, 2)
gives('only-resumptions-that-are-handled', '''effect ask/0;
fn body() { return do ask() + 100; }
fn go(k: res h) { return resume k(5) with (); }
handler id() { return(x) { return x; } }
handler h() { return(x) { return x; } on ask() k { return handle go(k) with id(); } }
fn main() { return handle body() with h(); }''', 105)
KEPT = '''effect ask/0;
effect other/0;
fn one() { return do ask() + 1; }
fn two() { return do other() + 10; }
handler outer() { return(x) { return x; } on other() k { return handle one() with inner(k, 2); } }
'''
gives('a-parameter-that-is-a-resumption', KEPT + '''handler inner(saved: res outer, n) {
return(x) { return resume saved(x * n) with (); }
on ask() k { return resume k(5) with (saved, n + 1); }
}
fn main() { return handle two() with outer(); }''', 28)
gives('a-parameter-that-is-a-resumption-and-a-resume-that-is-not-last', KEPT + '''handler inner(saved: res outer, n) {
return(x) { return resume saved(x * n) with (); }
on ask() k { let v = resume k(5) with ((saved), n + 1); print n; return v + 100; }
}
fn main() { return handle two() with outer(); }''', 128, 2)
gives('a-last-resume-of-another-handler', KEPT + '''handler inner(saved: res outer, n) {
return(x) { return x; }
on ask() k { return resume saved(n) with (); }
}
fn main() { return handle two() with outer(); }''', 12)
gives('a-resumption-that-a-handler-keeps', '''effect ask/1;
fn body(x) { return do ask(x) * 10 + do ask(x + 1); }
fn first(k: res h) { return handle body(5) with two(k); }
handler h() { return(x) { return x; } on ask(v) k { print v; return first(k); } }
handler two(a: res h) {
return(x) { return resume a(x) with (); }
on ask(v) k { return 1 + resume k(v) with (a); }
}
fn start() { return do ask(1); }
fn main() { return handle start() with h(); }''', 58, 1)

# Handles in one another.
gives('nested-handles', '''effect a/0;
effect b/0;
fn inner() { return do a() * 10 + do b(); }
handler hb(v) { return(x) { return x; } on b() k { return resume k(v) with (v); } }
fn mid() { return handle inner() with hb(3); }
handler ha(v) { return(x) { return x; } on a() k { return resume k(v) with (v); } }
fn main() { return handle mid() with ha(4); }''', 43)
gives('the-innermost-handler-of-an-effect', '''effect a/0;
fn inner() { return do a(); }
fn mid() { return (handle inner() with h(3)) * 10 + do a(); }
handler h(v) { return(x) { return x; } on a() k { return resume k(v) with (v); } }
fn main() { return handle mid() with h(4); }''', 34)
gives('handles-among-arguments', '''fn f(x, y) { return x * 2 + y; }
handler h(s) { return(x) { return x + s; } }
fn main() {
return handle f(1, handle f(1, 2) with h(3)) with h(handle f(handle f(4, 5) with h(6), 7) with h(8));
}''', 62)
gives('resumes-among-arguments', '''effect ask/1;
fn body() { return do ask(1) + do ask(2); }
fn sum(a, b) { return a * 100 + b; }
handler h(s) {
return(x) { return x + s; }
on ask(v) k { return sum(v, 1 + resume k(sum(v, s)) with (s + sum(0, v))); }
}
fn main() { return handle body() with h(7); }''', 627)
gives('two-functions-that-are-handled', '''handler h() { return(x) { return x; } }
fn b() { return 2; }
fn main() { return (handle a(3, 4) with h()) * 10 + handle b() with h(); }
fn no() { return 1; }
fn a(x, y) { return x + y; }''', 72)
gives('functions-that-are-handled-in-a-handler', '''effect e/0;
fn f() { return do e(); }
fn g(x) { return x + 1; }
fn j(x) { return x + 2; }
handler id() { return(x) { return x; } }
handler h() {
return(x) { return handle g(x) with id(); }
on e() k { if 1 { while 1 { return resume k(handle j(5) with id()) with (); } } }
}
fn main() { return handle f() with h(); }''', 8)

# Large indices.
LETS = ''.join(f'let v{number} = {number};\n' for number in range(130))
gives('a-hundred-and-thirty-names', f'fn main() {{\n{LETS}return v129 * 1000 + v63 + v128;\n}}', 129191)
PATTERNS = ''.join(
    f'fn f{number}({", ".join(f"p{place}{kind}" for place, kind in enumerate(kinds))}) {{ }}\n'
    for number, kinds in enumerate(product(('', ': res h'), repeat=6)))
gives('a-block-of-a-type-behind-sixty-four', f'''{PATTERNS}effect ask/0;
fn body(a, b, c) {{ return do ask() + c; }}
handler h() {{ return(x) {{ return x; }} on ask() k {{ return resume k(5) with (); }} }}
fn main() {{ return handle body(1, 2, 3) with h(); }}''', 8)
FUNCTIONS = ''.join(f'fn f{number}() {{ return {number}; }}\n' for number in range(130))
gives('functions-behind-a-hundred-and-twenty-eight', FUNCTIONS + '''handler h() { return(x) { return x; } }
fn main() { return f129() * 1000 + handle f128() with h(); }''', 129128)

# Scripts that are refused.
refused('a-byte-that-begins-no-token', 'lex 12', 'fn main() { ? }')
refused('no-statement-begins-so', 'parse 5', 'fn main() { ) }')
refused('a-module-behind-a-separator', 'lex 1', ' \0asm\1\0\0\0')
refused('parentheses-nested-too-deep', 'deep', f'fn main() {{ return {"(" * 64}1{")" * 64}; }}')
refused('a-name-that-is-not-bound', 'rule 0 10', 'fn main() { return x; }')
refused('a-second-declaration-of-a-name', 'rule 2 1', 'fn main() { } effect e/0; fn e() { }')
refused('no-main', 'rule 1 18', 'effect e/0;')


def sized(name, words, wanted):
    """A script that is spelled by words, each of text with a number of times."""
    given = ' '.join(f'{text.encode().hex().upper()}*{times}' for text, times in words)
    SECTION.rows.append(CallRow(name, 'build x', given, wanted))


def longest_module():
    """How the module of the script of a size of 50,000 is written, with its statements as one repeated word."""
    statement = '42011A'
    times = STATEMENTS[1][1]
    module = built(''.join(text * times for text, times in STATEMENTS).encode())
    front, run, back = module.hex().upper().partition(statement * times)
    if not run:
        raise ValueError('the statements are compiled otherwise')
    return f'{front} {statement}*{times} {back}'


STATEMENTS = [('fn main() { ', 1), ('1;', 24999), ('fail; }', 1)]
sized('a-size-of-50-000', STATEMENTS, [f'out {longest_module()}'])
sized('a-size-of-50-001', [('fn main() { ', 1), ('1;', 25000), ('}', 1)], answered('limit size'))
sized('a-size-above-50-000-and-a-rule', [('fn main() { ', 1), ('1;', 25000), ('x; }', 1)], answered('rule 0 10'))
sized('more-bytes-than-a-script-may-have', [(' ', LONGEST + 1)], answered('limit script'))
