"""Scripts with coroutines at the limits, and how they are compiled. The bytes of code were worked out by hand."""

from rows.script_coroutine_runs import BOTH, HOLDS, LIMITS, MODULES, TRAVELS, compiled

# ## Limits

GROUPED = 'fn f(n) { if n { return group f(n - 1); } return 0; }\n'
LIMITS.is_known('handles/1000-groups', GROUPED + 'fn main() { return group f(999); }', '= 0')
LIMITS.is_known('handles/1001-groups', GROUPED + 'fn main() { print 5; return group f(1000); }', 'limit handles', 5)
MIXED = '''fn f(n) { if n { return handle g(n - 1) with id(); } return 0; }
fn g(n) { return group f(n); }
handler id() { return(x) { return x; } }
'''
LIMITS.is_known('handles/500-groups-and-500-handles', MIXED + 'fn main() { return f(500); }', '= 0')
LIMITS.is_known('handles/501-groups-and-501-handles', MIXED + 'fn main() { return f(501); }', 'limit handles')
# Each of two coroutines has 600 handles; those of the one that waits don't count.
LIMITS.is_known('handles/of-one-that-waits', '''fn down(n, t: coro) {
if n { return handle down(n - 1, t) with id(); }
switch a, u = t(7); print a;
switch b, w = u(a + 1); return b;
}
handler id() { return(x) { return x; } }
fn other(x, p: coro) { print x; return down(600, p); }
fn body(n) { spawn t = other; return down(n, t); }
fn main() { return group body(600); }''', '= 9', 7, 7, 8)
# Main and the group's function are two activations, and each coroutine's own is one.
DEEP = '''fn deep(n) { if n { return 0 + deep(n - 1); } return 0; }
fn body(n) { spawn t = f; switch a, u = t(n); return a; }
fn f(x, p: coro) { return 0 + deep(x); }
'''
LIMITS.is_known('frames/19997', DEEP + 'fn main() { return group body(19997); }', '= 0')
LIMITS.is_known('frames/19998', DEEP + 'fn main() { return group body(19998); }', 'limit frames')
LIMITS.is_known('frames/of-one-that-waits', '''fn deep(n, t: coro) {
if n { return 1 + deep(n - 1, t); }
switch a, u = t(n); print a;
switch b, w = u(n); return 0;
}
fn f(x, p: coro) { print x; return deep(15000, p); }
fn body(n) { spawn t = f; return deep(n, t); }
fn main() { return group body(15000); }''', '= 15000', 0, 0, 0)
SPAWNS = '''fn f(x, p: coro) {{ return x; }}
fn id(n) {{ return n; }}
fn spawns(n) {{ let i = 0; while i < n {{ spawn t = f; i = i + 1; }} return i; }}
fn switches(n) {{ spawn t = f; spawns(n - 1); switch a, u = t(n); return a; }}
fn main() {{ print 3; {} }}'''
LIMITS.is_known('conts/65536-spawns', SPAWNS.format('return spawns(65536);'), '= 65536', 3)
LIMITS.is_known('conts/65537-spawns', SPAWNS.format('return spawns(65537);'), 'limit conts', 3)
LIMITS.is_known('conts/65536-spawns-and-a-group', SPAWNS.format('print spawns(65536); return group id(1);'),
                'limit conts', 3, 65536)
LIMITS.is_known('conts/65535-spawns-and-a-group', SPAWNS.format('print spawns(65535); return group id(1);'),
                '= 1', 3, 65535)
# A switch keeps as many as before.
LIMITS.is_known('conts/65536-spawns-and-a-switch', SPAWNS.format('return group switches(65536);'), '= 65536', 3)
# What was switched to is kept no more, and what switched and is left stays.
LIMITS.is_known('conts/ended-groups', '''fn f(x, p: coro) { return x; }
fn body(n) { spawn t = f; switch a, u = t(n); return a; }
fn main() { let i = 0; while i < 65600 { i = i + group body(1); } return i; }''', 'limit conts')
# Two take turns by tail calls.
LIMITS.is_known('turns', '''fn turns(n, t: coro) { if n { switch a, u = t(n - 1); return turns(a, u); } return 9; }
fn other(x, p: coro) { return turns(x, p); }
fn body(n) { spawn t = other; return turns(n, t); }
fn main() { return group body(21000); }''', '= 9')

# ## Code

TYPES = '01 1D 06 60 01 7E 01 7E 5D 00 60 00 01 7E 5D 02 60 01 7E 00 4E 02 60 02 7E 63 06 01 7E 5D 05'
TAG = '0D 03 01 00 02'
F = 'fn f(n) { return n; } '
C = 'fn c(y, p: coro) { } '
compiled('code/without-coroutines', 'fn main() { }', TYPES, '03 02 01 02 ' + TAG)
# Function f is 1: its reference, a continuation of it, and a resume with a clause for the tag 0.
compiled('code/a-group', F + 'fn main() { return group f(7); }', TYPES, TAG, '09 05 01 03 00 01 01',
         '00 42 07 D2 01 E0 01 E3 01 01 01 00 0F 42 00 0F 0B')
compiled('code/a-group-that-is-dropped', F + 'fn main() { group f(1); }',
         '00 42 01 D2 01 E0 01 E3 01 01 01 00 1A 42 00 0F 0B')
compiled('code/a-group-of-a-group', F + 'fn main() { return 1 + group f(-group f(2)); }',
         '00 42 01 42 02 D2 01 E0 01 E3 01 01 01 00 42 7F 7E D2 01 E0 01 E3 01 01 01 00 7C 0F 42 00 0F 0B')
# The functions have the types 5 and 2, and the coroutine's local the type (ref null 6).
compiled('code/a-spawn', C + 'fn main() { spawn t = c; }', TYPES, '03 03 02 05 02', '09 05 01 03 00 01 01',
         '01 01 63 06 D2 01 E0 06 21 00 42 00 0F 0B')
compiled('code/a-switch', 'fn c(y, p: coro) { switch x, u = p(y + 1); return x; } fn main() { }', '03 03 02 05 02',
         '02 01 7E 01 63 06 20 00 42 01 7C 20 01 E6 06 00 21 03 21 02 20 02 0F 42 00 0F 0B')
compiled('code/a-switch-to-a-spawned-one', C + 'fn f(n) { spawn t = c; switch x, u = t(n); return x; } fn main() { }',
         '03 01 63 06 01 7E 01 63 06 D2 01 E0 06 21 01 20 00 20 01 E6 06 00 21 03 21 02 20 02 0F 42 00 0F 0B')
# The tag stands behind those of effects: 2 behind two, of the types 2 and 7.
compiled('code/behind-effects', 'effect a/0; effect b/2; ' + F + '''fn c(y, p: coro) { switch x, u = p(y); }
fn main() { return group f(1); }''', '0D 07 03 00 02 00 07 00 02', '20 00 20 01 E6 06 02 21 03 21 02',
         '42 01 D2 01 E0 01 E3 01 01 01 02 0F')
EFFECTS = ''.join(f'effect e{number}/0; ' for number in range(128))
compiled('code/behind-128-effects', EFFECTS + F + '''fn c(y, p: coro) { switch x, u = p(y); }
fn main() { return group f(1); }''', '20 00 20 01 E6 06 80 01 21 03 21 02', '42 01 D2 01 E0 01 E3 01 01 01 80 01 0F')
# Names stand in the order of the text, those of inner blocks too, in runs of one type.
compiled('code/names-in-order', C + '''fn main() {
let a = 1; spawn t = c; switch x, u = t(a);
if a { spawn v = c; let b = 2; } else { switch y, w = u(x); }
}''', '06 01 7E 01 63 06 01 7E 02 63 06 02 7E 01 63 06')
compiled('code/names-of-three-types', C + '''handler h() { return(x) { return x; } } slots s: res h [1];
fn main() { take k = s[0]; spawn t = c; take j = s[0]; switch x, u = t(1); }''',
         '06 01 63 01 01 63 06 01 63 01 01 7E 01 63 06 01 7E')
# Functions c, n, f and z are 2 to 5; each that is named stands once, in the order of declaration.
compiled('code/functions-that-are-named', '''fn main() {
group f(1); handle n() with h(); spawn t = c; group f(2); spawn u = c; z();
}
fn c(y, p: coro) { } fn n() { } fn f(a) { } fn z() { group f(3); }
handler h() { return(x) { return x; } }''', '09 07 01 03 00 03 02 03 04')
# In front of what is handled, the number lies in local 1, and the coroutine stays in local 0; local 2 is not used.
compiled('code/a-handled-function-of-a-coroutine', C + '''fn main() { spawn t = c; handle c(1, t) with h(); }
handler h() { return(x) { return x; } }''',
         '02 01 63 06 02 7E D2 01 E0 06 21 00 42 01 21 01 01 20 01 20 00 D2 01 E0 06 E1 06 03 10 03 1A 42 00 0F 0B')
compiled('code/a-handled-function-of-a-number', F + '''fn main() { group f(1); handle f(2) with h(); }
handler h() { return(x) { return x; } }''',
         '01 01 7E 42 01 D2 01 E0 01 E3 01 01 01 00 1A 42 02 21 00 20 00 D2 01 E0 01 E1 01 03 10 03 1A 42 00 0F 0B')
# Types behind the first: of the function of two coroutines, and of the handler.
compiled('code/types-of-coroutines', '''fn d(p: coro, q: coro) { d(q, p); return d(p, p); }
handler h(p: coro) { return(x) { switch y, u = p(x); return y; } } fn main() { }''',
         '60 02 63 06 63 06 01 7E 60 02 63 06 63 03 01 7E', '00 20 01 20 00 10 01 1A 20 00 20 00 12 01 42 00 0F 0B')
compiled('code/a-type-that-a-function-and-a-coroutine-have', '''fn a(x, p: coro) { return b(x, p); }
fn b(y, q: coro) { return a(y, q); } fn main() { }''', TYPES, '03 04 03 05 05 02')
compiled('code/a-last-resume-with-a-coroutine', '''effect e/0;
handler h(p: coro) { return(x) { return x; } on e() k { switch y, u = p(1); return resume k(y) with (u); } }
fn main() { }''')
compiled('code/groups-among-arguments', F + '''fn p(a, b) { return a - b; } handler h(s) { return(x) { return x + s; } }
fn main() { return handle p(group f(1), group f(handle f(2) with h(group f(3)))) with h(group f(4)); }''')
compiled('code/switches-in-clauses', C + '''effect e/1;
handler h(p: coro, s) {
return(x) { spawn t = c; switch y, u = t(x); return y; }
on e(w) k { while w { switch y, u = p(w); w = w - 1; } spawn t = c; return 1 + resume k(s) with (t, s); }
}
fn main() { }''')
for name, text in [('both', BOTH), ('travels', TRAVELS.replace('SECOND', '')), ('holds', HOLDS.replace('MAIN', ''))]:
    compiled(name, text)
MANY = ''.join(f'fn c{number}(x, p: coro) {{ return x + {number}; }}\n' for number in range(130))
MODULES.whole('a-hundred-and-thirty-functions', f'''{MANY}fn body(n) {{ spawn t = c129; switch a, u = t(n); return a; }}
fn main() {{ return group body(3); }}''', '= 132')
compiled('a-hundred-and-thirty-functions', f'''{MANY}fn body(n) {{ spawn t = c129; switch a, u = t(n); return a; }}
fn main() {{ return group body(3); }}''', 'D2 82 01 E0 06 21 01')
