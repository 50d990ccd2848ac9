"""Runs of scripts with slots, and how these are compiled. What a run is to come to where this is told was worked out by
hand from what the language says, and the second readers are to come to the same; so were the bytes of code."""

from rows.script_modules import compiled_row
from rows.script_run_samples import ScriptRunSection

RUNS = ScriptRunSection('runs')
PLACES = ScriptRunSection('places')
RESUMPTIONS = ScriptRunSection('resumptions')
ORDER = ScriptRunSection('order')
STEPS = ScriptRunSection('steps')
LIMITS = ScriptRunSection('limits')
MODULES = ScriptRunSection('modules')

LEAST = '(0 - 9223372036854775807 - 1)'


def compiled(name, text, *codes):
    """How a script is compiled, and codes that its module has somewhere."""
    MODULES.rows.append(compiled_row(name, text, *codes))


def whole(section, name, text, end, *printed):
    """The usual rows of a run, and one of how the script is compiled."""
    section.whole(name, text, end, *printed)
    compiled(f'{section.name}/{name}', text)


# ## Scripts that keep resumptions

JOBS = '''effect wait/1;
slots q: res run [COUNT];
fn job(id) { print id; do wait(id); print id + 10; return 0; }
handler run() { return(x) { return x; } on wait(i) k { store q[i] = k; return 0; } }
fn main() {
handle job(0) with run();
handle job(1) with run();
take a = q[1];
resume a(0) with ();
take b = q[0];
resume b(0) with ();
LAST
}'''


def jobs(last, count='2'):
    """Two jobs that wait and then go on, the second one first."""
    return JOBS.replace('LAST', last).replace('COUNT', count)


whole(RUNS, 'jobs', jobs('return 5;'), '= 5', 0, 1, 11, 10)
whole(RUNS, 'jobs/a-place-that-is-empty', jobs('take c = q[1];'), 'fault empty', 0, 1, 11, 10)
whole(RUNS, 'jobs/no-such-place', jobs('take c = q[0 - 1];'), 'fault empty', 0, 1, 11, 10)
RUNS.is_known('jobs/no-places', jobs('return 5;', '0'), 'rule 1 20')
RUNS.is_known('jobs/one-place', jobs('return 5;', '1'), 'fault empty', 0, 1)
RUNS.is_known('jobs/65-536-places', jobs('return 5;', '65536'), '= 5', 0, 1, 11, 10)
RUNS.is_known('jobs/65-537-places', jobs('return 5;', '65537'), 'rule 1 20')
# Places 0 to 3 are a ring. Three tasks of 1, 3 and 2 turns: each turn prints the task and what is left of it.
whole(RUNS, 'a-ring-of-tasks', '''effect pause/0;
slots ring: res task [4];
fn run(id, turns) { while turns { print id * 10 + turns; turns = turns - 1; do pause(); } return id; }
handler task(place) { return(x) { print x; return 1; } on pause() k { store ring[place % 4] = k; return 0; } }
fn main() {
handle run(1, 1) with task(0);
handle run(2, 3) with task(1);
handle run(3, 2) with task(2);
let first = 0; let behind = 3;
while first < behind {
take next = ring[first % 4];
first = first + 1;
let ended = resume next(0) with (behind);
if !ended { behind = behind + 1; }
}
return behind * 100 + first;
}''', '= 606', 11, 23, 32, 1, 22, 31, 21, 3, 2)
# Three of a generator's values are asked for, between which main prints.
whole(RUNS, 'a-generator', '''effect give/1;
slots rest: res gen [1];
fn numbers(n) { while 1 { do give(n * n); n = n + 1; } }
handler gen() { return(x) { return x; } on give(v) k { store rest[0] = k; return v; } }
fn next() { take k = rest[0]; return resume k(0) with (); }
fn main() { print handle numbers(3) with gen(); print 0; print next(); print 1; return next(); }''',
      '= 25', 9, 0, 16, 1)
whole(RUNS, 'slots-of-two-handlers', '''effect a/0; effect b/0;
slots sa: res ha [2]; slots sb: res hb [2];
fn fa(n) { return do a() + n; }
fn fb(n) { return do b() * n; }
handler ha() { return(x) { return x + 1; } on a() k { store sa[1] = k; return 0; } }
handler hb(p) { return(x) { return x * p; } on b() k { store sb[1] = k; return 0; } }
fn main() {
handle fa(5) with ha(); handle fb(7) with hb(2);
take ka = sa[1]; take kb = sb[1];
print resume kb(3) with (10);
print resume ka(100) with ();
take none = sb[0];
}''', 'fault empty', 210, 106)
whole(RUNS, 'two-slots-of-one-handler', '''effect a/0;
slots s: res h [1]; slots t: res h [1];
fn f(n) { return do a() + n; }
handler h(into) {
return(x) { return x; }
on a() k { if into { store t[0] = k; } else { store s[0] = k; } return 0; }
}
fn main() {
handle f(1) with h(0); handle f(2) with h(1);
take y = t[0]; print resume y(10) with (0);
take x = s[0]; print resume x(20) with (0);
return 3;
}''', '= 3', 12, 21)

# ## Places

FRONT = '''effect e/0;
slots s: res h [COUNT];
fn one(n) { return do e() + n; }
'''
KEEPING = FRONT + '''handler h(place) {
return(x) { return x; }
on e() k { print 1; store s[place] = k; print 2; return 7; }
}
fn main() {
print handle one(100) with h(KEPT);
take a = s[TAKEN];
print 3;
return resume a(5) with (0);
}'''


def keeping(count, kept, taken):
    """A script that keeps a resumption in one of so many places, and takes from one."""
    return KEEPING.replace('COUNT', str(count)).replace('KEPT', kept).replace('TAKEN', taken)


for count in (1, 3, 63, 64, 65536):
    for name, place in [('0', 0), ('the-last', count - 1)]:
        PLACES.is_known(f'{count}/there/{name}', keeping(count, str(place), str(place)), '= 105', 1, 2, 7, 3)
    # No place of slots, though the lowest 32 bits of some of the numbers are one.
    for name, place in [
            ('minus-1', '0 - 1'), ('the-number-of-places', str(count)), ('one-more', str(count + 1)),
            ('minus-the-number-of-places', f'0 - {count}'),
            ('2-to-the-31', '2147483648'), ('2-to-the-32-minus-1', '4294967295'), ('2-to-the-32', '4294967296'),
            ('2-to-the-32-and-a-place', str(2 ** 32 + count - 1)), ('minus-2-to-the-32', '0 - 4294967296'),
            ('minus-2-to-the-32-and-a-place', f'0 - 4294967296 + {count - 1}'),
            ('2-to-the-62', str(2 ** 62)), ('the-greatest', '9223372036854775807'),
            ('2-to-the-63-minus-2-to-the-32', str(2 ** 63 - 2 ** 32)), ('the-least', LEAST),
            ('the-least-and-a-place', f'{LEAST} + {count - 1}')]:
        PLACES.is_known(f'{count}/stored/{name}', keeping(count, place, '0'), 'fault empty', 1)
        PLACES.is_known(f'{count}/taken/{name}', keeping(count, '0', place), 'fault empty', 1, 2, 7)
PLACES.is_known('3/there/in-the-middle', keeping(3, '1', '1'), '= 105', 1, 2, 7, 3)
PLACES.is_known('3/there/another-one', keeping(3, '1', '2'), 'fault empty', 1, 2, 7)
PLACES.is_known('3/there/by-sums', keeping(3, '5 - 3', '(1 + 1) * 1'), '= 105', 1, 2, 7, 3)
PLACES.is_known('3/there/by-a-comparison', keeping(3, '4 < 5', '!0'), '= 105', 1, 2, 7, 3)
PLACES.is_known(
    '3/there/that-wraps', keeping(3, '9223372036854775807 + 9223372036854775807 + 2', '0'), '= 105', 1, 2, 7, 3)
whole(PLACES, 'no-such-place/stored', keeping(2, '2', '0'), 'fault empty', 1)
whole(PLACES, 'no-such-place/taken', keeping(2, '0', '2'), 'fault empty', 1, 2, 7)
whole(PLACES, 'an-empty-place', keeping(2, '0', '1'), 'fault empty', 1, 2, 7)
PLACES.is_known('all-are-empty-at-the-start', FRONT.replace('COUNT', '2') + '''handler h() { return(x) { return x; } }
fn main() { print 8; take a = s[1]; return 1; }''', 'fault empty', 8)

# ## What becomes of resumptions

# A clause that stores into the place of its handler's parameter, and gives 0.
STORING = '''effect e/0;
slots s: res h [3];
fn one(n) { return do e() + n; }
handler h(place) { return(x) { return x; } on e() k { CLAUSE } }
'''


def storing(statements, clause='store s[place] = k; return 0;', more=''):
    """Such a script, whose main is these statements."""
    return STORING.replace('CLAUSE', clause) + more + f'fn main() {{\n{statements}\n}}'


whole(RESUMPTIONS, 'taken-twice', storing('''handle one(1) with h(0);
take a = s[0]; print resume a(4) with (0);
take b = s[0]; print 9;'''), 'fault empty', 5)
whole(RESUMPTIONS, 'taken-twice/not-resumed', storing('''handle one(1) with h(0);
take a = s[0]; print 5; take b = s[0]; print 9;'''), 'fault empty', 5)
whole(RESUMPTIONS, 'one-stored-over', storing('''handle one(1) with h(0); handle one(20) with h(0);
take a = s[0]; print resume a(4) with (0);
take b = s[0];'''), 'fault empty', 24)
whole(RESUMPTIONS, 'stored-over-itself', storing('''handle one(1) with h(0);
take a = s[0]; store s[0] = a; store s[0] = a;
take b = s[0]; return resume b(4) with (0);'''), '= 5')
whole(RESUMPTIONS, 'resumed-meanwhile', storing('''handle one(1) with h(0);
take a = s[0]; store s[1] = a;
print resume a(4) with (0);
take b = s[1]; print 6;
return resume b(9) with (0);'''), 'fault reused', 5, 6)
whole(RESUMPTIONS, 'resumed-meanwhile-by-its-clause', storing('''print handle one(1) with h(0);
take a = s[0]; print 6;
return resume a(9) with (0);''', 'store s[0] = k; return resume k(3) with (1);'), 'fault reused', 4, 6)
whole(RESUMPTIONS, 'resumed-meanwhile-and-dropped', storing('''print handle one(1) with h(0);
take a = s[0];
return 8;''', 'store s[0] = k; let v = resume k(3) with (1); return v;'), '= 8', 4)
whole(RESUMPTIONS, 'resumed-and-then-stored', storing('''print handle one(1) with h(0);
take a = s[0];
return resume a(1) with (1);''', 'let v = resume k(3) with (1); store s[place] = k; return v;'), 'fault reused', 4)
whole(RESUMPTIONS, 'in-two-places', storing('''handle one(1) with h(0);
take a = s[0]; take b = s[1];
print resume a(4) with (0);
return resume b(5) with (0);''', 'store s[0] = k; store s[1] = k; return 0;'), 'fault reused', 5)
whole(RESUMPTIONS, 'in-two-places/taken-after-the-first-was-resumed', storing('''handle one(1) with h(0);
take b = s[1];
print resume b(4) with (0);
take a = s[0]; print 6;
return resume a(5) with (0);''', 'store s[0] = k; store s[1] = k; return 0;'), 'fault reused', 5, 6)
whole(RESUMPTIONS, 'in-two-places/one-is-never-resumed', storing('''handle one(1) with h(0);
take a = s[0]; print resume a(4) with (0);
take b = s[1]; return 3;''', 'store s[0] = k; store s[1] = k; return 0;'), '= 3', 5)
# The name is bound anew in each turn, to 2, 1 and 0.
whole(RESUMPTIONS, 'one-name-in-a-loop', storing('''let i = 0;
while i < 3 { handle one(i * 10) with h(i); i = i + 1; }
while i { i = i - 1; take a = s[i]; print resume a(i) with (0); }
while 1 { take b = s[i]; }'''), 'fault empty', 22, 11, 0)
# The second turn's take is the fault, though the name still has what the first one took.
whole(RESUMPTIONS, 'one-name-in-a-loop/and-the-place-is-empty', storing('''handle one(1) with h(0);
let i = 0;
while i < 2 { print i; take a = s[0]; i = i + 1; }
return 9;'''), 'fault empty', 0, 1)
whole(RESUMPTIONS, 'one-name-in-a-loop/put-back', storing('''handle one(1) with h(0);
let i = 0;
while i < 5 { take a = s[i % 3]; i = i + 1; store s[i % 3] = a; }
take b = s[2]; return resume b(4) with (0);'''), '= 5')
whole(RESUMPTIONS, 'under-a-handler-and-resumed-outside', storing(
    '''handle one(1) with h(0);
print handle moving(0, 2) with other(50);
take a = s[2];
return resume a(4) with (0);''', more='''effect ask/0;
fn moving(from, to) { take k = s[from]; let v = do ask(); store s[to] = k; return v; }
handler other(n) { return(x) { return x + 1; } on ask() j { return resume j(n) with (n); } }
'''), '= 5', 51)
# What goes on performs an effect of the handle that is around then, and not of the one that was.
ASKING = '''effect ask/0;
fn asks(n) { let a = do e(); return do ask() * 100 + a * 10 + n; }
handler answers(v) { return(x) { return x; } on ask() j { return resume j(v) with (v); } }
fn begins(n) { return handle asks(n) with h(0); }
fn goes_on(v) { take k = s[0]; return resume k(v) with (0); }
'''
whole(RESUMPTIONS, 'another-handle-around', storing('''print handle begins(1) with answers(2);
return handle goes_on(3) with answers(4);''', more=ASKING), '= 431', 0)
whole(RESUMPTIONS, 'no-handle-around', storing('''print handle begins(1) with answers(2);
return goes_on(3);''', more=ASKING), 'fault unhandled ask', 0)
whole(RESUMPTIONS, 'inner-handles-stand-again', storing('''print handle inner(1) with h(0);
take k = s[0];
return resume k(5) with (0);''', more='''effect ask/0;
fn asks(n) { print do ask(); let a = do e(); print do ask(); return a + n; }
handler counts(v) { return(x) { return x * 1000 + v; } on ask() j { return resume j(v) with (v + 1); } }
fn inner(n) { return handle asks(n) with counts(30); }
'''), '= 6032', 30, 0, 31)
# The handler that is resumed has 2 as its place, so that its next effect is stored there.
whole(RESUMPTIONS, 'with-another-parameter', storing('''print handle two() with h(0);
take a = s[0]; print resume a(4) with (2);
take b = s[2]; return resume b(5) with (0);''', more='fn two() { return do e() * 10 + do e(); }\n'), '= 45', 0, 0)
whole(RESUMPTIONS, 'a-name-of-a-parameter', storing('''handle one(1) with h(0);
take a = s[0]; keep(a, 2);
take b = s[2]; return go(b, 6);''', more='''fn keep(k: res h, place) { store s[place] = k; }
fn go(k: res h, v) { return resume k(v) with (0); }
'''), '= 7')
whole(RESUMPTIONS, 'a-parameter-of-a-handler', storing('''handle one(1) with h(0);
take a = s[0]; print handle first() with last(a);
take b = s[1]; return resume b(8) with (0);''', more='''fn first() { return 5; }
handler last(k: res h) { return(x) { store s[1] = k; return x; } }
'''), '= 9', 5)
whole(RESUMPTIONS, 'taken-in-a-return-clause', storing('''handle one(1) with h(0);
return handle first() with last();''', more='''fn first() { return 5; }
handler last() { return(x) { take k = s[0]; return resume k(x) with (0); } }
'''), '= 6')
whole(RESUMPTIONS, 'taken-in-a-clause', storing('''handle one(1) with h(0);
return handle first() with last();''', more='''effect ask/1;
fn first() { return do ask(5) * 1000; }
handler last() { return(x) { return x; } on ask(v) j { take k = s[0]; return resume j(resume k(v) with (0)) with (); } }
'''), '= 6000')
# A clause takes what an earlier one of its handler stored, and resumes it last.
LAST = 'if place { take old = s[0]; store s[0] = k; return resume old(place) with (0); } store s[0] = k; return 0;'
whole(RESUMPTIONS, 'a-last-resume-of-a-taken-one', storing('''print handle one(1) with h(0);
print handle one(20) with h(3);
take a = s[0]; return resume a(6) with (0);''', LAST), '= 26', 0, 4)
whole(RESUMPTIONS, 'a-resume-of-a-taken-one-that-is-not-last', storing('''print handle one(1) with h(0);
print handle one(20) with h(3);
take a = s[0]; return resume a(6) with (0);''', LAST.replace('return resume old', 'return 100 + resume old')),
      '= 26', 0, 104)
whole(RESUMPTIONS, 'a-last-resume-of-a-taken-one-of-another-handler', storing('''handle one(1) with h(0);
return handle first() with last();''', more='''effect ask/0;
fn first() { return do ask(); }
handler last() { return(x) { return x; } on ask() j { take k = s[0]; return resume k(70) with (0); } }
'''), '= 71')
whole(RESUMPTIONS, 'a-last-resume-of-one-that-was-resumed', storing('''print handle one(1) with h(0);
return handle one(20) with h(3);''', '''
store s[1] = k;
if place { print resume k(0) with (0); take old = s[1]; return resume old(1) with (0); }
return 0;'''), 'fault reused', 0, 20)
whole(RESUMPTIONS, 'a-last-resume-of-a-taken-one-in-a-return-clause', '''effect e/0;
slots s: res h [1];
fn one(n) { return do e() + n; }
fn first() { return 5; }
handler h(turns) {
return(x) { print x; if turns { take k = s[0]; return resume k(x) with (turns - 1); } return x; }
on e() k { store s[0] = k; return 0; }
}
fn main() {
print handle one(1) with h(0);
return handle first() with h(1);
}''', '= 6', 0, 5, 6)
# A resumption that is stored again when it goes on.
whole(RESUMPTIONS, 'a-store-behind-a-resume', storing('''print handle turns(3) with h(0);
let n = 0;
while n < 3 { take a = s[0]; n = n + 1; print resume a(n) with (0); }
take b = s[0];''', more='''fn turns(n) { let t = 0; while n { t = t * 10 + do e(); n = n - 1; } return t; }
'''), 'fault empty', 0, 0, 0, 123)
whole(RESUMPTIONS, 'at-the-end-of-a-body', storing(
    '''print handle one(1) with h(0); print takes(); take a = s[1]; return resume a(2) with (0);''',
    more='fn takes() { take k = s[0]; store s[1] = k; }\n'), '= 3', 0, 0)
whole(RESUMPTIONS, 'never-taken', storing('handle one(1) with h(0); handle one(1) with h(1); return 4;'), '= 4')

# ## What is evaluated first, and which fault is told

SHOWN = 'fn t(n) { print n; return n; }\n'
whole(ORDER, 'a-place-before-a-fault/store', storing(
    'handle one(1) with h(0);', 'store s[t(3)] = k; print 4;', SHOWN), 'fault empty', 3)
whole(ORDER, 'a-place-before-a-fault/take', storing('take a = s[t(2)]; print 4;', more=SHOWN), 'fault empty', 2)
whole(ORDER, 'a-fault-in-a-place/store', storing(
    'handle one(1) with h(0);', 'store s[t(3) / (t(1) - 1)] = k;', SHOWN), 'fault divzero', 3, 1)
whole(ORDER, 'a-fault-in-a-place/take', storing('take a = s[t(3) % place()];', more=SHOWN + 'fn place() { fail; }\n'),
      'fault failed', 3)
whole(ORDER, 'an-unhandled-effect-in-a-place', storing('take a = s[do e()];'), 'fault unhandled e')
# The clause of the outer handle tells the place.
whole(ORDER, 'effects-in-places', storing('handle keeps() with places(2);', '''
store s[do place()] = k; return do place();
''', '''effect place/0;
fn keeps() { print handle one(1) with h(0); take b = s[do place() - 1]; store s[do place()] = b; return 0; }
handler places(n) { return(x) { return x; } on place() k { print n; return resume k(n) with (n + (n == 2)); } }
'''), 'fault empty', 2, 3, 3, 3, 3)
# The place is filled, or emptied, while it is evaluated.
whole(ORDER, 'a-place-that-takes-the-same', storing('''handle one(1) with h(0);
take a = s[empties(0)]; print 9;''', more='fn empties(n) { take k = s[n]; print 3; return n; }\n'), 'fault empty', 3)
whole(ORDER, 'a-place-that-fills-it', storing('''handle one(1) with h(0);
take a = s[moves(0, 2)]; return resume a(8) with (0);''', more='''fn moves(from, to) {
take k = s[from]; store s[to] = k; return to;
}
'''), '= 9')
whole(ORDER, 'a-place-that-stores-the-same', storing('''handle one(1) with h(0);
take a = s[0]; take b = s[1];
print resume a(8) with (0); return resume b(9) with (0);''', 'store s[stores(k)] = k; return 0;', '''
fn stores(k: res h) { store s[0] = k; return 1; }
'''), 'fault reused', 9)
whole(ORDER, 'a-place-that-resumes', storing('''print handle one(1) with h(0);
take a = s[2]; print 6; return resume a(9) with (0);''', 'store s[resume k(1) with (0)] = k; return 7;'),
      'fault reused', 7, 6)
whole(ORDER, 'a-place-that-handles', storing('''print handle one(1) with h(handle two(1) with h(0));
take a = s[2]; return resume a(5) with (0);''', 'store s[handle two(place - 1) with h(0)] = k; return 7;', '''
fn two(n) { return n + 1; }
'''), '= 6', 7)
# Each connective leaves its right side where the left one decides.
whole(ORDER, 'connectives-in-places', storing('''print handle one(1) with h(5);
take a = s[t(0) && t(5)]; store s[t(4) || t(6)] = a;
take b = s[1]; return resume b(t(5) && t(6)) with (0);''', 'store s[place && 0] = k; return 0;', SHOWN),
      '= 2', 0, 0, 4, 5, 6)

# ## Steps

SMALL = '''effect e/0;
slots s: res h [2];
fn f() { print 1; return do e(); }
handler h() { return(x) { return x; } on e() k { print 2; store s[1] = k; print 3; return 4; } }
fn main() { handle f() with h(); take a = s[1]; print 5; take b = s[1]; return 6; }
'''
STEPS.each_step('a-store-and-takes', SMALL)
STEPS.each_step('a-resume', SMALL.replace('take b = s[1]; return 6;', 'return resume a(7) with ();'))
STEPS.each_step('a-fault', 'handler h() { return(x) { return x; } } slots s: res h [3]; '
                'fn main() { print 1; take a = s[1 + 1]; return 6; }')

# ## Limits

# A last resume of a taken one leaves nothing behind.
LIMITS.is_known('last-resumes', '''effect tick/0;
slots s: res h [1];
fn body() { let i = 0; while i < 21000 { do tick(); i = i + 1; } return i; }
handler h() {
return(x) { return x; }
on tick() k { store s[0] = k; take j = s[0]; return resume j(0) with (); }
}
fn main() { return handle body() with h(); }''', '= 21000')
# Main, its clauses, the body and one handle are 20,000, and one more are too many.
for count, end in [(19997, '= 19997'), (19998, 'limit frames')]:
    LIMITS.is_known(f'resumes-that-are-not-last/{count}', f'''effect tick/0;
slots s: res h [1];
fn body() {{ let i = 0; while i < {count} {{ do tick(); i = i + 1; }} return i; }}
handler h() {{
return(x) {{ return x; }}
on tick() k {{ store s[0] = k; take j = s[0]; return 0 + resume j(0) with (); }}
}}
fn main() {{ return handle body() with h(); }}''', end)
# What is stored over is still kept.
for count, end in [(65536, '= 65536'), (65537, 'limit conts')]:
    LIMITS.is_known(f'stored-over/{count}', f'''effect e/0;
slots s: res h [1];
fn one() {{ return do e(); }}
handler h() {{ return(x) {{ return x; }} on e() k {{ store s[0] = k; return 1; }} }}
fn main() {{ let i = 0; while i < {count} {{ i = i + handle one() with h(); }} return i; }}''', end)
# Handles of what is kept don't count, until it goes on.
LIMITS.is_known('handles-of-what-is-kept', '''effect e/0;
slots s: res h [2];
fn down(n) { if n { return handle down(n - 1) with id(); } return do e(); }
handler id() { return(x) { return x; } }
handler h(place) { return(x) { return x; } on e() k { store s[place] = k; return 1; } }
fn under(n) { if n { return handle under(n - 1) with id(); } take k = s[1]; return resume k(3) with (0); }
fn main() {
print handle down(600) with h(0); print handle down(600) with h(1);
take a = s[0]; print resume a(2) with (0);
return under(600);
}''', 'limit handles', 1, 1, 2)

# ## Code

# With T for the local 1: the number into T; its lowest 32 bits, or -1 where it isn't below 3.
PLACE = '21 01 20 01 A7 41 7F 20 01 42 03 54 1B'
HANDLER = 'handler h() { return(x) { return x; } }\nslots s: res h [3];\n'
compiled('a-store', HANDLER + 'fn f(k: res h) { store s[2] = k; } fn main() { }',
         f'01 01 7E 42 02 {PLACE} 20 00 26 00 42 00 0F 0B', '04 06 01 63 01 01 03 03')
# The name is local 0, of type (ref null 1).
compiled('a-take', HANDLER + 'fn main() { take k = s[2]; }',
         f'02 01 63 01 01 7E 42 02 {PLACE} 25 00 D4 21 00 20 01 A7 D0 01 26 00 42 00 0F 0B')
compiled('a-table-before-the-tags', 'effect e/0; ' + HANDLER + 'fn main() { do e(); }',
         '03 03 02 02 07 04 06 01 63 01 01 03 03 0D 05 02 00 02 00 02')
compiled('slots-that-are-not-used', HANDLER + 'fn main() { return 4; }', '04 06 01 63 01 01 03 03')
compiled('limits-of-two-bytes', HANDLER.replace('3', '128') + 'fn main() { }', '04 08 01 63 01 01 80 01 80 01')
compiled('limits-of-three-bytes', HANDLER.replace('3', '65536') + 'fn main() { take k = s[65535]; }',
         '04 0A 01 63 01 01 80 80 04 80 80 04', '42 FF FF 03 21 01 20 01 A7 41 7F 20 01 42 80 80 04 54 1B 25 00')
compiled('a-number-of-places-whose-sign-takes-a-byte', HANDLER.replace('3', '64') + 'fn main() { take k = s[0]; }',
         '04 06 01 63 01 01 40 40', '20 01 42 C0 00 54 1B')
compiled('places-before-and-behind-a-handler', '''slots t: res h [1];
fn main() { take a = u[0]; take b = t[0]; store u[1] = b; }
handler h() { return(x) { return x; } } slots u: res h [2];''', '04 0B 02 63 01 01 01 01 63 01 01 02 02',
         '02 02 63 01 01 7E', '25 01 D4 21 00 20 02 A7 D0 01 26 01', '25 00 D4 21 01 20 02 A7 D0 01 26 00',
         '42 02 54 1B 20 01 26 01')
# Names of lets and takes stand in the order of the text, those of inner blocks too, in runs of one type.
compiled('names-of-two-types', HANDLER + '''fn main() {
let a = 1; take k = s[0]; take l = s[1];
if a { take m = s[a]; let b = 2; } else { let c = 3; }
while 0 { take n = s[2]; }
}''', '05 01 7E 03 63 01 02 7E 01 63 01 01 7E')
compiled('temporaries-of-a-place', HANDLER + '''fn f(a, b) { return a - b; }
handler id(p) { return(x) { take k = s[handle f(x, handle f(p, 2) with id(1)) with id(3)]; return 0; } }
fn main() { take k = s[0]; return resume k(1) with (); }''')
compiled('a-take-in-each-clause', '''effect a/0; effect b/1;
slots s: res h [2];
handler h(p) {
return(x) { take k = s[0]; let y = resume k(x) with (p); return y; }
on b(v) k { store s[v] = k; take l = s[p]; return resume l(v) with (p + 1); }
on a() j { let z = 1; while z { take m = s[z]; if p { store s[0] = m; return resume m(1) with (2); } } store s[1] = j; }
}
fn main() { }''')
compiled('only-functions-of-slots', '''slots s: res h [5];
fn f(k: res h, v) { store s[v] = k; take j = s[v - 1]; return resume j(v) with (k); }
handler h(old: res h) { return(x) { store s[x] = old; } }
fn main() { }''')
MANY = ''.join(f'slots s{number}: res h [{number + 1}];\n' for number in range(130))
whole(MODULES, 'a-hundred-and-thirty-slots', f'''effect e/0;
{MANY}handler h(last) {{
return(x) {{ return x; }}
on e() k {{ if last {{ store s129[129] = k; }} else {{ store s128[0] = k; }} return 0; }}
}}
fn one(n) {{ return do e() + n; }}
fn main() {{
handle one(1) with h(0); handle one(2) with h(1);
take a = s129[129]; print resume a(10) with (0);
take b = s128[0]; return resume b(20) with (0);
}}''', '= 21', 12)
