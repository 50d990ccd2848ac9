"""Runs of scripts: how they end, how many reductions they take, limits, and the scripts that `gen` runs."""

from generated_scripts import GENERATED_STEPS, generated
from rows.runs import wanted_lines
from rows.script_run_samples import PlainRow, ScriptRunSection, came_to, outcome_by_hand
from rows.sections import CallRow

CALLS = ScriptRunSection('calls')
LIMITS = ScriptRunSection('limits')
GENERATED = ScriptRunSection('generated')

BODY = 'fn body() { print do ask() + do ask(); return 7; }\n'
ONE = 'fn one() { return do ask(); }\n'
TAIL = 'return resume k(s) with (s + 1);'
TWICE = 'let a = resume k(s) with (s); return resume k(s) with (s);'


def asking(clause=TAIL, body=BODY, handled='body()', first='h(10)', more=''):
    """A script in which a handler of one number answers what is asked for."""
    return f'''effect ask/0;
{body}{ONE}{more}handler h(s) {{
return(x) {{ return x + s; }}
on ask() k {{ {clause} }}
}}
fn main() {{ return handle {handled} with {first}; }}'''


def main(statements):
    """A script of main alone."""
    return f'fn main() {{ {statements} }}'


# Calls.
CALLS.whole('asking', asking(), '= 19', 21)
CALLS.is_known('asking/400-reductions', asking(), '= 19', 21, steps=400)
CALLS.is_known('sixteen-reductions', main('return 1;'), '= 1', steps=16)
CALLS.each_step('a-number', main('return 1;'))
CALLS.each_step('asking-once', asking(handled='one()'))
CALLS.each_step('a-fault', 'effect e/1; fn main() { print 5; let x = 3; while x { x = x - 1; } return 7 / x; }')
CALLS.each_step(
    'an-effect-without-a-handler', 'effect e/1; effect g/0; fn main() { print 5; if 1 { do g(); } return 1; }')
CALLS.is_known('statistics', asking(), '= 19', 21, stats=True)
CALLS.is_known('statistics/40-reductions', asking(), 'running', steps=40, stats=True)
CALLS.is_known('statistics/a-fault', main('print 1; fail;'), 'fault failed', 1, stats=True)
CALLS.is_clear(
    'two-hundred-thousand', asking(body='''fn body() { let i = 0; while i < 100000 { do ask(); i = i + 1; } return i; }
''', first='h(0)'), '= 200000', steps=10000000000)
CALLS.is_known('refused/a-byte', main('?'), 'lex 12')
CALLS.is_known('refused/a-token', main(')'), 'parse 5')
CALLS.is_known('refused/too-deep', main(f'return {"(" * 64}1{")" * 64};'), 'deep')
CALLS.is_known('refused/a-rule', main('return x;'), 'rule 0 10')
CALLS.is_known('refused/a-rule/no-reductions', main('return x;'), 'rule 0 10', steps=0)
CALLS.is_known('refused/no-main', 'effect e/0;', 'rule 1 18')
CALLS.is_known('no-bytes', '', 'rule 0 18')

# Limits. What is passed and what is just not passed.
# The activation of main ends with its tail call.
DOWN = 'fn f(n) { if n { return 0 + f(n - 1); } return 0; }\n'
LIMITS.whole('frames', DOWN + 'fn main() { return f(19999); }', '= 0')
LIMITS.whole('frames/one-more', DOWN + 'fn main() { return f(20000); }', 'limit frames')
LIMITS.is_known('frames/behind-what-is-printed', DOWN + 'fn main() { print 3; print f(9); return f(20000); }',
                'limit frames', 3, 0)
LIMITS.whole('frames/tail-calls', DOWN.replace('0 + f', 'f') + 'fn main() { return f(20000); }', '= 0')
HANDLED_DOWN = '''fn f(n) { if n { return handle f(n - 1) with id(); } return 0; }
handler id() { return(x) { return x; } }
'''
LIMITS.whole('handles', HANDLED_DOWN + 'fn main() { return f(1000); }', '= 0')
LIMITS.whole('handles/one-more', HANDLED_DOWN + 'fn main() { return f(1001); }', 'limit handles')
LIMITS.is_known('handles/behind-what-is-printed', HANDLED_DOWN + 'fn main() { print f(1000); return f(1001); }',
                'limit handles', 0)
GO = 'fn go(k: res h, n) { if n { return 0 + go(k, n - 1); } return resume k(n) with (n); }\n'
LIMITS.is_known('twenty-thousand-activations', asking(
    'let a = resume k(s) with (s); return 0 + go(k, 19997);', handled='one()', more=GO), 'fault reused')
LIMITS.row('activations-around-a-resume', asking('return 0 + go(k, 19990);', handled='one()', more=GO))
LIMITS.row('activations-around-a-resume/some-more', asking('return 0 + go(k, 19998);', handled='one()', more=GO))
DROPPING = '''effect stop/0;
fn one() { return do stop(); }
handler h() { return(x) { return x; } on stop() k { return 1; } }
'''
LIMITS.is_known(
    'kept-resumptions', DROPPING + '''fn main() {
let i = 0;
while i < 65000 { i = i + handle one() with h(); }
return i;
}''', '= 65000')
LIMITS.is_known(
    'kept-resumptions/too-many', DROPPING + '''fn main() {
let i = 0;
print 8;
while i < 65600 { i = i + handle one() with h(); }
return i;
}''', 'limit conts', 8)
# The readers leave these out, since they have more than 100,000 bytes.
for name, count, end in [('a-size', 24999, '= 0'), ('a-size/one-more', 25000, 'limit size')]:
    words = ' '.join(f'{text.encode().hex().upper()}*{times}' for text, times in [
        ('fn main() { ', 1), ('001;', count), ('}', 1)])
    LIMITS.rows.append(CallRow(name, 'run x', words, wanted_lines(*outcome_by_hand(end))))
LIMITS.rows.append(CallRow('bytes', 'run x', '20*1048577', ['err | limit script', 'status 9']))


# Generated scripts.
def generated_row(number, *known):
    """A generated script, and maybe what it is known to come to."""
    outcome = came_to(f'gen {number}', generated(number), GENERATED_STEPS)
    if known and outcome != outcome_by_hand(*known):
        raise ValueError(f'gen {number}: {outcome}')
    GENERATED.rows.append(PlainRow(f'gen/{number}', f'gen {number}', wanted_lines(*outcome)))


generated_row(1, '= 38', 1, 38)
generated_row(2)
generated_row(3, '= 233', 3, 128)
generated_row(5)
generated_row(15, '= 6424', 15, 769)
for each in (10, 97, 100):
    generated_row(each)
generated_row(500, '= 6152829', 500, 24534)
GENERATED.is_known('the-text-of-three', generated(3).decode(), '= 233', 3, 128)
for call, written in [(0, []), (1, ['out | 3']), (2, ['out | 3', '| 128'])]:
    GENERATED.rows.append(PlainRow(
        f'gen/3/call-{call}-on-out-fails', 'gen 3', [f'fails out {call}', *written, 'status 7']))
