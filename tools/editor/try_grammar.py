#!/usr/bin/env python3
"""Tries the grammar on the scripts of `examples/`, by Python's expressions: each token and each comment is to have its
color, and no other place one of those.

Tokens are those of the second reader of scripts.
"""

import json
import re
import sys
from collections import Counter
from pathlib import Path

ROOT = Path(__file__).resolve().parents[2]
GRAMMAR = Path(__file__).resolve().with_name('stackwasm-script.tmLanguage.json')
EXAMPLES = ROOT / 'examples'

sys.path.insert(1, str(ROOT / 'tools' / 'conformance'))

from script_reader.tokens import KEYWORDS, tokens_of    # noqa: E402

NAMED = {
    'fn': 'entity.name.function', 'effect': 'entity.name.type.effect', 'handler': 'entity.name.type.handler',
    'slots': 'entity.name.type.slots',
}
BRACKETS = ('(', ')', '{', '}', '[', ']')


def rules_of(grammar, patterns=None):
    """The rules of a grammar that match, in order: the expression, and the scopes of its groups, of which 0 is the
    whole."""
    for pattern in grammar['patterns'] if patterns is None else patterns:
        if 'include' in pattern:
            yield from rules_of(grammar, [grammar['repository'][pattern['include'].removeprefix('#')]])
        elif 'patterns' in pattern:
            yield from rules_of(grammar, pattern['patterns'])
        else:
            scopes = {int(number): capture['name'] for number, capture in pattern.get('captures', {}).items()}
            yield re.compile(pattern['match']), ({0: pattern['name']} if 'name' in pattern else {}) | scopes


def colors_of(rules, line):
    """The innermost scope of each character of a line, or nothing: the first match goes first, of several at one place
    the one of the first rule."""
    colors, at = [None] * len(line), 0
    while at < len(line):
        found = [(match.start(), place) for place, (rule, _) in enumerate(rules) if (match := rule.search(line, at))]
        if not found:
            break
        _, place = min(found)
        rule, scopes = rules[place]
        match = rule.search(line, at)
        for group in sorted(scopes):
            start, end = match.span(group)
            colors[start:end] = [scopes[group]] * (end - start)
        at = match.end()
    return colors


def wanted_of(token, before):
    """With what the scope of a token begins, behind the token before it."""
    if token.kind in KEYWORDS:
        return ('keyword.', 'storage.')
    if token.kind == 'NAME':
        return (NAMED.get(before, ''),) if before in NAMED else ('entity.', 'variable.')
    if token.kind == 'INT':
        return ('constant.numeric.',)
    if token.kind in BRACKETS:
        return ('punctuation.section.',)
    return ('punctuation.',) if token.kind in (',', ':', ';') else ('keyword.operator.',)


def faults_of(rules, name, text):
    """What has another color than it is to have, and how many of each kind there are."""
    colors = [color for line in text.split('\n') for color in [*colors_of(rules, line), None]]
    faults, counts, left = [], Counter(), list(colors)
    before = None
    for token in tokens_of(text.encode()):
        counts['keywords' if token.kind in KEYWORDS else 'other tokens'] += 1
        got = set(colors[token.start:token.end])
        if not all(color and color.startswith(wanted_of(token, before)) for color in got):
            faults.append(f'{name}: {token.text} at {token.start}: {got}')
        left[token.start:token.end] = [None] * (token.end - token.start)
        before = token.kind
    # What is left are separators, which have no color, and comments.
    for match in re.finditer(r'#[^\n]*', text):
        counts['comments'] += 1
        got = set(left[match.start():match.end()])
        if not all(color and 'comment' in color for color in got):
            faults.append(f'{name}: a comment at {match.start()}: {got}')
        left[match.start():match.end()] = [None] * len(match[0])
    faults += [f'{name}: nothing stands at {at}: {color}' for at, color in enumerate(left) if color]
    return faults, counts


def main():
    """Try each example, and give the status."""
    rules = list(rules_of(json.loads(GRAMMAR.read_text())))
    faults, counts = [], Counter()
    for path in sorted(EXAMPLES.glob('*.script')):
        text = path.read_text()
        if not text.isascii():
            faults.append(f'{path.name}: not ASCII, so that bytes are no characters')
            continue
        more, found = faults_of(rules, path.name, text)
        faults += more
        counts += found
    found = ', '.join(f'{count} {kind}' for kind, count in sorted(counts.items()))
    print('\n'.join([*faults, f'{found}; {len(faults)} of another color']))
    return 1 if faults else 0


if __name__ == '__main__':
    sys.exit(main())
