"""Right lines of traces that are made wrong, in many ways, and right traces that are changed.

A line is given by its form, in which S, A and B stand for numbers below 2^64 and T for one below 2^32, and by these
numbers. Whether a line that is made is right after all is known by the forms of all lines, as they stand here.
"""

EVENTS = ['S new B', 'S bind A B', 'S resume A', 'S suspend T B', 'S switch A T B', 'S exit']
TRAPS = [
    'unreachable', 'divide by zero', 'integer overflow', 'memory out of bounds', 'table out of bounds',
    'undefined element', 'null element', 'call type mismatch', 'null reference', 'consumed continuation', 'unhandled T']
LIMITS = ['frames', 'handles', 'conts']
ENDS = [
    'end S ended', *(f'end S trap {kind}' for kind in TRAPS), *(f'end S limit {name}' for name in LIMITS),
    'end S running']
END_OF_64, END_OF_32 = 2 ** 64, 2 ** 32
NUMBERS = {'S': END_OF_64, 'A': END_OF_64, 'B': END_OF_64, 'T': END_OF_32}


def line_of(form, numbers):
    """The line of a form with these numbers, one for each letter in turn."""
    left = list(numbers)
    return ' '.join(str(left.pop(0)) if word in NUMBERS else word for word in form.split())


def spaces_changed(line):
    """A line with other blanks, by names. Bytes that aren't ASCII are given as signs below 256."""
    first, _, rest = line.partition(' ')
    front, _, last = line.rpartition(' ')
    yield 'blank-in-front', f' {line}'
    yield 'blank-behind', f'{line} '
    yield 'two-blanks-behind-the-first-word', f'{first}  {rest}'
    yield 'two-blanks-before-the-last-word', f'{front}  {last}'
    yield 'no-blank-behind-the-first-word', f'{first}{rest}'
    yield 'tab-behind-the-first-word', f'{first}\t{rest}'
    yield 'tab-before-the-last-word', f'{front}\t{last}'
    yield 'tab-behind', f'{line}\t'
    yield 'carriage-return-behind', f'{line}\r'
    yield 'carriage-return-in-front', f'\r{line}'
    yield 'carriage-return-as-a-blank', f'{first}\r{rest}'
    yield 'vertical-tab-as-a-blank', f'{first}\v{rest}'
    yield 'form-feed-behind', f'{line}\f'
    yield 'no-break-space-as-a-blank', f'{first}\xc2\xa0{rest}'
    yield 'half-a-no-break-space-as-a-blank', f'{first}\xa0{rest}'
    yield 'next-line-behind', f'{line}\x85'
    yield 'zero-behind', f'{line}\0'
    yield 'zero-as-a-blank', f'{first}\0{rest}'
    yield 'comma-behind', f'{line},'
    yield 'point-behind', f'{line}.'
    yield 'colon-behind-the-first-word', f'{first}: {rest}'
    yield 'commas-as-blanks', line.replace(' ', ',')
    yield 'comment-behind', f'{line} # x'
    yield 'comment', f'# {line}'
    yield 'byte-order-mark-in-front', f'\xef\xbb\xbf{line}'


def words_changed(line):
    """A line with a word left out, doubled, misspelled, or exchanged with the next one."""
    words = line.split(' ')
    for number, word in enumerate(words):
        front, behind = words[:number], words[number + 1:]
        yield f'without-word-{number}', [*front, *behind]
        yield f'word-{number}-twice', [*front, word, word, *behind]
        yield f'word-{number}-as-x', [*front, 'x', *behind]
        if behind:
            yield f'word-{number}-behind-the-next', [*front, behind[0], word, *behind[1:]]
        if word.isalpha():
            yield f'word-{number}-in-capitals', [*front, word.upper(), *behind]
            yield f'word-{number}-with-a-capital', [*front, word.capitalize(), *behind]
            yield f'word-{number}-without-its-last-letter', [*front, word[:-1], *behind]
            yield f'word-{number}-with-a-letter-more', [*front, f'{word}s', *behind]


def numbers_changed(form, numbers):
    """The lines of a form in which one number is spelled in another way, or is past its range."""
    letters = [word for word in form.split() if word in NUMBERS]
    for place, letter in enumerate(letters):
        for way, spelled in _wrong_numbers(numbers[place], NUMBERS[letter]):
            yield f'{way}/{letter}', line_of(form, [*numbers[:place], spelled, *numbers[place + 1:]])


def _wrong_numbers(number, end):
    yield 'zero-in-front', f'0{number}'
    yield 'two-zeros', '00'
    yield 'twenty-zeros-in-front', '0' * 20 + str(number)
    yield 'plus', f'+{number}'
    yield 'minus', f'-{number}'
    yield 'minus-zero', '-0'
    yield 'hexadecimal', f'0x{number}'
    yield 'letter-behind', f'{number}a'
    yield 'hexadecimal-digit', 'a'
    yield 'point', f'{number}.0'
    yield 'exponent', '1e3'
    yield 'underscore', '1_000'
    yield 'comma', '1,000'
    yield 'blank-among-digits', '1 000'
    yield 'in-quotes', f'"{number}"'
    yield 'in-brackets', f'({number})'
    yield 'no-digit', ''
    yield 'superscript-digit', '\xb2'
    yield 'wide-digit', '\xef\xbc\x91'
    yield 'arabic-digit', '\xd9\xa1'
    yield 'sign-before-the-digits', f'/{number}'
    yield 'sign-behind-the-digits', f'{number}:'
    yield 'past-its-range', str(end)
    yield 'past-its-range-by-one-more', str(end + 1)
    yield 'with-a-digit-more', str(10 * (end - 1))
    yield 'past-its-range-with-a-zero-in-front', f'0{end}'
    yield 'its-greatest-with-a-zero-in-front', f'0{end - 1}'
    yield 'far-past-its-range', str(end * END_OF_64 + 1)
    yield 'far-past-its-range-and-small-modulo-it', str(end ** 4 + int(number))


def changed_lines(lines):
    """The lines of a trace with one change, by names."""
    for number, line in enumerate(lines):
        front, behind = lines[:number], lines[number + 1:]
        yield f'line-{number}/left-out', [*front, *behind]
        yield f'line-{number}/doubled', [*front, line, line, *behind]
        if behind:
            yield f'line-{number}/behind-the-next', [*front, behind[0], line, *behind[1:]]
        if len(behind) > 1:
            yield f'line-{number}/in-place-of-the-next', [*front, line, *behind[1:]]
            yield f'line-{number}/at-the-end', [*front, *behind, line]
        for way, other in _changed_words(line):
            yield f'line-{number}/{way}', [*front, other, *behind]


def _changed_words(line):
    """A line with one word changed, by names."""
    words = line.split(' ')
    for place, word in enumerate(words):
        if word.isdecimal():
            digits = {
                'raised': str(int(word) + 1), 'lowered': str(max(int(word) - 1, 0)), 'with-a-digit-more': f'{word}0',
                'without-a-digit': word[1:] or '0', 'with-a-zero-in-front': f'0{word}'}
            for way, other in digits.items():
                if other != word:
                    yield f'word-{place}-{way}', ' '.join([*words[:place], other, *words[place + 1:]])
    yield 'a-blank-behind', f'{line} '
    kinds = [form.split()[1] for form in EVENTS]
    for kind in kinds:
        if words[1] in kinds and kind != words[1]:
            yield f'as-{kind}', ' '.join([words[0], kind, *words[2:]])


def is_right(line):
    """Whether a line is one of a trace, by trying all forms."""
    words = line.split(' ')
    return any(_is_of(form.split(), words) for form in [*EVENTS, *ENDS])


def _is_of(form, words):
    return len(form) == len(words) and all(
        _is_number(word, NUMBERS[wanted]) if wanted in NUMBERS else wanted == word
        for wanted, word in zip(form, words))


def _is_number(word, end):
    """Whether a word is how a number below this end is written."""
    return word.isascii() and word.isdecimal() and word == str(int(word)) and int(word) < end
