"""Pictures of places: in lines of text, and among bytes."""

GREATEST_WIDTH = 100        # characters of a line that are shown
SHOWN_BEFORE = 60           # of these in front of the place, where the line is longer
BYTES_AROUND = 8
CUT = '..'


def most(what, found, greatest):
    """That a limit is passed."""
    return f'{what} are {found:,}, and {greatest:,} is the most'


def line_and_column(data, at):
    """The line and the column of a byte, in characters, both from 1."""
    begin = data.rfind(b'\n', 0, at) + 1
    return data.count(b'\n', 0, at) + 1, len(_text(data[begin:at])) + 1


def place(data, at, said):
    """What is said of a place of a text, with its line and a caret."""
    line, column = line_and_column(data, at)
    begin = data.rfind(b'\n', 0, at) + 1
    end = data.find(b'\n', at)
    text, before = _cut(_text(data[begin:len(data) if end < 0 else end]), column - 1)
    return [f'{line}:{column}: {said}', f'  | {text}'.rstrip(), f'  | {" " * before}^']


def _text(line):
    """A line in characters, of which each is seen and takes one column."""
    text = line.decode('utf-8', 'replace')
    return ''.join(char if char.isprintable() else ' ' if char in '\t\r' else '\ufffd' for char in text)


def _cut(text, before):
    """A line that is cut around a place with so many characters in front, and how many are left in front."""
    if len(text) <= GREATEST_WIDTH:
        return text, before
    begin = max(0, min(before - SHOWN_BEFORE, len(text) - GREATEST_WIDTH))
    end = begin + GREATEST_WIDTH
    front, back = CUT if begin else '', CUT if end < len(text) else ''
    return front + text[begin:end] + back, len(front) + before - begin


def byte_place(at):
    """A byte by its number."""
    return f'byte 0x{at:X} ({at})'


def bytes_around(data, at):
    """The bytes around a place, which stands in brackets."""
    begin, end = max(0, at - BYTES_AROUND), at + 1 + BYTES_AROUND
    here = data[at:at + 1].hex().upper() or 'end'
    words = [CUT] if begin else []
    words += [data[begin:at].hex(' ').upper(), f'[{here}]', data[at + 1:end].hex(' ').upper()]
    words += [CUT] if end < len(data) else []
    return f'  | {" ".join(word for word in words if word)}'
