"""Scripts, as text and as tokens."""

from rows.sections import Section, answered
from script_reader import answer


class ScriptRow:
    """A script that is checked."""

    def __init__(self, name, text, said):
        self.name, self.text, self.said = name, text, said

    @property
    def fields(self):
        """The lines of the row: lines of text, where it is such."""
        lines = ['words stackwasm check x', f'file x{spelled_script(self.text)}']
        return lines + answered(self.said)


class ScriptSection(Section):
    """Rows of scripts. What is to be said of one is what the second reader says when the row is made, or is given."""

    def row(self, name, text, said=None):
        data = text if isinstance(text, bytes) else text.encode()
        self.rows.append(ScriptRow(name, data, said or answer(data)))

    def is_said(self, name, said, text):
        """The same, of which it is known what is said."""
        data = text.encode()
        if answer(data) != said:
            raise ValueError(f'{name}: {answer(data)} and not {said}')
        self.row(name, data, said)


def spelled_script(data):
    """The words that spell bytes: a line of text for each where they are lines of text, and else digits."""
    if not data:
        return ''
    *lines, rest = data.split(b'\n')
    is_text = not rest and all(0x20 <= byte < 0x7f for line in lines for byte in line)
    if not is_text or any(line != line.strip() for line in lines):
        return f' {data.hex().upper()}'
    return '\n' + '\n'.join(f'| {line.decode()}' for line in lines)
