"""The lines of a text, which are read one by one."""

# What functions raise that are called with the words of a line which they don't read: with a name that they don't
# know, with too few or too many words, or with a word of another kind.
WRONG_WORDS = (LookupError, TypeError, ValueError)


class Unread(Exception):
    """A line that isn't read, by its number from 0."""

    def __init__(self, number):
        super().__init__(f'line {number}')


class Lines:
    """The lines of a text, which are read from the front."""

    def __init__(self, text):
        *self._lines, self._rest = text.split('\n')
        self._place = 0

    def first(self):
        """The first word of the next line, or nothing at the end."""
        if self._place < len(self._lines):
            return self._lines[self._place].split(' ')[0]
        if self._rest:
            raise self.unread()
        return None

    def read(self, read):
        """What a function gives for the words of the next line."""
        if self.first() is None:
            raise self.unread()
        try:
            told = read(*self._lines[self._place].split(' '))
        except WRONG_WORDS:
            raise self.unread() from None
        self._place += 1
        return told

    def unread(self):
        """The fault of the next line."""
        return Unread(self._place)
