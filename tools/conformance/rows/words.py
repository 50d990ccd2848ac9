"""Bytes spelled by words, each of digits or of a piece, and maybe repeated."""

from assembler.encoding import unsigned


class Pieces(list):
    """Bytes with names for the words of a file of rows: each name and its digits."""

    def add(self, name, digits):
        self.append((name, digits))

    def length(self, words):
        """How many bytes the words spell."""
        named = {f'@{name}': digits for name, digits in self}
        total = 0
        for word in words:
            spelled, _, times = word.partition('*')
            total += len(named.get(spelled, spelled)) // 2 * int(times or 1)
        return total


def shortest(number):
    """A number in as few bytes as it needs."""
    return unsigned(number).hex().upper()
