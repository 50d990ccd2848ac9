"""Reads bytes, and the numbers, vectors and names that they spell."""


class Malformed(Exception):
    """Bytes that spell no module: what is said of them, the byte at which they go wrong, what is wanted there, and the
    section, where it is in one: its number, its id, and the byte with which it begins. The entry is the number in the
    outermost vector around."""

    def __init__(self, at, wanted, said='', section=None, entry=None):
        super().__init__(said)
        self.at, self.wanted, self.section, self.entry = at, wanted, section, entry


class ByteSource:
    """Bytes that are read from a position up to an end."""

    def __init__(self, data, position=0, end=None):
        self.data = data
        self.position = position
        self.end = len(data) if end is None else end

    def peek(self):
        """The next byte, which is not read by this, or nothing."""
        return self.data[self.position] if self.position < self.end else None

    def byte(self):
        if self.position >= self.end:
            raise Malformed(self.position, 'a byte more; what is read ends here')
        self.position += 1
        return self.data[self.position - 1]

    def wrong(self, wanted, back=1):
        """The fault of the last byte, or of one so many in front of what comes next, where something else is wanted."""
        return Malformed(self.position - back, wanted)

    def part(self, name):
        """A size, and the so many bytes behind it, which have this name."""
        start = self.position
        size = self.unsigned()
        part = ByteSource(self.data, self.position, self.position + size)
        self.position += size
        if part.end > self.end:
            left = self.end - part.position
            raise Malformed(start, f'the size of {name}, at most {left}, for no more bytes are left; here it is {size}')
        return part

    def ended(self, name):
        """Refuse bytes that are left behind what is read."""
        if self.position != self.end:
            raise Malformed(self.position, f'the end of {name}')

    def unsigned(self, bits=32):
        start = self.position
        number, _, _ = self._groups(bits, 'an unsigned')
        if number >= 1 << bits:
            raise Malformed(start, f'an unsigned number of {bits} bits; this one is {number}')
        return number

    def signed(self, bits):
        start = self.position
        number, length, last = self._groups(bits, 'a signed')
        if last & 0x40:
            number -= 1 << length
        if not -(1 << (bits - 1)) <= number < 1 << (bits - 1):
            raise Malformed(start, f'a signed number of {bits} bits; this one is {number}')
        return number

    def _groups(self, bits, kind):
        """The number that the groups of seven bits make, its length in bits, and the last byte."""
        start = self.position
        number = length = 0
        while True:
            byte = self.byte()
            number |= (byte & 0x7f) << length
            length += 7
            if not byte & 0x80:
                return number, length, byte
            if length >= bits:
                raise Malformed(start, f'{kind} number of {bits} bits, in at most {length // 7} bytes')

    def vector(self, read):
        """A count, and so many things that are read by a function of the source."""
        count, things = self.unsigned(), []
        try:
            while len(things) < count:
                things.append(read(self))
        except Malformed as fault:
            fault.entry = len(things)
            raise
        return things

    def bytes(self):
        return bytes(self.vector(ByteSource.byte))

    def name(self):
        name = self.bytes()
        try:
            name.decode()
        except UnicodeDecodeError as fault:
            raise self.wrong('a name in UTF-8', len(name) - fault.start) from None
        return name
