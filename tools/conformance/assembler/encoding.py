"""Numbers, vectors and names, of which all else in the binary format is made."""


def unsigned(number):
    """The shortest spelling of a number that is not negative."""
    spelling = bytearray()
    while number >= 0x80:
        spelling.append(number & 0x7f | 0x80)
        number >>= 7
    spelling.append(number)
    return bytes(spelling)


def signed(number):
    """The shortest spelling of a number that may be negative."""
    spelling = bytearray()
    while not -0x40 <= number < 0x40:
        spelling.append(number & 0x7f | 0x80)
        number >>= 7
    spelling.append(number & 0x7f)
    return bytes(spelling)


def vector(elements):
    """The count of some spellings, and these."""
    return unsigned(len(elements)) + b''.join(elements)


def indices(numbers):
    """A vector of indices."""
    return vector([unsigned(number) for number in numbers])


def name(text):
    """A name, or the bytes of a data segment, which are given as text or as they are."""
    spelling = text if isinstance(text, bytes) else text.encode()
    return unsigned(len(spelling)) + spelling
