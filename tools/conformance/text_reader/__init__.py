"""A second reader and a writer of the texts of modules: what `asm` is to say of a text, and what `dump` is to write.

It takes the tree of a module from `reader`, and what is said of its limits and of whether it is valid.
"""

from reader import Reading, judgement_of
from text_reader.reading import WrongLine, module_of


def said_of(text):
    """What is to be said of these bytes as the text of a module."""
    return reading_of(text).said


def reading_of(text):
    """The reading of these bytes as the text of a module."""
    try:
        module = module_of(text)
    except WrongLine as fault:
        return Reading(f'text {fault}', fault)
    return judgement_of(module)
