"""What is said of a file, in lines, the program's own line first."""

from module_refusals import module_lines
from pictures import most
from reader import reading_of as reading_of_module
from script_reader import is_script, reading_of as reading_of_script
from script_refusals import script_lines

GREATEST_INPUT = 16777216
ACCEPTED = ('ok script', 'ok module')


def explanation(data):
    """The lines that are said of these bytes, and whether the file is accepted."""
    if len(data) > GREATEST_INPUT:
        return ['limit input', most('the bytes of the file', len(data), GREATEST_INPUT)], False
    if is_script(data):
        reading = reading_of_script(data)
        lines = script_lines(data, reading)
    else:
        reading = reading_of_module(data)
        lines = module_lines(data, reading)
    if reading.said in ACCEPTED:
        return [f'{reading.said}: {"".join(lines)}'], True
    return [reading.said, *lines], False
