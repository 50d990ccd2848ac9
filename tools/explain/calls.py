"""A call of the tool: its words, and what comes of them."""

from explaining import explanation

USAGE = """usage: explain FILE | --rows | --coverage
FILE        say where and why this script or module is refused
--rows      compare what is said of the files in explain.rows with what is to be said
--coverage  count the refusals among the rows of crates/conformance/data that get a place
"""


def call(words, read):
    """What is written to out and to err, and the status, where `read` gives the bytes of a file by its name."""
    if words == ['--help']:
        return USAGE.encode(), b'', 0
    if len(words) != 1 or words[0].startswith('--'):
        return b'', USAGE.encode(), 2
    try:
        data = read(words[0])
    except OSError as fault:
        return b'', f'explain: {words[0]} can\'t be read: {fault.strerror}\n'.encode(), 2
    try:
        lines, accepted = explanation(data)
    except RecursionError:
        return b'', f'explain: {words[0]} nests too deep for this tool\n'.encode(), 2
    return ''.join(f'{line}\n' for line in lines).encode(), b'', 0 if accepted else 1
