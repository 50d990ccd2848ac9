"""The second auditor: what is said of a trace that is told of a run."""

from tracing.lines import line_of

BYTES = 'latin-1'       # in which each byte is a sign


class Wrong(Exception):
    """A trace that is refused: why, and in which line."""

    def __init__(self, why, number):
        super().__init__(f'{why} {number}')


def audited(told, trace_of_run):
    """What is said of a trace that is sound and is that of the run, which is given by a function of nothing. What is
    wrong is raised: lines that are none before unsound ones, and these before those of another run."""
    lines, read = _lines(told)
    made, consumed = _sound(read)
    for number, (line, other) in enumerate(zip(lines, trace_of_run().decode().splitlines())):
        if line != other:
            raise Wrong('differs', number)
    return f'ok trace made {made} consumed {consumed} live {made - consumed}'


def _lines(told):
    """The lines of a trace, and what each says, up to the one that ends it. Behind this nothing stands."""
    *lines, rest = told.decode(BYTES).split('\n')
    read = []
    for number, line in enumerate(lines):
        said = line_of(line)
        if said is None or read and read[-1].is_end:
            raise Wrong('trace', number)
        read.append(said)
    if rest or not read or not read[-1].is_end:
        raise Wrong('trace', len(lines))
    return lines, read


def _sound(read):
    """How many continuations are made and consumed, each of those that live, and each new one with the next address."""
    live, made = set(), 0
    for number, line in enumerate(read):
        is_of_one_that_lives = line.consumed is None or line.consumed in live
        if not is_of_one_that_lives or line.made not in (made, None):
            raise Wrong('unsound', number)
        live.discard(line.consumed)
        if line.made is not None:
            live.add(made)
            made += 1
    return made, made - len(live)
