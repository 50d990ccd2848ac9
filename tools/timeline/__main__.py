"""Draws a trace of a run as a picture: `python3 tools/timeline TRACE > PICTURE.svg`."""

import sys
from pathlib import Path

from drawing import picture_of
from lives import NoTrace, lives_of

USAGE = 'usage: python3 tools/timeline TRACE'
MOST_EVENTS = 2000


def main(words):
    """Write the picture to out, and give the status."""
    if len(words) != 1 or words[0].startswith('-'):
        print(USAGE, file=sys.stderr)
        return 2
    try:
        trace = lives_of(Path(words[0]).read_text(encoding='ascii').splitlines())
    except (OSError, UnicodeError) as fault:
        print(f'{words[0]}: {fault}', file=sys.stderr)
        return 2
    except NoTrace as fault:
        print(f'{words[0]}: {fault}', file=sys.stderr)
        return 1
    if len(trace.events) > MOST_EVENTS:
        print(f'{words[0]}: {len(trace.events)} events, of which at most {MOST_EVENTS} are drawn', file=sys.stderr)
        return 1
    sys.stdout.write(picture_of(trace))
    return 0


if __name__ == '__main__':
    sys.exit(main(sys.argv[1:]))
