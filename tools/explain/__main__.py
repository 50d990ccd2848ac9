"""Says where and why a script or a module is refused: `python3 tools/explain FILE`."""

import sys
import threading
from pathlib import Path

CONFORMANCE = Path(__file__).resolve().parents[1] / 'conformance'
STACK = 1 << 29             # bytes; blocks are judged in one another
DEPTH = 100000              # calls of Python, of which a block takes three

sys.path.insert(1, str(CONFORMANCE))

from calls import call              # noqa: E402
from coverage import coverage       # noqa: E402
from own_rows import compared       # noqa: E402

MODES = {'--rows': compared, '--coverage': coverage}


def _run(words, ends):
    """Make the call, write what it says, and keep its status."""
    mode = MODES.get(words[0]) if len(words) == 1 else None
    out, err, status = mode() if mode else call(words, lambda name: Path(name).read_bytes())
    sys.stdout.buffer.write(out)
    sys.stderr.buffer.write(err)
    ends.append(status)


def main():
    """Run in a thread, whose stack is large enough for deep files, and give the status."""
    ends = []
    threading.stack_size(STACK)
    sys.setrecursionlimit(DEPTH)
    thread = threading.Thread(target=_run, args=(sys.argv[1:], ends))
    thread.start()
    thread.join()
    return ends[0] if ends else 2


if __name__ == '__main__':
    sys.exit(main())
