"""Times programs: processor seconds and peak memory of a child, as the system counted them."""

import os
import signal
import tempfile
from dataclasses import dataclass

ONCE_ABOVE = 5      # what takes more seconds than this is timed once: its figure is steady enough


@dataclass
class Measured:
    """What a call took and said. A call that was ended at the limit took longer than `seconds`."""

    seconds: float
    peak: int           # bytes; never less than what this program holds itself, since a child begins as its copy
    status: int
    said: str
    ended: bool = False


def measured(words, limit, hears=True):
    """One call of a program, which is ended after so many seconds of the clock. Its out is listened to, thrown away, or
    written to a file, where `hears` is a path."""
    with tempfile.TemporaryFile() as told:
        out = (os.POSIX_SPAWN_DUP2, told.fileno(), 1) if hears is True else (
            os.POSIX_SPAWN_OPEN, 1, hears or os.devnull, os.O_WRONLY | os.O_CREAT | os.O_TRUNC, 0o644)
        child = os.posix_spawnp(
            words[0], words, os.environ, file_actions=[out, (os.POSIX_SPAWN_DUP2, told.fileno(), 2)])
        ended, status, usage = _awaited(child, limit)
        told.seek(0)
        said = told.read(1000).decode(errors='replace').strip()
    return Measured(
        usage.ru_utime + usage.ru_stime, usage.ru_maxrss * 1024, os.waitstatus_to_exitcode(status), said, ended)


def _awaited(child, limit):
    """Wait for a child, and end it where it takes too long."""
    was_ended = []

    def end(*_):
        was_ended.append(True)
        os.kill(child, signal.SIGKILL)

    signal.signal(signal.SIGALRM, end)
    signal.alarm(limit)
    _, status, usage = os.wait4(child, 0)
    signal.alarm(0)
    return bool(was_ended), status, usage


def best_of(calls, rounds, limit):
    """The best of several rounds of some calls, by name. Calls take turns, so that a busy spell meets all of them."""
    best = {}
    for _ in range(rounds):
        for name, (words, hears) in calls.items():
            before = best.get(name)
            if before is None:
                best[name] = measured(words, limit, hears)
            elif _is_worth_another(before):
                best[name] = min(before, measured(words, limit, hears), key=lambda call: call.seconds)
    return best


def _is_worth_another(call):
    """Whether a call did its work, and is short enough to be timed again."""
    return call.status == 0 and call.seconds <= ONCE_ABOVE
