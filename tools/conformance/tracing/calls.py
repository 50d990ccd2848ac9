"""Calls of `trace` and `audit`: what their words ask for, and what they come to."""

from functools import lru_cache

from executing import GREATEST_FILE, USUAL_STEPS, Unstarted, refusal, start_of
from executing.linking_calls import USAGE, call_of
from tracing.auditing import Wrong, audited
from tracing.writing import trace_of

FILES = {'trace': 1, 'audit': 2}        # how many files each command takes
READ_FAULT = refusal('read fault', 6)


def outcome_of_call(words, files):
    """What a call of these words, of which the first is the command, comes to: out, err and the status. Of each name
    the bytes of its file are told, where there is one."""
    command, *more = words
    call = call_of(more)
    if call is None or call.stats or len(call.names) != FILES[command]:
        return refusal(USAGE, 2)
    outcome = outcome_of_trace if command == 'trace' else outcome_of_audit
    return outcome(*(files.get(name) for name in call.names), call.steps)


def outcome_of_trace(given, steps=USUAL_STEPS):
    """What a trace of the run of these bytes for so many reductions comes to. A file that isn't there is nothing."""
    return _refused(given) or (trace_of_bytes(given, steps), b'', 0)


def outcome_of_audit(given, told, steps=USUAL_STEPS):
    """What an audit of such a run comes to, of which this trace is told. The file of the run is refused first."""
    refused = _refused(given)
    if refused:
        return refused
    if told is None:
        return READ_FAULT
    if len(told) > GREATEST_FILE:
        return refusal('limit input', 9)
    try:
        said = audited(told, lambda: trace_of_bytes(given, steps))
    except Wrong as wrong:
        return refusal(wrong, 13)
    return f'{said}\n'.encode(), b'', 0


@lru_cache(maxsize=256)
def _refused(given):
    """What is said of a file that isn't run, and the status, if it is none."""
    if given is None:
        return READ_FAULT
    try:
        start_of(given)
    except Unstarted as unstarted:
        return refusal(unstarted.line, unstarted.status)
    return None


@lru_cache(maxsize=256)
def trace_of_bytes(given, steps):
    """The trace of the run of a module that can be run."""
    return trace_of(start_of(given), steps)
