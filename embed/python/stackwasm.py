"""The engine on bytes in memory, over the shared object that `embed/run` makes of the archive.

    import stackwasm
    answer = stackwasm.run(open('examples/generator.script', 'rb').read())
    print(answer.out.decode())

    with stackwasm.Run(answer_of_build.out) as run:
        while run.step(1000).status == stackwasm.RUNNING:
            print(run.read().decode(), end='')
"""

import ctypes
import functools
import os
from dataclasses import dataclass
from pathlib import Path

MOST_STEPS = 2 ** 40
RUNNING = 10
_FIRST_ROOM = 1 << 16


@dataclass(frozen=True)
class Answer:
    """The status of a call, as `stackwasm.h` lists them, and what it wrote."""

    status: int
    out: bytes
    err: bytes


class _Handle(ctypes.Structure):
    _fields_ = [('at', ctypes.c_void_p), ('held', ctypes.c_bool)]


@dataclass(frozen=True)
class Counts:
    """How many reductions a run has taken, and how many continuations it made, consumed, and has left."""

    taken: int
    made: int
    consumed: int
    live: int


def _load():
    place = os.environ.get('STACKWASM_LIB', Path(__file__).resolve().parent.parent / 'out')
    library = ctypes.CDLL(str(Path(place) / 'libstackwasm.so'))
    text = [ctypes.c_char_p, ctypes.c_size_t, ctypes.POINTER(ctypes.c_uint64)]
    options = {'check': [], 'build': [], 'dump': [], 'asm': [], 'run': [ctypes.c_uint64, ctypes.c_bool], 'trace': [ctypes.c_uint64],
               'link': [ctypes.POINTER(ctypes.c_uint64), ctypes.c_size_t, ctypes.c_uint64, ctypes.c_bool],
               'audit': [ctypes.c_char_p, ctypes.c_size_t, ctypes.c_uint64]}
    for name, more in options.items():
        function = getattr(library, f'stackwasm_{name}')
        function.argtypes = [ctypes.c_char_p, ctypes.c_size_t, *more, *text, *text]
        function.restype = ctypes.c_uint32
    handle, number = ctypes.POINTER(_Handle), ctypes.POINTER(ctypes.c_uint64)
    on_handle = {'begin': [ctypes.c_char_p, ctypes.c_size_t, handle, *text], 'step': [handle, ctypes.c_uint64, *text], 'read': [handle, *text],
                 'results': [handle, *text], 'counts': [handle, number, number, number, number], 'end': [handle]}
    for name, arguments in on_handle.items():
        function = getattr(library, f'stackwasm_{name}')
        function.argtypes = arguments
        function.restype = ctypes.c_uint32
    return library


_library = _load()


def _call(name, data, options, room):
    out, err = ctypes.create_string_buffer(room), ctypes.create_string_buffer(room)
    out_length, err_length = ctypes.c_uint64(), ctypes.c_uint64()
    function = getattr(_library, f'stackwasm_{name}')
    status = function(data, len(data), *options, out, room, ctypes.byref(out_length), err, room, ctypes.byref(err_length))
    longest = max(out_length.value, err_length.value)
    return longest, Answer(status, out.raw[:out_length.value], err.raw[:err_length.value])


def _answer(name, data, *options):
    """The whole answer: where it is longer than a first guess, the call is made once more."""
    longest, answer = _call(name, data, options, _FIRST_ROOM)
    if longest <= _FIRST_ROOM:
        return answer
    return _call(name, data, options, longest)[1]


def _steps(steps):
    if not 0 <= steps <= MOST_STEPS:
        raise ValueError(f'{steps} steps: from 0 to 2^40 may be asked for')
    return steps


def check(data):
    """Judges a module or a script."""
    return _answer('check', data)


def build(data):
    """A module in its canonical spelling, or the module of a script."""
    return _answer('build', data)


def dump(data):
    """A module as text."""
    return _answer('dump', data)


def assemble(data):
    """The module that a text is of, in its canonical spelling."""
    return _answer('asm', data)


def run(data, steps=100_000_000, stats=False):
    """A run of a module or a script, for so many reductions at most."""
    return _answer('run', data, _steps(steps), stats)


def link(files, steps=100_000_000, stats=False):
    """A run of modules that are linked, in this order."""
    lengths = (ctypes.c_uint64 * len(files))(*map(len, files))
    return _answer('link', b''.join(files), lengths, len(files), _steps(steps), stats)


def trace(data, steps=100_000_000):
    """What the run of a module does with continuations, a line each."""
    return _answer('trace', data, _steps(steps))


def audit(data, trace, steps=100_000_000):
    """Whether a trace is what `trace` writes of a module for so many reductions, each continuation used once."""
    return _answer('audit', data, trace, len(trace), _steps(steps))


def _text(function, room):
    """The status of a call that writes one text, its length, and as much of it as fits into so much room."""
    text, length = ctypes.create_string_buffer(room), ctypes.c_uint64()
    status = function(text, room, ctypes.byref(length))
    return status, length.value, text.raw[:length.value]


class Run:
    """A run of a module that goes on where it stopped: to be used on one thread, and closed."""

    def __init__(self, data):
        """Begins the run; a ValueError says why there is none."""
        self._handle = _Handle()
        begin = functools.partial(_library.stackwasm_begin, data, len(data), self._handle)
        status, _, err = _text(begin, _FIRST_ROOM)
        if status != 0:
            raise ValueError(f'status {status}: {err.decode()}')

    def step(self, steps):
        """Takes so many reductions at most, and says how the run stands; `RUNNING` where it goes on."""
        status, _, err = _text(functools.partial(_library.stackwasm_step, self._handle, _steps(steps)), _FIRST_ROOM)
        return Answer(status, b'', err)

    def read(self):
        """What was printed since it was read last."""
        parts = []
        while not parts or len(parts[-1]) == _FIRST_ROOM:
            parts.append(_text(functools.partial(_library.stackwasm_read, self._handle), _FIRST_ROOM)[2])
        return b''.join(parts)

    def results(self):
        """The results of a run that has ended, a line each; before, none."""
        function = functools.partial(_library.stackwasm_results, self._handle)
        status, length, text = _text(function, _FIRST_ROOM)
        if length > _FIRST_ROOM:
            status, length, text = _text(function, length)
        if status != 0:
            raise MemoryError
        return text

    def counts(self):
        """How many reductions were taken, and what became of continuations."""
        numbers = [ctypes.c_uint64() for _ in range(4)]
        _library.stackwasm_counts(self._handle, *map(ctypes.byref, numbers))
        return Counts(*(number.value for number in numbers))

    def close(self):
        """Lets the run go."""
        _library.stackwasm_end(self._handle)

    def __enter__(self):
        return self

    def __exit__(self, *_):
        self.close()
