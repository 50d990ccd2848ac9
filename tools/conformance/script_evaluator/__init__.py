"""A second reader of the meaning of scripts: it takes the steps of a script, one by one.

It rests on what `docs/SPECIFICATION.md` tells of the meaning of scripts, and knows nothing of modules and machines.
Scripts are read by `script_reader`. Handlers are deep, and a resumption is used once at most; so an activation is a
generator of Python, which waits where the script does, and a resumption or a coroutine a list of these.
"""

from functools import lru_cache

from script_evaluator.evaluations import Evaluation
from script_reader import VALID, read
from script_reader.trees import with_trees


@lru_cache(maxsize=None)
def evaluation_of(data):
    """The evaluation of the script that these bytes spell, which breaks no rule. It is at its start or, where it was
    asked for before, farther on."""
    said, declarations = read(data)
    if said != VALID:
        raise ValueError(said)
    return Evaluation(list(map(with_trees, declarations)))
