"""A second compiler of scripts: it says what `build` is to write of one.

It rests on what `docs/SPECIFICATION.md` tells of the compiling of scripts, and on the definitions named there. Scripts
are read by `script_reader`, and modules spelled by the assembler; `reader` is to find each valid.
"""

from functools import lru_cache

from script_compiler.modules import module_of
from script_reader.trees import with_trees
from script_reader import VALID, read


@lru_cache(maxsize=None)
def built(data):
    """What is to come of these bytes as a script: the module, or what is said of a script that isn't compiled."""
    said, declarations = read(data)
    return said if said != VALID else module_of(list(map(with_trees, declarations)))
