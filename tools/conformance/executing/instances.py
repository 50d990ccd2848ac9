"""Instances of modules (Core, execution, runtime structure)."""

from collections import Counter
from dataclasses import dataclass, field


@dataclass
class Instance:
    """An instance of a module: for each kind of index, in the order of the indices, the addresses that these stand for.

    Addresses of types are their numbers among the types of all modules, one module behind the other.
    """

    types: range
    functions: list = field(default_factory=list)
    tables: list = field(default_factory=list)
    memories: list = field(default_factory=list)
    globals: list = field(default_factory=list)
    tags: list = field(default_factory=list)
    elements: list = field(default_factory=list)
    datas: list = field(default_factory=list)


class Addresses:
    """How many addresses of each kind are given so far; the next one of a kind is its count."""

    def __init__(self):
        self._counts = Counter()

    def new(self, kind, count):
        """So many new addresses."""
        first = self._counts[kind]
        self._counts[kind] += count
        return list(range(first, first + count))

    def instance(self, module, imported):
        """The instance of a module: to each kind of import the addresses are given, and new ones stand behind these."""
        lists = {kind: list(addresses) for kind, addresses in imported.items()}
        for kind in ('functions', 'tables', 'memories', 'globals', 'tags', 'elements', 'datas'):
            lists.setdefault(kind, [])
            lists[kind] += self.new(kind, len(getattr(module, kind)))
        types = self.new('types', len(module.types))
        return Instance(range(types[0], types[-1] + 1) if types else range(0), **lists)
