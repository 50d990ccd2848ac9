"""All derivations of a row of tokens at once, by the chart of Earley."""

from typing import NamedTuple

from script_reader.grammar import REPEATED


class Node(NamedTuple):
    """A production of a tree: its name, and its parts, nodes and tokens."""

    name: str
    parts: list


class _Item(NamedTuple):
    """A row of a name of which so many parts are derived, from a token on."""

    name: str
    row: tuple
    done: int
    start: int

    @property
    def next(self):
        return self.row[self.done] if self.done < len(self.row) else None

    def moved(self):
        return self._replace(done=self.done + 1)


class Derivations:
    """The chart of kinds of tokens, by productions of which only the first name may derive none.

    `first_wrong` is the number of the first one with which no sentence begins, the end counted as the last one; nothing
    where they are a sentence. `end_fits` says whether those in front of it are a sentence."""

    def __init__(self, productions, first, kinds):
        self.productions = {name: [tuple(row) for row in rows] for name, rows in productions.items()}
        self.first = first
        self.columns = [self._column(0, [_Item(first, row, 0, 0) for row in self.productions[first]])]
        self.first_wrong = None
        for number, kind in enumerate(kinds):
            shifted = [item for item in self.columns[-1] if _is_of(item.next, kind)]
            if not shifted:
                self.first_wrong = number
                return
            self.columns.append({})
            self._column(number + 1, [item.moved() for item in shifted], [self.columns[-2][item] for item in shifted])
        if not self.end_fits:
            self.first_wrong = len(kinds)

    @property
    def end_fits(self):
        return bool(self._ends())

    def fitting(self):
        """The tokens with which some sentence goes on behind those that fit, as words of rows."""
        following = {item.next for item in self.columns[-1] if item.next is not None}
        return following - self.productions.keys()

    def _column(self, at, items, derived=None):
        """Fill the column of a token with these items and what follows from them: each with the nodes and the number of
        tokens that its parts take."""
        column = {} if at == 0 else self.columns[at]
        waiting = list(zip(items, [past + ((None, at - 1),) for past in derived] if derived else [()] * len(items)))
        while waiting:
            item, parts = waiting.pop()
            if item in column:
                continue
            column[item] = parts
            if item.next is None:
                waiting += self._completed(column, item, at)
            elif item.next in self.productions:
                waiting += [(_Item(item.next, row, 0, at), ()) for row in self.productions[item.next]]
        return column

    def _completed(self, column, item, at):
        """What goes on behind a name that is derived."""
        past = column if item.start == at else self.columns[item.start]
        return [
            (waits.moved(), parts + ((item, at),)) for waits, parts in list(past.items()) if waits.next == item.name]

    def _ends(self):
        return [item for item in self.columns[-1] if item.name == self.first and item.next is None and item.start == 0]

    def tree(self, tokens):
        """The tree of the tokens, which are a sentence."""
        return self._node(self._ends()[0], len(tokens), tokens)

    def _node(self, item, at, tokens):
        parts = []
        for part, end in self.columns[at][item]:
            if part is None:
                parts.append(tokens[end])
            else:
                node = self._node(part, end, tokens)
                parts += node.parts if node.name.startswith(REPEATED) else [node]
        return Node(item.name, parts)


def _is_of(word, kind):
    """Whether the word of a row is a token of this kind."""
    return word is not None and (word == kind if kind in ('NAME', 'INT') else word == f"'{kind}'")
