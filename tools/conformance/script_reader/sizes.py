"""The size of scripts."""

from script_reader.trees import Run, Spawn, Switch, parts_of, with_trees

GREATEST_SIZE = 50000


def size_of(declarations):
    """The size of a script of these declarations, whose bodies are as they are in the tree of its tokens."""
    return sum(map(declaration_size, declarations))


def declaration_size(declaration):
    """The size of one declaration of them."""
    declaration = with_trees(declaration)
    size = 1 + len(declaration.parameters) + _body_size(declaration.body)
    if declaration.kind == 'handler':
        return_clause_and_its_name = 2
        size += return_clause_and_its_name + sum(map(_clause_size, declaration.clauses))
    return size


def _clause_size(clause):
    clause_and_resumption = 2
    return clause_and_resumption + len(clause.arguments) + _body_size(clause.body)


def _body_size(statements):
    return sum(map(_own_size, parts_of(statements)))


def _own_size(part):
    """The size of a statement or an expression without those in it."""
    if isinstance(part, Run):
        return len(part.others)
    return 2 if isinstance(part, (Spawn, Switch)) else 1
