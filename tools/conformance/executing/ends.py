"""How a run ends before its term is values."""


class Trap(Exception):
    """A trap, by its kind."""


class Exceeded(Exception):
    """A limit that is passed, by its name."""
