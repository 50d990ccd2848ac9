"""How a script ends: with the value of main, or with a fault."""


class Fault(Exception):
    """A fault: divzero, overflow, failed, reused, empty, or unhandled and the name of an effect or `group`."""
