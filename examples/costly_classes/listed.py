"""What is told of each class beside the function that makes it."""
from collections import namedtuple

Costly = namedtuple("Costly", "name text verdict of most")
"""A class: what repeats in it, with `{n}` for how often, what `check` answers, the class of a number, and the most numbers to try."""


def costly(text, verdict="accepted", most=65_535):
    """A class that is made by the function that follows."""
    return lambda of: Costly(of.__name__, text, verdict, of, most)
