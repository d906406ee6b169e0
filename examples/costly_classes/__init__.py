"""Classes that are dear to judge, each of which repeats one part as often as is asked for."""
from . import declarations, instructions, jumps, stack_maps
from .listed import Costly

FAMILIES = (declarations, instructions, stack_maps, jumps)
CLASSES = [it for family in FAMILIES for it in vars(family).values() if isinstance(it, Costly)]
"""The classes in the order of their families, and there as they are written."""
