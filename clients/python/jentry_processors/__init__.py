"""The class files of the built-in processors.

An installed package contains them. In the repository they are in clients/processors, next to their sources.
"""
import os

_HERE = os.path.dirname(os.path.abspath(__file__))
_PLACES = (_HERE, os.path.join(_HERE, "../../processors"))
NAMES = ("GetAndPut", "GetAndRemove", "GetAndReplace", "PutIfAbsent", "RemoveIf", "Replace", "ReplaceIf")


def file(name: str) -> bytes:
    """Returns the bytes of a processor's class file. Raises FileNotFoundError if there is none."""
    for place in _PLACES:
        path = os.path.join(place, name + ".class")
        if os.path.exists(path):
            with open(path, "rb") as it:
                return it.read()
    raise FileNotFoundError(f"there is no class file of the processor {name}")
