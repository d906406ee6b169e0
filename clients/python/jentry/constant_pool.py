"""The texts in a class file: the exception of a processor has the index of its text in the constant pool (JVMS 4.4)."""
from __future__ import annotations

import struct
from typing import Dict, Optional

UTF8, LONG, DOUBLE, STRING = 1, 5, 6, 8
LENGTHS = {3: 4, 4: 4, LONG: 8, DOUBLE: 8, 7: 2, STRING: 2, 9: 4, 10: 4, 11: 4, 12: 4, 15: 3, 16: 2, 18: 4}
"""The bytes of each kind of constant behind its tag. A Utf8 has its length in front of its bytes."""


def _characters(text: bytes) -> str:
    """Decodes modified UTF-8 (JVMS 4.4.7): a NUL has two bytes, and each surrogate of a supplementary character three. Surrogates without the other
    one remain, as in a Java string."""
    text = text.replace(b"\xc0\x80", b"\0")
    try:
        units = text.decode("utf-8", "surrogatepass")
    except UnicodeDecodeError:
        # The server accepts a class whose constants are no modified UTF-8, which no Java compiler makes.
        return text.decode("utf-8", "replace")
    return units.encode("utf-16-be", "surrogatepass").decode("utf-16-be", "surrogatepass")


class Strings:
    """The String constants of a class file. The file is read when the first one is asked for."""

    def __init__(self, file: bytes) -> None:
        self._file = file
        self._offsets: Optional[Dict[int, int]] = None

    def at(self, index: int) -> Optional[str]:
        """Returns the String constant at an index, or None if the file has none there."""
        try:
            string, utf8 = struct.unpack_from(">BH", self._file, self._offset(index))
            start = self._offset(utf8)
            tag, length = struct.unpack_from(">BH", self._file, start)
        except (IndexError, KeyError, struct.error):
            return None
        return _characters(self._file[start + 3 : start + 3 + length]) if (string, tag) == (STRING, UTF8) else None

    def _offset(self, index: int) -> int:
        """Returns the offset of the constant at an index."""
        if self._offsets is None:
            self._offsets = self._read_offsets()
        return self._offsets[index]

    def _read_offsets(self) -> Dict[int, int]:
        """Returns the offset of each constant by its index."""
        (count,) = struct.unpack_from(">H", self._file, 8)
        at, index, offsets = 10, 1, {}
        while index < count:
            offsets[index], tag = at, self._file[at]
            index += 2 if tag in (LONG, DOUBLE) else 1
            at += 3 + int(struct.unpack_from(">H", self._file, at + 1)[0]) if tag == UTF8 else 1 + LENGTHS[tag]
        return offsets
