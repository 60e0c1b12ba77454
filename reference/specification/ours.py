"""Our side: the proved calls in a shared library, asked through ctypes."""

import ctypes
import re
from pathlib import Path

from items import Item

DOCUMENT_MAX = 16384
_NO_LINK = 9
_EMBEDDED_ALIAS = re.compile(rb"`(?:[^`\\]|\\.)*_>`_(?!_)", re.S)


class _Link(ctypes.Structure):
    _fields_ = [(name, ctypes.c_uint32) for name in
                ("number", "bytes", "kind", "skipped", "consumed", "first", "second")]


class Ours:
    """Lists the links that the single-link call finds, from place to place."""

    def __init__(self, library):
        self._take = ctypes.CDLL(str(Path(library).resolve())).rst_take_link
        self._take.restype = _Link
        lent = [ctypes.c_char_p, ctypes.c_size_t]
        self._take.argtypes = lent + [ctypes.c_size_t] + lent + lent
        self._strings = [ctypes.create_string_buffer(DOCUMENT_MAX) for _ in range(2)]

    def items(self, document):
        """The links of a document, or None where it is outside the domain."""
        found, place = [], 0
        first, second = self._strings
        while True:
            link = self._take(document, len(document), place, first, DOCUMENT_MAX, second, DOCUMENT_MAX)
            if link.number == _NO_LINK:
                return found
            if link.number:
                return None
            start = place + link.skipped
            place = start + link.consumed
            found.append(_item(link.kind, _text(first, link.first), _text(second, link.second), document, start, place))


def _text(buffer, length):
    return ctypes.string_at(buffer, length).decode()


def _item(kind, first, second, document, start, end):
    if kind == 1:
        return Item("embedded anonymous", first, second, start, end)
    if kind == 2:
        return Item("embedded", first, second, start, end)
    if kind == 3:
        if _EMBEDDED_ALIAS.match(document, start, end) and (first != second or not first.endswith("_>")):
            return Item("embedded alias", first, second, start, end)
        if second == "_":
            return Item("anonymous", first, "", start, end)
        return Item("reference", first, second, start, end)
    sort = "target" if kind == 4 else "alias"
    if first == "_":
        return Item("anonymous " + sort, "", second, start, end)
    return Item(sort, first, second, start, end)
