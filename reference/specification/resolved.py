"""Both sides' answers for a whole document: its references, each with what it leads to.

docutils runs its transforms here. A reference that it shows as problematic, or
that ours drops, leads nowhere.
"""

import ctypes

from docutils import nodes
from docutils.core import publish_doctree

import theirs
from ours import DOCUMENT_MAX

INSIDE = "a place of the document"
NUMBERS, BYTES, OUTPUT, HEAD = 4096, 49152, 1 << 20, 8


class _Outcome(ctypes.Structure):
    _fields_ = [(name, ctypes.c_uint32) for name in ("number", "links", "bytes")]


class OurLinks:
    """Asks the document call."""

    def __init__(self, library, render):
        self._read = ctypes.CDLL(str(library)).rst_document
        self._read.restype = _Outcome
        self._read.argtypes = [ctypes.c_char_p, ctypes.c_size_t, ctypes.c_uint32] + [ctypes.c_void_p, ctypes.c_size_t] * 3
        self._render = render
        self._numbers = (ctypes.c_uint32 * NUMBERS)()
        self._bytes = ctypes.create_string_buffer(BYTES)
        self._output = ctypes.create_string_buffer(OUTPUT)

    def links(self, document):
        """The links of a document, as place, text and destination."""
        assert len(document) <= DOCUMENT_MAX
        outcome = self._read(document, len(document), self._render, self._numbers, NUMBERS, self._bytes, BYTES,
                             self._output, OUTPUT)
        assert outcome.number == 0
        records, links, place = ctypes.string_at(self._output, outcome.bytes), [], 0
        while records:
            head = int.from_bytes(records[:HEAD], "big")
            skipped, consumed, text, destination = (head >> by & 0x7FFF for by in (49, 34, 19, 4))
            end = HEAD + text + destination
            links.append((place + skipped, records[HEAD:HEAD + text].decode(), records[HEAD + text:end].decode()))
            place, records = place + skipped + consumed, records[end:]
        return links


def their_links(document):
    """The references of a document and what docutils calls problematic, as node and destination.

    The destination is None for what is problematic, and INSIDE for a place of the document.
    """
    theirs.begin(document.decode())
    tree = publish_doctree(document.decode(), settings_overrides=theirs.SETTINGS)
    found = []
    for node in tree.findall(lambda node: isinstance(node, (nodes.reference, nodes.problematic))):
        problematic = isinstance(node, nodes.problematic)
        found.append((node, None if problematic else node.get("refuri", INSIDE)))
    return found


def in_texts(links):
    """The destinations of docutils' links that stand in a text, without the problematic targets."""
    return [destination for node, destination in links if isinstance(node.parent, nodes.TextElement)]


def shown(links):
    """docutils' links in words."""
    return [f"problematic `{node.astext()}`" if destination is None else f"`{node.astext()}` to {destination}"
            if destination == INSIDE else f"`{node.astext()}` to `{destination}`" for node, destination in links]
