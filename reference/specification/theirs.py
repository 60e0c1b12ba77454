"""Their side: docutils 0.19, asked for its references and targets before it resolves them.

The parser alone is run, no transform, so a reference to a name that nothing
defines is a reference like any other. Its methods are watched to learn where
each inline construct and each block that is no text stands; of these the
classification speaks.
"""

import functools
from dataclasses import dataclass, field

from docutils import nodes
from docutils.frontend import get_default_settings
from docutils.parsers.rst import Parser, states
from docutils.utils import new_document

from items import Item
from places import Places

SETTINGS = {"report_level": 5, "halt_level": 5, "file_insertion_enabled": False, "raw_enabled": False,
            "syntax_highlight": "none"}


@dataclass
class Reading:
    """What docutils made of a document.

    `items`: references and targets. `inlines`: other inline constructs by name,
    as (name, start, end). `blocks`: blocks that are not read as text, likewise.
    `texts`: the bytes read as text, `titles`: those of titles, as (start, end).
    """

    places: Places
    items: list = field(default_factory=list)
    inlines: list = field(default_factory=list)
    blocks: list = field(default_factory=list)
    texts: list = field(default_factory=list)
    titles: list = field(default_factory=list)


_reading = None


def _with_inlines_noted(method):
    """The inline parser's method, with the bytes of each inline construct of the text noted."""

    @functools.wraps(method)
    def run(self, text, lineno, memo, parent):
        found, messages = method(self, text, lineno, memo, parent)
        in_cell = isinstance(parent, nodes.entry)  # whose line docutils counts one too high
        at = _reading.places.block(text, lineno - 1 - in_cell)
        _reading.texts.append((at[0], at[-1]))
        column = 0
        for node in found:
            if isinstance(node, nodes.Text):
                column += len(node)
            elif not (isinstance(node, nodes.target) and ("refuri" in node or "refname" in node)):
                start = max(text.find(node.rawsource, column), column)
                column = min(start + len(node.rawsource), len(at) - 1)
                _note_inline(node, at[start], at[column])
        return found, messages

    return run


def _note_inline(node, start, end):
    item = _inline_item(node, start, end)
    if item:
        _reading.items.append(item)
    else:
        _reading.inlines.append((type(node).__name__, start, end))


def _name(node):
    """The name that a node defines; one that is defined twice counts too."""
    return (node["names"] + node["dupnames"] + [""])[0]


def _inline_item(node, start, end):
    text = node.astext()
    if isinstance(node, nodes.footnote_reference):
        return Item("footnote", text or node.rawsource[1:-2], "", start, end)
    if isinstance(node, nodes.citation_reference):
        return Item("citation", text, "", start, end)
    if isinstance(node, nodes.target):
        return Item("inline target", _name(node), "", start, end)
    if not isinstance(node, nodes.reference):
        return None
    if isinstance(node[0], nodes.substitution_reference):
        return Item("substitution", text, "", start, end)
    if "name" not in node:
        return Item("standalone", text, node["refuri"], start, end)
    if "refuri" in node:
        sort = "embedded anonymous" if node.rawsource.endswith("__") else "embedded"
        return Item(sort, text, node["refuri"], start, end)
    if "anonymous" in node:
        return Item("anonymous", text, "", start, end)
    same = " ".join(text.lower().split()) == node["refname"]
    embedded = node.rawsource.rstrip("_").endswith(">`") and not (same and text.endswith(">"))
    return Item("embedded alias" if embedded else "reference", text, node["refname"], start, end)


def _target_item(node, start, end):
    name = "" if "anonymous" in node else _name(node)
    sort = "alias" if "refname" in node else "target"
    return Item("anonymous " + sort if "anonymous" in node else sort, name,
                node.get("refname", node.get("refuri", "")), start, end)


def _watched(method, name):
    """The method, with its lines noted as a block, and what it makes as items."""

    @functools.wraps(method)
    def run(self, *words):
        first, column = self.state_machine.abs_line_offset(), 0
        answer = method(self, *words)
        places = _reading.places
        if words:  # a comment that began as a target is read from past its first line
            first = next((line for line in range(first, -1, -1) if places.line(line).endswith(words[0].string)), first)
            column = max(len(places.line(first)) - len(words[0].string), 0)
        start, end = places.of(first, column), places.of_line(self.state_machine.abs_line_offset() + 1)
        _reading.blocks.append((name, start, end))
        made = answer[0] if isinstance(answer, tuple) else answer
        for node in made:
            if isinstance(node, nodes.target):
                _reading.items.append(_target_item(node, start, end))
            elif isinstance(node, (nodes.footnote, nodes.citation)) and _name(node):
                _reading.items.append(Item("implicit", _name(node), "", start, end))
        return answer

    return run


def _with_title_noted(method):
    """The method that starts a section, with its title's bytes noted."""

    @functools.wraps(method)
    def run(self, title, lineno, messages):
        line = lineno - 1
        _reading.titles.append((_reading.places.of_line(line), _reading.places.of_line(line + 1)))
        return method(self, title, lineno, messages)

    return run


def _with_term_noted(method):
    """The method that reads an item of a definition list, with its term's line noted: its own count is past the item."""

    @functools.wraps(method)
    def run(self, termline):
        self.note_term = self.state_machine.abs_line_number() - 1
        return method(self, termline)

    return run


def _at_its_line(method):
    """The method that reads a term, told the noted line."""
    return functools.wraps(method)(lambda self, lines, lineno: method(self, lines, self.note_term))


def _watch():
    """Puts the watched methods in the places of the parser's own."""
    for owner, method, name in ((states.Body, "comment", "comment"), (states.Body, "doctest", "doctest block"),
                                (states.Text, "literal_block", "literal block"),
                                (states.Body, "anonymous_target", "target")):
        setattr(owner, method, _watched(getattr(owner, method), name))
    states.Inliner.parse = _with_inlines_noted(states.Inliner.parse)
    states.Text.definition_list_item = _with_term_noted(states.Text.definition_list_item)
    states.Text.term = _at_its_line(states.Text.term)
    states.RSTState.new_subsection = _with_title_noted(states.RSTState.new_subsection)
    names = ("footnote", "citation", "target", "substitution definition", "directive")
    constructs = states.Body.explicit.constructs
    constructs[:] = [(_watched(method, name), pattern) for (method, pattern), name in zip(constructs, names)]


_watch()
_settings = get_default_settings(Parser)
vars(_settings).update(SETTINGS)


def begin(text):
    """Forgets what was watched; to be called before the parser runs on a text."""
    global _reading
    _reading = Reading(Places(text))


def read(document):
    """What docutils makes of a document of the domain; None where it ends with an error of its own."""
    text = document.decode()
    begin(text)
    tree = new_document("note", _settings)
    try:
        Parser().parse(text, tree)
    except IndexError:  # docutils has none for an embedded link whose text and address are both empty
        return None
    for section, (start, end) in zip(tree.findall(nodes.section), _reading.titles):
        _reading.items.append(Item("implicit", _name(section), "", start, end))
    _reading.items.sort(key=lambda item: (item.start, item.end))
    return _reading
