"""Differences of whole documents: where both sides have the same references and targets and resolve them otherwise.

A reference that docutils calls problematic and ours drops is no link on either
side, and no difference. Kinds are told by the names that a reference reaches
through aliases.
"""

from dataclasses import dataclass

from facts import Kind, normal
from items import REFERENCES, Item
from resolved import INSIDE


@dataclass
class Resolved:
    """A reference, and where both sides let it lead: a destination, a place of the document, or nowhere (None)."""

    item: Item
    ours: str | None
    theirs: str | None
    items: list

    def __str__(self):
        return f"{self.item}: ours to {self.ours!r}, docutils' to {self.theirs!r}"


def differences(items, our_links, their_links):
    """The references of a document that lead elsewhere; None where docutils' cannot be told apart."""
    references = [item for item in items if item.sort in REFERENCES]
    if len(references) != len(their_links):
        return None
    ours = {place: destination for place, _, destination in our_links}
    found = [Resolved(item, ours.get(item.start), theirs, items) for item, theirs in zip(references, their_links)]
    return [one for one in found if one.ours != one.theirs]


def _definitions(items):
    """What defines a name, as docutils compares names: name, and the name or destination it leads to."""
    return [(normal(item.first), item) for item in items if item.sort in ("target", "alias", "embedded") and item.first]


def _first_name(one):
    """The name that a reference has, an anonymous one that of its target's alias."""
    if one.item.sort != "anonymous":
        return one.item.second
    number = [item for item in one.items if item.sort == "anonymous"].index(one.item)
    targets = [item for item in one.items if item.sort in ("anonymous target", "anonymous alias")]
    return targets[number].second if number < len(targets) and targets[number].sort == "anonymous alias" else ""


def _reached(one):
    """The definitions that a reference reaches, each once, and whether there is a circle."""
    names, found, circle = [normal(_first_name(one))], [], False
    for name in names:
        for defined, item in _definitions(one.items):
            if defined == name and item not in found:
                found.append(item)
                if item.sort == "alias":
                    circle = circle or normal(item.second) in names
                    names.append(normal(item.second))
    return found, circle


def _anonymous(items):
    """How many anonymous references and anonymous targets there are."""
    count = [item.sort for item in items].count
    return count("anonymous"), count("anonymous target") + count("anonymous alias")


def _defined_twice(one):
    names = [normal(item.first) for item in _reached(one)[0]]
    return len(names) != len(set(names))


def _numbered(one):
    """Whether it is anonymous or has a name like a number, and such a name is defined or referred to."""
    def like_number(name):
        return name[:1] == "_" and name[1:].isdigit()
    return ((one.item.sort == "anonymous" or like_number(one.item.second))
            and any(like_number(part) for item in one.items for part in (item.first, item.second)))


def _leads_nowhere(one):
    """Whether an alias leads to an alias that is circular or has no target."""
    defined = {name for name, _ in _definitions(one.items)}
    aliases = [item for item in one.items if item.sort in ("alias", "anonymous alias")]
    return (one.ours is None and one.theirs == INSIDE and len(aliases) > 1
            and any(normal(item.second) not in defined or normal(item.second) == normal(item.first) for item in aliases))


KINDS = [
    Kind("name with two definitions", ".. _a: u\n.. _a: v\n\na_", _defined_twice),
    Kind("name like a number", "`_1`_\n\n__ u", _numbered),
    Kind("numbers of anonymous references and targets", "a__ b__\n\n__ u",
         lambda one: one.item.sort == "anonymous" and len(set(_anonymous(one.items))) == 2),
    Kind("target without a destination", ".. _a: \n\na_", lambda one: one.ours == ""),
    Kind("alias of an alias that leads nowhere", ".. _a: b_\n.. _c: a_\n\nc_", _leads_nowhere),
    Kind("circular aliases", ".. _a: b_\n.. _b: a_\n\nb_", lambda one: _reached(one)[1]),
]


def classify(one):
    """The kind of a difference, or None."""
    return next((kind for kind in KINDS if kind.holds(one)), None)
