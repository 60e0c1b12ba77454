"""Both sides' items of a document, laid beside each other.

Items that take some of the same bytes and say the same are equal. What is left
is paired where bytes overlap, references with references and targets with
targets; each pair, and each item that stays alone, is a
difference.
"""

from dataclasses import dataclass, field

from items import REFERENCES, TARGETS, Item
from theirs import Reading


@dataclass
class Difference:
    """What one side has and the other has not, or has otherwise; `kind` is given by `kinds`."""

    document: bytes
    ours: Item | None
    theirs: Item | None
    sides: "Sides" = field(repr=False)

    @property
    def start(self):
        return min(item.start for item in (self.ours, self.theirs) if item)

    def __str__(self):
        return f"ours: {self.ours or 'none'}; docutils: {self.theirs or 'none'}"


@dataclass
class Sides:
    """The document with all that both sides say of it."""

    document: bytes
    ours: list
    reading: Reading

    def before(self, place):
        """The character before a place, or nothing at the start."""
        return self.document[:place].decode(errors="ignore")[-1:]

    def behind(self, place):
        """The character at a place, or nothing at the end."""
        return self.document[place:].decode(errors="ignore")[:1]


def differences(document, ours, reading):
    """The differences of a document, in the order of their places."""
    sides = Sides(document, ours, reading)
    left_ours, left_theirs = list(ours), list(reading.items)
    _take_pairs(left_ours, left_theirs, lambda one, other: one.said() == other.said())
    found = [Difference(document, one, other, sides)
             for one, other in _take_pairs(left_ours, left_theirs, _alike)]
    found += [Difference(document, one, None, sides) for one in left_ours]
    found += [Difference(document, None, other, sides) for other in left_theirs]
    return sorted(found, key=lambda difference: difference.start)


def _alike(one, other):
    return any(one.sort in sorts and other.sort in sorts for sorts in (REFERENCES, TARGETS))


def _take_pairs(ours, theirs, may):
    """Takes from both lists the items that overlap and may be paired."""
    pairs = []
    for one in list(ours):
        other = next((item for item in theirs if one.overlaps(item) and may(one, item)), None)
        if other:
            ours.remove(one)
            theirs.remove(other)
            pairs.append((one, other))
    return pairs
