"""What both sides are asked for: an item is a reference or a target with the
bytes of the document that it takes.

`REFERENCES`, `EMBEDDED` of them, and `TARGETS` are the sorts that both sides know; `THEIRS_ALONE` are
links and targets of the specification that the Rust does not read.
"""

from dataclasses import dataclass

REFERENCES = {
    "reference": "to a name: text, name",
    "anonymous": "anonymous: text",
    "embedded": "with its destination, text is a name: text, destination",
    "embedded anonymous": "with its destination: text, destination",
    "embedded alias": "with the name it leads to: text, name",
}
EMBEDDED = [sort for sort in REFERENCES if sort.startswith("embedded")]
TARGETS = {
    "target": "with a destination, which may be of no bytes: name, destination",
    "anonymous target": "the same without a name: destination",
    "alias": "leads to a name: name, name",
    "anonymous alias": "the same without a name: name",
}
THEIRS_ALONE = {
    "standalone": "a link whose text is its destination",
    "footnote": "a footnote reference",
    "citation": "a citation reference",
    "substitution": "a substitution reference that is a link",
    "inline target": "an internal target in a text",
    "implicit": "the name of a title, a footnote or a citation",
}


@dataclass(frozen=True)
class Item:
    """`first` is the text or name, `second` the destination or name it leads to."""

    sort: str
    first: str
    second: str
    start: int
    end: int

    def said(self):
        """The answer without its place."""
        return self.sort, self.first, self.second

    def overlaps(self, other):
        return self.start < other.end and other.start < self.end

    def __str__(self):
        words = [self.sort] + [f"`{part}`" for part in (self.first, self.second) if part]
        return " ".join(words)
