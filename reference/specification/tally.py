"""Differences of many documents, counted by kind."""

from collections import Counter

import kinds
import links
import theirs
from compare import differences
from resolved import OurLinks, in_texts, their_links
from shrink import shrink


class Comparison:
    """Counts the differences of documents by kind and keeps the shortest document of each."""

    def __init__(self, ours):
        self._ours = ours
        self.documents = self.left_out = 0
        self.counts = Counter()
        self.shortest = {}
        self.unknown = []

    def of(self, document):
        """The differences of a document, each with its kind's name or None; None where a side has no answer."""
        items, reading = self._ours.items(document), theirs.read(document)
        if items is None or reading is None:
            return None
        return [(difference, getattr(kinds.classify(difference), "name", None))
                for difference in differences(document, items, reading)]

    def add(self, document):
        self.documents += 1
        found = self.of(document)
        if found is None:
            self.left_out += 1
            return
        for difference, name in found:
            self.counts[name] += 1
            if name is None:
                self.unknown.append(document)
            elif len(document) < len(self.shortest.get(name, document + b"-")):
                self.shortest[name] = document

    def smallest(self, name, document):
        """The document made smaller while it has a difference of that kind."""
        return shrink(document, lambda trial: any(name == found for _, found in self.of(trial) or ()))

    def report(self, most=20):
        total = sum(self.counts.values())
        print(f"{self.documents} documents, {self.left_out} left out, {total} differences, {self.counts[None]} of no kind")
        for name, count in self.counts.most_common():
            if name:
                print(f"{count:8} {name}: {self.smallest(name, self.shortest[name]).decode()!r}")
        left = {self.smallest(None, document) for document in sorted(self.unknown, key=len)[:most]}
        for document in sorted(left, key=len):
            print("of no kind:", repr(document.decode()))
            print("\n".join(f"    {difference}" for difference, name in self.of(document) if name is None))


class Resolving(Comparison):
    """The same of documents whose references and targets are equal: where the references lead."""

    def __init__(self, ours, library):
        super().__init__(ours)
        self._links = OurLinks(library, 0)

    def of(self, document):
        if super().of(document) != []:
            return None
        found = links.differences(self._ours.items(document), self._links.links(document), in_texts(their_links(document)))
        return found and [(one, getattr(links.classify(one), "name", None)) for one in found]
