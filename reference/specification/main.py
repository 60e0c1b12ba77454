"""Compares docutils with ours on documents and sorts the differences by their kinds.

`../run-docutils` builds the library that is asked and runs this.
"""

import argparse
import sys
import time
from pathlib import Path

import documents
import entries
import kinds
import links
import theirs
from ours import Ours
from resolved import OurLinks, shown, their_links
from tally import Comparison, Resolving


def check_entries(comparison, ours, library, record):
    """Asks both sides about every row of the tables; each kind's input must be among them and be of that kind."""
    plain, rendered = OurLinks(library, 0), OurLinks(library, 1)

    def asked(document, last):
        if not last:
            return theirs.read(document).items, ours.items(document)
        found = their_links(document)
        answer = plain.links(document) or (rendered.links(document) if not found else [])
        return shown(found), [f"`{text}` to `{destination}`" for _, text, destination in answer]

    found = entries.answered(asked)
    if record:
        entries.ANSWERS.write_text(found)
    faults = [] if entries.ANSWERS.read_text() == found else ["the answers are not those of entries.txt"]
    inputs = {document for _, document in entries.rows()}
    resolving = Resolving(ours, library)
    for kind, asker in [(kind, comparison) for kind in kinds.ALL] + [(kind, resolving) for kind in links.KINDS]:
        document = kind.smallest.encode()
        if document not in inputs:
            faults.append(f"{kind.name}: {kind.smallest!r} is no row of the tables")
        if kind.name not in [name for _, name in asker.of(document) or ()]:
            faults.append(f"{kind.name}: {kind.smallest!r} is not of that kind")
    print("\n".join([*faults, f"{len(inputs)} inputs, {len(kinds.ALL) + len(links.KINDS)} kinds, {len(faults)} faults"]))
    return not faults


def main():
    words = argparse.ArgumentParser(description=__doc__)
    words.add_argument("library", type=Path)
    words.add_argument("notes", type=Path, nargs="?", help="a folder of real notes")
    words.add_argument("--seconds", type=float, default=60, help="for each sort of documents")
    words.add_argument("--seed", type=int, default=1)
    words.add_argument("--entries", action="store_true", help="ask about the rows of docs/DIFFERENCES.md instead")
    words.add_argument("--record", action="store_true", help="with --entries, write the answers")
    said = words.parse_intermixed_args()
    ours = Ours(said.library)
    if said.entries:
        return check_entries(Comparison(ours), ours, said.library, said.record)
    sets = [("short", documents.all_short(), Comparison(ours)), ("drawn", documents.drawn(said.seed), Comparison(ours)),
            ("resolved", documents.defining(said.seed), Resolving(ours, said.library))]
    if said.notes and said.notes.is_dir():
        sets.append(("notes", documents.notes(said.notes), Comparison(ours)))
    else:
        print("no folder of notes: skipped")
    known = True
    for name, source, comparison in sets:
        end = time.monotonic() + said.seconds
        for document in source:
            comparison.add(document)
            if time.monotonic() > end:
                break
        print(f"== {name}")
        comparison.report()
        known = known and not comparison.counts[None]
    return known


if __name__ == "__main__":
    sys.exit(0 if main() else 1)
