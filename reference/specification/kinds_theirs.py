"""Kinds of differences where docutils has an item and ours has none there."""

import re

from facts import (ESCAPABLE, SKIPPED, Kind, end_of_reference, has_lone_cr, has_other_blank, has_other_line_end,
                   line_before, our_link_around, over_text_blocks, raw, starts_line, unescaped_backticks)
from items import EMBEDDED, REFERENCES, TARGETS


def _sort(sort):
    return lambda x: x.theirs.sort == sort


def _reference(holds):
    return lambda x: x.theirs.sort in REFERENCES and holds(x, raw(x, x.theirs))


def _block(holds):
    return lambda x: x.theirs.sort in TARGETS and holds(x, raw(x, x.theirs))


def _before(holds):
    """A reference, asked by the character before it and the one before that."""
    def of_difference(x):
        mark = x.sides.before(x.theirs.start)
        return x.theirs.sort in REFERENCES and holds(mark, x.sides.before(x.theirs.start - len(mark.encode())))
    return of_difference


def _in_our_link(holds):
    """Within a link of ours, asked by its raw text and where the item stands in it."""
    def of_difference(x):
        link = our_link_around(x, x.theirs)
        return link is not None and link.start <= x.theirs.start and holds(link, raw(x, link), x)
    return of_difference


def _behind_error(x):
    return any(name == "problematic" and end == x.theirs.start for name, _, end in x.sides.reading.inlines)


def _line_start_hidden(x):
    before = line_before(x, x.theirs.start)
    return starts_line(x, x.theirs.start) and before is not None and before[-1:] in (" ", "\t")


KINDS_THEIRS = [
    Kind("standalone hyperlink", "go:a", _sort("standalone")),
    Kind("footnote reference", "[1]_", _sort("footnote")),
    Kind("citation reference", "[a]_", _sort("citation")),
    Kind("substitution reference", "|a|_", _sort("substitution")),
    Kind("inline target", "_`a`", _sort("inline target")),
    Kind("title, footnote or citation as a target", "a\n=", _sort("implicit")),
    Kind("underscores for a target", "__", _block(lambda x, text: text.rstrip() == "__")),
    Kind("CR alone", "x\r\r.. _b: c", lambda x: has_lone_cr(x, x.theirs)),
    Kind("other line end", "x\x85\x85.. _b: c", lambda x: has_other_line_end(x, x.theirs)),
    Kind("inside a block behind a link", "a_ __ c d_", _in_our_link(
        lambda link, text, x: link.sort in REFERENCES and end_of_reference(x, link) <= x.theirs.start)),
    Kind("inside a block without an empty line before it", "x\n__ a_", _in_our_link(
        lambda link, text, x: link.sort in TARGETS)),
    Kind("between stray backticks", "`\n\n.. _b: c\n\n`_", _in_our_link(
        lambda link, text, x: text[:1] == "`" and over_text_blocks(x, link))),
    Kind("inside an embedded link of ours", "x` a_ b_ <u>`_", _in_our_link(
        lambda link, text, x: link.sort in EMBEDDED and link.start < x.theirs.start)),
    Kind("further reference inside backticks of ours", "`a_ b_ `_", _in_our_link(
        lambda link, text, x: text[:1] == "`" and link.start < x.theirs.start)),
    Kind("behind a start without an end", "*a_", _behind_error),
    Kind("blanks right before LF", " \na_", _reference(lambda x, text: _line_start_hidden(x))),
    Kind("block behind blanks right before LF", " \n.. _b: c", _block(lambda x, text: _line_start_hidden(x))),
    Kind("dot, colon or plus in a simple name", "a.b_", _reference(
        lambda x, text: text[:1] != "`" and re.search(r"[.:+]", text))),
    Kind("mark like an opening one before a reference", "/a_", _before(lambda mark, other: mark in set("-:/"))),
    Kind("brace before a reference", "{a_", _before(lambda mark, other: mark == "{")),
    Kind("two opening marks before a reference", "((a_", _before(
        lambda mark, other: mark in set(SKIPPED) and other in set(SKIPPED))),
    Kind("opening mark in a word", "x(a_", _before(lambda mark, other: mark in set(SKIPPED))),
    Kind("form feed or vertical tab before a reference", "\fa_", _before(lambda mark, other: mark in set("\f\v"))),
    Kind("cell of a table", "+---+\n|a_ |\n+---+", _before(lambda mark, other: mark == "|")),
    Kind("other white space before a reference", "\u00a0a_", _before(lambda mark, other: mark.isspace() and mark not in " \t\n")),
    Kind("other punctuation before a reference", "\u00aba_", _before(lambda mark, other: mark > "\x7f")),
    Kind("hyphen behind a reference", "a_-", _reference(lambda x, text: x.sides.behind(x.theirs.end) == "-")),
    Kind("other blank in a block", ".. _a:\f", _block(lambda x, text: has_other_blank(x, x.theirs))),
    Kind("escape in a block", ".. _a: \\", _block(lambda x, text: re.search(rf"\\(?![{re.escape(ESCAPABLE)}])", text))),
    Kind("escaped `_` in a destination", ".. _a: u\\_", _block(lambda x, text: "\\_" in text)),
    Kind("tab as the blank of a block", ".. _a:\tu", _block(lambda x, text: re.match(r"(__|\.\. _.*:)\t", text))),
    Kind("name over two lines", ".. _a\n b: u", _block(
        lambda x, text: "\n" in text.strip() and not re.search(r":(\s|$)", text.split("\n")[0]))),
    Kind("escaped `_` in an address", "`x <u\\_>`_", _reference(lambda x, text: re.search(r"<.*\\_.*>`__?$", text))),
    Kind("escaped blank before the bracket", "`a\\ <u>`_", _reference(lambda x, text: "\\ <" in text)),
    Kind("escape", "`a\\xb`_", _reference(lambda x, text: re.search(rf"\\[^{re.escape(ESCAPABLE)}]", text))),
    Kind("backtick inside a phrase", "`a`b`_", _reference(lambda x, text: unescaped_backticks(text) > 2)),
    Kind("blanks behind the dots", "..  _a: u", _block(lambda x, text: re.match(r"\.\.[ \t]{2,}|\.\.\t", text))),
    Kind("no blank behind the colon", ".. _a:", _block(lambda x, text: re.search(r":[ \t\r]*$", text.split("\n")[0]))),
    Kind("block in a list item", "* .. _b: c", _block(lambda x, text: not starts_line(x, x.theirs.start))),
    Kind("colon and backtick in a quoted name", ".. _`:``: u", _block(lambda x, text: re.match(r"\.\. _`.*`.*`:", text))),
    Kind("colon in a plain name", ".. _a:b: u", _block(lambda x, text: re.match(r"\.\. _(:|(?!`).*?:[^ ]).*?:(\s|$)", text))),
]
