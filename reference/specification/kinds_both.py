"""Kinds of differences where both sides have an item, and the two say different things."""

import re

from facts import (END, SKIPPED, Kind, behind_our_link, blank_inside_backticks, character_behind, has_lone_cr, has_other_blank,
                   has_other_line_end, inline_at, is_simple_name, normal, over_text_blocks, raw, squeezed, unescaped_backticks)
from items import EMBEDDED, REFERENCES, TARGETS


def _sorts(ours, theirs, holds=lambda ours, theirs, x: True):
    """Our sort and theirs are among these, and it holds."""
    return lambda x: x.ours.sort in ours and x.theirs.sort in theirs and holds(x.ours, x.theirs, x)


def _same_sort(holds):
    return lambda x: x.ours.sort == x.theirs.sort and holds(x.ours, x.theirs, x)


def _names(item):
    """An item with its names as docutils compares them."""
    first = item.first if item.sort in REFERENCES else normal(item.first)
    second = normal(item.second) if item.sort in ("reference", "embedded alias", "alias", "anonymous alias") else item.second
    return item.sort, first, second


def _squeezed(item):
    return item.sort, squeezed(item.first.lower()), squeezed(item.second.lower())


BLOCKS = ("target", "anonymous target")
ALIASES = ("alias", "anonymous alias")
PLAIN = ("reference", "anonymous")

KINDS_BOTH = [
    Kind("CR alone", "x\r\r.. _b: c", lambda x: has_lone_cr(x, x.ours) or has_lone_cr(x, x.theirs)),
    Kind("other line end", "x\x85\x85.. _b: c", lambda x: has_other_line_end(x, x.ours) or has_other_line_end(x, x.theirs)),
    Kind("stray backtick", "`a\n\nb`_", lambda x: raw(x, x.ours)[:1] == "`" and over_text_blocks(x, x.ours)),
    Kind("blank before the colon", ".. _a : u", _sorts(TARGETS, TARGETS, 
         lambda o, t, x: o.first[-1:].isspace() and normal(o.first) == (t.first or "_"))),
    Kind("blanks before the colon", ".. _a  : b:", _sorts(TARGETS, TARGETS,
         lambda o, t, x: o.first[-1:].isspace() and t.first.startswith(normal(o.first) + " :"))),
    Kind("case and blanks of a name", "`A  b`_", _same_sort(lambda o, t, x: _names(o) == _names(t))),
    Kind("mail address", "`x <a@b.c>`_", _same_sort(lambda o, t, x: t.second == "mailto:" + o.second)),
    Kind("blank inside the backticks", "`a_ `_", lambda x: blank_inside_backticks(raw(x, x.ours))),
    Kind("backtick inside a phrase", "`a`b`_", _sorts(REFERENCES, REFERENCES,
                                                      lambda o, t, x: unescaped_backticks(raw(x, t)) > 2)),
    Kind("inside a phrase", "`\\a b_`_", _sorts(REFERENCES, REFERENCES, lambda o, t, x: o.start > t.start
                                                and raw(x, t)[:1] == "`" and raw(x, o)[:1] != "`")),
    Kind("inside interpreted text", "`x a_`", lambda x: inline_at(x, x.ours.start) not in (None, "problematic")),
    Kind("directly behind a link", "`a`_b_", _sorts(REFERENCES, REFERENCES, lambda o, t, x: o.start < t.start
                                                    and behind_our_link(x, o.start))),
    Kind("behind a phrase", "`a`_b", _sorts(REFERENCES, REFERENCES, lambda o, t, x: raw(x, o)[:1] == "`" != raw(x, t)[:1]
                                            and not END.fullmatch(character_behind(x, o)))),
    Kind("embedded link behind an opening mark", "(`a <u>`_", _sorts(PLAIN, EMBEDDED, lambda o, t, x:
                                                                     x.sides.before(o.start) in set(SKIPPED))),
    Kind("text left out", "`<u>`_", _sorts(PLAIN, EMBEDDED, lambda o, t, x: re.match(r"`\s*<", raw(x, t)))),
    Kind("escaped blank before the bracket", "`a\\ <u>`_", _sorts(PLAIN, EMBEDDED, lambda o, t, x: "\\ <" in raw(x, t))),
    Kind("escaped `_` in an anonymous address", "`x <u\\_>`__", _sorts(PLAIN, EMBEDDED,
                                                                      lambda o, t, x: re.search(r"<.*\\_.*>`__?$", raw(x, t)))),
    Kind("bracket in the text of an embedded link", "`a< <u>`_", _sorts(PLAIN, EMBEDDED,
                                                                        lambda o, t, x: raw(x, t).count("<") > 1)),
    Kind("embedded alias with two underscores", "`x <a_>`__", _sorts(["anonymous"], ["embedded alias"])),
    Kind("nothing before the bracket", "`a<u>`_", _sorts(EMBEDDED, PLAIN, lambda o, t, x: re.search(r"[^ \n]<", raw(x, o)))),
    Kind("blank behind the bracket", "`a < u>`_", _sorts(EMBEDDED, PLAIN, lambda o, t, x: re.search(r"<\s|\s>", raw(x, o)))),
    Kind("the name `_`", "`_`_", _sorts(["anonymous"], ["reference"], lambda o, t, x: o.first == "_")),
    Kind("block for the name `_`", ".. _\\_: u", _sorts(["anonymous target", "anonymous alias"], ["target", "alias"],
                                                        lambda o, t, x: t.first == "_")),
    Kind("address that is a URI and ends in `_`", "`x <a:_>`_", _sorts(
        ["embedded alias", "anonymous"], ["embedded", "embedded anonymous"], lambda o, t, x: ":" in t.second)),
    Kind("blanks behind the colon", ".. _a:  b_", _sorts(BLOCKS, ALIASES, lambda o, t, x: re.match(
        r"\s*(__|\.\. _.*:)( [ \t]|\s*\n)", raw(x, o)))),
    Kind("alias on a further line", ".. _a: \n b_", _sorts(BLOCKS, ALIASES, lambda o, t, x: "\n" in raw(x, t).strip())),
    Kind("dot, colon or plus in an alias", ".. _a: b.c_", _sorts(BLOCKS, ALIASES, lambda o, t, x: re.search(r"[.:+]", t.second))),
    Kind("two underscores in an alias", ".. _a: b__", _sorts(ALIASES, BLOCKS, lambda o, t, x: t.second.endswith("__"))),
    Kind("further lines of an alias", ".. _a: b_\n v", _sorts(ALIASES, BLOCKS, lambda o, t, x: "\n" in raw(x, t).strip())),
    Kind("text behind an alias", ".. _a: b_/c", _sorts(ALIASES, BLOCKS,
                                                       lambda o, t, x: re.search(r"(: |__ ).*_\s*\S", raw(x, o)))),
    Kind("alias of a phrase", ".. _x: `a b`_", _sorts(ALIASES, ALIASES, lambda o, t, x: _squeezed(o) == _squeezed(t))),
    Kind("blank inside the backticks of an alias", ".. _a: `b `_", _sorts(ALIASES, BLOCKS, lambda o, t, x: re.search(
        r"(__|:) `(\s|.*\s`)", raw(x, o)))),
    Kind("no name in an alias", ".. _a: -_", _sorts(ALIASES, BLOCKS, lambda o, t, x: not is_simple_name(o.second))),
    Kind("backtick in an alias", ".. _x: `a`_`_", _sorts(TARGETS, ALIASES, lambda o, t, x: "`" in t.second)),
    Kind("further lines", ".. _a: u\n v", _sorts(BLOCKS, BLOCKS, lambda o, t, x: (
        o.start <= t.start and "\n" in raw(x, t).strip() and t.second.removeprefix("mailto:").startswith(o.second)))),
    Kind("block in a line that a block refuses", "..  _b: c\n .. _d: e", _sorts(TARGETS, TARGETS,
                                                                                lambda o, t, x: o.start > t.start)),
    Kind("backtick in a name", ".. _`a`b`: u", _sorts(TARGETS, TARGETS, lambda o, t, x: "`" in o.first)),
    Kind("escaped blank at the end of a destination", ".. _a: u\\ ", _sorts(BLOCKS, BLOCKS, lambda o, t, x: "\\ " in raw(x, o)
                                                                            and o.second.strip() == t.second.strip())),
    Kind("other blank in a block", ".. _a:\f", _sorts(TARGETS, TARGETS, lambda o, t, x: has_other_blank(x, t))),
    Kind("U+00A0 before the bracket", "`a\u00a0 <u>`_", _sorts(EMBEDDED, EMBEDDED, lambda o, t, x: o.first == t.first.rstrip())),
    Kind("tab in a text", "`a\tb`_", _same_sort(lambda o, t, x: "\t" in raw(x, o) and _squeezed(o) == _squeezed(t))),
    Kind("indent of a further line in a text", "* `a\n  b`_", _same_sort(
        lambda o, t, x: o.sort in REFERENCES and "\n" in raw(x, o) and _squeezed(o) == _squeezed(t))),
    Kind("reference inside an embedded link of ours", "x`(a_ <u>`_", _sorts(EMBEDDED, PLAIN, lambda o, t, x: o.start < t.start)),
    Kind("hyphens in a simple name", "a--b_", _sorts(PLAIN, PLAIN, lambda o, t, x: "`" not in raw(x, o) + raw(x, t))),
]
