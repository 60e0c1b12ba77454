"""Kinds of differences where ours has an item and docutils has none there."""

import re

from docutils.utils.punctuation_chars import match_chars

from facts import (END, START, Kind, behind_our_link, block_at, character_behind, first_mark, has_lone_cr, has_other_line_end,
                   in_text, inline_at, is_simple_name, line_of, over_text_blocks, raw, starts_line, their_item_at,
                   their_link_around)
from items import REFERENCES, TARGETS


def _in_block(name, *sorts):
    return lambda x: x.ours.sort in sorts and block_at(x, first_mark(x, x.ours)) == name


def _refused_name(start):
    """A block that docutils takes for a comment, as its name starts so."""
    def of_difference(x):
        place = first_mark(x, x.ours)
        return (("comment", place) in [(name, at) for name, at, _ in x.sides.reading.blocks]
                and re.match(rf"\.\. _{start}", raw(x, x.ours).lstrip()))
    return of_difference


def _in_inline(*names):
    return lambda x: inline_at(x, first_mark(x, x.ours)) in names


def _in_item(sort):
    return lambda x: their_item_at(x, first_mark(x, x.ours)) == sort


def _phrase(holds):
    """A reference in backticks, asked by the text between them."""
    def of_difference(x):
        text = raw(x, x.ours)
        return x.ours.sort in REFERENCES and text[:1] == "`" and holds(text[1:text.rindex("`")])
    return of_difference


def _word(holds):
    """A reference without backticks, asked by its name."""
    def of_difference(x):
        text = raw(x, x.ours)
        return x.ours.sort in REFERENCES and text[:1] != "`" and holds(re.match(r"(.*?)__?(?!\w)", text + " ", re.S)[1])
    return of_difference


def _before(holds):
    return lambda x: holds(x.sides.before(x.ours.start), x)


def _beside_adornment(x):
    """Whether a line of adornment stands in the same run of lines without an empty one, or a table's border before it."""
    before, behind = x.document[:x.ours.start].decode(), x.document[x.ours.start:].decode()
    run = re.split(r"\n[ \t]*\n", before)[-1] + re.split(r"\n[ \t]*\n", behind)[0]
    return (any(re.fullmatch(r"[^\w\s][^\w]*", line.strip()) for line in run.split("\n"))
            or re.search(r"(?m)^ *=+( +=+)+ *$", before))


def _first_line_of_block(x):
    """Whether it stands in the first line of a target of docutils."""
    around = their_link_around(x, x.ours)
    return around is not None and around.sort in TARGETS and b"\n" not in x.document[around.start:x.ours.start]


KINDS_OURS = [
    Kind("underscores for a target", "__", lambda x: set(raw(x, x.ours)) == {"_"} and _first_line_of_block(x)
         and starts_line(x, x.ours.start)),
    Kind("CR alone", "x\r\r.. _b: c", lambda x: has_lone_cr(x, x.ours)),
    Kind("other line end", "x\x85\x85.. _b: c", lambda x: has_other_line_end(x, x.ours)),
    Kind("inside a block that ours refuses", "..  _a: b_", lambda x: x.ours.sort in REFERENCES and _first_line_of_block(x)),
    Kind("reference inside a comment", ".. a_", _in_block("comment", *REFERENCES)),
    Kind("second underscore", ".. __1: u", _refused_name(r"_")),
    Kind("blank behind the underscore", ".. _ a: u", _refused_name(r"[ \t]")),
    Kind("backtick that opens a name", ".. _`a: u", _refused_name(r"`")),
    Kind("block inside a comment", "..\n .. _b: c", _in_block("comment", *TARGETS)),
    Kind("reference inside a literal block", "::\n\n a_", _in_block("literal block", *REFERENCES)),
    Kind("block inside a literal block", "::\n\n .. _b: c", _in_block("literal block", *TARGETS)),
    Kind("inside a doctest block", ">>> a_", _in_block("doctest block", *REFERENCES, *TARGETS)),
    Kind("inside a directive", ".. image:: a_", _in_block("directive", *REFERENCES, *TARGETS)),
    Kind("inside a substitution definition", ".. |a| image:: a_", _in_block("substitution definition", *REFERENCES, *TARGETS)),
    Kind("line that a block refuses", ".. _b: c\n a_", _in_block("target", *REFERENCES, *TARGETS)),
    Kind("inside a literal", "``x a_``", _in_inline("literal")),
    Kind("inside emphasis", "*x a_*", _in_inline("emphasis", "strong")),
    Kind("inside a substitution reference", "|x a_|", lambda x: inline_at(x, x.ours.start) == "substitution_reference"
         or their_item_at(x, x.ours.start) == "substitution"),
    Kind("inside interpreted text", "`x a_`", lambda x: inline_at(x, x.ours.start) not in (None, "problematic")),
    Kind("inside an inline target", "_`x a_`", _in_item("inline target")),
    Kind("inside a standalone hyperlink", "a_@bb", _in_item("standalone")),
    Kind("reference with a role", ":a:`b <u>`_", lambda x: any(
        name == "problematic" and start < x.ours.start < end and x.document[start:start + 1] == b":"
        for name, start, end in x.sides.reading.inlines)),
    Kind("line of underscores under a title", "a\n__", lambda x: not in_text(x, x.ours.start)
         and re.fullmatch(r"_+", line_of(x, x.ours.start).strip())),
    Kind("inside an option", "-a b_  c", lambda x: not in_text(x, x.ours.start)
         and re.match(r"\s*[-+/]", line_of(x, x.ours.start))),
    Kind("inside a title or table with an error", "====\na_", lambda x: not in_text(x, x.ours.start) and _beside_adornment(x)),
    Kind("alias block behind a link", "a_ __ c_", lambda x: x.ours.sort in TARGETS and not starts_line(x, first_mark(x, x.ours))),
    Kind("block without an empty line before it", "x\n.. _b: c", lambda x: x.ours.sort in TARGETS),
    Kind("stray backtick", "`a\n\nb`_", lambda x: raw(x, x.ours)[:1] == "`" and over_text_blocks(x, x.ours)),
    Kind("blank behind the opening backtick", "` a`_", _phrase(lambda text: text[:1].isspace())),
    Kind("blank before the closing backtick", "`a `_", _phrase(lambda text: text[-1:].isspace())),
    Kind("inside a phrase", "`\\a b_`_", lambda x: x.ours.sort in REFERENCES and their_link_around(x, x.ours)),
    Kind("underscores alone", "___", _word(lambda name: name.strip("_") == "")),
    Kind("characters of a simple name", "-_", _word(lambda name: not is_simple_name(name))),
    Kind("backslash before a start", "\\`a <u>`_", _before(lambda mark, x: mark == "\\")),
    Kind("directly behind a link", "`a`_b_", _before(lambda mark, x: behind_our_link(x, x.ours.start))),
    Kind("before an embedded link", "x`a <u>`_", _before(lambda mark, x: not START.fullmatch(mark))),
    Kind("closing mark behind the opening backtick", "(`)`_", _before(
        lambda mark, x: mark and match_chars(mark, x.sides.behind(x.ours.start + 1)))),
    Kind("behind a phrase", "`a`_b", lambda x: raw(x, x.ours)[:1] == "`" and not END.fullmatch(character_behind(x, x.ours))),
    Kind("behind a word", "a_(", lambda x: not END.fullmatch(character_behind(x, x.ours))),
]
