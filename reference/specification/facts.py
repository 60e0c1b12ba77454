"""Facts about a difference that the kinds' predicates are made of."""

import re
from collections import namedtuple

from docutils.parsers.rst.states import Inliner
from docutils.utils.punctuation_chars import closers, closing_delimiters, delimiters, openers

from items import THEIRS_ALONE

Kind = namedtuple("Kind", "name smallest holds")

ESCAPABLE = " `:<>_\\"
SKIPPED = "([<'\""
START = re.compile(rf"[\s{openers}{delimiters}]?")
END = re.compile(rf"[\s\\{closing_delimiters}{delimiters}{closers}]?")
_OUR_REFERENCE = re.compile(r"`(?:[^`\\]|\\.)*`__?|[-\w]+", re.S)


def raw(difference, item):
    """The bytes that an item takes, as text."""
    return difference.document[item.start:item.end].decode()


def normal(name):
    """A name as docutils compares it."""
    return " ".join(name.lower().split())


def squeezed(text):
    return "".join(text.split())


def block_at(difference, place):
    """The name of the innermost block of docutils that holds a place and is not read as text there, or None."""
    reading = difference.sides.reading
    if any(start <= place < end for start, end in reading.texts):
        return None
    around = [(end - start, name) for name, start, end in reading.blocks if start <= place < end]
    return min(around)[1] if around else None


def inline_at(difference, place):
    """The name of the inline construct of docutils, no link, that holds a place, or None."""
    return next((name for name, start, end in difference.sides.reading.inlines if start <= place < end), None)


def in_text(difference, place):
    return any(start <= place < end for start, end in difference.sides.reading.texts)


def their_link_around(difference, item):
    """The link or target of docutils that takes a byte of an item of ours, or None."""
    return next((other for other in difference.sides.reading.items
                 if other.sort not in THEIRS_ALONE and other.overlaps(item)), None)


def our_link_around(difference, item):
    """Our link that takes a byte of an item of theirs, or None."""
    return next((link for link in difference.sides.ours if link.overlaps(item)), None)


def behind_our_link(difference, place):
    return any(link.end == place for link in difference.sides.ours)


def line_of(difference, place):
    """The document's line around a place."""
    document = difference.document
    start = document.rfind(b"\n", 0, place) + 1
    end = document.find(b"\n", place)
    return document[start:end if end >= 0 else len(document)].decode()


def line_before(difference, place):
    """The line before the one around a place, or None."""
    start = difference.document.rfind(b"\n", 0, place)
    return line_of(difference, start) if start >= 0 else None


def starts_line(difference, place):
    """Whether nothing but blanks stands before a place in its line."""
    start = difference.document.rfind(b"\n", 0, place) + 1
    return not difference.document[start:place].strip()


def over_text_blocks(difference, item):
    """Whether an item takes bytes of more than one text block of docutils."""
    return not any(start <= item.start and item.end <= end for start, end in difference.sides.reading.texts)


def unescaped_backticks(text):
    return len(re.findall(r"`", re.sub(r"\\.", "", text)))


def blank_inside_backticks(text):
    """Whether a phrase begins or ends with a blank inside its backticks."""
    inner = text[1:text.rfind("`")]
    return text[:1] == "`" and (inner[:1].isspace() or inner[-1:].isspace())


def their_item_at(difference, place):
    """The sort of the item of docutils that holds a place and that the Rust does not know, or None."""
    return next((item.sort for item in difference.sides.reading.items
                 if item.sort in THEIRS_ALONE and item.sort != "implicit" and item.start <= place < item.end), None)


def first_mark(difference, item):
    """The place of an item's first character that is no blank."""
    text = raw(difference, item)
    return item.start + len(text) - len(text.lstrip())


def is_simple_name(name):
    """Whether the specification has it as a simple name."""
    return re.fullmatch(Inliner.simplename, name) is not None


def _lines_around(difference, item):
    start = difference.document.rfind(b"\n", 0, item.start) + 1
    end = difference.document.find(b"\n", item.end)
    return difference.document[start:end if end >= 0 else len(difference.document)].decode()


def has_lone_cr(difference, item):
    """Whether a CR without LF stands in one of the item's lines; docutils ends a line there."""
    return re.search(r"\r(?!\n)", _lines_around(difference, item)) is not None


def has_other_line_end(difference, item):
    """Whether one of the item's lines has another character at which docutils ends a line."""
    return re.search("[\x1c-\x1e\x85]", _lines_around(difference, item)) is not None


def has_other_blank(difference, item):
    """Whether one of the item's lines has a blank that is one to docutils and none to the Rust."""
    return re.search("[\f\v\x1f\u00a0]", _lines_around(difference, item)) is not None


def end_of_reference(difference, item):
    """Where a reference of ours ends; its part may go on with a block."""
    mark = _OUR_REFERENCE.match(raw(difference, item))
    return item.start + len(mark[0].encode()) if mark else item.end


def character_behind(difference, item):
    return difference.sides.behind(end_of_reference(difference, item))
