"""The documents to compare on: all short ones, drawn ones with damaged copies, and real notes."""

import itertools
import random
import re

from ours import DOCUMENT_MAX

TOKENS = ["a", "_", "`", " ", "\n", ".. ", "__ ", "<u>", ":", "\\", "(", "*", "|", "[1]", "http://a"]
MORE_TOKENS = ["a", "_", "`", " ", "\n", "\r", "\t", "\f", "\x85", "\u00a0", "\u00ab", "-", "{", ".", "@", "é", ".. _b: ", "__ ",
               " <u>`_", "a_", "::", "=", "'", "  ", "`_", "`__", "<a_>`_"]
NAMES = ["a", "b", "Ab", "a b", "a.b", "a-b", "é", "_1", "a:b"]
DESTINATIONS = ["u", "http://a/b", "u v", "a@b.c", "u\\_", "b_", "`a b`_", ""]
STARTS = ["* ", "   ", ".. ", "::", "::\n\n  ", ">>> ", "a\n=\n", "| ", ":a: ", "1. ", "-x  ", "a\n  ", ".. note:: ",
          ".. image:: ", ".. [1] ", ".. |s| replace:: ", "+---+\n|a_ |\n+---+\n", "=== ===\na_  b_\n=== ===\n"]
OUTSIDE = re.compile("[^\0-\u024f]")


def short(tokens, least, most):
    """All sequences of so many tokens."""
    for length in range(least, most + 1):
        for parts in itertools.product(tokens, repeat=length):
            yield "".join(parts).encode()


def all_short():
    """All sequences of up to three tokens of both alphabets, then of four of the first."""
    yield from short(TOKENS, 1, 3)
    yield from short(MORE_TOKENS, 1, 3)
    yield from short(TOKENS, 4, 4)


def drawn(seed):
    """Documents from a grammar, without end, each fourth one damaged."""
    draw = random.Random(seed)
    for number in itertools.count():
        lines = "\n".join(_line(draw) for _ in range(draw.randint(1, 6)))
        yield (_damaged(draw, lines) if number % 4 == 3 else lines).encode()


def defining(seed):
    """Documents whose references and targets both sides read alike: some blocks, then a text, without end."""
    draw = random.Random(seed)
    while True:
        blocks = []
        for _ in range(draw.randint(0, 5)):
            start = draw.choice([f".. _{draw.choice('abc')}: "] * 4 + ["__ ", ".. _`_1`: "])
            blocks.append(start + draw.choice(["u", "v", "a_", "b_", "c_", ""]))
        forms = ["a_", "b_", "c_", "a__", "`a <u>`_", "`b <v>`_", "`x <a_>`_", "`_1`_", "b__"]
        text = " ".join(draw.choice(forms) for _ in range(draw.randint(1, 4)))
        yield "\n".join([*blocks, "", text]).encode()


def _line(draw):
    kind = draw.randrange(10)
    if kind < 4:
        return " ".join(_inline(draw) for _ in range(draw.randint(1, 4)))
    if kind < 6:
        name = draw.choice(NAMES)
        name = f"`{name}`" if draw.randrange(3) == 0 else name
        return f"{draw.choice(['', '', '', ' ', '  '])}.. _{name}: {draw.choice(DESTINATIONS)}"
    if kind == 6:
        return f"__ {draw.choice(DESTINATIONS)}"
    if kind == 7:
        return draw.choice(STARTS) + _inline(draw)
    return ""


def _inline(draw):
    name, other = draw.choice(NAMES), draw.choice(NAMES)
    form = draw.choice(["{0}_", "{0}__", "`{0}`_", "`{0}`__", "`{0} <{1}>`_", "`{0} <{1}>`__", "`{0} <{1}_>`_", "({0}_)",
                        "*{0}*", "``{0}_``", "|{0}|_", "[1]_", "http://{1}", "_`{0}`", "{0}", "{0}.", "'{0}_'", "{0}_,",
                        ":a:`{0}`", "`{0}`", "**{0}_**", "a@b.c", "{0}\\ _", "`{0}\n  {1}`_"])
    return form.format(name, other)


def _damaged(draw, text):
    for _ in range(draw.randint(1, 3)):
        place = draw.randint(0, len(text))
        text = text[:place] + draw.choice(["", "\\", "`", "_", " ", "\n", ":", "<", ">", "*", "\t", "\r"]) + text[place + 1:]
    return text


def notes(folder):
    """The texts below a folder, cut at empty lines into documents of up to some paragraphs.

    A paragraph is taken alone, and with the two behind it; one with a character
    outside the domain is left out.
    """
    for path in sorted(folder.rglob("*")):
        if path.suffix not in (".txt", ".rst") or not path.is_file():
            continue
        parts = re.split(r"\n[ \t]*\n", path.read_text("utf-8", "replace"))
        for first in range(len(parts)):
            for many in (1, 3):
                text = "\n\n".join(parts[first:first + many])
                document = text.encode()
                if text.strip() and len(document) <= DOCUMENT_MAX and not OUTSIDE.search(text):
                    yield document
