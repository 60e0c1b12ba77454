"""The smallest inputs of docs/DIFFERENCES.md, asked of both sides again.

The document's tables of docutils and the Rust are read, the input of each row
taken from its cell; `entries.txt` has both sides' answers. The last table, of the
document reader, is asked for resolved links, the others for items.
"""

import re
from pathlib import Path

HERE = Path(__file__).resolve().parent
TABLES = HERE.parents[1] / "docs" / "DIFFERENCES.md"
ANSWERS = HERE / "entries.txt"
WORDS = {"LF": "\n", "CR": "\r", "tab": "\t", "space": " ", "bar": "|", "form feed": "\f", "and": "", "no space": ""}
_PART = re.compile(r"(?:(?P<times>\d[\d,]*) )?(?P<fence>`+)(?P<code>.+?)(?<!`)(?P=fence)(?!`)|U\+(?P<point>[0-9A-F]{4})"
                   r"|(?P<word>form feed|no space|[A-Za-z]+)|[(), ]")
LAST_TABLE = "## The specification and the Rust, at the document reader"


def rows():
    """The rows of the tables, as (the table is the last, input)."""
    last = False
    for line in TABLES.read_text().splitlines():
        last = last or line == LAST_TABLE
        cells = line.strip("|").split("|")
        if line.startswith("|") and len(cells) == 6 and cells[3].strip() not in ("smallest input", "---"):
            yield last, input_of(cells[3].strip())


def input_of(cell):
    """The input that a cell writes in code and words."""
    text, place = "", 0
    while place < len(cell):
        part = _PART.match(cell, place)
        if not part:
            raise ValueError(f"cell {cell!r} at {place}")
        place = part.end()
        if part["code"]:
            code = part["code"]
            if code[0] == code[-1] == " " and code.strip():
                code = code[1:-1]
            text += code * int((part["times"] or "1").replace(",", ""))
        elif part["point"]:
            text += chr(int(part["point"], 16))
        elif part["word"]:
            text += WORDS[part["word"]]
    return text.encode()


def answered(asked):
    """All rows with both sides' answers, as text; `asked` answers (docutils', ours) for one."""
    parts = []
    for last, document in rows():
        theirs, ours = asked(document, last)
        parts.append(f"{'links' if last else 'items'} of {_short(repr(document.decode()))}\n"
                     f"  docutils: {_list(theirs)}\n  ours:     {_list(ours)}\n")
    return "".join(parts)


def _list(answers):
    return "; ".join(_short(str(answer)).replace("\n", "\\n").replace("\t", "\\t") for answer in answers) or "none"


def _short(text):
    """A text with its long runs of one character counted."""
    return re.sub(r"(.)\1{99,}", lambda run: f"[{len(run[0])} times {run[1]}]", text)
