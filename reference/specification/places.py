"""From docutils' lines and columns back to the document's bytes.

docutils splits a document into lines, expands tabs and drops trailing blanks;
a text block is then some of these lines without their indents.
"""

import re

from docutils.statemachine import string2lines


class Places:
    """The lines of a document as docutils reads them, each column with its byte."""

    def __init__(self, text):
        self.lines = string2lines(text, convert_whitespace=True)
        self._columns = []
        self._read = {}  # by line, the column behind the last text block there
        place = 0
        for line in text.replace("\v", " ").replace("\f", " ").splitlines(keepends=True):
            self._columns.append(_bytes_of_columns(line, place))
            place += len(line.encode())
        self.end = place

    def of(self, line, column):
        """The byte at a column of a line; both count from 0."""
        if line >= len(self._columns):
            return self.end
        columns = self._columns[line]
        return columns[min(column, len(columns) - 1)]

    def of_line(self, line):
        return self.of(line, 0)

    def block(self, text, line):
        """The bytes of each character of a text block, and of its end, that starts in a line."""
        found = []
        parts = text.split("\n")
        lines = [line, line - 1, *range(line + 1, len(self.lines))]  # a cell's number is one off, a directive's its first line
        line = next((number for number in lines if parts[0] in self.line(number)), line)
        for number, part in enumerate(parts, line):
            whole = self.line(number)
            column = self._column(whole, part, self._read.get(number, 0))
            self._read[number] = column + len(part)
            found += [self.of(number, column + n) for n in range(len(part) + 1)]
        return found

    def line(self, number):
        return self.lines[number] if 0 <= number < len(self.lines) else ""

    @staticmethod
    def _column(whole, part, read):
        """Where a text block's line stands in its whole line: a field's name, a table's cell, the line's end, or further on."""
        if read == 0 and whole.lstrip().startswith(f":{part}:"):
            return whole.index(":") + 1
        cell = re.search(rf"(?:^|  |\|){re.escape(part)}(?=  | *\||$)", whole[read:])
        if cell:
            return read + cell.end() - len(part)
        if whole.endswith(part):
            return len(whole) - len(part)
        return max(whole.find(part, read), 0)


def _bytes_of_columns(line, place):
    """The byte of each column of a line with its tabs expanded; the last is the line's end."""
    columns = []
    for character in line.rstrip("\r\n\x1c\x1d\x1e\x85"):
        width = 8 - len(columns) % 8 if character == "\t" else 1
        columns += [place] * width
        place += len(character.encode())
    return columns + [place]
