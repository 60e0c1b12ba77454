"""The kinds of edit that a set in edits/ may list.

An edit names what it changes by short anchors, so that nothing of the Rust is
repeated here. Each is a function from a source file's text to its new text;
`Mismatch` says that its anchors did not match exactly once.
"""


class Mismatch(Exception):
    """An anchor that matches never or more than once."""


class Edit:
    """A named change of one file, given below the Rust's `src` folder."""

    def __init__(self, name, file, apply):
        self.name = name
        self.file = file
        self.apply = apply


def _only(places, what):
    if len(places) != 1:
        raise Mismatch(f"{what!r} matches {len(places)} times")
    return places[0]


def _lines_equal(lines, text):
    return [n for n, line in enumerate(lines) if line.strip() == text]


def remove_line(file, text):
    """Removes the one line that says `text`, blanks around it apart."""

    def apply(source):
        lines = source.splitlines(keepends=True)
        del lines[_only(_lines_equal(lines, text), text)]
        return "".join(lines)

    return Edit(f"remove {text}", file, apply)


def remove_lines(name, file, holding, first, last):
    """Removes the lines around the one line that says `holding`: from the
    nearest above that says `first` to the nearest below that says `last`, or
    to the end of the file where `last` is None."""

    def apply(source):
        lines = source.splitlines(keepends=True)
        held = _only(_lines_equal(lines, holding), holding)
        start = _only([n for n in _lines_equal(lines, first) if n <= held][-1:], first)
        if last is None:
            end = len(lines) - 1
        else:
            end = _only([n for n in _lines_equal(lines, last) if n >= held][:1], last)
        del lines[start : end + 1]
        return "".join(lines)

    return Edit(name, file, apply)


def replace(name, file, old, new):
    """Puts `new` in the place of the one `old`."""

    def apply(source):
        if source.count(old) != 1:
            raise Mismatch(f"{old!r} matches {source.count(old)} times")
        return source.replace(old, new)

    return Edit(name, file, apply)
