#!/usr/bin/env python3
"""Brings the names of definitions and lemmas to Rattle's spelling: words in snake case, types and facts in upper camel case.

usage: python3 tools/respell_names.py [FOLDER]     in the files of FOLDER/crates, once, right after port.py

    charOf, textLabel2destOf, multispace0Of  ->  char_of, text_label2dest_of, multispace0_of

It turns each word of an .antt or .rt file that an .antt file defines in lower camel case, in comments too. Names of src/ are in snake
case already and stay. Four lemmas have the name that a definition of their crate gets; they take the ending `_lem`, which stands for
their crate and name in LEMMAS, with the definition's old name."""

import os
import re
import sys

LEMMAS = {
    ("restructured_text", "block_in"): "blockIn",
    ("targetless", "first_byte"): "firstByte",
    ("iterator", "item_by"): "itemBy",
    ("iterator", "left_over"): "leftOver",
}
DEFINED = re.compile(r"(?m)^ *(?:(?:unfoldable|abbrev|pub) +)*([a-z][^\s(){}.;:@,\"]*)\s*(?=:|\(|\{)")
# Parameters, names in a `where`, and names that only comments have, since port.py turned the code.
MORE = {"wordOf", "textOf", "startsWith", "isRefused", "blockOf", "blanksThen", "firstBuffer", "secondBuffer", "referenceRow", "renderedRow", "storedRow", "workBytes", "workNumbers"}
WORD = re.compile(r"[^\s(){}.;,@\"«»\[\]\\:|`]+")
CAMEL = re.compile(r"(?<=[a-z0-9])([A-Z])")


def snake(name):
    return CAMEL.sub(lambda m: "_" + m.group(1).lower(), name)


def read(root):
    texts = {}
    for folder, dirs, names in os.walk(os.path.join(root, "crates")):
        dirs[:] = sorted(d for d in dirs if d not in ("out", "must-fail"))
        for name in sorted(names):
            if name.endswith((".rt", ".antt")):
                path = os.path.join(folder, name)
                with open(path, encoding="utf-8", newline="") as it:
                    texts[path] = it.read()
    return texts


def main():
    root = sys.argv[1] if len(sys.argv) > 1 else "."
    texts = read(root)
    camel = MORE | {
        name
        for path, text in texts.items()
        if path.endswith(".antt")
        for name in DEFINED.findall(text)
        if CAMEL.search(name)
    }
    if not any(old in text for old in LEMMAS.values() for text in texts.values()):
        sys.exit("nothing to do")
    for path, text in texts.items():
        crate = os.path.relpath(path, os.path.join(root, "crates")).split(os.sep)[0]

        def turned(m):
            word = m.group(0)
            if word in camel:
                return snake(word)
            if (crate, word) in LEMMAS and path.endswith(".antt"):
                return word + "_lem"
            return word

        new = WORD.sub(turned, text)
        if new != text:
            with open(path, "w", encoding="utf-8", newline="") as it:
                it.write(new)
            print(path)


main()
