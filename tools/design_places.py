#!/usr/bin/env python3
"""Lists the places that docs/DESIGN-PASS.md counts, point by point, and counts them.

    tools/design_places.py [FOLDER]     the source tree, this one if none is named

A place is a line or a function of crates/*/src. What each list holds is told beside it below."""

import re
import sys
from collections import Counter, defaultdict
from pathlib import Path

ROOT = Path(sys.argv[1]) if len(sys.argv) > 1 else Path(__file__).resolve().parent.parent
FILES = sorted((ROOT / "crates").glob("*/src/**/*.rt"))
TEXTS = {p: p.read_text() for p in FILES}
TEST = re.compile(r"\n#\[cfg\(test\)\].*", re.S)


def name(path):
    return str(path.relative_to(ROOT / "crates")).replace("/src/", "/")


def show(title, places):
    print(f"{title}: {len(places)}")
    for place in places:
        print(f"    {place}")


def lines(pattern):
    """Lines outside comments that have the pattern."""
    found = []
    for path, text in TEXTS.items():
        for at, line in enumerate(text.split("\n"), 1):
            if not line.lstrip().startswith("//") and re.search(pattern, line):
                found.append(f"{name(path)}:{at}: {line.strip()}")
    return found


def comments(pattern):
    """Comment lines that have the pattern."""
    return [f"{name(p)}:{at}: {line.strip()}" for p, text in TEXTS.items() for at, line in enumerate(text.split("\n"), 1) if line.lstrip().startswith("//") and re.search(pattern, line)]


def functions():
    """Each function: file, name, parameters, result, clauses, body."""
    for path, text in TEXTS.items():
        for m in re.finditer(r"^( *)(?:pub(?:\([a-z]+\))? )?(?:extern \"C\" )?fn (\w+)(?:<[^(]*>)?\(([^{}]*?)\)(?: -> ([^\n{]*))?\n?((?:\s+(?:requires|ensures|where)[^\n]*\n)*)\1 *\{\n(.*?)\n\1\}", text, re.S | re.M):
            yield path, m[2], m[3], (m[4] or "").strip(), m[5] or "", m[6]


FUNCTIONS = list(functions())


def enums():
    """1a. Enums with a variant that holds nothing beside one that holds something: Option, Result or a chain of both by another name."""
    found = []
    for path, text in TEXTS.items():
        for m in re.finditer(r"enum (\w+)(?:<[^>]*>)? \{\n(.*?)\n\}", text, re.S):
            variants = [v for v in re.findall(r"^\s+(\w+(?:\(.*\))?),", m[2], re.M)]
            bare = [v for v in variants if "(" not in v]
            if 0 < len(bare) < len(variants) or len(variants) == 2 and all("(" in v for v in variants):
                found.append(f"{name(path)}: {m[1]} {{ {', '.join(variants)} }}")
    return found


def codes():
    """1b. Numbers that stand for kinds, refusals or states: constants that name one, and fields and parameters called kind, number, accepted, render, free, failed, set."""
    found = lines(r"const (DIRECT|REFERENCE|RENDERED|UNTOLD|NONE_BEGINS|LONG_READ|MARKED)\b")
    found += lines(r"^\s*(pub )?(kind|number|accepted|free|failed): (u32|usize),")
    found += [f"{name(p)}: {f}({', '.join(x)})" for p, f, a, _, _, _ in FUNCTIONS if (x := re.findall(r"\b(?:kind|number|render|set|free|failed): (?:u32|usize)", a))]
    return found


def flags():
    """1c. A bool beside the values of a struct or among the parameters of a function; a comment that says none by a number of its own (a length, or 0)."""
    found = lines(r"^\s+(pub )?\w+: bool,")
    found += [f"{name(p)}:{f}({', '.join(x)})" for p, f, a, _, _, _ in FUNCTIONS if "\n" not in a and (x := re.findall(r"\b\w+: bool", a)) and a.count(": ") + ("self" in a) > 1]
    return found + comments(r"\b(else the length of|0 (where|if) (there|the|none))")


def shape(body):
    """A body without its names, numbers and types."""
    body = re.sub(r"//[^\n]*", "", body)
    body = re.sub(r"\b(?!if\b|else\b|while\b|for\b|match\b|return\b|let\b|mut\b|loop\b|as\b|in\b)[A-Za-z_]\w*\b|\b\d\w*\b|b?'[^']*'|b?\"[^\"]*\"", "x", body)
    return re.sub(r"\s+|x(::x)+", "", body)


def twins():
    """2. Functions whose bodies are alike once names, numbers and types are left out, of 60 signs or more."""
    groups = defaultdict(list)
    for path, f, _, _, _, body in FUNCTIONS:
        s = shape(body)
        if len(s) >= 60:
            groups[s].append(f"{name(path)}:{f}")
    return [" = ".join(g) for g in groups.values() if len(g) > 1]


def copies():
    """4a. Struct literals that copy two fields or more of one value by name."""
    found = []
    for path, text in TEXTS.items():
        for m in re.finditer(r"\b([A-Z]\w+) \{\n((?:\s+\w+[^\n]*,\n)+?)\s+\}", text):
            same = Counter(v for f, v, g in re.findall(r"^\s+(\w+): (\w+)\.(\w+),", m[2], re.M) if f == g)
            if same and same.most_common(1)[0][1] >= 2:
                found.append(f"{name(path)}: {m[1]} from {same.most_common(1)[0][0]}")
    return found


def conversions():
    """4b. Functions that only match on one value and make another of it; and those that compare or copy by a loop, or spell numbers byte by byte."""
    found = [f"{name(p)}:{f}" for p, f, a, r, _, b in FUNCTIONS if re.match(r"\s*match \w+ \{", b) and b.rstrip().endswith("}") and "\n    }\n" not in b and a.count(":") <= 2 and r not in ("bool", "")]
    found += [f"{name(p)}:{f}" for p, f, a, _, _, b in FUNCTIONS if re.search(r"\b(for|while)\b", b) and re.search(r"!= ?\w|== ?\w", b) and re.search(r"return false|= false", b)]
    found += [f"{name(p)}:{f}" for p, f, _, _, _, b in FUNCTIONS if re.search(r"72057594037927936|\* 256\b|/ 10\b", b)]
    return sorted(set(found))


def long_lists():
    """5a. Functions of five parameters or more, `self` counted."""
    return [f"{name(p)}:{f} ({a.count(': ') + len(re.findall(r'&?(?:mut )?self', a))})" for p, f, a, _, _, _ in FUNCTIONS if a.count(": ") + ("self" in a and "self:" not in a) >= 5]


def facts():
    """5b. Parts of clauses, of `requires` and of `ensures`, that stand in three functions or more of one crate."""
    count = Counter()
    for path, _, _, _, clauses, _ in FUNCTIONS:
        for c in re.findall(r"(?:requires|ensures) \w*\s*\{ (.*) \}", clauses):
            for part in re.split(r" × ", c):
                part = part.strip()
                while part.startswith("(") and not part.endswith(")"):
                    part = part[1:]
                while part.endswith(")") and part.count(")") > part.count("("):
                    part = part[:-1]
                if part.startswith("(") and part.endswith(")"):
                    part = part[1:-1]
                count[(name(path).split("/")[0], part)] += 1
    return [f"{crate}: {fact} ({n})" for (crate, fact), n in sorted(count.items(), key=lambda x: -x[1]) if n >= 3]


def buffers():
    """6. A buffer handed on with a length or a place beside it; a table of pairs in one flat array."""
    return [f"{name(p)}:{f}" for p, f, a, _, _, _ in FUNCTIONS if re.search(r"&(mut )?\[u(8|32)\].*\b(len|n|m|count|fill|destinations|aliases): usize|\b(len|n|m|count|destinations|aliases): usize.*&(mut )?\[u(8|32)\]", a, re.S)] + lines(r"const \w+: \[u32; ")


def switches():
    """7. Chains of tests, or a `match`, of one number that choose what to call."""
    found = [f"{name(p)}:{f} ({n})" for p, f, _, _, _, b in FUNCTIONS if (n := len(re.findall(r"\bif (kind|set|step) == \d", b))) >= 2]
    return found + [f"{name(p)}:{f} (match)" for p, f, _, _, _, b in FUNCTIONS if re.search(r"\bmatch (kind|set|step) \{", b)]


show("1a enums like Option or Result", enums())
show("1b numbers for kinds and refusals", codes())
show("1c flags beside a value", flags())
show("2 twins", twins())
show("3 loops by hand", lines(r"^\s*(while|loop)\b"))
show("4a copies field by field", copies())
show("4b conversions, comparisons and copies by hand", conversions())
show("5a five parameters or more", long_lists())
show("5b facts in three contracts or more", facts())
show("6 buffers with a length beside, flat tables", buffers())
show("7 switches on a number", switches())
answers = [p for p in (ROOT / "crates").glob("*/proofs/**/*.antt") if p.name in ("Answers.antt", "Invariants.antt") and "out" not in p.parts]
print(f"8 answers and invariants: {sum(len(re.findall(r'^(?:abbrev )?pub ', p.read_text(), re.M)) for p in answers)} in {len(answers)} files")
laws = [p for p in (ROOT / "crates").glob("*/proofs/*.antt") if p.name != "Lib.antt"]
print(f"8 lines of laws: {sum(len(p.read_text().splitlines()) for p in laws)} in {len(laws)} files")
