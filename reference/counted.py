"""Puts a count at every branch of the Rust, in a third package, so that the
comparison can say which of them its documents reach. Counted are

* every `?`: passed or refused;
* every parser that a combinator is given, the alternatives of `alt` among them:
  it reads or refuses;
* every condition of `if`, `while`, a guard, a `verify` or a value, each operand
  of `&&` and `||` by itself: true or false; with `let`, matched or not;
* every arm of a `match` and every turn of a `for`: taken.

Each place gets a number and a name: its function and its own text, shortened.
What is put in are calls of the package `counting` around the text that stands
there; nothing of it is changed.
"""

import re

TOKEN = re.compile(
    r"""(?P<comment>//[^\n]*)
    |(?P<string>r\#".*?"\#|"(?:\\.|[^"\\])*"|'(?:\\.|[^'\\])')
    |(?P<lifetime>'\w+)
    |(?P<word>\w+)
    |(?P<mark>::|=>|->|==|!=|<=|>=|&&|\|\||\.\.|[-+*/]=|[^\s\w])""",
    re.VERBOSE | re.DOTALL,
)

CLOSING = {"(": ")", "[": "]", "{": "}"}

# Which of a combinator's arguments are parsers. Those of `alt` stand in a tuple.
COMBINATORS = {
    "alt": [0, 1, 2, 3, 4, 5, 6],
    "delimited": [0, 1, 2],
    "escaped": [0, 2],
    "escaped_transform": [0, 2],
    "many0_count": [0],
    "map": [0],
    "not": [0],
    "opt": [0],
    "pair": [0, 1],
    "separated_list1": [0, 1],
    "value": [1],
    "verify": [0],
}

OPERATORS = ("&&", "||")

# What an expression of a value ends before, to the left and to the right.
BEFORE = ("=", "{", "(", ";", ",", "|")
BEHIND = (";", ",", ")", "}")


class Mark:
    """A branch: the tokens that name it, its ways, the tokens that are counted, and what is put around these, `{}` for
    the number. Tokens are given by the first and the one behind the last."""

    def __init__(self, named, ways, counted, before, after):
        self.named = named
        self.ways = ways
        self.counted = counted
        self.before = before
        self.after = after


class Source:
    """A file's tokens, and the branches among them."""

    def __init__(self, text):
        self.text = text
        self.tokens = [m for m in TOKEN.finditer(text) if m.lastgroup != "comment"]
        self.words = [m.group() for m in self.tokens]
        self.partner = self.partners()
        self.functions = self.named_functions()
        self.operators = set()
        self.marks = []
        self.refusals()
        self.parsers()
        self.conditions()
        self.arms()
        self.marks.sort(key=lambda mark: (mark.counted[0], -mark.counted[1]))

    def partners(self):
        """Of each bracket the one that belongs to it."""
        partner, open_ones = {}, []
        for n, token in enumerate(self.tokens):
            if token.group() in CLOSING:
                open_ones.append(n)
            elif token.group() in CLOSING.values():
                first = open_ones.pop()
                partner[first], partner[n] = n, first
        return partner

    def named_functions(self):
        """Each function's first and last token and its name, inner ones behind outer ones."""
        starts = [n for n, word in enumerate(self.words) if word == "fn"]
        return [(n, self.partner[self.next_of(n, "{")], self.words[n + 1]) for n in starts]

    def function(self, n):
        return [name for first, last, name in self.functions if first <= n <= last][-1]

    def following(self, n):
        """The next token, brackets passed over."""
        return self.partner[n] + 1 if self.words[n] in CLOSING else n + 1

    def next_of(self, n, *words):
        """The next token that is one of the words, brackets passed over."""
        while self.words[n] not in words:
            n = self.following(n)
        return n

    def mark(self, first, behind, ways, before, after):
        self.marks.append(Mark((first, behind), ways, (first, behind), before, after))

    def taken(self, first, behind, body):
        """A branch named by one part, of which another is the body."""
        self.marks.append(Mark((first, behind), ["taken"], body, "{{ counting::taken({}); ", " }}"))

    def refusals(self):
        for n, word in enumerate(self.words):
            if word == "?":
                self.mark(self.expression(n), n, ["passed", "refused"], "", ".counted({})")

    def expression(self, behind):
        """Where the calls and fields that end before a token begin."""
        n = behind - 1
        while True:
            if self.words[n] in (")", "]"):
                n = self.partner[n] - 1
            elif self.words[n] in (".", "::") or self.words[n].isidentifier():
                n -= 1
            else:
                return n + 1

    def parsers(self):
        for n, word in enumerate(self.words):
            if word not in COMBINATORS or self.words[n - 1] == ".":
                continue
            has_types = self.words[n + 1 : n + 3] == ["::", "<"]
            bracket = self.next_of(n, "(") if has_types else n + 1
            if self.words[bracket] != "(":
                continue
            arguments = self.arguments(bracket + (word == "alt"))
            for argument in COMBINATORS[word]:
                if argument < len(arguments):
                    self.mark(*arguments[argument], ["reads", "refuses"], "counting::parser({}, ", ")")
            if word == "verify":
                first, behind = arguments[1]
                self.condition(self.next_of(first + 1, "|") + 1, behind)

    def arguments(self, bracket):
        """The first token of each argument and the one behind it."""
        found, first, last = [], bracket + 1, self.partner[bracket]
        while first < last:
            behind = self.next_of(first, ",", ")")
            found.append((first, behind))
            first = behind + 1
        return found

    def conditions(self):
        for n, word in enumerate(self.words):
            if word in ("if", "while"):
                self.condition(n + 1, self.next_of(n, "{", "=>"))
        for n, word in enumerate(self.words):
            if word in OPERATORS and n not in self.operators:
                self.condition(self.value(n), self.next_of(n, *BEHIND))

    def value(self, n):
        """Where the value with an operator in it begins."""
        while self.words[n - 1] not in BEFORE:
            n = self.partner[n - 1] if self.words[n - 1] in CLOSING.values() else n - 1
        return n

    def operands(self, first, behind):
        """The first token of each operand and the one behind it."""
        found, n = [], first
        while n < behind:
            if self.words[n] in OPERATORS:
                self.operators.add(n)
                found.append((first, n))
                first = n + 1
            n = self.following(n)
        return found + [(first, behind)]

    def condition(self, first, behind):
        """Each operand by itself; one in brackets that has operands of its own, by these."""
        for start, end in self.operands(first, behind):
            opening = start + (self.words[start] == "!")
            is_bracketed = self.words[opening] == "(" and self.partner[opening] == end - 1
            if is_bracketed and len(self.operands(opening + 1, end - 1)) > 1:
                self.condition(opening + 1, end - 1)
            elif self.words[start] == "let":
                self.mark(start, end, ["matched", "not matched"], "counting::tried({}) && ", " && counting::matched({})")
            else:
                self.mark(start, end, ["true", "false"], "counting::condition({}, ", ")")

    def arms(self):
        for n, word in enumerate(self.words):
            if word == "match":
                opening = self.next_of(n, "{")
                self.arms_of(opening + 1, self.partner[opening])
            elif word == "for" and self.words[self.next_of(n, "in", "{")] == "in":
                opening = self.next_of(n, "{")
                self.taken(n, opening, (opening, self.partner[opening] + 1))

    def arms_of(self, first, last):
        while first < last:
            arrow = self.next_of(first, "=>")
            body = arrow + 1
            behind = self.partner[body] + 1 if self.words[body] == "{" else self.next_of(body, ",", "}")
            self.taken(first, arrow, (body, behind))
            first = behind + (self.words[behind] == ",")

    def shown(self, first, behind):
        """The text of these tokens on one line, without paths, what stands in long brackets left out."""
        text, n = "", first
        while n < behind:
            is_apart = n > first and self.tokens[n - 1].end() < self.tokens[n].start()
            text += " " if is_apart and self.words[n] not in (")", "}", ".") else ""
            text += self.words[n]
            if self.words[n] in CLOSING:
                inner = self.shown(n + 1, self.partner[n]).strip(" ,")
                text += inner if len(inner) < 50 else ".."
                n = self.partner[n] - 1
            n += 1
        return re.sub(r"(\b[a-z]\w*::)+", "", text)

    def names(self):
        """Each branch's function and text."""
        return [f"{self.function(m.named[0])}: {self.shown(*m.named)}" for m in self.marks]

    def counted(self, numbers):
        """The text with the counts of the branches, which have these numbers."""
        inserted = []
        for number, mark in zip(numbers, self.marks):
            first, behind = mark.counted
            start, end = self.tokens[first].start(), self.tokens[behind - 1].end()
            # Of two at one place the outer is opened first and closed last.
            inserted.append((start, 1, -end, -number, mark.before.format(number)))
            inserted.append((end, 0, -start, number, mark.after.format(number)))
        text = self.text
        for place, _, _, _, words in sorted(inserted, reverse=True):
            text = text[:place] + words + text[place:]
        return text


def numbered(names):
    """The names, each further one of the same with a number."""
    found = []
    for n, name in enumerate(names):
        before = names[:n].count(name)
        found.append(f"{name} ({before + 1})" if before else name)
    return found


def counted(texts):
    """The files with their counts, and a further one with the names: of each branch, of its two ways or its one."""
    sources = {file: Source(text) for file, text in texts.items()}
    names = numbered([name for source in sources.values() for name in source.names()])
    marks = [mark for source in sources.values() for mark in source.marks]
    found, first = {}, 0
    for file, source in sources.items():
        behind = first + len(source.marks)
        found[file] = source.counted(range(first, behind))
        if "?" in source.words:
            found[file] = found[file].replace("\nuse ", "\nuse counting::Counted;\nuse ", 1)
        first = behind
    rows = [", ".join(f'r##"{name}: {way}"##' for way in mark.ways) for name, mark in zip(names, marks)]
    found["places.rs"] = "pub static PLACES: &[&[&str]] = &[\n" + "".join(f"    &[{row}],\n" for row in rows) + "];\n"
    return found
