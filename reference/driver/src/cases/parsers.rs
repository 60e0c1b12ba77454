//! What the readings of 01 and its cases say of the parsers, by the names of
//! their entries: the parser, its input, and its answer as one line of text.

use crate::parsers::{
    ANONYMOUS, ANONYMOUS_LABEL, DESTINATION_TRANSFORM, DOTS_BLOCK, LABEL2DEST, LABEL2LABEL, NAMED,
    NAMED_LABEL, PARSE_ALIAS, PARSE_DESTINATION, PARSE_TEXT2LABEL, SIMPLE_LABEL, TEXT_LABEL2DEST,
    TEXT_TRANSFORM, TEXT2DEST, TEXT2LABEL, UNDERSCORES_BLOCK, parser,
};
use crate::show;

pub struct ParserCase {
    pub name: &'static str,
    pub parser: u8,
    pub input: Vec<u8>,
    pub expected: String,
}

impl ParserCase {
    /// The reference's answer, with a scratch that just suffices.
    pub fn answer(&self) -> String {
        show::parsed(&parser(self.parser, &self.input, self.input.len()))
    }
}

/// A table under construction.
struct Table {
    name: &'static str,
    cases: Vec<ParserCase>,
}

impl Table {
    /// The name of the cases that follow.
    fn named(&mut self, name: &'static str) -> &mut Table {
        self.name = name;
        self
    }

    /// The answers of some parsers on one input.
    fn on<const N: usize>(
        &mut self,
        input: impl Into<String>,
        answers: [(u8, &str); N],
    ) -> &mut Table {
        let input = input.into().into_bytes();
        for (parser, expected) in answers {
            self.cases.push(ParserCase {
                name: self.name,
                parser,
                input: input.clone(),
                expected: expected.to_string(),
            });
        }
        self
    }
}

pub fn parsers() -> Vec<ParserCase> {
    let mut table = Table {
        name: "",
        cases: Vec::new(),
    };
    transforms(&mut table);
    embedded(&mut table);
    labels(&mut table);
    blocks(&mut table);
    targets(&mut table);
    others(&mut table);
    table.cases
}

/// N6 and N8: `escaped` and the transforms.
fn transforms(table: &mut Table) {
    table
        .named("N6")
        .on(
            r"`\`a`_",
            [
                (SIMPLE_LABEL, r#"6 "\5C`a" """#),
                (PARSE_TEXT2LABEL, r#"6 "\5C`a" "\5C`a""#),
                (TEXT2LABEL, r#"6 "`a" "`a""#),
            ],
        )
        .on("``_", [(SIMPLE_LABEL, "refused"), (TEXT2LABEL, "refused")])
        .on(r"`a\b`_", [(SIMPLE_LABEL, "refused")])
        .on("`a\\", [(SIMPLE_LABEL, "refused")])
        .named("N8")
        .on(
            r"u\",
            [
                (TEXT_TRANSFORM, "refused"),
                (DESTINATION_TRANSFORM, "refused"),
            ],
        )
        .on(
            r"u\_",
            [
                (TEXT_TRANSFORM, r#"3 "u_" """#),
                (DESTINATION_TRANSFORM, "refused"),
            ],
        )
        .on(
            r"u\ v w",
            [
                (TEXT_TRANSFORM, r#"6 "uv w" """#),
                (DESTINATION_TRANSFORM, r#"6 "u vw" """#),
            ],
        )
        .on(
            "u \t\r\nv\u{A0}",
            [
                (TEXT_TRANSFORM, r#"8 "u \09\0D\0Av\C2\A0" """#),
                (DESTINATION_TRANSFORM, r#"8 "uv\C2\A0" """#),
            ],
        )
        .on(r".. _a: u\", [(LABEL2DEST, "refused")])
        .on(r".. _a: u\_", [(LABEL2DEST, "refused")])
        .on(
            ".. _a: u\\\n   v",
            [
                (DOTS_BLOCK, r#"14 "_a: u\5C v" """#),
                (LABEL2DEST, r#"14 "a" "u v""#),
            ],
        )
        .on(".. _a: u\u{A0}", [(LABEL2DEST, r#"10 "a" "u\C2\A0""#)])
        .on(
            "`a\u{A0} <u\u{A0}>`_",
            [(TEXT_LABEL2DEST, r#"12 "a" "u\C2\A0""#)],
        )
        .named("Never used")
        .on(
            "`a <u\nv>`_",
            [
                (NAMED, r#"10 "a" "u\0Av""#),
                (TEXT_LABEL2DEST, r#"10 "a" "uv""#),
            ],
        );
}

/// N7, N9, N10: the embedded forms.
fn embedded(table: &mut Table) {
    table
        .named("N7")
        .on(
            r"`a\ <b_>`_",
            [
                (NAMED, "refused"),
                (NAMED_LABEL, r#"10 "a\5C" "b""#),
                (PARSE_TEXT2LABEL, r#"10 "a\5C" "b""#),
                (SIMPLE_LABEL, r#"10 "a\5C <b_>" """#),
                (TEXT2LABEL, "refused"),
            ],
        )
        .on(
            r"`x <u\_>`_",
            [
                (NAMED, "refused"),
                (NAMED_LABEL, r#"10 "x" "u\5C""#),
                (TEXT2LABEL, "refused"),
                (TEXT_LABEL2DEST, "refused"),
            ],
        )
        .on(
            r"`a\ <u>`_",
            [
                (NAMED, r#"9 "a\5C" "u""#),
                (TEXT_LABEL2DEST, "refused"),
                (NAMED_LABEL, "refused"),
                (TEXT2LABEL, r#"9 "a<u>" "a<u>""#),
            ],
        )
        .on(
            r"`a\ <u>`__",
            [
                (ANONYMOUS, r#"10 "a\5C" "u""#),
                (TEXT2DEST, "refused"),
                (TEXT2LABEL, r#"10 "a<u>" "_""#),
            ],
        )
        .named("N9")
        .on(
            "`x < a _>`_",
            [
                (NAMED_LABEL, r#"11 "x" " a ""#),
                (TEXT2LABEL, r#"11 "x" " a ""#),
            ],
        )
        .on(
            "`x <u_ >`_",
            [
                (NAMED, r#"10 "x" "u_ ""#),
                (TEXT_LABEL2DEST, r#"10 "x" "u_""#),
            ],
        )
        .on("` x <u>`_", [(TEXT_LABEL2DEST, r#"9 " x" "u""#)])
        .on("` <u>`_", [(TEXT_LABEL2DEST, r#"7 "" "u""#)])
        .on(
            "`x < >`_",
            [(NAMED, r#"8 "x" " ""#), (TEXT_LABEL2DEST, r#"8 "x" """#)],
        )
        .named("N10")
        .on(
            "`x <a_>`__",
            [
                (NAMED_LABEL, "refused"),
                (ANONYMOUS, "refused"),
                (ANONYMOUS_LABEL, r#"10 "x" "a""#),
                (TEXT2DEST, "refused"),
                (TEXT2LABEL, r#"10 "x <a_>" "_""#),
            ],
        )
        .on(
            "`a <u>`___",
            [
                (NAMED, "refused"),
                (ANONYMOUS, "refused"),
                (TEXT2LABEL, r#"9 "a <u>" "_""#),
            ],
        )
        .on(
            "`a <b> <u>`_",
            [
                (NAMED, "refused"),
                (TEXT2LABEL, r#"12 "a <b> <u>" "a <b> <u>""#),
            ],
        )
        .on(
            "`a <u> `_",
            [(NAMED, "refused"), (TEXT2LABEL, r#"9 "a <u> " "a <u> ""#)],
        )
        .on(
            "`a <>`_",
            [(NAMED, "refused"), (TEXT2LABEL, r#"7 "a <>" "a <>""#)],
        )
        .named("embedded named")
        .on(
            "`a <u>`_",
            [
                (NAMED, r#"8 "a" "u""#),
                (NAMED_LABEL, "refused"),
                (ANONYMOUS, "refused"),
                (TEXT_LABEL2DEST, r#"8 "a" "u""#),
                (TEXT2LABEL, r#"8 "a <u>" "a <u>""#),
            ],
        )
        .named("embedded anonymous")
        .on(
            "`a <u>`__",
            [
                (NAMED, "refused"),
                (ANONYMOUS, r#"9 "a" "u""#),
                (ANONYMOUS_LABEL, "refused"),
                (TEXT2DEST, r#"9 "a" "u""#),
            ],
        )
        .named("no text before the angle")
        .on(
            "`<u>`_",
            [(NAMED, "refused"), (TEXT2LABEL, r#"6 "<u>" "<u>""#)],
        );
}

/// N11 to N13, and what N28 says of runs: simple labels.
fn labels(table: &mut Table) {
    let letters = |n: usize| "a".repeat(n);
    let both = |n: usize, label: &str| format!("{n} \"{label}\" \"{label}\"");
    table
        .named("N11")
        .on(
            r"`\ `_",
            [(SIMPLE_LABEL, r#"5 "\5C " """#), (TEXT2LABEL, r#"5 "" """#)],
        )
        .on(
            r".. _\ : u",
            [
                (DOTS_BLOCK, r#"9 "_\5C : u" """#),
                (LABEL2DEST, r#"9 "" "u""#),
            ],
        )
        .on(
            "`x <_>`_",
            [(NAMED_LABEL, r#"8 "x" """#), (TEXT2LABEL, r#"8 "x" """#)],
        )
        .named("N12")
        .on(
            letters(999) + "_",
            [(TEXT2LABEL, both(1000, &letters(999)).as_str())],
        )
        .on(
            letters(999) + "__",
            [(
                TEXT2LABEL,
                format!("1001 \"{}\" \"_\"", letters(999)).as_str(),
            )],
        )
        .on(letters(1000) + "_", [(SIMPLE_LABEL, "refused")])
        .on("é".repeat(500) + "_", [(SIMPLE_LABEL, "refused")])
        .on(
            "é".repeat(499) + "_",
            [(
                SIMPLE_LABEL,
                format!("999 \"{}\" \"\"", r"\C3\A9".repeat(499)).as_str(),
            )],
        )
        .on(format!("`{}`_", letters(1000)), [(SIMPLE_LABEL, "refused")])
        .on(
            format!("`{}`_", letters(999)),
            [(
                SIMPLE_LABEL,
                format!("1002 \"{}\" \"\"", letters(999)).as_str(),
            )],
        )
        .on(
            format!("`{}`_", r"\:".repeat(500)),
            [(TEXT2LABEL, "refused")],
        )
        .on(
            format!("`{}`_", r"\:".repeat(499)),
            [(TEXT2LABEL, both(1001, &":".repeat(499)).as_str())],
        )
        .on(
            format!("`x <{}_>`_", letters(1000)),
            [(
                NAMED_LABEL,
                format!("1008 \"x\" \"{}\"", letters(1000)).as_str(),
            )],
        )
        .on(
            format!("_{}: u", letters(1000)),
            [(
                PARSE_DESTINATION,
                format!("1004 \"{}\" \"u\"", letters(1000)).as_str(),
            )],
        )
        .on(
            format!(".. _{}: u", letters(1000)),
            [(
                LABEL2DEST,
                format!("1007 \"{}\" \"u\"", letters(1000)).as_str(),
            )],
        )
        .on(
            format!("`{0} <{0}>`_", letters(1000)),
            [(TEXT_LABEL2DEST, both(2006, &letters(1000)).as_str())],
        )
        .on(
            format!(".. _a: {}_", letters(1000)),
            [
                (LABEL2LABEL, "refused"),
                (
                    LABEL2DEST,
                    format!("1008 \"a\" \"{}_\"", letters(1000)).as_str(),
                ),
            ],
        )
        .on(
            format!(".. _a: {}_", letters(999)),
            [
                (
                    LABEL2LABEL,
                    format!("1007 \"a\" \"{}\"", letters(999)).as_str(),
                ),
                (LABEL2DEST, "refused"),
            ],
        )
        .named("N13")
        .on(
            "___",
            [
                (SIMPLE_LABEL, r#"2 "_" """#),
                (PARSE_TEXT2LABEL, r#"3 "_" "_""#),
                (TEXT2LABEL, r#"3 "_" "_""#),
            ],
        )
        .on(
            "____",
            [
                (SIMPLE_LABEL, r#"3 "__" """#),
                (TEXT2LABEL, r#"4 "__" "_""#),
            ],
        )
        .on(
            "`a`___",
            [(SIMPLE_LABEL, r#"4 "a" """#), (TEXT2LABEL, r#"5 "a" "_""#)],
        )
        .on("-_", [(TEXT2LABEL, r#"2 "-" "-""#)])
        .on(
            "__",
            [(SIMPLE_LABEL, r#"2 "_" """#), (TEXT2LABEL, r#"2 "_" "_""#)],
        )
        .on("_", [(SIMPLE_LABEL, "refused"), (TEXT2LABEL, "refused")])
        .on(
            "abc__",
            [
                (SIMPLE_LABEL, r#"4 "abc" """#),
                (TEXT2LABEL, r#"5 "abc" "_""#),
            ],
        )
        .named("N28")
        .on("`_`_", [(TEXT2LABEL, r#"4 "_" "_""#)])
        .on("`a_`_", [(TEXT2LABEL, r#"5 "a_" "a_""#)]);
}

/// N14 to N16: blocks.
fn blocks(table: &mut Table) {
    table
        .named("N14")
        .on(
            ".. _a: u\n",
            [
                (DOTS_BLOCK, r#"8 "_a: u" """#),
                (LABEL2DEST, r#"8 "a" "u""#),
            ],
        )
        .on(
            ".. _a: u\n   v\r",
            [
                (DOTS_BLOCK, r#"8 "_a: u" """#),
                (LABEL2DEST, r#"8 "a" "u""#),
            ],
        )
        .on(".. a\rb", [(DOTS_BLOCK, "refused")])
        .on("__ a\r", [(UNDERSCORES_BLOCK, "refused")])
        .named("N15")
        .on(
            ".. _a: u\n   ",
            [
                (DOTS_BLOCK, r#"12 "_a: u " """#),
                (LABEL2DEST, r#"12 "a" "u""#),
            ],
        )
        .on(".. _a: u\n\n   v", [(LABEL2DEST, r#"8 "a" "u""#)])
        .on(" .. _a: u\n\t   v", [(LABEL2DEST, r#"9 "a" "u""#)])
        .on("\t.. _a: u\n\t   v", [(LABEL2DEST, r#"15 "a" "uv""#)])
        .on(".. _a: u\n\t  v", [(LABEL2DEST, r#"8 "a" "u""#)])
        .on(".. _a: u\n  v", [(LABEL2DEST, r#"8 "a" "u""#)])
        .on(
            ".. _a\n    b: u",
            [
                (DOTS_BLOCK, r#"14 "_a  b: u" """#),
                (LABEL2DEST, r#"14 "a  b" "u""#),
            ],
        )
        .on(
            ".. _a:\n   u\n   \n   v\n  w",
            [
                (DOTS_BLOCK, r#"20 "_a: u  v" """#),
                (LABEL2DEST, r#"20 "a" "uv""#),
            ],
        )
        .on(
            " __ u\r\n    v\r\n",
            [
                (UNDERSCORES_BLOCK, r#"12 "u v" """#),
                (LABEL2DEST, r#"12 "_" "uv""#),
            ],
        )
        .named("N16")
        .on(
            "..  _a: u",
            [(DOTS_BLOCK, r#"9 " _a: u" """#), (LABEL2DEST, "refused")],
        )
        .on(
            ".. \n   _a: u",
            [(DOTS_BLOCK, r#"12 " _a: u" """#), (LABEL2DEST, "refused")],
        )
        .on(
            "..\n   _a: u",
            [(DOTS_BLOCK, "refused"), (LABEL2DEST, "refused")],
        );
}

/// N17 to N19: names and targets.
fn targets(table: &mut Table) {
    table
        .named("N17")
        .on(
            "__ ",
            [
                (UNDERSCORES_BLOCK, r#"3 "" """#),
                (LABEL2DEST, r#"3 "_" """#),
            ],
        )
        .on(".. _a: ", [(LABEL2DEST, r#"7 "a" """#)])
        .on(
            "_a: ",
            [(PARSE_DESTINATION, r#"4 "a" """#), (PARSE_ALIAS, "refused")],
        )
        .on("_a:", [(PARSE_DESTINATION, "refused")])
        .on(".. _a:", [(LABEL2DEST, "refused")])
        .on(".. _a:\n   u", [(LABEL2DEST, r#"11 "a" "u""#)])
        .named("N18")
        .on("_a`b: u", [(PARSE_DESTINATION, r#"7 "a`b" "u""#)])
        .on("_`a:b`: u", [(PARSE_DESTINATION, r#"9 "a:b" "u""#)])
        .on("_`a: u", [(PARSE_DESTINATION, r#"6 "`a" "u""#)])
        .on("_`a` : u", [(PARSE_DESTINATION, r#"8 "`a` " "u""#)])
        .on("_a:b: u", [(PARSE_DESTINATION, "refused")])
        .on("__: u", [(PARSE_DESTINATION, r#"5 "_" "u""#)])
        .on("__: b_", [(PARSE_ALIAS, r#"6 "_" "b""#)])
        .on(r"_\_: u", [(PARSE_DESTINATION, r#"6 "\5C_" "u""#)])
        .on(r".. _\_: u", [(LABEL2DEST, r#"9 "_" "u""#)])
        .on(".. _`a` : u", [(LABEL2DEST, r#"11 "`a` " "u""#)])
        .on(".. __: u", [(LABEL2DEST, r#"8 "_" "u""#)])
        .on(".. __1: u", [(LABEL2DEST, r#"9 "_1" "u""#)])
        .named("N19")
        .on(
            ".. _a:  b_",
            [(LABEL2DEST, r#"10 "a" "b_""#), (LABEL2LABEL, "refused")],
        )
        .on(
            ".. _a: \n   b_",
            [(LABEL2DEST, r#"13 "a" "b_""#), (LABEL2LABEL, "refused")],
        )
        .on(
            ".. _a:\n   b_",
            [(LABEL2DEST, "refused"), (LABEL2LABEL, r#"12 "a" "b""#)],
        )
        .on(
            ".. _a: b_/c",
            [(LABEL2DEST, "refused"), (LABEL2LABEL, r#"11 "a" "b""#)],
        )
        .on(
            ".. _a: _",
            [(LABEL2DEST, r#"8 "a" "_""#), (LABEL2LABEL, "refused")],
        )
        .on(
            ".. _a: __",
            [(LABEL2DEST, "refused"), (LABEL2LABEL, r#"9 "a" "_""#)],
        )
        .on(
            ".. _a: b__",
            [(LABEL2DEST, "refused"), (LABEL2LABEL, r#"10 "a" "b""#)],
        )
        .on(
            r".. _a: `b\_`_",
            [(LABEL2DEST, "refused"), (LABEL2LABEL, "refused")],
        )
        .on(r"_a: `b\_`_", [(PARSE_ALIAS, r#"10 "a" "b\5C_""#)])
        .on(".. _x: `a b`_", [(LABEL2LABEL, r#"13 "x" "ab""#)])
        .on(".. _x: `my label`_", [(LABEL2LABEL, r#"18 "x" "mylabel""#)])
        .on(r".. _x: `a\ b`_", [(LABEL2LABEL, r#"14 "x" "a b""#)])
        .on("`a b`_", [(TEXT2LABEL, r#"6 "a b" "a b""#)])
        .on(r"`a\ b`_", [(TEXT2LABEL, r#"7 "ab" "ab""#)])
        .on(
            "__ b_ c",
            [(LABEL2DEST, "refused"), (LABEL2LABEL, r#"7 "_" "b""#)],
        )
        .on("__ `a b`_", [(LABEL2LABEL, r#"9 "_" "ab""#)]);
}

/// N20 and the rest of N28: what a parser says at the places that the scanner
/// asks it.
fn others(table: &mut Table) {
    table
        .named("N20")
        .on(
            "(`a <u>`_",
            [(TEXT2LABEL, "refused"), (TEXT_LABEL2DEST, "refused")],
        )
        .on("((a_", [(TEXT2LABEL, "refused")])
        .on("(a_", [(TEXT2LABEL, "refused")])
        .named("N28")
        .on(
            r"__ \",
            [(LABEL2DEST, "refused"), (TEXT2LABEL, r#"2 "_" "_""#)],
        )
        .on(
            "((`a <u>`_",
            [(TEXT2LABEL, "refused"), (TEXT_LABEL2DEST, "refused")],
        )
        .named("A stray backtick")
        .on(
            "`a\n\n.. _b: c\n\nd`_",
            [(
                TEXT2LABEL,
                r#"17 "a\0A\0A.. _b: c\0A\0Ad" "a\0A\0A.. _b: c\0A\0Ad""#,
            )],
        );
}
