//! The readings of 01 with their inputs, by the names of their entries.

use super::{Call, Case, OUTPUT_ENOUGH, STRING_ENOUGH, Table, links_alike};
use crate::document::{BYTES_MIN, NUMBERS_MIN};

/// Part A: the sentences.
pub fn sentences() -> Vec<Case> {
    let mut table = Table::new();
    refusals(&mut table);
    inline_forms(&mut table);
    labels(&mut table);
    blocks(&mut table);
    scanning(&mut table);
    collecting(&mut table);
    others(&mut table);
    table.cases
}

/// N1 to N5: the numbers of the refusals and their values.
fn refusals(table: &mut Table) {
    let three_bytes: [(&[u8], &str); 5] = [
        (&[0x61, 0xC9, 0x90], "refused 4 1"),
        (&[0x61, 0xC2], "refused 4 1"),
        (&[0x61, 0xC2, 0x41], "refused 4 1"),
        (&[0xC3, 0xA9, 0xA9], "refused 4 2"),
        (&[0xC0, 0x80], "refused 4 0"),
    ];
    table.named("N1");
    for (doc, expected) in three_bytes {
        table.document(0, doc, expected).one(doc, expected);
    }
    let mut links_and_bad = "a_\n".repeat(257).into_bytes();
    links_and_bad.push(0xFF);
    table
        .named("N2")
        .document(0, [0xFF; 16_385], "refused 2")
        .document(2, [0xFF; 16_385], "refused 1")
        .one([0xFF; 16_385], "refused 2")
        .at([0xFF], 99_999, "refused 4 0")
        .one(b"a_ \xFF", "refused 4 3")
        .document(0, links_and_bad, "refused 4 771");
    for (numbers, bytes) in [(NUMBERS_MIN - 1, BYTES_MIN), (NUMBERS_MIN, BYTES_MIN - 1)] {
        let call = |render| Call::Document {
            render,
            numbers,
            bytes,
            output: OUTPUT_ENOUGH,
        };
        table
            .add(&[0xFF], call(0), "refused 3")
            .add(&[0xFF; 16_385], call(0), "refused 2")
            .add(&[0xFF], call(2), "refused 1");
    }
    table
        .named("N3")
        .at("", 0, "refused 9")
        .at("", 1, "refused 8")
        .at("a_", 2, "refused 9")
        .at("a_", 3, "refused 8")
        .at("a_", usize::MAX, "refused 8")
        .at("a_", 1 << 32, "refused 8")
        .at("é_", 1, "refused 8")
        .at("\r\na_", 1, r#"Text2Label 1 2 "a" "a""#)
        .named("N4")
        .output(0, 9, "a_\n.. _a: u", "refused 7 10")
        .output(0, 10, "a_\n.. _a: u", r#"links 1; 0 2 "a" "u""#)
        .output(0, 0, "a", "links 0")
        .output(0, 0, "", "links 0")
        .named("N5")
        .lent("abc_", (2, 1), "refused 7 3")
        .lent("abc_", (3, 1), "refused 7 3")
        .lent("`abc <de>`_", (3, 1), "refused 7 2")
        .lent("`abc <de>`_", (0, 0), "refused 7 3")
        .lent("`abc <de>`_", (3, 2), r#"TextLabel2Dest 0 11 "abc" "de""#);
}

/// N6 to N10: `escaped`, the transforms and the embedded forms.
fn inline_forms(table: &mut Table) {
    table
        .named("N6")
        .one(r"`\`a`_", r#"Text2Label 0 6 "`a" "`a""#)
        .named("N7")
        .one(r"`a\ <b_>`_", r#"Text2Label 5 2 "b" "b""#)
        .one(r"`x <u\_>`_", "refused 9")
        .one(r"`a\ <u>`_", r#"Text2Label 0 9 "a<u>" "a<u>""#)
        .named("N8")
        .one(r".. _a: u\", "refused 9")
        .one(r".. _a: u\_", "refused 9")
        .one(".. _a: u\\\n   v", r#"Label2Dest 0 14 "a" "u v""#)
        .one(".. _a: u\u{A0}", r#"Label2Dest 0 10 "a" "u\C2\A0""#)
        .one(
            "`a\u{A0} <u\u{A0}>`_",
            r#"TextLabel2Dest 0 12 "a" "u\C2\A0""#,
        )
        .named("N9")
        .one("`x < a _>`_", r#"Text2Label 0 11 "x" " a ""#)
        .one("`x <u_ >`_", r#"TextLabel2Dest 0 10 "x" "u_""#)
        .one("` x <u>`_", r#"TextLabel2Dest 0 9 " x" "u""#)
        .one("` <u>`_", r#"TextLabel2Dest 0 7 "" "u""#)
        .names("` <u>`_", r#"defined ""; references; unresolved"#)
        .one("`x < >`_", r#"TextLabel2Dest 0 8 "x" """#)
        .named("N10")
        .one("`x <a_>`__", r#"Text2Label 0 10 "x <a_>" "_""#)
        .one("`a <u>`___", r#"Text2Label 0 9 "a <u>" "_""#)
        .one("`a <b> <u>`_", r#"Text2Label 0 12 "a <b> <u>" "a <b> <u>""#)
        .one("`a <u> `_", r#"Text2Label 0 9 "a <u> " "a <u> ""#)
        .one("`a <>`_", r#"Text2Label 0 7 "a <>" "a <>""#);
}

/// N11 to N13: simple labels.
fn labels(table: &mut Table) {
    let letters = |n: usize| "a".repeat(n);
    table
        .named("N11")
        .one(r"`\ `_", r#"Text2Label 0 5 "" """#)
        .document(0, "`\\ `_\n.. _\\ : u", r#"links 1; 0 5 "u" "u""#)
        .one("`x <_>`_", r#"Text2Label 0 8 "x" """#)
        .named("N12")
        .one(
            letters(999) + "__",
            format!("Text2Label 0 1001 \"{}\" \"_\"", letters(999)),
        )
        .one("é".repeat(500) + "_", "refused 9")
        .one(
            "é".repeat(499) + "_",
            format!("Text2Label 0 999 \"{0}\" \"{0}\"", r"\C3\A9".repeat(499)),
        )
        .one(format!("`{}`_", letters(1000)), "refused 9")
        .one(
            format!("`{}`_", letters(999)),
            format!("Text2Label 0 1002 \"{0}\" \"{0}\"", letters(999)),
        )
        .one(format!("`{}`_", r"\:".repeat(500)), "refused 9")
        .one(
            format!("`{}`_", r"\:".repeat(499)),
            format!("Text2Label 0 1001 \"{0}\" \"{0}\"", ":".repeat(499)),
        )
        .one(
            format!("`x <{}_>`_", letters(1000)),
            format!("Text2Label 0 1008 \"x\" \"{}\"", letters(1000)),
        )
        .one(
            format!(".. _{}: u", letters(1000)),
            format!("Label2Dest 0 1007 \"{}\" \"u\"", letters(1000)),
        )
        .one(
            format!("`{0} <{0}>`_", letters(1000)),
            format!("TextLabel2Dest 0 2006 \"{0}\" \"{0}\"", letters(1000)),
        )
        .named("N13")
        .one("___", r#"Text2Label 0 3 "_" "_""#)
        .one("____", r#"Text2Label 0 4 "__" "_""#)
        .one("`a`___", r#"Text2Label 0 5 "a" "_""#)
        .one("-_", r#"Text2Label 0 2 "-" "-""#)
        .one("__", r#"Text2Label 0 2 "_" "_""#)
        .document(0, "__\n__ u", r#"links 1; 0 2 "_" "u""#);
}

/// N14 to N19: blocks and targets.
fn blocks(table: &mut Table) {
    table
        .named("N14")
        .one(".. _a: u\n", r#"Label2Dest 0 8 "a" "u""#)
        .one(".. _a: u\n   v\r", r#"Label2Dest 0 8 "a" "u""#)
        .document(1, ".. _a: u\n", r#"links 1; 0 8 ".. _a: u" "u""#)
        .named("N15")
        .one(".. _a: u\n   ", r#"Label2Dest 0 12 "a" "u""#)
        .one(".. _a: u\n\n   v", r#"Label2Dest 0 8 "a" "u""#)
        .one(" .. _a: u\n\t   v", r#"Label2Dest 0 9 "a" "u""#)
        .one("\t.. _a: u\n\t   v", r#"Label2Dest 0 15 "a" "uv""#)
        .one(".. _a: u\n\t  v", r#"Label2Dest 0 8 "a" "u""#)
        .one(".. _a: u\n  v", r#"Label2Dest 0 8 "a" "u""#)
        .one(".. _a\n    b: u", r#"Label2Dest 0 14 "a  b" "u""#)
        .one(
            ".. _a:\n   u\n   \n   v\n  w",
            r#"Label2Dest 0 20 "a" "uv""#,
        )
        .named("N16")
        .one("..  _a: u", "refused 9")
        .one(".. \n   _a: u", "refused 9")
        .one("..\n   _a: u", "refused 9")
        .named("N17")
        .one("__ ", r#"Label2Dest 0 3 "_" """#)
        .one(".. _a: ", r#"Label2Dest 0 7 "a" """#)
        .one(".. _a:", "refused 9")
        .one(".. _a:\n   u", r#"Label2Dest 0 11 "a" "u""#)
        .named("N18")
        .one(".. _a`b: u", r#"Label2Dest 0 10 "a`b" "u""#)
        .one(".. _`a:b`: u", r#"Label2Dest 0 12 "a:b" "u""#)
        .one(".. _`a: u", r#"Label2Dest 0 9 "`a" "u""#)
        .one(".. _`a` : u", r#"Label2Dest 0 11 "`a` " "u""#)
        .one(".. _a:b: u", "refused 9")
        .one(".. __: u", r#"Label2Dest 0 8 "_" "u""#)
        .names(
            ".. __: u\n__ v",
            r#"defined "_1" "_2"; references; unresolved"#,
        )
        .named("N19")
        .one(".. _a:  b_", r#"Label2Dest 0 10 "a" "b_""#)
        .one(".. _a: \n   b_", r#"Label2Dest 0 13 "a" "b_""#)
        .one(".. _a:\n   b_", r#"Label2Label 0 12 "a" "b""#)
        .one(".. _a: b_/c", r#"Label2Label 0 11 "a" "b""#)
        .one(".. _a: _", r#"Label2Dest 0 8 "a" "_""#)
        .one(".. _a: __", r#"Label2Label 0 9 "a" "_""#)
        .one(".. _a: b__", r#"Label2Label 0 10 "a" "b""#)
        .one(r".. _a: `b\_`_", r#"Text2Label 7 6 "b_" "b_""#)
        .one(".. _x: `a b`_", r#"Label2Label 0 13 "x" "ab""#)
        .one(r".. _x: `a\ b`_", r#"Label2Label 0 14 "x" "a b""#)
        .one("`a b`_", r#"Text2Label 0 6 "a b" "a b""#)
        .one(r"`a\ b`_", r#"Text2Label 0 7 "ab" "ab""#);
}

/// N20 to N22: the scanner's rounds.
fn scanning(table: &mut Table) {
    table
        .named("N20")
        .one("(`a <u>`_", r#"Text2Label 1 8 "a <u>" "a <u>""#)
        .one("x (`a <u>`_", r#"Text2Label 3 8 "a <u>" "a <u>""#)
        .one("x(`a <u>`_", r#"TextLabel2Dest 2 8 "a" "u""#)
        .one("((a_", "refused 9")
        .named("N21")
        .one("x \n.. _b: c", "refused 9")
        .one("x \r\n.. _b: c", r#"Label2Dest 4 8 "b" "c""#)
        .one(" \na_", "refused 9")
        .one(" \n\na_", r#"Text2Label 3 2 "a" "a""#)
        .one("x\r.. _b: c", "refused 9")
        .one("x\ra_", "refused 9")
        .named("N22")
        .each(
            "`a`_b_",
            r#"Text2Label 0 4 "a" "a"; Text2Label 0 2 "b" "b""#,
        )
        .one("a_.. _b: c", r#"Text2Label 0 10 "a" "a""#)
        .one("a_ __ c", r#"Text2Label 0 7 "a" "a""#)
        .one("a_ .. _b: c\n    d", r#"Text2Label 0 17 "a" "a""#)
        .each(
            "a_ .. _b: c\n .. _d: e",
            r#"Text2Label 0 11 "a" "a"; Label2Dest 1 9 "d" "e""#,
        )
        .names("a_ .. _a: u", "defined; references 0; unresolved 0")
        .document(0, "a_ .. _a: u", "links 0")
        .document(0, "a_\n .. _a: u", r#"links 1; 0 2 "a" "u""#)
        .document(0, "`a <u>`_ .. _b: c", r#"links 1; 0 17 "a" "u""#)
        .program("`a <u>`_ .. _b: c", "links 1\n0 17 \"a\" \"u\"\n")
        .document(0, ".. _b: c\n".repeat(256) + "a_ .. _b: c\n", "links 0")
        .document(0, ".. _b: c\n".repeat(256) + "a_\n.. _b: c\n", "refused 6");
}

/// N23 to N26: numbering, storing, render 1, and the two limits.
fn collecting(table: &mut Table) {
    table
        .named("N23")
        .one(r"`\_`_", r#"Text2Label 0 5 "_" "_""#)
        .one(r"`x <\__>`_", r#"Text2Label 0 10 "x" "_""#)
        .one(r".. _\_: u", r#"Label2Dest 0 9 "_" "u""#)
        .one(".. __: u", r#"Label2Dest 0 8 "_" "u""#)
        .document(
            0,
            "`\\_`_\n`x <\\__>`_\n.. _\\_: u\n.. __: v",
            r#"links 2; 0 5 "_" "u"; 6 10 "x" "v""#,
        )
        .document(0, "_1_\n__ u", r#"links 1; 0 3 "_1" "u""#)
        .document(0, "_1_\n__ u\n.. __1: v", r#"links 1; 0 3 "_1" "v""#)
        .names("`_ <u>`_", r#"defined "_"; references; unresolved"#)
        .document(
            0,
            "a_\n.. _a: __\n`_ <u>`_",
            r#"links 2; 0 2 "a" "u"; 13 8 "_" "u""#,
        )
        .document(0, "a_\n.. _a: __\n__ v", "links 0")
        .named("N24")
        .document(
            0,
            "`a <u>`_\n.. _a: v\na_",
            r#"links 2; 0 8 "a" "u"; 18 2 "a" "v""#,
        )
        .document(
            0,
            ".. _a: b_\n.. _b: v\n.. _a: u\na_",
            r#"links 1; 28 2 "a" "v""#,
        )
        .document(
            0,
            "a_\nb_\n.. _a: b_\n.. _b: c_\n.. _b: u\n.. _c: v",
            r#"links 2; 0 2 "a" "u"; 3 2 "b" "v""#,
        )
        .document(
            0,
            "a_\n.. _a: b_\n.. _b: c_\n.. _c: d_\n.. _d: u",
            r#"links 1; 0 2 "a" "u""#,
        )
        .named("N25")
        .document(
            1,
            " .. _a: u\\ v ",
            r#"links 1; 0 13 " .. _a: u\5C v " "u v""#,
        )
        .document(
            1,
            ".. _a: u\n.. _a: v",
            r#"links 2; 0 8 ".. _a: u" "u"; 9 8 ".. _a: v" "v""#,
        )
        .document(1, ".. _a: b_", "links 0")
        .document(1, "`x <u>`__ .. _a: v", r#"links 1; 0 18 "x" "u""#)
        .named("N26")
        .document(1, ".. _a: u\n".repeat(257), "refused 5")
        .document(0, "`a <u>`_\n".repeat(257), "refused 5")
        .document(
            0,
            ".. _b: c\n".to_string() + &"`a <u>`_\n".repeat(256),
            "refused 6",
        )
        .document(
            0,
            ".. _a: u\n".repeat(257) + &"a_\n".repeat(257),
            "refused 6",
        )
        .document(
            0,
            "a_\n".repeat(257) + &".. _a: u\n".repeat(257),
            "refused 5",
        );
}

/// N27, N28 and the notes behind them.
fn others(table: &mut Table) {
    let fits = "x".repeat(16_384);
    table
        .named("N27")
        .program([0xFF], "refused 4\n")
        .program(empty_labels(79, 411), "refused 7\n")
        .program(&fits, "links 0\n")
        .program(fits + "x", "refused 2\n")
        .program("`\x7F~\" \t<u>`_", "links 1\n0 11 \"\\7F~\\22\" \"u\"\n")
        .named("N28")
        .one("`_`_", r#"Text2Label 0 4 "_" "_""#)
        .one("`a_`_", r#"Text2Label 0 5 "a_" "a_""#)
        .one(r"__ \", r#"Text2Label 0 2 "_" "_""#)
        .one("((`a <u>`_", r#"TextLabel2Dest 2 8 "a" "u""#)
        .one("(`a <u>`_", r#"Text2Label 1 8 "a <u>" "a <u>""#)
        .named("Growth")
        .one(r"\`".repeat(1024), "refused 9")
        .named("Never used")
        .one("`a <u\nv>`_", r#"TextLabel2Dest 0 10 "a" "uv""#)
        .named("A stray backtick")
        .one(
            "`a\n\n.. _b: c\n\nd`_",
            r#"Text2Label 0 17 "a\0A\0A.. _b: c\0A\0Ad" "a\0A\0A.. _b: c\0A\0Ad""#,
        );
}

/// References with empty labels, then a block of the empty name with a
/// destination of so many `u`.
fn empty_labels(references: usize, destination: usize) -> String {
    r"`\ `_".repeat(references) + "\n.. _\\ : " + &"u".repeat(destination)
}

/// Part B: the sizes.
pub fn sizes() -> Vec<Case> {
    let u = |n: usize| "u".repeat(n);
    let mut table = Table::new();
    table
        .named("largest consumed and text")
        .output(
            1,
            32_769,
            ".. _a: ".to_string() + &u(16_377),
            format!("links 1; 0 16384 \".. _a: {0}\" \"{0}\"", u(16_377)),
        )
        .output(
            1,
            32_768,
            ".. _a: ".to_string() + &u(16_377),
            "refused 7 32769",
        )
        .named("largest skipped")
        .document(
            0,
            format!(".. _a: u\n{} a_", "x".repeat(16_372)),
            r#"links 1; 16382 2 "a" "u""#,
        )
        .named("largest output, render 0")
        .output(0, 0, empty_labels(256, 15_095), "refused 7 7730688")
        .document(
            0,
            empty_labels(256, 15_095),
            links_alike(256, 5, &format!("5 \"{0}\" \"{0}\"", u(15_095))),
        )
        .named("largest output, render 1")
        .output(1, 7_733_255, empty_labels(255, 15_100), "refused 7 7733256")
        .named("815 bytes over the program's output")
        .output(0, 65_569, empty_labels(79, 411), "refused 7 65570")
        .output(
            0,
            65_570,
            empty_labels(79, 411),
            links_alike(79, 5, &format!("5 \"{0}\" \"{0}\"", u(411))),
        )
        .named("largest store")
        .document(
            0,
            "__\n".repeat(256) + "__ " + &u(15_613),
            format!("links 1; 0 2 \"_\" \"{}\"", u(15_613)),
        )
        .named("strings as long as the document")
        .lent(
            ".. _a: ".to_string() + &u(16_377),
            (1, STRING_ENOUGH),
            format!("Label2Dest 0 16384 \"a\" \"{}\"", u(16_377)),
        );
    table.cases
}
