//! The cases that 01 names: its two lists, and its worked example.

use super::{Case, Table, links_alike};

/// 01's worked example.
pub const WORKED: &str = "a_ and b_\n\n.. _a: u/1\n.. _b: a_\n";

/// The records of the worked example.
pub const WORKED_RECORDS: [u8; 24] = [
    0x00, 0x00, 0x00, 0x08, 0x00, 0x08, 0x00, 0x30, 0x61, 0x75, 0x2F, 0x31, //
    0x00, 0x0A, 0x00, 0x08, 0x00, 0x08, 0x00, 0x30, 0x62, 0x75, 0x2F, 0x31,
];

/// The list that is proved.
pub fn proved() -> Vec<Case> {
    let mut table = Table::new();
    table
        .named("abc and two underscores")
        .one("abc__", r#"Text2Label 0 5 "abc" "_""#)
        .named("two underscores")
        .one("__", r#"Text2Label 0 2 "_" "_""#)
        .named("one underscore")
        .one("_", "refused 9")
        .named("embedded named")
        .one("`a <u>`_", r#"TextLabel2Dest 0 8 "a" "u""#)
        .named("no text before the angle")
        .one("`<u>`_", r#"Text2Label 0 6 "<u>" "<u>""#)
        .named("escaped blank before the angle")
        .one(r"`a\ <u>`_", r#"Text2Label 0 9 "a<u>" "a<u>""#)
        .named("empty label")
        .one("`x <_>`_", r#"Text2Label 0 8 "x" """#)
        .named("block after LF")
        .one("x\n.. _b: c", r#"Label2Dest 2 8 "b" "c""#)
        .named("block after space and LF")
        .one("x \n.. _b: c", "refused 9")
        .named("unreported block")
        .one("a_ .. _b: c", r#"Text2Label 0 11 "a" "a""#)
        .named("alias behind a link")
        .each(
            "a_ .. _b: c_",
            r#"Text2Label 0 2 "a" "a"; Label2Label 0 10 "b" "c""#,
        )
        .named("further line")
        .one(".. _a: u\n   v", r#"Label2Dest 0 13 "a" "uv""#)
        .named("name of an underscore and a digit")
        .one(".. __1: u", r#"Label2Dest 0 9 "_1" "u""#)
        .named("alias loses its blank")
        .one(".. _x: `my label`_", r#"Label2Label 0 18 "x" "mylabel""#);
    table.cases
}

/// The list that is run beside the Rust.
pub fn beside() -> Vec<Case> {
    let letters = |n: usize| "a".repeat(n);
    let mut table = Table::new();
    table
        .named("999 letters")
        .one(
            letters(999) + "_",
            format!("Text2Label 0 1000 \"{0}\" \"{0}\"", letters(999)),
        )
        .named("1,000 letters")
        .one(letters(1000) + "_", "refused 9")
        .named("1,000 letters as a target")
        .one(
            format!(".. _a: {}_", letters(1000)),
            format!("Label2Dest 0 1008 \"a\" \"{}_\"", letters(1000)),
        )
        .named("256 and 257 links")
        .document(
            0,
            "`a <u>`__\n".repeat(256),
            links_alike(256, 10, r#"9 "a" "u""#),
        )
        .document(0, "`a <u>`__\n".repeat(257), "refused 5")
        .named("16,384 and 16,385 bytes")
        .document(0, letters(16_384), "links 0")
        .document(0, letters(16_385), "refused 2")
        .one(letters(16_384), "refused 9")
        .one(letters(16_385), "refused 2")
        .named("C9 8F and C9 90")
        .document(0, [0xC9, 0x8F], "links 0")
        .document(0, [0xC9, 0x90], "refused 4 0")
        .one([0xC9, 0x8F, b'_'], r#"Text2Label 0 3 "\C9\8F" "\C9\8F""#)
        .one([0xC9, 0x90, b'_'], "refused 4 0");
    table.cases
}

/// The worked example, as program, names and records.
pub fn worked() -> Vec<Case> {
    let mut table = Table::new();
    table
        .named("worked example")
        .program(WORKED, "links 2\n0 2 \"a\" \"u/1\"\n7 2 \"b\" \"u/1\"\n")
        .names(WORKED, r#"defined "a" "b"; references 0 7; unresolved"#)
        .output(0, 24, WORKED, r#"links 2; 0 2 "a" "u/1"; 7 2 "b" "u/1""#)
        .output(0, 23, WORKED, "refused 7 24");
    table.cases
}
