//! The pieces of the bytes layer against 01's words, over the whole domain
//! where that can be.

#[path = "../../nom/tests/table/mod.rs"]
mod table;

use driver::pieces::{
    SCALARS, character_at, escaped, first_bad, is_word, line_ending, multispace0, newline,
    not_line_ending, space0, space1, tag, trim_end, word_run,
};
use table::Table;

/// 01's word characters above 7F.
const WORDS: [(u32, u32); 9] = [
    (0xAA, 0xAA),
    (0xB2, 0xB3),
    (0xB5, 0xB5),
    (0xB9, 0xB9),
    (0xBA, 0xBA),
    (0xBC, 0xBE),
    (0xC0, 0xD6),
    (0xD8, 0xF6),
    (0xF8, 0x24F),
];

fn word_by_the_paper(scalar: u32) -> bool {
    let ascii = u8::try_from(scalar)
        .is_ok_and(|byte| byte.is_ascii_alphanumeric() || byte == b'-' || byte == b'_');
    ascii
        || WORDS
            .iter()
            .any(|&(first, last)| (first..=last).contains(&scalar))
}

fn blank_by_the_paper(scalar: u32) -> bool {
    matches!(scalar, 0x9..=0xD | 0x20 | 0x85 | 0xA0)
}

#[test]
fn scalars() {
    let mut table = Table::new("every scalar of the domain");
    for scalar in 0..SCALARS {
        let bytes = char::from_u32(scalar)
            .expect("a scalar")
            .to_string()
            .into_bytes();
        let length = bytes.len();
        let around = [b"a", bytes.as_slice(), b"!"].concat();
        let found = (
            character_at(&bytes, 0),
            first_bad(&bytes),
            is_word(scalar),
            word_run(&around),
            trim_end(&around[..1 + length]),
        );
        let word = word_by_the_paper(scalar);
        let kept = if blank_by_the_paper(scalar) {
            1
        } else {
            1 + length
        };
        let run = if word { 1 + length } else { 1 };
        let expected = (Some((length, scalar)), None, word, run, kept);
        table.case(&format!("U+{scalar:04X}"), found, expected);
    }
    table.end();
}

#[test]
fn bytes() {
    let mut table = Table::new("every first byte with every second");
    for first in 0..=255u8 {
        let expected = |second| match (first, second) {
            (0..0x80, 0..0x80) => None,
            (0..0x80, _) => Some(1),
            (0xC2..=0xC8, 0x80..=0xBF) | (0xC9, 0x80..=0x8F) => None,
            _ => Some(0),
        };
        let found: Vec<Option<usize>> = (0..=255)
            .map(|second| first_bad(&[first, second]))
            .collect();
        let name = format!("{first:02X}");
        table.case(&name, found, (0..=255).map(expected).collect());
    }
    table.end();
}

#[test]
fn values() {
    let mut table = Table::new("pieces");
    table.case("no character at the end", character_at(b"a", 1), None);
    table.case(
        "a character at a place",
        character_at("aé".as_bytes(), 1),
        Some((2, 0xE9)),
    );
    table.case(
        "none inside a character",
        character_at("é".as_bytes(), 1),
        None,
    );
    table.case("no word", word_run(b""), 0);
    table.case("word", word_run("a-é_ b".as_bytes()), 5);
    table.case(
        "nothing but blanks",
        trim_end(" \t\u{A0}\u{85}".as_bytes()),
        0,
    );
    table.case("a blank inside", trim_end("a b \n".as_bytes()), 3);
    for (stop_set, stop) in [(0, "`"), (1, "<"), (2, "<"), (2, ">"), (3, ":")] {
        let input = format!("aé\\:{stop}b");
        table.case(stop, escaped(input.as_bytes(), stop_set), Some(5));
        table.case(stop, escaped(stop.as_bytes(), stop_set), None);
    }
    table.case("an escaped underscore", escaped(br"\_", 0), Some(2));
    table.case("escaped, empty", escaped(b"", 3), Some(0));
    table.case(
        "newline",
        (newline(b"\n"), newline(b"\r\n")),
        (Some(1), None),
    );
    table.case(
        "line_ending",
        (line_ending(b"\r\na"), line_ending(b"\ra")),
        (Some(2), None),
    );
    table.case("not_line_ending", not_line_ending(b"ab\r\n"), Some(2));
    table.case("not_line_ending, CR", not_line_ending(b"ab\r"), None);
    table.case(
        "space0",
        (space0(b" \ta"), space0(b"a")),
        (Some(2), Some(0)),
    );
    table.case("space1", (space1(b" \ta"), space1(b"a")), (Some(2), None));
    table.case(
        "multispace0",
        (multispace0(b" \t\r\na"), multispace0(b"a")),
        (Some(4), Some(0)),
    );
    table.case("tag", tag(b"`_`_a", 2), Some(2));
    table.case("tag, another", tag(b"`_`a", 2), None);
    table.case("tag, too long", tag(b"`_`", 2), None);
    table.case(
        "tag, empty",
        (tag(b"a", 0), tag(b"", 0)),
        (Some(0), Some(0)),
    );
    table.case("tag, past the end", tag(b"a", 2), None);
    table.case("tag, inside a character", tag("éé".as_bytes(), 1), None);
    table.end();
}
