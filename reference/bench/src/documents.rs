//! The inputs that the document call is timed on. An input is one document or
//! several, read one after the other, and can be made at several lengths.

use crate::texts::{NOTES, PROSE, REFERENCES, between, nested, repeated};

pub const SIZES: [usize; 5] = [1 << 10, 1 << 11, 1 << 12, 1 << 13, 1 << 14];

/// A kind of documents.
pub struct Input {
    pub name: &'static str,
    /// The part of the Rust's time that ours may take at the greatest length;
    /// none where an input is for growth alone.
    pub bar: Option<f64>,
    pub sizes: &'static [usize],
    /// The documents, the longest of about that many bytes.
    pub make: fn(usize) -> Vec<Vec<u8>>,
}

/// One document, at all sizes.
macro_rules! grown {
    ($name:expr, $bar:expr, $make:expr) => {
        Input {
            name: $name,
            bar: $bar,
            sizes: &SIZES,
            make: |n| {
                let make: fn(usize) -> Vec<u8> = $make;
                vec![make(n)]
            },
        }
    };
}

/// One document as it stands.
macro_rules! single {
    ($name:expr, $bar:expr, $text:expr) => {
        Input {
            name: $name,
            bar: $bar,
            sizes: &[$text.len()],
            make: |_| vec![$text.into()],
        }
    };
}

const THREE_LINES: &str = "\
Today: old bridges_, then the `weather <https://weather.example/today>`_.

.. _bridges: https://stone.example/bridges?order=age
";

/// So many of what 16 KiB hold 250 of.
fn part_of_250(len: usize) -> usize {
    250 * len / SIZES[4]
}

fn lines(count: usize, line: impl Fn(usize) -> String) -> String {
    (0..count).map(line).collect()
}

/// References in prose, and below them their targets.
fn referred(len: usize) -> Vec<u8> {
    let count = part_of_250(len);
    let references = lines(count, |k| format!("then guest{k}_ sings\n"));
    let targets = lines(count, |k| format!(".. _guest{k}: https://a.example/{k}\n"));
    [references, targets].join("\n").into_bytes()
}

/// A target that takes most of the document, and references to it.
fn referred_again(len: usize) -> Vec<u8> {
    let references = "a_ ".repeat(part_of_250(len));
    between(".. _a: ", "u", &format!("\n{references}"), len)
}

/// A destination and as many aliases as there may be beside it, of names that end
/// in a number, each leading to the one behind it, and a reference to the first.
fn chain(len: usize, name: &str) -> Vec<u8> {
    let last = 256 * len / SIZES[4] - 1;
    let aliases = lines(last, |k| format!(".. _{name}{k:03}: {name}{:03}_\n", k + 1));
    format!("{aliases}.. _{name}{last:03}: u\n\n{name}000_\n").into_bytes()
}

/// The same, each leading to the one before it.
fn chain_back(len: usize) -> Vec<u8> {
    let last = 256 * len / SIZES[4] - 1;
    let aliases = lines(last, |k| format!(".. _a{:03}: a{k:03}_\n", k + 1));
    format!(".. _a000: u\n{aliases}\na{last:03}_\n").into_bytes()
}

/// A note as it is after each of its lines.
fn day(len: usize) -> Vec<Vec<u8>> {
    let note = repeated(NOTES, len);
    let ends = (1..=len).filter(|end| note[end - 1] == b'\n');
    ends.map(|end| note[..end].to_vec()).collect()
}

/// A piece that holds so many links with other text behind it, again and again, so
/// that 16 KiB have at most 250 links.
fn spaced(piece: &str, links: usize, text: &str, len: usize) -> Vec<u8> {
    let piece = between(piece, text, "", links * (SIZES[4] / 250 + 1));
    piece.into_iter().cycle().take(len).collect()
}

pub const INPUTS: [Input; 32] = [
    grown!("plain prose", Some(0.1), |n| repeated(PROSE, n)),
    single!("a short note", Some(0.15), NOTES),
    grown!("250 references with targets", Some(0.15), referred),
    grown!("alias chain forwards", Some(1.0), |n| chain(n, "a")),
    grown!("alias chain backwards", Some(1.0), chain_back),
    grown!("alias chain forwards, long names", Some(1.0), |n| chain(
        n,
        "bridges-of-the-north-"
    )),
    grown!("backticks never closed", Some(0.2), |n| repeated("\\`", n)),
    grown!("one backtick, never closed, then prose", Some(0.2), |n| {
        between("`", PROSE, "", n)
    }),
    grown!("one comment of many lines", Some(0.2), |n| {
        between(".. c", "\n   further", "", n)
    }),
    grown!("comments of four lines", Some(0.2), |n| {
        repeated(".. c\n   further\n   further\n   further\n", n)
    }),
    Input {
        name: "a note read again after each appended line",
        bar: Some(0.2),
        sizes: &SIZES,
        make: day,
    },
    single!("a note of three lines", None, THREE_LINES),
    grown!("notes", None, |n| repeated(NOTES, n)),
    grown!("prose with references and targets", None, |n| {
        repeated(REFERENCES, n)
    }),
    grown!("250 embedded links", None, |n| {
        spaced("`a <u>`_ ", 1, "and words ", n)
    }),
    grown!(
        "250 references to one long destination",
        None,
        referred_again
    ),
    grown!("one word", None, |n| repeated("a", n)),
    grown!("one word of two-byte letters", None, |n| repeated("é", n)),
    grown!("words of one letter", None, |n| repeated("a ", n)),
    grown!("spaces", None, |n| repeated(" ", n)),
    grown!("LFs", None, |n| repeated("\n", n)),
    grown!("one target of many lines", None, |n| {
        between(".. _a: u", "\n   v/w", "", n)
    }),
    grown!("nested comments", None, nested),
    grown!("a backtick in each word", None, |n| repeated("a`b ", n)),
    grown!("escaped backticks, closed, no link", None, |n| {
        between("x`", "\\`", "`_", n)
    }),
    grown!("250 references between escaped backticks", None, |n| {
        spaced("\\` a_ ", 1, "\\`", n)
    }),
    grown!("250 references before '.. ' on one line", None, |n| {
        spaced("a_ .. ", 1, "words ", n)
    }),
    grown!("250 references before '__ ' on one line", None, |n| {
        let line = spaced("a_ __ ", 2, "words ", n - 2);
        [&line, &b"\\q"[..]].concat()
    }),
    grown!(
        "250 references before '.. ' with all lines behind",
        None,
        |n| { spaced("\n    a_ .. ", 1, "words ", n) }
    ),
    grown!("250 references before '.. _' of two indents", None, |n| {
        let line = repeated("a_ .. _b a_  .. _b ", n / 7);
        between(&String::from_utf8_lossy(&line), "\n     x", "", n)
    }),
    grown!("250 references before a long label", None, |n| {
        let line = repeated("a_ .. _b ", n / 50 * 7);
        let front = format!(
            "{}: `{}`_ ",
            String::from_utf8_lossy(&line),
            "x".repeat(1000)
        );
        between(&front, "words ", "\\q", n.max(front.len() + 2))
    }),
    grown!(
        "250 references before a label on the next line",
        None,
        |n| {
            let line = repeated("a_ .. _b ", n / 50 * 7);
            let front = format!("{}:\n    `x ", String::from_utf8_lossy(&line));
            between(&front, "words ", "\\q", n)
        }
    ),
];
