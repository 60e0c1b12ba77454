//! Inputs for the parsers: all short ones of the alphabets that matter for a
//! parser, those near its limits, and parts of generated documents. They are of
//! the domain.

use crate::exhaustive::{BLOCKS, BYTES, INLINE, Sequences};
use crate::generate;
use crate::parsers::{
    ANONYMOUS, ANONYMOUS_LABEL, DESTINATION_TRANSFORM, DOTS_BLOCK, LABEL2DEST, LABEL2LABEL, NAMED,
    NAMED_LABEL, PARSE_ALIAS, PARSE_DESTINATION, PARSE_TEXT2LABEL, PARSERS, SIMPLE_LABEL,
    TEXT_LABEL2DEST, TEXT_TRANSFORM, TEXT2DEST, TEXT2LABEL, UNDERSCORES_BLOCK,
};
use crate::random::Random;

/// A start, a sequence of tokens, an end: in every way.
pub struct Form {
    pub kind: &'static str,
    /// The parsers that are asked, by number.
    pub parsers: &'static [u8],
    starts: &'static [&'static str],
    alphabet: &'static [&'static str],
    /// How many tokens at most.
    most: u32,
    ends: &'static [&'static str],
}

impl Form {
    fn sequences(&self) -> Sequences {
        Sequences::new(self.alphabet, self.most)
    }

    /// How many inputs there are.
    pub fn count(&self) -> u64 {
        (self.starts.len() * self.ends.len()) as u64 * self.sequences().count()
    }

    /// The input of that number, below `count`.
    pub fn get(&self, number: u64) -> Vec<u8> {
        let (starts, ends) = (self.starts.len() as u64, self.ends.len() as u64);
        let start = self.starts[(number % starts) as usize];
        let end = self.ends[(number / starts % ends) as usize];
        let middle = self.sequences().get(number / starts / ends);
        [start.as_bytes(), &middle, end.as_bytes()].concat()
    }

    pub fn iter(&self) -> impl Iterator<Item = Vec<u8>> {
        (0..self.count()).map(|number| self.get(number))
    }
}

/// The parsers of inline forms.
const INLINE_PARSERS: &[u8] = &[
    NAMED,
    NAMED_LABEL,
    ANONYMOUS,
    ANONYMOUS_LABEL,
    SIMPLE_LABEL,
    PARSE_TEXT2LABEL,
    TEXT2DEST,
    TEXT_LABEL2DEST,
    TEXT2LABEL,
];

/// The parsers of labels.
const LABEL_PARSERS: &[u8] = &[SIMPLE_LABEL, PARSE_TEXT2LABEL, TEXT2LABEL];

/// The parsers of blocks.
const BLOCK_PARSERS: &[u8] = &[DOTS_BLOCK, UNDERSCORES_BLOCK, LABEL2DEST, LABEL2LABEL];

/// The parsers of names and targets.
const TARGET_PARSERS: &[u8] = &[PARSE_DESTINATION, PARSE_ALIAS, LABEL2DEST, LABEL2LABEL];

/// What an embedded form is closed by.
const CLOSED: &[&str] = &[">`_", ">`__", ">`___", "_>`_", "_>`__"];

pub const FORMS: [Form; 11] = [
    Form {
        kind: "all of up to five bytes of the grammar",
        parsers: &PARSERS,
        starts: &[""],
        alphabet: &BYTES,
        most: 5,
        ends: &[""],
    },
    Form {
        kind: "all of up to six tokens for escapes",
        parsers: &[TEXT_TRANSFORM, DESTINATION_TRANSFORM],
        starts: &[""],
        alphabet: &[
            "\\", " ", "`", ":", "<", ">", "_", "a", "é", "\n", "\t", "\r",
        ],
        most: 6,
        ends: &[""],
    },
    Form {
        kind: "all of up to six tokens for words",
        parsers: LABEL_PARSERS,
        starts: &[""],
        alphabet: &["a", "_", "-", "é", "×", "`", " ", "\\", "<", ">"],
        most: 6,
        ends: &[""],
    },
    Form {
        kind: "a backtick and up to six tokens of inline forms",
        parsers: INLINE_PARSERS,
        starts: &["`"],
        alphabet: &INLINE,
        most: 6,
        ends: &[""],
    },
    Form {
        kind: "a backtick and up to seven bytes",
        parsers: INLINE_PARSERS,
        starts: &["`"],
        alphabet: &["`", "_", "<", ">", " ", "\\", "a"],
        most: 7,
        ends: &[""],
    },
    Form {
        kind: "up to four tokens before an angle",
        parsers: INLINE_PARSERS,
        starts: &["`"],
        alphabet: &[
            "a", " ", "\\", "_", "<", ">", "é", "\u{A0}", "\u{85}", "\u{B}", "\n", "`", ":",
        ],
        most: 4,
        ends: &["<u>`_", "<u>`__", "<u_>`_", "<u_>`__"],
    },
    Form {
        kind: "up to four tokens behind an angle",
        parsers: INLINE_PARSERS,
        starts: &["`a <", "`\\ <"],
        alphabet: &["u", "_", " ", "\\", "<", ">", "`", ":", "é", "\n", "\r"],
        most: 4,
        ends: CLOSED,
    },
    Form {
        kind: "up to six tokens of starts of blocks",
        parsers: BLOCK_PARSERS,
        starts: &[""],
        alphabet: &[".", " ", "\t", "_", ".. ", "__ ", "\n", "a"],
        most: 6,
        ends: &[""],
    },
    Form {
        kind: "a start of a block and up to five tokens of lines",
        parsers: BLOCK_PARSERS,
        starts: &[".. ", " .. ", "\t__ ", "__ ", " \t.. _a: ", ".. _a:"],
        alphabet: &["\n", "\r", "\r\n", " ", "   ", "\t", "a", "b_", "\n   "],
        most: 5,
        ends: &[""],
    },
    Form {
        kind: "up to five tokens of names and targets",
        parsers: TARGET_PARSERS,
        starts: &["_", "_a: ", ".. _", "__ ", " .. _a: "],
        alphabet: &["`", ":", " ", "_", "a", "\\", "é", ": ", "`: ", "\n   "],
        most: 5,
        ends: &[""],
    },
    Form {
        kind: "up to five tokens of blocks",
        parsers: BLOCK_PARSERS,
        starts: &[""],
        alphabet: &BLOCKS,
        most: 5,
        ends: &[""],
    },
];

/// Labels near the limit of their length, in every form that has one.
pub fn labels() -> Vec<Vec<u8>> {
    let mut list = Vec::new();
    for length in 998..=1001 {
        let odd = |token: &str| "a".repeat(length % 2) + &token.repeat(length / 2);
        let one_less = "a".repeat(length - 1) + "_";
        let labels = [
            "a".repeat(length),
            one_less,
            odd("é"),
            odd("\\:"),
            odd("\\_"),
        ];
        for l in &labels {
            list.extend([
                format!("{l}_"),
                format!("{l}__"),
                format!("{l}___ "),
                format!("`{l}`_"),
                format!("`{l}`__"),
                format!("`{l}`___"),
                format!("`x <{l}_>`_"),
                format!("`x <{l}>`_"),
                format!("`{l} <{l}>`__"),
                format!("_{l}: u"),
                format!("_`{l}`: `{l}`_"),
                format!("_x: {l}_"),
                format!(".. _{l}: u"),
                format!(".. _x: {l}_"),
                format!(".. _x: {l}__ "),
                format!(".. _x: `{l}`_"),
                format!(".. _x:\n   `{l}`_\n   y"),
                format!("__ {l}_"),
                format!("__ `{l}`_"),
            ]);
        }
    }
    list.into_iter().map(String::into_bytes).collect()
}

/// Inputs as long as the longest document, one byte less and one more.
pub fn longest() -> Vec<Vec<u8>> {
    let parts = [
        ("`", "a", "`_"),
        ("`", "\\ ", "`__"),
        ("`a <", "u", ">`_"),
        ("`", "é", " <u>`__"),
        ("`a <", "\\\\", "_>`_"),
        ("", "a", "_"),
        ("", "é", "__"),
        ("`a <u>`_", "_", ""),
        ("_", "a", ": u"),
        ("_`", "é", "`: b_"),
        (".. _a: ", "u", ""),
        (".. _a: ", "u ", "\r\n"),
        (".. _a: b_", "\\ ", ""),
        (".. _", "a", ": u"),
        (".. _a: u", "\n   v", "\r"),
        (" __ u", "\r\n    v", "\n"),
        (" ", " ", ".. _a: b_"),
        ("__ ", "\\ ", ""),
    ];
    let lengths = [16_383, 16_384, 16_385];
    let filled = |(start, token, end): (&str, &str, &str), length: usize| {
        let left = length - start.len() - end.len();
        let tokens = token.repeat(left / token.len());
        let rest = "a".repeat(left % token.len());
        format!("{start}{tokens}{rest}{end}").into_bytes()
    };
    let all = parts.into_iter();
    all.flat_map(|part| lengths.map(|length| filled(part, length)))
        .collect()
}

/// Some parts of a generated document, and damaged copies of them. Most begin
/// where a form may, and are short.
pub fn drawn(random: &mut Random) -> Vec<Vec<u8>> {
    let document = generate::document(random.draw(), true);
    let text = str::from_utf8(&document).expect("it is of the domain");
    let mut list = Vec::new();
    for _ in 0..4 {
        let start = *random.pick(&STARTS);
        let rest = &text[place_of(random, text, start)..];
        let most = match random.below(16) {
            0 => rest.len(),
            _ => rest.len().min(120),
        };
        let length = match random.below(2) {
            0 => most,
            _ => random.below(most + 1),
        };
        let part = &rest.as_bytes()[..rest.floor_char_boundary(length)];
        list.push(part.to_vec());
        list.push(generate::damaged(random, part));
    }
    list
}

/// What parts begin with; at the empty start, anywhere.
const STARTS: [&str; 12] = [
    "", "`", "`", "`", "\n", "\n", ".. ", "__ ", " ", "_", "\\", "<",
];

/// A place where the text has that start, or behind it if it is LF; or any.
fn place_of(random: &mut Random, text: &str, start: &str) -> usize {
    let near = text.floor_char_boundary(random.below(text.len() + 1));
    match text[near..].find(start) {
        Some(n) => near + n + usize::from(start == "\n"),
        None => near,
    }
}
