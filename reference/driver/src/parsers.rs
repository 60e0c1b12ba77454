//! The parsers of restructured_text.rs by number, answering plain values: two
//! parts or strings, and the bytes consumed. Their input must be of the domain.

use nom::IResult;
use parse_hyperlinks_visible::parser::restructured_text as rst;
use std::borrow::Cow;

/// The parsers' numbers: first those that give raw parts, which stand in their
/// input.
pub const NAMED: u8 = 1;
pub const NAMED_LABEL: u8 = 2;
pub const ANONYMOUS: u8 = 3;
pub const ANONYMOUS_LABEL: u8 = 4;
pub const SIMPLE_LABEL: u8 = 5;
pub const PARSE_TEXT2LABEL: u8 = 6;
pub const PARSE_DESTINATION: u8 = 7;
pub const PARSE_ALIAS: u8 = 8;

/// Those that are lent a scratch, in which their strings stand.
pub const TEXT_TRANSFORM: u8 = 9;
pub const DESTINATION_TRANSFORM: u8 = 10;
pub const DOTS_BLOCK: u8 = 11;
pub const UNDERSCORES_BLOCK: u8 = 12;
pub const TEXT2DEST: u8 = 13;
pub const TEXT_LABEL2DEST: u8 = 14;
pub const TEXT2LABEL: u8 = 15;
pub const LABEL2DEST: u8 = 16;
pub const LABEL2LABEL: u8 = 17;

/// All numbers, in order.
pub const PARSERS: [u8; 17] = [
    NAMED,
    NAMED_LABEL,
    ANONYMOUS,
    ANONYMOUS_LABEL,
    SIMPLE_LABEL,
    PARSE_TEXT2LABEL,
    PARSE_DESTINATION,
    PARSE_ALIAS,
    TEXT_TRANSFORM,
    DESTINATION_TRANSFORM,
    DOTS_BLOCK,
    UNDERSCORES_BLOCK,
    TEXT2DEST,
    TEXT_LABEL2DEST,
    TEXT2LABEL,
    LABEL2DEST,
    LABEL2LABEL,
];

/// Whether a parser is lent a scratch.
pub fn has_scratch(number: u8) -> bool {
    number >= TEXT_TRANSFORM
}

/// The name of the parser with that number.
pub fn name(number: u8) -> &'static str {
    match number {
        NAMED => "text2target, named, destination",
        NAMED_LABEL => "text2target, named, label",
        ANONYMOUS => "text2target, anonymous, destination",
        ANONYMOUS_LABEL => "text2target, anonymous, label",
        SIMPLE_LABEL => "simple label",
        PARSE_TEXT2LABEL => "rst_parse_text2label",
        PARSE_DESTINATION => "rst_parse_label2target, destination",
        PARSE_ALIAS => "rst_parse_label2target, label",
        TEXT_TRANSFORM => "text transform",
        DESTINATION_TRANSFORM => "destination transform",
        DOTS_BLOCK => "block with two dots",
        UNDERSCORES_BLOCK => "block with two underscores",
        TEXT2DEST => "rst_text2dest",
        TEXT_LABEL2DEST => "rst_text_label2dest",
        TEXT2LABEL => "rst_text2label",
        LABEL2DEST => "rst_label2dest",
        LABEL2LABEL => "rst_label2label",
        _ => unreachable!("no such parser"),
    }
}

/// What a parser answers. One that gives a single part or string gives it as the
/// first, and an empty second.
#[derive(Clone, Debug, PartialEq)]
pub enum Parsed<'a> {
    Found {
        first: Cow<'a, [u8]>,
        second: Cow<'a, [u8]>,
        consumed: usize,
    },
    Refused,
    /// The scratch is shorter than the input.
    NoRoom,
}

/// The answer of the parser with that number, with a scratch of that length.
pub fn parser(number: u8, input: &[u8], scratch: usize) -> Parsed<'_> {
    if has_scratch(number) && scratch < input.len() {
        return Parsed::NoRoom;
    }
    let s = str::from_utf8(input).expect("the input is of the domain");
    match number {
        NAMED => two(s, rst::rst_parse_text2target(false, false)(s)),
        NAMED_LABEL => two(s, rst::rst_parse_text2target(false, true)(s)),
        ANONYMOUS => two(s, rst::rst_parse_text2target(true, false)(s)),
        ANONYMOUS_LABEL => two(s, rst::rst_parse_text2target(true, true)(s)),
        SIMPLE_LABEL => one(s, rst::rst_parse_simple_label(s)),
        PARSE_TEXT2LABEL => two(s, rst::rst_parse_text2label(s)),
        PARSE_DESTINATION => two(s, rst::rst_parse_label2target(false)(s)),
        PARSE_ALIAS => two(s, rst::rst_parse_label2target(true)(s)),
        TEXT_TRANSFORM => one(s, rst::rst_escaped_link_text_transform(s)),
        DESTINATION_TRANSFORM => one(s, rst::rst_escaped_link_destination_transform(s)),
        DOTS_BLOCK => one(s, rst::rst_explicit_markup_block(".. ")(s)),
        UNDERSCORES_BLOCK => one(s, rst::rst_explicit_markup_block("__ ")(s)),
        TEXT2DEST => titled(s, rst::rst_text2dest(s)),
        TEXT_LABEL2DEST => titled(s, rst::rst_text_label2dest(s)),
        TEXT2LABEL => two(s, rst::rst_text2label(s)),
        LABEL2DEST => titled(s, rst::rst_label2dest(s)),
        LABEL2LABEL => two(s, rst::rst_label2label(s)),
        _ => unreachable!("no such parser"),
    }
}

fn bytes<'a>(text: impl Into<Cow<'a, str>>) -> Cow<'a, [u8]> {
    match text.into() {
        Cow::Borrowed(text) => Cow::Borrowed(text.as_bytes()),
        Cow::Owned(text) => Cow::Owned(text.into_bytes()),
    }
}

fn one<'a, T: Into<Cow<'a, str>>>(s: &'a str, answer: IResult<&'a str, T>) -> Parsed<'a> {
    two(
        s,
        answer.map(|(rest, text)| (rest, (text.into(), Cow::Borrowed("")))),
    )
}

fn two<'a, T, U>(s: &'a str, answer: IResult<&'a str, (T, U)>) -> Parsed<'a>
where
    T: Into<Cow<'a, str>>,
    U: Into<Cow<'a, str>>,
{
    match answer {
        Ok((rest, (first, second))) => Parsed::Found {
            first: bytes(first),
            second: bytes(second),
            consumed: s.len() - rest.len(),
        },
        Err(_) => Parsed::Refused,
    }
}

/// Two strings and a title, which is always empty.
type Titled<'a> = (Cow<'a, str>, Cow<'a, str>, Cow<'a, str>);

fn titled<'a>(s: &'a str, answer: IResult<&'a str, Titled<'a>>) -> Parsed<'a> {
    let untitled = |(rest, (first, second, title)): (&'a str, Titled<'a>)| {
        assert!(title.is_empty(), "RST has no titles");
        (rest, (first, second))
    };
    two(s, answer.map(untitled))
}
