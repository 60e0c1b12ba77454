//! The pieces of the bytes layer, answering plain values. Where a piece needs
//! characters, its input must be of the domain.

use nom::bytes::complete as bytes;
use nom::character::complete as character;
use nom::{IResult, Parser};

/// The code point after the domain's last.
pub const SCALARS: u32 = 0x250;

/// 01's ESCAPABLE.
const ESCAPABLE: &str = " `:<>_\\";

/// The stop sets of `escaped` as its uses have them; a recorded answer names
/// them by number.
const STOP_SETS: [&str; 4] = ["`\\", "<\\", "<>\\", ":\\"];

/// How many stop sets there are.
pub const STOP_SET_COUNT: usize = STOP_SETS.len();

/// The length and code point of the domain's character that starts at `place`.
pub fn character_at(doc: &[u8], place: usize) -> Option<(usize, u32)> {
    let first = *doc.get(place)?;
    if first < 0x80 {
        return Some((1, u32::from(first)));
    }
    let second = *doc.get(place + 1)?;
    let last_second = match first {
        0xC2..=0xC8 => 0xBF,
        0xC9 => 0x8F,
        _ => return None,
    };
    if (0x80..=last_second).contains(&second) {
        Some((2, u32::from(first & 0x1F) << 6 | u32::from(second & 0x3F)))
    } else {
        None
    }
}

/// Read character by character, the first place where none of the domain starts.
pub fn first_bad(doc: &[u8]) -> Option<usize> {
    let mut place = 0;
    while place < doc.len() {
        match character_at(doc, place) {
            Some((length, _)) => place += length,
            None => return Some(place),
        }
    }
    None
}

/// Whether a scalar is a word character, as the simple label has it.
pub fn is_word(scalar: u32) -> bool {
    char::from_u32(scalar).is_some_and(is_word_char)
}

fn is_word_char(c: char) -> bool {
    c.is_alphanumeric() || c == '-' || c == '_'
}

fn text(s: &[u8]) -> &str {
    str::from_utf8(s).expect("the input is of the domain")
}

/// The bytes of the word characters at the front.
pub fn word_run(s: &[u8]) -> usize {
    read(s, bytes::take_till(|c| !is_word_char(c))).expect("take_till never refuses")
}

/// The length of the part that `trim_end` keeps.
pub fn trim_end(s: &[u8]) -> usize {
    text(s).trim_end().len()
}

/// The bytes that a parser reads, if it does.
fn read<'a, O>(
    s: &'a [u8],
    mut parser: impl FnMut(&'a str) -> IResult<&'a str, O>,
) -> Option<usize> {
    let (rest, _) = parser.parse(text(s)).ok()?;
    Some(s.len() - rest.len())
}

/// `escaped` with the stop set of that number, from 0.
pub fn escaped(s: &[u8], stop_set: usize) -> Option<usize> {
    let normal = character::none_of(STOP_SETS[stop_set]);
    read(
        s,
        bytes::escaped(normal, '\\', character::one_of(ESCAPABLE)),
    )
}

pub fn newline(s: &[u8]) -> Option<usize> {
    read(s, character::newline)
}

pub fn line_ending(s: &[u8]) -> Option<usize> {
    read(s, character::line_ending)
}

pub fn not_line_ending(s: &[u8]) -> Option<usize> {
    read(s, character::not_line_ending)
}

pub fn space0(s: &[u8]) -> Option<usize> {
    read(s, character::space0)
}

pub fn space1(s: &[u8]) -> Option<usize> {
    read(s, character::space1)
}

pub fn multispace0(s: &[u8]) -> Option<usize> {
    read(s, character::multispace0)
}

/// `tag`: whether the text behind `place` begins with the text before it.
pub fn tag(s: &[u8], place: usize) -> Option<usize> {
    let (front, rest) = text(s).split_at_checked(place)?;
    read(rest.as_bytes(), bytes::tag(front))
}

/// A piece's answer: none, or a value, and of a character its code point.
pub type Answer = Option<(usize, u32)>;

/// The pieces that take a text of the domain and no parameter.
pub const TEXT_PIECES: [u8; 8] = [4, 5, 7, 8, 9, 10, 11, 12];

/// The answer of the piece with that number, as the recorded answers have it.
pub fn piece(number: u8, parameter: usize, input: &[u8]) -> Answer {
    let plain = |value: usize| (value, 0);
    match number {
        1 => first_bad(input).map(plain),
        2 => character_at(input, parameter),
        3 => {
            let (_, scalar) = character_at(input, 0)?;
            is_word(scalar).then_some((0, 0))
        }
        4 => Some(plain(word_run(input))),
        5 => Some(plain(trim_end(input))),
        6 => escaped(input, parameter).map(plain),
        7 => newline(input).map(plain),
        8 => line_ending(input).map(plain),
        9 => not_line_ending(input).map(plain),
        10 => space0(input).map(plain),
        11 => space1(input).map(plain),
        12 => multispace0(input).map(plain),
        13 => tag(input, parameter).map(plain),
        _ => unreachable!("no such piece"),
    }
}
