//! Inputs for the pieces: all short ones, the longest, and drawn ones.

use driver::exhaustive::{self, Sequences};
use driver::generate;
use driver::random::Random;

/// Texts for words, blanks and line ends: characters of one and two bytes that
/// are word characters, blanks, both ends of the domain's second bytes.
const TEXT: &[&str] = &[
    "a", "_", " ", "\t", "\r", "\n", "\u{B}", "é", "×", "\u{80}", "\u{85}", "\u{A0}", "\u{24F}",
];

/// Texts for `escaped`.
const ESCAPES: &[&str] = &["\\", "`", "<", ">", ":", "_", " ", "\n", "a", "é"];

/// Alphabets, and how many tokens at most.
pub const ALPHABETS: [(&str, &[&str], u32); 4] = [
    ("all of up to five tokens for words and lines", TEXT, 5),
    ("all of up to six tokens for escapes", ESCAPES, 6),
    (
        "all of up to five bytes of the grammar",
        &exhaustive::BYTES,
        5,
    ),
    ("all of up to four tokens of blocks", &exhaustive::BLOCKS, 4),
];

pub fn sequences(
    alphabet: &'static [&'static str],
    most: u32,
) -> impl Iterator<Item = Vec<u8>> + Clone {
    let sequences = Sequences::new(alphabet, most);
    (0..sequences.count()).map(move |number| Sequences::new(alphabet, most).get(number))
}

pub fn short_bytes() -> impl Iterator<Item = Vec<u8>> + Clone {
    let one = (0..=255u8).map(|a| vec![a]);
    let two = (0..=0xFFFFu16).map(|n| n.to_be_bytes().to_vec());
    std::iter::once(vec![]).chain(one).chain(two)
}

/// Bytes at which the domain's rules change.
const LIMITS: [u8; 14] = [
    0x00, 0x41, 0x7F, 0x80, 0x8F, 0x90, 0xBF, 0xC0, 0xC1, 0xC2, 0xC8, 0xC9, 0xCA, 0xFF,
];

pub fn limit_bytes() -> impl Iterator<Item = Vec<u8>> + Clone {
    let size = LIMITS.len();
    (0..size.pow(5)).map(move |n| {
        (0..5)
            .map(|place| LIMITS[n / size.pow(place) % size])
            .collect()
    })
}

/// The greatest length, one less and one more, of one token each.
pub fn longest() -> impl Iterator<Item = Vec<u8>> + Clone {
    const TOKENS: [&str; 8] = ["a", "é", " ", "\u{A0}", "\\ ", "`", "\r\n", "a\n"];
    let lengths = [16_383, 16_384, 16_385];
    TOKENS.iter().flat_map(move |token| {
        lengths.into_iter().map(move |length| {
            let whole = token.repeat(length / token.len());
            let left = length - whole.len();
            [whole.as_bytes(), "a".repeat(left).as_bytes()].concat()
        })
    })
}

/// Bytes in and out of the domain.
pub fn drawn_bytes(random: &mut Random) -> Vec<u8> {
    let length = random.below(12);
    let mut byte = |_| match random.below(3) {
        0 => random.draw() as u8,
        1 => *random.pick(&LIMITS),
        _ => b'a',
    };
    (0..length).map(&mut byte).collect()
}

/// A part of a generated document of the domain, from one character to another.
pub fn drawn_text(random: &mut Random) -> Vec<u8> {
    let document = generate::document(random.draw(), true);
    let text = str::from_utf8(&document).expect("it is of the domain");
    let mut places: Vec<usize> = text.char_indices().map(|(place, _)| place).collect();
    places.push(text.len());
    let from = *random.pick(&places);
    let rest: Vec<usize> = places.into_iter().filter(|place| *place >= from).collect();
    document[from..*random.pick(&rest)].to_vec()
}
