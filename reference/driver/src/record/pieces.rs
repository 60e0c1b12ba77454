//! `pieces.bin`: answers of the bytes layer on short inputs.

use super::{File, SEED};
use crate::exhaustive::Sequences;
use crate::random::Random;
use crate::{pieces, recorded};

/// What a piece is asked.
struct Asked {
    op: u8,
    parameter: u8,
    input: Vec<u8>,
}

/// `pieces.bin`.
pub fn pieces_file() -> File {
    let mut asked = Vec::new();
    for scalar in 0..pieces::SCALARS {
        let input = encoded(scalar);
        ask(&mut asked, 3, 0, &input);
        ask(&mut asked, 5, 0, &[b"a", input.as_slice()].concat());
    }
    for input in raw_inputs() {
        ask(&mut asked, 1, 0, &input);
        ask(&mut asked, 2, (input.len() / 2) as u8, &input);
        ask(&mut asked, 2, 0, &input);
    }
    for input in text_inputs() {
        for op in pieces::TEXT_PIECES {
            ask(&mut asked, op, 0, &input);
        }
    }
    for input in escape_inputs() {
        for stop_set in 0..pieces::STOP_SET_COUNT {
            ask(&mut asked, 6, stop_set as u8, &input);
        }
    }
    for (tag, input) in tag_inputs() {
        ask(&mut asked, 13, tag as u8, &input);
    }
    let chunks = asked.iter().map(piece_chunk).collect();
    File::counted(asked.len(), chunks, recorded::piece_chunks)
}

fn ask(asked: &mut Vec<Asked>, op: u8, parameter: u8, input: &[u8]) {
    asked.push(Asked {
        op,
        parameter,
        input: input.to_vec(),
    });
}

fn piece_chunk(asked: &Asked) -> Vec<u8> {
    let mut chunk = vec![asked.op, asked.parameter];
    chunk.extend((asked.input.len() as u16).to_be_bytes());
    chunk.extend(&asked.input);
    let answer = pieces::piece(asked.op, usize::from(asked.parameter), &asked.input);
    chunk.push(u8::from(answer.is_some()));
    let (value, second) = answer.unwrap_or((0, 0));
    chunk.extend((value as u16).to_be_bytes());
    chunk.extend(second.to_be_bytes());
    chunk
}

fn encoded(scalar: u32) -> Vec<u8> {
    let c = char::from_u32(scalar).expect("a scalar");
    c.to_string().into_bytes()
}

/// Bytes in and out of the domain: every byte alone and behind a letter, and
/// seconds around their limits behind every first byte that may have one.
fn raw_inputs() -> Vec<Vec<u8>> {
    let mut list = vec![vec![]];
    for first in 0..=255 {
        list.push(vec![first]);
    }
    for first in 0xBF..=0xCB {
        for second in [0x00, 0x41, 0x7F, 0x80, 0x8F, 0x90, 0xBF, 0xC0, 0xC2, 0xFF] {
            list.push(vec![b'a', first, second, b'b']);
        }
    }
    let mut random = Random::new(SEED);
    for _ in 0..300 {
        let length = random.below(8);
        let byte = |_| *random.pick(b"az\x7F\x80\x8F\x90\xBF\xC1\xC2\xC3\xC8\xC9\xCA\xE2\xFF");
        list.push((0..length).map(byte).collect());
    }
    list
}

/// Texts for words, blanks and line ends.
fn text_inputs() -> Vec<Vec<u8>> {
    let mut list: Vec<Vec<u8>> = Sequences::new(TEXT, 3).iter().collect();
    let mut random = Random::new(SEED + 1);
    for _ in 0..120 {
        let length = random.below(14);
        let token = |_| *random.pick(TEXT);
        list.push((0..length).map(token).collect::<String>().into_bytes());
    }
    list
}

/// The alphabet of `text_inputs`.
const TEXT: &[&str] = &["a", "_", " ", "\t", "\r", "\n", "é", "\u{A0}"];

/// The alphabet of `escape_inputs`.
const ESCAPES: &[&str] = &["\\", "`", "<", ">", ":", " ", "\n", "a"];

/// Texts for `escaped`: all short ones, and longer ones with more escapes.
fn escape_inputs() -> Vec<Vec<u8>> {
    let mut list: Vec<Vec<u8>> = Sequences::new(ESCAPES, 3).iter().collect();
    let mut random = Random::new(SEED + 2);
    for _ in 0..200 {
        let length = 1 + random.below(9);
        let token = |_| {
            *random.pick(&[
                "a", "b", "é", "\\ ", "\\`", "\\:", "\\<", "\\>", "\\_", "\\\\", "\\a", "\\é",
                "\\", "`", "<", ">", ":", "_", " ", "\t", "\r", "\n",
            ])
        };
        list.push((0..length).map(token).collect::<String>().into_bytes());
    }
    list
}

/// Texts for `tag`, with its length: each that the parsers ask for, before
/// itself, before others, and before a part of itself.
fn tag_inputs() -> Vec<(usize, Vec<u8>)> {
    let tags = [
        "", "`", "`_", "`__", "_`", "`: ", "_", ": ", "<", ">", ".. ", "__ ", "   ", "é",
    ];
    let mut list = Vec::new();
    for tag in tags {
        for behind in tags {
            list.push((tag.len(), [tag, behind].concat().into_bytes()));
            list.push((tag.len(), [tag, tag, behind].concat().into_bytes()));
        }
    }
    list
}
