//! A whole document: read by the proved document call, and by the Rust's
//! `MarkupLink` run to its end.

use compare::proved;
use driver::document::{BYTES_MIN, NUMBERS_MIN, Outcome, links_of, records_of};
use parse_hyperlinks::iterator::MarkupLink;
use std::hint::black_box;

/// An output that suffices for every document, as include/rstlinks.h has it.
const OUTPUT_MAX: usize = 8_390_656;

/// What the document call is lent: the least work areas, and an output that
/// suffices. They hold other numbers and bytes before the first call, and before
/// a later one what the last call left.
pub struct Areas {
    pub numbers: Vec<u32>,
    pub bytes: Vec<u8>,
    pub output: Vec<u8>,
}

impl Areas {
    pub fn new() -> Areas {
        Areas {
            numbers: vec![0xA5A5_A5A5; NUMBERS_MIN],
            bytes: vec![0xA5; BYTES_MIN],
            output: vec![0xA5; OUTPUT_MAX],
        }
    }

    pub fn call(&mut self, doc: &[u8]) -> Outcome {
        proved::document(doc, 0, &mut self.numbers, &mut self.bytes, &mut self.output)
    }
}

/// The Rust's links, each dropped as it comes.
pub fn rust(text: &str) {
    for link in MarkupLink::new(text, false) {
        black_box(link);
    }
}

/// The document as the Rust takes it.
pub fn text(doc: &[u8]) -> &str {
    str::from_utf8(doc).expect("the domain is UTF-8")
}

/// How many links there are; the document must be accepted, and both sides must
/// give the same records.
pub fn agreed(doc: &[u8], areas: &mut Areas) -> usize {
    let outcome = areas.call(doc);
    assert_eq!(outcome.number, 0, "refused");
    let records = records_of(&links_of(text(doc), false));
    assert!(
        areas.output[..outcome.bytes as usize] == records,
        "the links differ"
    );
    outcome.links as usize
}
