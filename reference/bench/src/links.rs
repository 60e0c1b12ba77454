//! All links of a document: by the proved single-link call, from place to place
//! until it answers 9, and by the Rust's `take_link` in the same way.

use compare::proved;
use driver::single::{Single, parts};
use parse_hyperlinks::parser::Link;
use parse_hyperlinks::parser::parse::take_link;

/// The two buffers of the single-link call.
pub struct Areas {
    first: Vec<u8>,
    second: Vec<u8>,
}

impl Areas {
    /// Buffers that suffice for documents of that length.
    pub fn new(len: usize) -> Areas {
        Areas {
            first: vec![0; len],
            second: vec![0; len],
        }
    }

    pub fn call(&mut self, doc: &[u8], place: usize) -> Single {
        proved::single(doc, place, &mut self.first, &mut self.second)
    }
}

/// Hands on the place of each link, its answer and its two strings.
pub fn proved_links(
    doc: &[u8],
    areas: &mut Areas,
    mut each: impl FnMut(usize, Single, &[u8], &[u8]),
) {
    let mut place = 0;
    loop {
        let link = areas.call(doc, place);
        if link.number != 0 {
            assert_eq!(link.number, 9);
            return;
        }
        place += link.skipped as usize;
        let first = &areas.first[..link.first as usize];
        let second = &areas.second[..link.second as usize];
        each(place, link, first, second);
        place += link.consumed as usize;
    }
}

/// Hands on the place of each link, the bytes consumed, and the link.
pub fn rust_links(doc: &str, mut each: impl FnMut(usize, usize, Link)) {
    let mut text = doc;
    while let Ok((rest, (skipped, link))) = take_link(text) {
        let from = &text[skipped.len()..];
        each(doc.len() - from.len(), from.len() - rest.len(), link);
        text = rest;
    }
}

/// How many links there are; both sides must give the same.
pub fn agreed(doc: &str, areas: &mut Areas) -> usize {
    let mut proved = Vec::new();
    proved_links(doc.as_bytes(), areas, |place, link, first, second| {
        let strings = (link.kind, first.to_vec(), second.to_vec());
        proved.push((place, link.consumed as usize, strings));
    });
    let mut rust = Vec::new();
    rust_links(doc, |place, consumed, link| {
        rust.push((place, consumed, parts(link)));
    });
    assert!(proved == rust, "the links differ");
    rust.len()
}
