//! The single-link call: the first link that `take_link` finds from a place.

use crate::document::DOCUMENT_MAX;
use crate::pieces::first_bad;
use parse_hyperlinks::parser::Link;
use parse_hyperlinks::parser::parse::take_link;

/// What the single-link call returns. Refused, only `number` and `bytes` can be
/// other than 0. `first` and `second` are the strings' lengths.
#[derive(Clone, Copy, Debug, Default, PartialEq)]
pub struct Single {
    pub number: u32,
    pub bytes: u32,
    pub kind: u32,
    pub skipped: u32,
    pub consumed: u32,
    pub first: u32,
    pub second: u32,
}

impl Single {
    fn refused(number: u32, bytes: usize) -> Single {
        Single {
            number,
            bytes: bytes as u32,
            ..Single::default()
        }
    }
}

/// 01's five cases, numbered from 1.
pub const KINDS: [&str; 5] = [
    "Text2Dest",
    "TextLabel2Dest",
    "Text2Label",
    "Label2Dest",
    "Label2Label",
];

/// A link's kind and its two strings, `_` unnumbered.
pub fn parts(link: Link<'_>) -> (u32, Vec<u8>, Vec<u8>) {
    let (kind, first, second) = match link {
        Link::Text2Dest(text, destination, _) => (1, text, destination),
        Link::TextLabel2Dest(text, destination, _) => (2, text, destination),
        Link::Text2Label(text, label) => (3, text, label),
        Link::Label2Dest(name, destination, _) => (4, name, destination),
        Link::Label2Label(name, target) => (5, name, target),
        _ => unreachable!("no image is read in RST"),
    };
    (
        kind,
        first.into_owned().into_bytes(),
        second.into_owned().into_bytes(),
    )
}

/// The single-link call: 2, 4, 8, 9, then 7 for the first string and the second.
pub fn take_link_at(doc: &[u8], place: usize, first: &mut [u8], second: &mut [u8]) -> Single {
    if doc.len() > DOCUMENT_MAX {
        return Single::refused(2, 0);
    }
    if let Some(bad) = first_bad(doc) {
        return Single::refused(4, bad);
    }
    let text = str::from_utf8(doc).expect("the domain is UTF-8");
    let Some(part) = text.get(place..) else {
        return Single::refused(8, 0);
    };
    let Ok((rest, (skipped, link))) = take_link(part) else {
        return Single::refused(9, 0);
    };
    let (kind, first_string, second_string) = parts(link);
    if first.len() < first_string.len() {
        return Single::refused(7, first_string.len());
    }
    if second.len() < second_string.len() {
        return Single::refused(7, second_string.len());
    }
    first[..first_string.len()].copy_from_slice(&first_string);
    second[..second_string.len()].copy_from_slice(&second_string);
    Single {
        number: 0,
        bytes: 0,
        kind,
        skipped: skipped.len() as u32,
        consumed: (part.len() - skipped.len() - rest.len()) as u32,
        first: first_string.len() as u32,
        second: second_string.len() as u32,
    }
}
