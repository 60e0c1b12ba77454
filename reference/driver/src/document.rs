//! The document call: 01's table of refusals in its order, then the links of
//! `MarkupLink` run to its end, written as records.

use crate::pieces::first_bad;
use parse_hyperlinks::iterator::MarkupLink;
use parse_hyperlinks::parser::Link;
use parse_hyperlinks::parser::parse::take_link;

pub const DOCUMENT_MAX: usize = 16_384;
pub const NUMBERS_MIN: usize = 4_096;
pub const BYTES_MIN: usize = 49_152;
pub const LINKS_MAX: usize = 256;
pub const DEFINITIONS_MAX: usize = 256;

/// Bytes of a record before its text.
const RECORD_HEAD: usize = 8;

/// What the document call returns. `number` is 0 where it accepts.
#[derive(Clone, Copy, Debug, Default, PartialEq)]
pub struct Outcome {
    pub number: u32,
    pub links: u32,
    pub bytes: u32,
}

impl Outcome {
    fn refused(number: u32, bytes: usize) -> Outcome {
        Outcome {
            number,
            links: 0,
            bytes: bytes as u32,
        }
    }
}

/// A link of the document: its place, its consumed bytes, and the two strings
/// that its record holds.
#[derive(Clone, Debug, PartialEq)]
pub struct Shown {
    pub place: usize,
    pub consumed: usize,
    pub text: Vec<u8>,
    pub destination: Vec<u8>,
}

/// The document call. The work areas are known by their lengths alone.
pub fn document(
    doc: &[u8],
    render: u32,
    numbers_len: usize,
    bytes_len: usize,
    output: &mut [u8],
) -> Outcome {
    if render > 1 {
        return Outcome::refused(1, 0);
    }
    if doc.len() > DOCUMENT_MAX {
        return Outcome::refused(2, 0);
    }
    if numbers_len < NUMBERS_MIN || bytes_len < BYTES_MIN {
        return Outcome::refused(3, 0);
    }
    if let Some(place) = first_bad(doc) {
        return Outcome::refused(4, place);
    }
    let text = str::from_utf8(doc).expect("the domain is UTF-8");
    if let Some(number) = too_many(text, render == 1) {
        return Outcome::refused(number, 0);
    }
    let links = links_of(text, render == 1);
    let records = records_of(&links);
    if output.len() < records.len() {
        return Outcome::refused(7, records.len());
    }
    output[..records.len()].copy_from_slice(&records);
    Outcome {
        number: 0,
        links: links.len() as u32,
        bytes: records.len() as u32,
    }
}

/// 5 where a 257th link is collected, 6 where a 257th definition is; whichever
/// reading meets first, 5 where one link meets both.
fn too_many(text: &str, render: bool) -> Option<u32> {
    let mut links = 0;
    let mut definitions = 0;
    let mut rest = text;
    while let Ok((after, (_, link))) = take_link(rest) {
        let (is_link, is_definition) = match link {
            Link::Text2Dest(..) | Link::Text2Label(..) => (true, false),
            Link::TextLabel2Dest(..) => (true, true),
            Link::Label2Dest(..) => (render, true),
            _ => (false, true),
        };
        links += usize::from(is_link);
        definitions += usize::from(is_definition);
        if links > LINKS_MAX {
            return Some(5);
        }
        if definitions > DEFINITIONS_MAX {
            return Some(6);
        }
        rest = after;
    }
    None
}

/// The links of `MarkupLink`, run to its end.
pub fn links_of(text: &str, render: bool) -> Vec<Shown> {
    MarkupLink::new(text, render)
        .map(|((_, consumed, _), link)| {
            let Link::Text2Dest(shown, destination, _) = link else {
                unreachable!("MarkupLink gives resolved links only");
            };
            Shown {
                place: consumed.as_ptr() as usize - text.as_ptr() as usize,
                consumed: consumed.len(),
                text: shown.into_owned().into_bytes(),
                destination: destination.into_owned().into_bytes(),
            }
        })
        .collect()
}

/// 01's records: four fields of 15 bits, four zero bits, text, destination.
pub fn records_of(links: &[Shown]) -> Vec<u8> {
    let mut records = Vec::new();
    let mut end = 0;
    for link in links {
        let head = (link.place - end) << 49
            | link.consumed << 34
            | link.text.len() << 19
            | link.destination.len() << 4;
        records.extend((head as u64).to_be_bytes());
        records.extend(&link.text);
        records.extend(&link.destination);
        end = link.place + link.consumed;
    }
    records
}

/// The links that records hold, as `records_of` writes them.
pub fn links_in(records: &[u8]) -> Vec<Shown> {
    let mut links = Vec::new();
    let mut rest = records;
    let mut end = 0;
    while let Some((head, strings)) = rest.split_first_chunk::<RECORD_HEAD>() {
        let head = u64::from_be_bytes(*head) as usize;
        let field = |shift: usize| head >> shift & 0x7FFF;
        let (text, strings) = strings.split_at(field(19));
        let (destination, after) = strings.split_at(field(4));
        links.push(Shown {
            place: end + field(49),
            consumed: field(34),
            text: text.to_vec(),
            destination: destination.to_vec(),
        });
        end += field(49) + field(34);
        rest = after;
    }
    links
}
