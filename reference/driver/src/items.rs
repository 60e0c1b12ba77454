//! The links of a text as they are collected: in reading order, with the names
//! and labels `_` numbered.

use crate::single::parts;
use parse_hyperlinks::parser::parse::take_link;

/// A link as it is collected. `kind` is 1 to 5, as the single-link call counts.
#[derive(Clone, Debug, PartialEq)]
pub struct Item {
    pub kind: u32,
    pub place: usize,
    pub first: Vec<u8>,
    pub second: Vec<u8>,
    /// Whether its name or label was `_`, and is now a number.
    pub is_numbered: bool,
}

/// 01: "references labelled `_` become `_1`, `_2`, ..; blocks named `_` are
/// numbered likewise by a second counter shared by aliases and destinations."
pub fn items_of(text: &str) -> Vec<Item> {
    let (mut references, mut blocks) = (0, 0);
    let mut items = Vec::new();
    let mut rest = text;
    while let Ok((after, (skipped, link))) = take_link(rest) {
        let place = text.len() - rest.len() + skipped.len();
        let (kind, mut first, mut second) = parts(link);
        let is_numbered = match kind {
            3 => number(&mut second, &mut references),
            4 | 5 => number(&mut first, &mut blocks),
            _ => false,
        };
        items.push(Item {
            kind,
            place,
            first,
            second,
            is_numbered,
        });
        rest = after;
    }
    items
}

/// Numbers the name `_`, and says whether it was.
fn number(name: &mut Vec<u8>, count: &mut u32) -> bool {
    let is_anonymous = name == b"_";
    if is_anonymous {
        *count += 1;
        *name = format!("_{count}").into_bytes();
    }
    is_anonymous
}
