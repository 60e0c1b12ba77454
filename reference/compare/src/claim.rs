//! The claim about appended tails, asked of two documents:
//!
//! "Take any two accepted documents read with the same option, whatever output
//! and work areas each call was lent, the second being the first, one line feed
//! and a tail. From the links of the second leave out those that start in the
//! tail and the references that the first left unresolved. What remains is
//! exactly the list of the first's links: as many, in the same order, each alike
//! in place, consumed part, text and destination. Premises: the first does not
//! end in a carriage return; the tail holds no backtick and begins with neither
//! space nor tab; the second defines no name twice."
//!
//! The links are those that the records of the proved call hold; the names
//! defined and the references left unresolved are the Rust's.

use crate::document::{Garbage, some};
use compare::proved;
use driver::document::{BYTES_MIN, NUMBERS_MIN, Outcome, Shown};
use driver::items::{Item, items_of};
use driver::names::{Names, names_of};

/// What a call gives: a refusal; the links that its records hold; or neither,
/// where they are not so many records, or the output that it named as long enough
/// is not.
pub enum Links {
    Refused,
    Held(Vec<Shown>),
    Garbled,
}

/// An accepted document: the links that its records hold, by option; what it
/// collects, and its names.
pub struct Read {
    pub doc: Vec<u8>,
    pub links: [Links; 2],
    pub items: Vec<Item>,
    pub names: Names,
}

impl Read {
    /// The tail of a second document of which this is the first.
    pub fn tail_of<'a>(&self, second: &'a Read) -> &'a [u8] {
        &second.doc[self.doc.len() + 1..]
    }

    /// Its links, with the blocks among them where that is accepted.
    pub fn shown(&self) -> &[Shown] {
        match &self.links {
            [_, Links::Held(links)] | [Links::Held(links), _] => links,
            _ => &[],
        }
    }
}

/// The document calls, each with areas of its own.
pub struct Reader<'a> {
    garbage: &'a Garbage,
    turn: usize,
}

impl Reader<'_> {
    pub fn new(garbage: &Garbage) -> Reader<'_> {
        Reader { garbage, turn: 0 }
    }

    /// A call with an output of that length, and what stands there after it. The
    /// areas hold garbage before it.
    fn call(&mut self, doc: &[u8], render: u32, length: usize) -> (Outcome, Vec<u8>) {
        self.turn += 1;
        let more = self.turn % 97;
        let mut numbers = some(&self.garbage.numbers, self.turn, NUMBERS_MIN + more).to_vec();
        let mut bytes = some(&self.garbage.bytes, self.turn, BYTES_MIN + 97 - more).to_vec();
        let mut output = vec![self.turn as u8; length];
        let outcome = proved::document(doc, render, &mut numbers, &mut bytes, &mut output);
        (outcome, output)
    }

    /// The links of a document, by a call with an output that just suffices or one
    /// that is longer.
    fn links(&mut self, doc: &[u8], render: u32) -> Links {
        let is_exact = self.turn.is_multiple_of(3);
        let more = if is_exact { 0 } else { 1_000 + self.turn % 997 };
        let (mut outcome, mut output) = self.call(doc, render, more);
        if outcome.number == 7 {
            let length = outcome.bytes as usize + more;
            (outcome, output) = self.call(doc, render, length);
        }
        match (outcome.number, output.get(..outcome.bytes as usize)) {
            (0, Some(records)) => held(records, outcome.links),
            (0 | 7, _) => Links::Garbled,
            _ => Links::Refused,
        }
    }

    /// A document that is accepted with one of the options.
    pub fn read(&mut self, doc: Vec<u8>) -> Option<Read> {
        let links = [self.links(&doc, 0), self.links(&doc, 1)];
        if let [Links::Refused, Links::Refused] = links {
            return None;
        }
        let text = str::from_utf8(&doc).expect("an accepted document is of the domain");
        Some(Read {
            items: items_of(text),
            names: names_of(text),
            links,
            doc,
        })
    }

    /// The first, one line feed and the tail.
    pub fn appended(&mut self, first: &[u8], tail: &[u8]) -> Option<Read> {
        self.read([first, b"\n", tail].concat())
    }
}

/// The links that records hold, where they are so many.
fn held(records: &[u8], count: u32) -> Links {
    match decoded(records) {
        Some(links) if links.len() == count as usize => Links::Held(links),
        _ => Links::Garbled,
    }
}

/// The links that records hold, where they are records to their end.
fn decoded(records: &[u8]) -> Option<Vec<Shown>> {
    let mut links = Vec::new();
    let mut rest = records;
    let mut end = 0;
    while !rest.is_empty() {
        let (head, strings) = rest.split_first_chunk::<8>()?;
        let head = u64::from_be_bytes(*head) as usize;
        let [skipped, consumed, text, destination] = [49, 34, 19, 4].map(|n| head >> n & 0x7FFF);
        let (text, strings) = strings.split_at_checked(text)?;
        let (destination, after) = strings.split_at_checked(destination)?;
        if head & 0xF != 0 {
            return None;
        }
        links.push(Shown {
            place: end + skipped,
            consumed,
            text: text.to_vec(),
            destination: destination.to_vec(),
        });
        end += skipped + consumed;
        rest = after;
    }
    Some(links)
}

/// The links of the second without those that start in the tail and the
/// references that the first left unresolved.
pub fn remaining<'a>(first: &Read, links: &'a [Shown]) -> Vec<&'a Shown> {
    let is_left_out = |link: &&Shown| {
        link.place > first.doc.len() || first.names.unresolved.contains(&link.place)
    };
    links.iter().filter(|link| !is_left_out(link)).collect()
}

/// Whether the conclusion holds with an option; nothing where a call refuses.
pub fn conclusion(first: &Read, second: &Read, render: usize) -> Option<bool> {
    match (&first.links[render], &second.links[render]) {
        (Links::Refused, _) | (_, Links::Refused) => None,
        (Links::Held(before), Links::Held(after)) => {
            Some(remaining(first, after).into_iter().eq(before))
        }
        _ => Some(false),
    }
}

/// Which premises a pair meets: all of them; all but one, by what it does; or
/// fewer.
#[derive(Clone, Copy, PartialEq)]
pub enum Premises {
    Met,
    EndsInReturn,
    HoldsBacktick,
    BeginsWithSpace,
    BeginsWithTab,
    DefinesTwice,
    BreaksSeveral,
}

/// Those of a pair.
pub fn premises(first: &Read, second: &Read) -> Premises {
    let tail = first.tail_of(second);
    let mut names: Vec<&Vec<u8>> = second.names.defined.iter().collect();
    names.sort();
    let broken = [
        (Premises::EndsInReturn, first.doc.ends_with(b"\r")),
        (Premises::HoldsBacktick, tail.contains(&b'`')),
        (Premises::BeginsWithSpace, tail.starts_with(b" ")),
        (Premises::BeginsWithTab, tail.starts_with(b"\t")),
        (
            Premises::DefinesTwice,
            names.windows(2).any(|two| two[0] == two[1]),
        ),
    ];
    let mut broken = broken.into_iter().filter(|(_, is_broken)| *is_broken);
    match (broken.next(), broken.next()) {
        (None, _) => Premises::Met,
        (Some((premise, _)), None) => premise,
        _ => Premises::BreaksSeveral,
    }
}

/// Whether the references that the first left unresolved are references in the
/// second too, so that they are the same whichever of both names them.
pub fn stay_references(first: &Read, second: &Read) -> bool {
    let stays = |place| second.names.references.contains(place);
    first.names.unresolved.iter().all(stays)
}
