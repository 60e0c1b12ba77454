//! Which answers of the two calls were met, and how often.

use crate::test::Count;
use driver::document::{DEFINITIONS_MAX, LINKS_MAX, Outcome, Shown, links_in};
use driver::items::{Item, items_of};
use driver::single::{KINDS, Single};

/// The refusals of the single-link call, in its order.
const REFUSALS: [&str; 6] = ["2", "4", "8", "9", "7 for the first", "7 for the second"];

/// What was met by the single-link call: in how many documents; how often each of
/// the five cases, and each refusal.
#[derive(Default)]
pub struct Met {
    documents: u64,
    cases: [u64; 5],
    refusals: [u64; 6],
}

impl Met {
    /// Counts an answer. Whether the first string fits tells the two 7 apart.
    pub fn add(&mut self, answer: Single, first_fits: bool) {
        match answer.number {
            0 => self.cases[answer.kind as usize - 1] += 1,
            2 => self.refusals[0] += 1,
            4 => self.refusals[1] += 1,
            8 => self.refusals[2] += 1,
            9 => self.refusals[3] += 1,
            7 if !first_fits => self.refusals[4] += 1,
            7 => self.refusals[5] += 1,
            _ => unreachable!("no such refusal of the single-link call"),
        }
    }

    fn counts(&self) -> impl Iterator<Item = (&'static str, u64)> {
        let names = KINDS.into_iter().chain(REFUSALS);
        names.zip(self.cases.into_iter().chain(self.refusals))
    }

    /// How many calls there were.
    pub fn calls(&self) -> u64 {
        self.counts().map(|(_, count)| count).sum()
    }

    pub fn join(&mut self, other: &Met, documents: u64) {
        self.documents += documents;
        for (mine, theirs) in self.cases.iter_mut().zip(other.cases) {
            *mine += theirs;
        }
        for (mine, theirs) in self.refusals.iter_mut().zip(other.refusals) {
            *mine += theirs;
        }
    }

    /// Says how many documents and calls there were, these by answer; that each
    /// answer was met is a test of its own.
    pub fn end(self, count: &mut Count) {
        let (documents, calls) = (self.documents, self.calls());
        count.documents += documents;
        count.say(format_args!(
            "the single-link call: {documents} documents, {calls} calls, which gave"
        ));
        for (name, met) in self.counts() {
            count.say(format_args!("  {name}: {met}"));
            count.ask(met > 0);
        }
    }
}

/// What is looked for in documents, and in the records of their links.
#[derive(Clone, Copy)]
enum Seen {
    Both,
    NoLinks,
    EmbeddedAnonymous,
    EmbeddedNamed,
    Rendered,
    Reference,
    Numbered,
    ThroughAlias,
    Replaced,
    AliasReplaced,
    ShowsDestination,
    Dropped,
    Alias,
    BlockNumbered,
}

/// The same in words, in the same order.
const SEEN: [&str; 14] = [
    "5 where the link is a definition too many as well",
    "documents without links",
    "embedded links, anonymous",
    "embedded links, named",
    "blocks rendered",
    "references",
    "references numbered",
    "references through an alias",
    "references to a name with several destinations",
    "references to an alias that replaced a destination",
    "references that show their destination",
    "references dropped",
    "aliases",
    "blocks numbered",
];

/// What was met by the document call: how many documents; how often each number,
/// from 0 to 7; what stood in documents that were read with an output that
/// suffices.
#[derive(Default)]
pub struct DocumentsMet {
    documents: u64,
    numbers: [u64; 8],
    seen: [u64; SEEN.len()],
}

impl DocumentsMet {
    /// Counts an answer.
    pub fn add(&mut self, answer: Outcome) {
        self.numbers[answer.number as usize] += 1;
    }

    fn see(&mut self, what: Seen, holds: bool) {
        self.seen[what as usize] += u64::from(holds);
    }

    /// Counts what a document holds, by its answer and its output.
    pub fn read(&mut self, doc: &[u8], render: u32, answer: Outcome, output: &[u8]) {
        let Ok(text) = str::from_utf8(doc) else {
            return;
        };
        match answer.number {
            0 if answer.links == 0 => self.see(Seen::NoLinks, true),
            0 => self.links(&items_of(text), &links_in(&output[..answer.bytes as usize])),
            5 => self.see(Seen::Both, meets_both(&items_of(text), render)),
            _ => {}
        }
    }

    /// Counts the items of a document, and the links shown of them.
    fn links(&mut self, items: &[Item], shown: &[Shown]) {
        let mut left = shown.iter().peekable();
        for item in items {
            let link = left.next_if(|link| link.place == item.place);
            match (item.kind, link) {
                (1, _) => self.see(Seen::EmbeddedAnonymous, true),
                (2, _) => self.see(Seen::EmbeddedNamed, true),
                (3, Some(link)) => self.reference(items, item, link),
                (3, None) => self.see(Seen::Dropped, true),
                (4, Some(_)) => self.see(Seen::Rendered, true),
                (5, _) => self.see(Seen::Alias, true),
                _ => {}
            }
            self.see(Seen::BlockNumbered, item.is_numbered && item.kind > 3);
        }
    }

    /// Counts a reference that is shown.
    fn reference(&mut self, items: &[Item], item: &Item, link: &Shown) {
        let gives = |other: &&Item| matches!(other.kind, 2 | 4) && other.first == item.second;
        let stored: Vec<&Vec<u8>> = items.iter().filter(gives).map(|i| &i.second).collect();
        let is_last = stored.last().is_none_or(|last| **last == link.destination);
        let has_text = !item.first.is_empty();
        self.see(Seen::Reference, true);
        self.see(Seen::Numbered, item.is_numbered);
        self.see(Seen::ThroughAlias, stored.is_empty());
        self.see(Seen::Replaced, stored.first() != stored.last());
        self.see(Seen::AliasReplaced, !is_last);
        self.see(Seen::ShowsDestination, !has_text && !link.text.is_empty());
    }

    pub fn join(&mut self, other: &DocumentsMet, documents: u64) {
        self.documents += documents;
        for (mine, theirs) in self.numbers.iter_mut().zip(other.numbers) {
            *mine += theirs;
        }
        for (mine, theirs) in self.seen.iter_mut().zip(other.seen) {
            *mine += theirs;
        }
    }

    /// Says how many documents and calls there were, and what was met; that each
    /// was met is a test of its own.
    pub fn end(self, count: &mut Count) {
        let calls: u64 = self.numbers.iter().sum();
        let documents = self.documents;
        count.documents += documents;
        count.say(format_args!(
            "the document call: {documents} documents, {calls} calls, which gave"
        ));
        for (number, met) in self.numbers.into_iter().enumerate() {
            count.say(format_args!("  {number}: {met}"));
            count.ask(met > 0);
        }
        count.say(format_args!("and in the documents"));
        for (name, met) in SEEN.into_iter().zip(self.seen) {
            count.say(format_args!("  {name}: {met}"));
            count.ask(met > 0);
        }
    }
}

/// Whether the 257th link is also a 257th definition.
fn meets_both(items: &[Item], render: u32) -> bool {
    let (mut links, mut definitions) = (0, 0);
    for item in items {
        links += usize::from(item.kind < 4 || item.kind == 4 && render == 1);
        definitions += usize::from(matches!(item.kind, 2 | 4 | 5));
        if links > LINKS_MAX {
            return definitions > DEFINITIONS_MAX;
        }
    }
    false
}
