//! What was met in pairs that meet all premises of the claim about appended
//! tails.

use crate::claim::Read;
use crate::test::Count;
use driver::document::Shown;
use driver::items::Item;

/// What is looked for in a pair.
#[derive(Clone, Copy)]
enum Seen {
    FirstEmpty,
    FirstBlank,
    FirstBackslash,
    FirstUnderscore,
    FirstLineFeed,
    FirstBacktick,
    FirstName,
    FirstDestination,
    FirstAlias,
    FirstUnreported,
    TailEmpty,
    TailFurther,
    TailReturn,
    TailUnderscore,
    TailNumbered,
    TailBlock,
    TailCloser,
    TailLineEnds,
    TailLinks,
    TailDefines,
    BothDefine,
    Reference,
    Numbered,
    ThroughAlias,
    EmbeddedAnonymous,
    EmbeddedNamed,
    Rendered,
    Unreported,
    Many,
    ByTail,
    ByTailNumbered,
    ByTailAliasOfFirst,
    ByTailAliasOfTail,
    Never,
}

/// The same in words, in the same order.
const SEEN: [&str; 34] = [
    "the first is empty",
    "the first ends in a blank",
    "the first ends in a backslash",
    "the first ends in `_`",
    "the first ends in a line feed",
    "the first has an odd number of backticks",
    "the first ends in a name without a target",
    "the first ends in a destination block",
    "the first ends in an alias block",
    "the first ends in an unreported block",
    "the tail is empty",
    "the tail begins with a line end and a line like a further one",
    "the tail begins with a carriage return",
    "the tail begins with `_`",
    "the tail begins with `__ `",
    "the tail begins with `.. `",
    "the tail begins with `>`",
    "the tail holds CR LF",
    "the tail has links",
    "the tail defines a name",
    "both define names",
    "references that the first resolves",
    "references that the first resolves, numbered",
    "references that the first resolves through an alias",
    "embedded links, anonymous",
    "embedded links, named",
    "blocks rendered",
    "unreported blocks",
    "firsts with 200 links or more",
    "references that only the tail resolves",
    "references that only the tail resolves, numbered",
    "references that only the tail resolves, through an alias of the first",
    "references that only the tail resolves, through an alias of the tail",
    "references that neither resolves",
];

/// What was met, and how often: of pairs, or of links in their firsts.
pub struct PairsMet {
    seen: [u64; SEEN.len()],
}

impl PairsMet {
    pub fn new() -> PairsMet {
        PairsMet {
            seen: [0; SEEN.len()],
        }
    }

    fn see(&mut self, what: Seen, holds: bool) {
        self.seen[what as usize] += u64::from(holds);
    }

    /// Counts what a pair holds.
    pub fn add(&mut self, first: &Read, second: &Read) {
        self.end_of(first);
        self.start_of(first.tail_of(second));
        for item in &first.items {
            self.item(first, second, item);
        }
        let is_behind = |shown: &Shown| shown.place > first.doc.len();
        self.see(Seen::TailLinks, second.shown().iter().any(is_behind));
        let (few, all) = (first.names.defined.len(), second.names.defined.len());
        self.see(Seen::TailDefines, few < all);
        self.see(Seen::BothDefine, 0 < few && few < all);
        self.see(Seen::Many, first.shown().len() >= 200);
    }

    /// Counts what a first ends in.
    fn end_of(&mut self, first: &Read) {
        let doc = &first.doc[..];
        let backticks = doc.iter().filter(|byte| **byte == b'`').count();
        let line = doc.rsplit(|byte| *byte == b'\n').next().unwrap_or(doc);
        let is_name = line.starts_with(b".. _") && line.trim_ascii_end().ends_with(b":");
        let is_alias = |item: &Item| item.kind == 5 && !doc[item.place..].contains(&b'\n');
        self.see(Seen::FirstEmpty, doc.is_empty());
        self.see(Seen::FirstBlank, matches!(doc.last(), Some(b' ' | b'\t')));
        self.see(Seen::FirstBackslash, doc.ends_with(b"\\"));
        self.see(Seen::FirstUnderscore, doc.ends_with(b"_"));
        self.see(Seen::FirstLineFeed, doc.ends_with(b"\n"));
        self.see(Seen::FirstBacktick, backticks % 2 == 1);
        self.see(Seen::FirstName, is_name);
        self.see(Seen::FirstAlias, first.items.last().is_some_and(is_alias));
    }

    /// Counts what a tail begins with, and line ends.
    fn start_of(&mut self, tail: &[u8]) {
        let starts = |fronts: &[&[u8]]| fronts.iter().any(|front| tail.starts_with(front));
        let further: [&[u8]; 4] = [b"\n   ", b"\n\t   ", b"\r\n   ", b"\r\n\t   "];
        self.see(Seen::TailEmpty, tail.is_empty());
        self.see(Seen::TailFurther, starts(&further));
        self.see(Seen::TailReturn, starts(&[b"\r"]));
        self.see(Seen::TailUnderscore, starts(&[b"_"]));
        self.see(Seen::TailNumbered, starts(&[b"__ "]));
        self.see(Seen::TailBlock, starts(&[b".. "]));
        self.see(Seen::TailCloser, starts(&[b">"]));
        let has_line_ends = tail.windows(2).any(|pair| pair == b"\r\n");
        self.see(Seen::TailLineEnds, has_line_ends);
    }

    /// Counts what a first collects.
    fn item(&mut self, first: &Read, second: &Read, item: &Item) {
        let link = first.shown().iter().find(|link| link.place == item.place);
        let is_last = link.is_some_and(|link| link.place + link.consumed == first.doc.len());
        match item.kind {
            1 => self.see(Seen::EmbeddedAnonymous, true),
            2 => self.see(Seen::EmbeddedNamed, true),
            3 if link.is_some() => self.resolved(first, item),
            3 => self.unresolved(first, second, item),
            4 => {
                self.see(Seen::Rendered, link.is_some());
                self.see(Seen::FirstDestination, is_last);
            }
            _ => {}
        }
        // A link itself ends in `_`; what stands behind that in its consumed part
        // is a block.
        let consumed = link.map_or(&[][..], |link| &first.doc[link.place..][..link.consumed]);
        let is_followed = item.kind < 4 && link.is_some() && !consumed.ends_with(b"_");
        self.see(Seen::Unreported, is_followed);
        self.see(Seen::FirstUnreported, is_followed && is_last);
    }

    /// Counts a reference that the first resolves.
    fn resolved(&mut self, first: &Read, item: &Item) {
        self.see(Seen::Reference, true);
        self.see(Seen::Numbered, item.is_numbered);
        let is_alias = alias(&first.items, &item.second).is_some();
        self.see(Seen::ThroughAlias, is_alias);
    }

    /// Counts a reference that the first leaves unresolved.
    fn unresolved(&mut self, first: &Read, second: &Read, item: &Item) {
        let is_by_tail = !second.names.unresolved.contains(&item.place);
        let alias = alias(&second.items, &item.second).filter(|_| is_by_tail);
        let is_first = |alias: &Item| alias.place < first.doc.len();
        self.see(Seen::Never, !is_by_tail);
        self.see(Seen::ByTail, is_by_tail);
        self.see(Seen::ByTailNumbered, is_by_tail && item.is_numbered);
        self.see(Seen::ByTailAliasOfFirst, alias.is_some_and(is_first));
        self.see(
            Seen::ByTailAliasOfTail,
            alias.is_some_and(|alias| !is_first(alias)),
        );
    }

    pub fn join(&mut self, other: &PairsMet) {
        for (mine, theirs) in self.seen.iter_mut().zip(other.seen) {
            *mine += theirs;
        }
    }

    /// Says what was met; that each was met is a test of its own.
    pub fn end(self, count: &mut Count) {
        count.say("and in those that meet all premises");
        for (name, met) in SEEN.into_iter().zip(self.seen) {
            count.say(format_args!("  {name}: {met}"));
            count.ask(met > 0);
        }
    }
}

/// The alias of that name.
fn alias<'a>(items: &'a [Item], name: &[u8]) -> Option<&'a Item> {
    items
        .iter()
        .find(|item| item.kind == 5 && item.first == name)
}
