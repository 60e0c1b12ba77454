//! Appended tails: looks for pairs of documents that speak against the claim.
//! Pairs that break one of its premises are tried as well: that some of them
//! break the conclusion shows that the premise is needed, and that a difference
//! is seen.

use crate::claim::{
    Links, Premises, Read, Reader, conclusion, premises, remaining, stay_references,
};
use crate::document::Garbage;
use crate::documents::{self, Kind};
use crate::inputs::sequences;
use crate::notes;
use crate::pairs::{self, Known, Short};
use crate::pairs_met::PairsMet;
use crate::test::Count;
use driver::document::Shown;
use driver::random::Random;
use driver::show;

/// How many tails each drawn first gets.
const TAILS: usize = 4;

/// At how many line ends a real note is cut in two, at most.
const CUTS: usize = 4;

/// A pair: a first document and a tail.
#[derive(Clone)]
struct Pair {
    first: Vec<u8>,
    tail: Vec<u8>,
}

impl Pair {
    fn len(&self) -> usize {
        self.first.len() + self.tail.len()
    }

    /// Both documents, where both are accepted.
    fn read(&self, reader: &mut Reader) -> Option<(Read, Read)> {
        let first = reader.read(self.first.clone())?;
        let second = reader.appended(&self.first, &self.tail)?;
        Some((first, second))
    }

    /// Whether it meets just these premises and breaks the conclusion with that
    /// option.
    fn is_against(&self, reader: &mut Reader, met: Premises, render: usize) -> bool {
        self.read(reader).is_some_and(|(first, second)| {
            let holds = conclusion(&first, &second, render);
            premises(&first, &second) == met && holds == Some(false)
        })
    }

    /// The pairs that lack one character of this one.
    fn shorter(&self) -> Vec<Pair> {
        let firsts = lacking(&self.first).map(|first| Pair {
            first,
            ..self.clone()
        });
        let tails = lacking(&self.tail).map(|tail| Pair {
            tail,
            ..self.clone()
        });
        firsts.chain(tails).collect()
    }

    /// A pair like this one from which no character can be taken.
    fn shortest(self, reader: &mut Reader, met: Premises, render: usize) -> Pair {
        let mut pair = self;
        loop {
            let shorter = pair.shorter();
            let mut against = shorter.into_iter();
            match against.find(|less| less.is_against(reader, met, render)) {
                Some(less) => pair = less,
                None => return pair,
            }
        }
    }

    /// Says the pair, the links of its first with an option, and what remains of
    /// those of the second.
    fn say(&self, count: &mut Count, reader: &mut Reader, render: usize) {
        let (first, tail) = (show::quoted(&self.first), show::quoted(&self.tail));
        count.say(format_args!(
            "    render {render}, first {first}, tail {tail}"
        ));
        if let Some((first, second)) = self.read(reader) {
            let before = lines(&first.links[render], |links| links.iter().collect());
            let after = lines(&second.links[render], |links| remaining(&first, links));
            count.say(format_args!("      links {before}"));
            count.say(format_args!("      remaining {after}"));
        }
    }
}

/// Those of the links that are kept, as a line.
fn lines(links: &Links, kept: impl Fn(&[Shown]) -> Vec<&Shown>) -> String {
    let Links::Held(links) = links else {
        return "that cannot be read".to_string();
    };
    let lines: Vec<String> = kept(links).into_iter().map(show::link).collect();
    format!("{}: {}", lines.len(), lines.join("; "))
}

/// The texts that lack one character of this one.
fn lacking(text: &[u8]) -> impl Iterator<Item = Vec<u8>> {
    let text = str::from_utf8(text).expect("an accepted document is of the domain");
    text.char_indices().map(move |(place, c)| {
        let behind = &text[place + c.len_utf8()..];
        [&text[..place], behind].concat().into_bytes()
    })
}

/// Pairs that meet certain premises, with both calls accepted: how many; how many
/// of them break the conclusion, and the shortest of those by option.
#[derive(Default)]
struct Found {
    tried: u64,
    against: u64,
    shortest: [Option<Pair>; 2],
}

impl Found {
    fn add(&mut self, first: &Read, second: &Read, holds: [Option<bool>; 2]) {
        self.tried += 1;
        self.against += u64::from(holds.contains(&Some(false)));
        for (render, holds) in holds.into_iter().enumerate() {
            if holds == Some(false) {
                let pair = Pair {
                    first: first.doc.clone(),
                    tail: first.tail_of(second).to_vec(),
                };
                self.keep(render, pair);
            }
        }
    }

    fn keep(&mut self, render: usize, pair: Pair) {
        let known = &mut self.shortest[render];
        if known.as_ref().is_none_or(|known| pair.len() < known.len()) {
            *known = Some(pair);
        }
    }

    fn join(&mut self, other: Found) {
        self.tried += other.tried;
        self.against += other.against;
        for (render, pair) in other.shortest.into_iter().enumerate() {
            if let Some(pair) = pair {
                self.keep(render, pair);
            }
        }
    }

    /// Says the shortest, made as short as they can be.
    fn say(self, count: &mut Count, reader: &mut Reader, met: Premises) {
        for (render, pair) in self.shortest.into_iter().enumerate() {
            if let Some(pair) = pair {
                let pair = pair.shortest(reader, met, render);
                pair.say(count, reader, render);
            }
        }
    }
}

/// The pairs looked at, by the premises that they meet.
const PREMISES: [(Premises, &str); 7] = [
    (Premises::Met, "meet all premises"),
    (
        Premises::EndsInReturn,
        "break one, the first ends in a carriage return",
    ),
    (
        Premises::HoldsBacktick,
        "break one, the tail holds a backtick",
    ),
    (
        Premises::BeginsWithSpace,
        "break one, the tail begins with a space",
    ),
    (
        Premises::BeginsWithTab,
        "break one, the tail begins with a tab",
    ),
    (
        Premises::DefinesTwice,
        "break one, the second defines a name twice",
    ),
    (Premises::BreaksSeveral, "break several"),
];

/// What was found: how many pairs there were, how many of them with a call that
/// refuses; the others by their premises; what was met in those that meet all,
/// and in how many of them an unresolved reference is none in the second.
pub struct Tally {
    tried: u64,
    refused: u64,
    found: [Found; PREMISES.len()],
    met: PairsMet,
    moved: u64,
}

impl Tally {
    pub fn new() -> Tally {
        Tally {
            tried: 0,
            refused: 0,
            found: Default::default(),
            met: PairsMet::new(),
            moved: 0,
        }
    }

    /// The pairs that meet all premises.
    fn proper(&self) -> &Found {
        &self.found[Premises::Met as usize]
    }

    /// Counts a pair; without a second, or where no option lets both calls accept,
    /// as refused.
    fn add(&mut self, first: &Read, second: Option<&Read>) {
        self.tried += 1;
        let conclusions = |second| [0, 1].map(|render| conclusion(first, second, render));
        match second.map(|second| (second, conclusions(second))) {
            None | Some((_, [None, None])) => self.refused += 1,
            Some((second, holds)) => self.accepted(first, second, holds),
        }
    }

    /// Counts a pair by its premises, and what it holds where it meets all.
    fn accepted(&mut self, first: &Read, second: &Read, holds: [Option<bool>; 2]) {
        let met = premises(first, second);
        self.found[met as usize].add(first, second, holds);
        if met == Premises::Met {
            self.met.add(first, second);
            self.moved += u64::from(!stay_references(first, second));
        }
    }

    fn join(&mut self, other: Tally) {
        self.tried += other.tried;
        self.refused += other.refused;
        for (mine, theirs) in self.found.iter_mut().zip(other.found) {
            mine.join(theirs);
        }
        self.met.join(&other.met);
        self.moved += other.moved;
    }

    /// Says how many pairs there were, by their premises; that each premise is
    /// needed is a test of its own, as is that each thing was met.
    pub fn end(self, count: &mut Count) {
        let garbage = Garbage::new(&mut Random::new(0));
        let mut reader = Reader::new(&garbage);
        let (tried, refused) = (self.tried, self.refused);
        count.pairs += tried;
        count.say(format_args!(
            "appended tails: {tried} pairs, {refused} of them refused, of the others"
        ));
        for ((met, name), found) in PREMISES.into_iter().zip(self.found) {
            let (tried, against) = (found.tried, found.against);
            count.say(format_args!("  {name}: {tried}, {against} against"));
            if met == Premises::BreaksSeveral {
                continue;
            }
            count.ask(tried > 0 && (against > 0) == (met != Premises::Met));
            found.say(count, &mut reader, met);
        }
        self.met.end(count);
        count.say(format_args!(
            "  unresolved references that are none in the second: {}",
            self.moved
        ));
        count.ask(self.moved == 0);
    }
}

/// A test of the claim on pairs of one kind.
struct Pairs<'a> {
    name: &'static str,
    reader: Reader<'a>,
    tally: Tally,
}

impl Pairs<'_> {
    fn new<'a>(name: &'static str, garbage: &'a Garbage) -> Pairs<'a> {
        Pairs {
            name,
            reader: Reader::new(garbage),
            tally: Tally::new(),
        }
    }

    /// A first with a tail.
    fn pair(&mut self, first: &Read, tail: &[u8]) {
        let second = self.reader.appended(&first.doc, tail);
        self.tally.add(first, second.as_ref());
    }

    /// All short pairs.
    fn every(&mut self, short: &Short) {
        let ((before, most_before), (behind, most_behind)) = (short.firsts, short.tails);
        for first in sequences(before, most_before) {
            let first = self
                .reader
                .read(first)
                .expect("a short document of the domain");
            for tail in sequences(behind, most_behind) {
                self.pair(&first, &tail);
            }
        }
    }

    /// A first with so many drawn tails; nothing where it is refused.
    fn tails(&mut self, random: &mut Random, first: Vec<u8>, count: usize) {
        let Some(first) = self.reader.read(first) else {
            return;
        };
        let known = Known::new(&first.items, &first.names.defined);
        for _ in 0..count {
            let tail = pairs::tail(random, &known);
            self.pair(&first, &tail);
        }
    }

    /// A document cut in two at some of its line ends.
    fn cut(&mut self, doc: &[u8]) {
        let ends: Vec<usize> = (0..doc.len()).filter(|n| doc[*n] == b'\n').collect();
        for place in ends.iter().step_by(1 + ends.len() / CUTS) {
            if let Some(first) = self.reader.read(doc[..*place].to_vec()) {
                self.pair(&first, &doc[place + 1..]);
            }
        }
    }

    /// A drawn first with some tails.
    fn draw(&mut self, random: &mut Random, kind: &Kind) {
        let first = (kind.draw)(random);
        let first = pairs::ended(random, first);
        self.tails(random, first, TAILS);
    }

    fn end(self, count: &mut Count, tally: &mut Tally) {
        let proper = self.tally.proper();
        count.say(format_args!(
            "appended tails, {}: {} pairs, {} meet all premises, {} against the claim",
            self.name, self.tally.tried, proper.tried, proper.against
        ));
        count.ask(proper.against == 0 && proper.tried > 0);
        tally.join(self.tally);
    }
}

/// All short pairs; the cases of the papers and the documents near the limits,
/// with some tails each; real notes cut in two.
pub fn all(count: &mut Count, tally: &mut Tally) {
    let mut random = Random::new(0);
    let garbage = Garbage::new(&mut random);
    for short in pairs::SHORT {
        let mut pairs = Pairs::new(short.name, &garbage);
        pairs.every(&short);
        pairs.end(count, tally);
    }
    let kinds = [
        (
            "the cases of the papers and rare ones",
            documents::cases(),
            10 * TAILS,
        ),
        ("firsts near the limits", documents::limits(), 2 * TAILS),
    ];
    for (kind, firsts, tails) in kinds {
        let mut pairs = Pairs::new(kind, &garbage);
        for first in firsts {
            pairs.tails(&mut random, first, tails);
        }
        pairs.end(count, tally);
    }
    if let Some(docs) = notes::documents(count) {
        let mut pairs = Pairs::new("real notes cut at line ends", &garbage);
        for doc in docs {
            pairs.cut(&doc);
        }
        pairs.end(count, tally);
    }
}

/// Drawn pairs of each kind, for as long as `goes_on` says of how many there were
/// that meet all premises.
pub fn drawn(count: &mut Count, tally: &mut Tally, seed: u64, goes_on: impl Fn(u64) -> bool) {
    let mut random = Random::new(seed);
    let garbage = Garbage::new(&mut random);
    let mut kinds = pairs::KINDS.map(|kind| (Pairs::new(kind.name, &garbage), kind));
    let mut round: u64 = 0;
    let proper = |(pairs, _): &(Pairs, Kind)| pairs.tally.proper().tried;
    while goes_on(kinds.iter().map(proper).sum()) {
        for (pairs, kind) in &mut kinds {
            if round.is_multiple_of(kind.rounds) {
                pairs.draw(&mut random, kind);
            }
        }
        round += 1;
    }
    for (pairs, _) in kinds {
        pairs.end(count, tally);
    }
}
