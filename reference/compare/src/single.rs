//! The single-link call, at every place of a document.

use crate::branches::{all_counted, take_link_at};
use crate::documents;
use crate::met::Met;
use crate::notes;
use crate::test::{Answered, Count, Test};
use compare::proved;
use driver::document::DOCUMENT_MAX;
use driver::random::Random;
use driver::single::Single;
use std::fmt;

/// The bytes behind each lent buffer that are looked at too. A sample has none:
/// there a buffer is all of its allocation.
const GUARD: usize = 8;

/// The places asked of every document besides its own.
const FAR: [usize; 4] = [DOCUMENT_MAX, DOCUMENT_MAX + 1, 1 << 32, usize::MAX];

/// What is asked of a document: a place, and the lengths of both buffers.
#[derive(Clone, Copy)]
struct Asked {
    place: usize,
    first: usize,
    second: usize,
}

impl fmt::Display for Asked {
    fn fmt(&self, f: &mut fmt::Formatter) -> fmt::Result {
        write!(
            f,
            "place {}, buffers {} and {}",
            self.place, self.first, self.second
        )
    }
}

/// What a call gives: its answer, and both buffers with the bytes behind them.
#[derive(Debug, PartialEq)]
struct Left {
    answer: Single,
    first: Vec<u8>,
    second: Vec<u8>,
}

impl Answered for Left {
    fn is_accepted(&self) -> bool {
        self.answer.number == 0
    }
}

/// A call, with buffers that hold that byte before it, as so many bytes behind
/// them do.
fn lent(
    byte: u8,
    asked: Asked,
    guard: usize,
    call: impl FnOnce(&mut [u8], &mut [u8]) -> Single,
) -> Left {
    let mut first = vec![byte; asked.first + guard];
    let mut second = vec![byte; asked.second + guard];
    Left {
        answer: call(&mut first[..asked.first], &mut second[..asked.second]),
        first,
        second,
    }
}

/// A test of the single-link call on documents of one kind.
struct Calls {
    test: Test,
    guard: usize,
    /// How many documents there were.
    documents: u64,
    /// What the buffers held before the last call.
    byte: u8,
    met: Met,
}

impl Calls {
    fn new(kind: &str) -> Calls {
        Calls {
            test: Test::new(&format!("the single-link call, {kind}")),
            guard: GUARD,
            documents: 0,
            byte: 0,
            met: Met::default(),
        }
    }

    /// One call of both, and the Rust's answer.
    fn call(&mut self, doc: &[u8], asked: Asked) -> Single {
        self.byte = self.byte.wrapping_add(1);
        let place = asked.place;
        let proved = lent(self.byte, asked, self.guard, |first, second| {
            proved::single(doc, place, first, second)
        });
        let rust = lent(self.byte, asked, self.guard, |first, second| {
            take_link_at(doc, place, first, second)
        });
        let answer = rust.answer;
        self.test.hold(doc, asked, proved, rust);
        answer
    }

    /// A call with buffers longer than any string.
    fn long(&mut self, doc: &[u8], place: usize) -> Single {
        let length = doc.len().min(DOCUMENT_MAX) + 1;
        let asked = Asked {
            place,
            first: length,
            second: length,
        };
        let answer = self.call(doc, asked);
        self.met.add(answer, true);
        answer
    }

    /// Calls at a place: with long buffers; with buffers that just suffice; with
    /// ones too short by one byte, the first, the second and both; with none.
    fn at(&mut self, doc: &[u8], place: usize) {
        let answer = self.long(doc, place);
        let (a, b) = (answer.first as usize, answer.second as usize);
        let mut lend = |first: usize, second: usize| {
            let asked = Asked {
                place,
                first,
                second,
            };
            let answer = self.call(doc, asked);
            self.met.add(answer, first >= a);
        };
        lend(0, 0);
        if answer.number != 0 {
            return;
        }
        lend(a, b);
        if a > 0 {
            lend(a - 1, b);
            lend(a - 1, b.saturating_sub(1));
        }
        if b > 0 {
            lend(a, b - 1);
        }
    }

    /// Every place of a document, the one past its end, and far ones. Of a long
    /// document the calls with other buffers are made at some 500 places.
    fn document(&mut self, doc: &[u8]) {
        self.documents += 1;
        let step = 1 + doc.len() / 500;
        for place in 0..=doc.len() + 1 {
            if place.is_multiple_of(step) {
                self.at(doc, place);
            } else {
                self.long(doc, place);
            }
        }
        for place in FAR {
            self.at(doc, place);
        }
    }

    /// The same at some places, and near the front and the end.
    fn sampled(&mut self, doc: &[u8], step: usize) {
        self.documents += 1;
        for place in 0..=doc.len() + 1 {
            if place.is_multiple_of(step) || place < 10 || place + 10 > doc.len() {
                self.at(doc, place);
            }
        }
        for place in FAR {
            self.at(doc, place);
        }
    }

    fn end(self, count: &mut Count, met: &mut Met) {
        count.end(self.test);
        met.join(&self.met, self.documents);
    }
}

/// All short documents, the cases of the papers, the limits, and real notes.
pub fn all(count: &mut Count, met: &mut Met) {
    for (kind, alphabet, most) in documents::ALPHABETS {
        let mut calls = Calls::new(kind);
        for doc in documents::sequences(alphabet, most) {
            calls.document(&doc);
        }
        calls.end(count, met);
    }
    let mut calls = Calls::new("bytes in and out of the domain");
    for doc in documents::domain_bytes() {
        calls.document(&doc);
    }
    calls.end(count, met);
    let mut calls = Calls::new("the cases of the papers and rare ones");
    all_counted(|| {
        for doc in documents::cases() {
            calls.sampled(&doc, 1 + doc.len() / 500);
        }
    });
    calls.end(count, met);
    let mut calls = Calls::new("near the limits");
    for doc in documents::limits() {
        calls.sampled(&doc, 1 + doc.len() / 100);
    }
    calls.end(count, met);
    if let Some(docs) = notes::documents(count) {
        let mut calls = Calls::new("real notes");
        for doc in docs {
            calls.sampled(&doc, 1 + doc.len() / 20);
        }
        count.notes += calls.documents;
        calls.end(count, met);
    }
}

/// Some documents at some places, with buffers that end where their allocations
/// do.
pub fn sample(count: &mut Count, met: &mut Met, seed: u64) {
    let mut random = Random::new(seed);
    let mut calls = Calls::new("a sample");
    calls.guard = 0;
    let mut docs = documents::some_short(&mut random);
    docs.extend(documents::cases());
    docs.extend(documents::limits().into_iter().step_by(9));
    docs.extend((0..20).map(|_| documents::formed(&mut random)));
    for doc in docs {
        let step = 1 + doc.len() / 10;
        calls.sampled(&doc.into_boxed_slice(), step);
    }
    calls.end(count, met);
}

/// The tests of drawn documents.
pub struct Drawn {
    grown: Calls,
    parts: Calls,
    formed: Calls,
    tokens: Calls,
    outside: Calls,
}

impl Drawn {
    pub fn new() -> Drawn {
        Drawn {
            grown: Calls::new("generated documents"),
            parts: Calls::new("parts of generated documents, damaged or not"),
            formed: Calls::new("drawn from the forms of the parsers"),
            tokens: Calls::new("drawn tokens"),
            outside: Calls::new("documents with a byte outside the domain"),
        }
    }

    /// Some documents of each kind, all at every place.
    pub fn draw(&mut self, random: &mut Random) {
        let doc = documents::grown(random);
        self.grown.document(&doc);
        for doc in documents::parts(random) {
            self.parts.document(&doc);
        }
        for _ in 0..8 {
            self.formed.document(&documents::formed(random));
            self.tokens.document(&documents::tokens(random));
        }
        let doc = documents::outside(random, doc);
        self.outside.sampled(&doc, 1 + doc.len() / 10);
    }

    pub fn end(self, count: &mut Count, met: &mut Met) {
        for calls in [
            self.grown,
            self.parts,
            self.formed,
            self.tokens,
            self.outside,
        ] {
            calls.end(count, met);
        }
    }
}
