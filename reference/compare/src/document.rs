//! The document call: both options and wrong ones, outputs and work areas of
//! several lengths.

use crate::branches::document;
use crate::documents::{self, Kind};
use crate::met::DocumentsMet;
use crate::notes;
use crate::test::{Answered, Count, Test};
use compare::proved;
use driver::document::{BYTES_MIN, DOCUMENT_MAX, NUMBERS_MIN, Outcome};
use driver::random::Random;
use std::fmt;

/// The elements behind each lent area that are looked at too. A sample has none:
/// there an area is all of its allocation, so that a tool that watches memory
/// sees what goes beyond.
const GUARD: usize = 8;

/// The most elements that a work area has beyond the least.
const LONGER: usize = 3_000;

/// Wrong options.
const NO_RENDER: [u32; 4] = [2, 3, 256, u32::MAX];

/// What is asked of a document: the option, and the lengths of the areas.
#[derive(Clone, Copy)]
struct Asked {
    render: u32,
    numbers: usize,
    bytes: usize,
    output: usize,
}

impl Asked {
    /// With the least work areas.
    fn new(render: u32, output: usize) -> Asked {
        Asked {
            render,
            numbers: NUMBERS_MIN,
            bytes: BYTES_MIN,
            output,
        }
    }
}

impl fmt::Display for Asked {
    fn fmt(&self, f: &mut fmt::Formatter) -> fmt::Result {
        write!(
            f,
            "render {}, work areas {} and {}, output {}",
            self.render, self.numbers, self.bytes, self.output
        )
    }
}

/// What a call leaves: its answer; the output with the bytes behind it; whether
/// the work areas are all zero; whether what stands behind them is kept.
#[derive(PartialEq)]
struct Left {
    answer: Outcome,
    output: Vec<u8>,
    zero: [bool; 2],
    kept: [bool; 2],
}

impl Answered for Left {
    fn is_accepted(&self) -> bool {
        self.answer.number == 0
    }
}

/// Of a long output only the front is shown.
impl fmt::Debug for Left {
    fn fmt(&self, f: &mut fmt::Formatter) -> fmt::Result {
        let front = &self.output[..self.output.len().min(400)];
        write!(
            f,
            "{:?}, areas zero {:?}, behind them kept {:?}, output {front:02X?}",
            self.answer, self.zero, self.kept
        )
    }
}

/// What the areas hold before a call: anything, small numbers and great ones.
pub struct Garbage {
    pub numbers: Vec<u32>,
    pub bytes: Vec<u8>,
}

impl Garbage {
    pub fn new(random: &mut Random) -> Garbage {
        let mut number = |_| match random.below(3) {
            0 => random.draw() as u32,
            1 => random.below(300) as u32,
            _ => random.below(DOCUMENT_MAX) as u32,
        };
        let numbers = (0..2 * (NUMBERS_MIN + LONGER)).map(&mut number).collect();
        let mut byte = |_| match random.below(3) {
            0 => random.draw() as u8,
            _ => *random.pick(b"_1a`"),
        };
        let bytes = (0..2 * (BYTES_MIN + LONGER)).map(&mut byte).collect();
        Garbage { numbers, bytes }
    }
}

/// So many elements of a list, from a place that the turn gives.
pub fn some<T>(list: &[T], turn: usize, length: usize) -> &[T] {
    let start = turn * 7_919 % (list.len() - length + 1);
    &list[start..][..length]
}

/// Whether the front is zero, and whether what stands behind it is kept.
fn looked_at<T: Copy + Default + PartialEq>(area: &[T], before: &[T], length: usize) -> [bool; 2] {
    let zero = area[..length].iter().all(|n| *n == T::default());
    [zero, area[length..] == before[length..]]
}

/// A test of the document call on documents of one kind.
struct Calls<'a> {
    test: Test,
    garbage: &'a Garbage,
    guard: usize,
    /// How many documents there were, and how many calls.
    documents: u64,
    turn: usize,
    met: DocumentsMet,
}

impl Calls<'_> {
    fn new<'a>(kind: &str, garbage: &'a Garbage, guard: usize) -> Calls<'a> {
        Calls {
            test: Test::new(&format!("the document call, {kind}")),
            garbage,
            guard,
            documents: 0,
            turn: 0,
            met: DocumentsMet::default(),
        }
    }

    /// The proved call, with areas that hold garbage before it.
    fn proved(&self, doc: &[u8], asked: Asked, output: &[u8]) -> Left {
        let before_numbers = some(&self.garbage.numbers, self.turn, asked.numbers + self.guard);
        let before_bytes = some(&self.garbage.bytes, self.turn, asked.bytes + self.guard);
        let mut numbers = before_numbers.to_vec();
        let mut bytes = before_bytes.to_vec();
        let mut output = output.to_vec();
        let answer = proved::document(
            doc,
            asked.render,
            &mut numbers[..asked.numbers],
            &mut bytes[..asked.bytes],
            &mut output[..asked.output],
        );
        let [numbers_zero, numbers_kept] = looked_at(&numbers, before_numbers, asked.numbers);
        let [bytes_zero, bytes_kept] = looked_at(&bytes, before_bytes, asked.bytes);
        Left {
            answer,
            output,
            zero: [numbers_zero, bytes_zero],
            kept: [numbers_kept, bytes_kept],
        }
    }

    /// One call of both; the Rust's answer, and its output.
    fn call(&mut self, doc: &[u8], asked: Asked) -> (Outcome, Vec<u8>) {
        self.turn += 1;
        let mut output = vec![self.turn as u8; asked.output + self.guard];
        let proved = self.proved(doc, asked, &output);
        let lent = &mut output[..asked.output];
        let answer = document(doc, asked.render, asked.numbers, asked.bytes, lent);
        let rust = Left {
            answer,
            output: output.clone(),
            zero: [true; 2],
            kept: [true; 2],
        };
        self.test.hold(doc, asked, proved, rust);
        self.met.add(answer);
        (answer, output)
    }

    /// A call with no output, and one with an output that just suffices; its
    /// length.
    fn sized(&mut self, doc: &[u8], render: u32) -> usize {
        let (answer, _) = self.call(doc, Asked::new(render, 0));
        if answer.number != 7 {
            self.met.read(doc, render, answer, &[]);
            return 0;
        }
        let size = answer.bytes as usize;
        let (answer, output) = self.call(doc, Asked::new(render, size));
        self.met.read(doc, render, answer, &output);
        size
    }

    /// The further calls, of which there are eight: with an output that is too
    /// short by one byte, or longer; with work areas too short by one, longer,
    /// or none; with a wrong option.
    fn further(&mut self, doc: &[u8], render: u32, size: usize, which: usize) {
        let more = 1 + self.turn * 31 % (LONGER - GUARD);
        let exact = Asked::new(render, size);
        let asked = match which {
            0 => Asked::new(render, size.saturating_sub(1)),
            1 => Asked::new(render, size + more),
            2 => Asked {
                numbers: NUMBERS_MIN - 1,
                ..exact
            },
            3 => Asked {
                bytes: BYTES_MIN - 1,
                ..exact
            },
            4 => Asked {
                numbers: NUMBERS_MIN + more,
                bytes: BYTES_MIN + LONGER - GUARD - more,
                ..exact
            },
            5 => Asked {
                numbers: more * usize::from(more.is_multiple_of(2)),
                bytes: more * usize::from(more.is_multiple_of(3)),
                ..exact
            },
            6 => Asked {
                numbers: 0,
                bytes: 0,
                ..exact
            },
            _ => Asked {
                render: NO_RENDER[more % NO_RENDER.len()],
                ..exact
            },
        };
        self.call(doc, asked);
    }

    /// Both options, each with no output, with one that just suffices, and with
    /// one further call in turn.
    fn document(&mut self, doc: &[u8]) {
        self.documents += 1;
        for render in 0..2 {
            let size = self.sized(doc, render);
            let which = (self.documents + 3 * u64::from(render)) % 8;
            self.further(doc, render, size, which as usize);
        }
    }

    /// The same with all further calls.
    fn thorough(&mut self, doc: &[u8]) {
        self.documents += 1;
        for render in 0..2 {
            let size = self.sized(doc, render);
            for which in 0..8 {
                self.further(doc, render, size, which);
            }
        }
    }

    fn end(self, count: &mut Count, met: &mut DocumentsMet) {
        count.end(self.test);
        met.join(&self.met, self.documents);
    }
}

/// All short documents, the cases of the papers, the limits, and real notes.
pub fn all(count: &mut Count, met: &mut DocumentsMet) {
    let garbage = Garbage::new(&mut Random::new(0));
    for (kind, alphabet, most) in documents::SHORT {
        let mut calls = Calls::new(kind, &garbage, GUARD);
        for doc in documents::sequences(alphabet, most) {
            calls.document(&doc);
        }
        calls.end(count, met);
    }
    let mut calls = Calls::new("all of up to four tokens of targets", &garbage, GUARD);
    for doc in documents::headers() {
        calls.document(&doc);
    }
    calls.end(count, met);
    let kinds = [
        (
            "bytes in and out of the domain",
            documents::domain_bytes().step_by(20).collect(),
        ),
        ("the cases of the papers and rare ones", documents::cases()),
        ("near the limits", documents::limits()),
    ];
    for (kind, docs) in kinds {
        let mut calls = Calls::new(kind, &garbage, GUARD);
        for doc in docs {
            calls.thorough(&doc);
        }
        calls.end(count, met);
    }
    if let Some(docs) = notes::documents(count) {
        let mut calls = Calls::new("real notes", &garbage, GUARD);
        for doc in docs {
            calls.document(&doc);
        }
        count.notes += calls.documents;
        calls.end(count, met);
    }
}

/// Some documents of each of these kinds and some drawn ones, with areas that
/// end where their allocations do.
pub fn sample(count: &mut Count, met: &mut DocumentsMet, seed: u64) {
    let garbage = Garbage::new(&mut Random::new(seed));
    let mut calls = Calls::new("a sample", &garbage, 0);
    let mut random = Random::new(seed);
    let mut docs = documents::some_short(&mut random);
    docs.extend(documents::cases());
    docs.extend(documents::limits().into_iter().step_by(9));
    for kind in documents::KINDS {
        docs.extend((0..1 + 50 / kind.rounds).map(|_| (kind.draw)(&mut random)));
    }
    for doc in docs {
        calls.thorough(&doc.into_boxed_slice());
    }
    calls.end(count, met);
}

/// Drawn documents of each kind, for as long as `goes_on` says of how many there
/// were.
pub fn drawn(count: &mut Count, met: &mut DocumentsMet, seed: u64, goes_on: impl Fn(u64) -> bool) {
    let mut random = Random::new(seed);
    let garbage = Garbage::new(&mut random);
    let test = |kind: Kind| (Calls::new(kind.name, &garbage, GUARD), kind);
    let mut kinds = documents::KINDS.map(test);
    let mut round: u64 = 0;
    while goes_on(kinds.iter().map(|(calls, _)| calls.documents).sum()) {
        for (calls, kind) in &mut kinds {
            if round.is_multiple_of(kind.rounds) {
                calls.document(&(kind.draw)(&mut random));
            }
        }
        round += 1;
    }
    for (calls, _) in kinds {
        calls.end(count, met);
    }
}
