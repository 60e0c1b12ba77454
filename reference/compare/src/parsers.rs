//! The parsers of restructured_text.rs.

use crate::branches::parser;
use crate::test::{Count, Test};
use compare::proved;
use driver::forms;
use driver::parsers::{PARSERS, has_scratch, name};
use driver::random::Random;

/// Tests of the parsers, one for each of them.
struct Parsers {
    tests: Vec<(u8, Test)>,
    scratch: Vec<u8>,
}

impl Parsers {
    fn new(numbers: &[u8], kind: &str) -> Parsers {
        let test = |number: &u8| (*number, Test::new(&format!("{}, {kind}", name(*number))));
        Parsers {
            tests: numbers.iter().map(test).collect(),
            scratch: vec![0; 1 << 15],
        }
    }

    /// Holds the answers on one input, with a scratch that is as long; of those
    /// that need it also with one that is longer, and one too short by one byte.
    fn hold(&mut self, s: &[u8], longer: usize) {
        for (number, test) in &mut self.tests {
            let exact = proved::parser(*number, s, filled(&mut self.scratch, s.len()));
            test.hold(s, s.len(), exact, parser(*number, s, s.len()));
            if !has_scratch(*number) {
                continue;
            }
            let longer = (longer > 0).then_some(s.len() + longer);
            for length in longer.into_iter().chain(s.len().checked_sub(1)) {
                let proved = proved::parser(*number, s, filled(&mut self.scratch, length));
                test.also(s, length, proved, parser(*number, s, length));
            }
        }
    }

    fn end(self, count: &mut Count) {
        for (_, test) in self.tests {
            count.end(test);
        }
    }
}

/// A scratch of that length, all zero.
fn filled(area: &mut [u8], length: usize) -> &mut [u8] {
    area[..length].fill(0);
    &mut area[..length]
}

/// Each parser on all short inputs of the alphabets that matter for it, and all
/// on the limits.
pub fn all(count: &mut Count) {
    for form in forms::FORMS {
        let mut parsers = Parsers::new(form.parsers, form.kind);
        for s in form.iter() {
            parsers.hold(&s, 0);
        }
        parsers.end(count);
    }
    let mut parsers = Parsers::new(&PARSERS, "near the label's limit");
    for s in forms::labels() {
        parsers.hold(&s, 1);
    }
    parsers.end(count);
    let mut parsers = Parsers::new(&PARSERS, "the longest");
    for s in forms::longest() {
        parsers.hold(&s, 1);
    }
    parsers.end(count);
}

/// The tests of drawn inputs.
pub struct Drawn {
    parsers: Parsers,
}

impl Drawn {
    pub fn new() -> Drawn {
        Drawn {
            parsers: Parsers::new(&PARSERS, "drawn texts"),
        }
    }

    /// All parsers on some parts of a document and damaged copies of them.
    pub fn draw(&mut self, random: &mut Random) {
        for s in forms::drawn(random) {
            self.parsers.hold(&s, random.below(3));
        }
    }

    pub fn end(self, count: &mut Count) {
        self.parsers.end(count);
    }
}
