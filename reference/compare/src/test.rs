//! Tests of many inputs each, and their count.

use driver::parsers::Parsed;
use driver::pieces::Answer;
use std::fmt::{Debug, Display};

/// What both sides answer.
pub trait Answered: PartialEq + Debug {
    fn is_accepted(&self) -> bool;
}

impl Answered for Answer {
    fn is_accepted(&self) -> bool {
        self.is_some()
    }
}

impl Answered for Parsed<'_> {
    fn is_accepted(&self) -> bool {
        matches!(self, Parsed::Found { .. })
    }
}

/// The inputs tried, how many the Rust accepts and, of those that differ, how
/// many and the shortest.
pub struct Test {
    name: String,
    tried: u64,
    accepted: u64,
    differ: u64,
    shortest: Option<Difference>,
}

struct Difference {
    input: Vec<u8>,
    /// What else was asked, and both answers.
    said: String,
}

impl Test {
    pub fn new(name: &str) -> Test {
        Test {
            name: name.to_string(),
            tried: 0,
            accepted: 0,
            differ: 0,
            shortest: None,
        }
    }

    /// Holds a proved answer to the Rust's. The parameter is what was asked
    /// besides the input.
    pub fn hold<T: Answered>(&mut self, input: &[u8], parameter: impl Display, proved: T, rust: T) {
        self.tried += 1;
        self.accepted += u64::from(rust.is_accepted());
        self.also(input, parameter, proved, rust);
    }

    /// Holds one more answer on an input that is counted already.
    pub fn also<T: Answered>(&mut self, input: &[u8], parameter: impl Display, proved: T, rust: T) {
        if proved == rust {
            return;
        }
        self.differ += 1;
        let shorter = |known: &Difference| input.len() < known.input.len();
        if self.shortest.as_ref().is_none_or(shorter) {
            self.shortest = Some(Difference {
                input: input.to_vec(),
                said: format!("parameter {parameter}: proved {proved:?}, Rust {rust:?}"),
            });
        }
    }
}

/// The tests so far, passed and failed; the documents read by either call, those of
/// them cut from real notes, and the appended pairs; the lines to print.
#[derive(Default)]
pub struct Count {
    pub passed: u64,
    pub failed: u64,
    pub documents: u64,
    pub notes: u64,
    pub pairs: u64,
    lines: String,
}

impl Count {
    pub fn say(&mut self, line: impl Display) {
        self.lines += &format!("{line}\n");
    }

    /// Prints the lines so far, all at once.
    pub fn print(&mut self) {
        print!("{}", std::mem::take(&mut self.lines));
    }

    pub fn join(&mut self, other: &Count) {
        self.passed += other.passed;
        self.failed += other.failed;
        self.documents += other.documents;
        self.notes += other.notes;
        self.pairs += other.pairs;
    }

    /// Says how many documents and pairs there were.
    pub fn total(&mut self) {
        let (documents, notes, pairs) = (self.documents, self.notes, self.pairs);
        self.say(format_args!(
            "in all {documents} documents, {notes} of them cut from real notes; {pairs} appended pairs"
        ));
    }

    /// A test that holds or does not.
    pub fn ask(&mut self, holds: bool) {
        self.passed += u64::from(holds);
        self.failed += u64::from(!holds);
    }

    pub fn end(&mut self, test: Test) {
        self.say(format_args!(
            "{}: {} inputs, {} accepted, {} differ",
            test.name, test.tried, test.accepted, test.differ
        ));
        if let Some(d) = &test.shortest {
            self.say(format_args!("  {:02X?}, {}", d.input, d.said));
        }
        self.ask(test.differ == 0 && test.tried > 0);
    }
}
