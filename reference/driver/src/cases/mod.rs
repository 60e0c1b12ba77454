//! Tables of cases with the answers that the papers give, as one line of text
//! each (see `show`). The tests run them, and `record` records their documents.

pub mod parsers;
pub mod reading;
pub mod scope;

use crate::document::{BYTES_MIN, NUMBERS_MIN, document};
use crate::names::names_of;
use crate::show;
use crate::single::take_link_at;

/// An output that no accepted document overfills.
pub const OUTPUT_ENOUGH: usize = 8_390_656;

/// A string's buffer that no document overfills.
pub const STRING_ENOUGH: usize = 16_384;

/// What is asked of a document.
#[derive(Clone, Copy, Debug, PartialEq)]
pub enum Call {
    /// The single-link call with two buffers of these lengths.
    One {
        place: usize,
        first: usize,
        second: usize,
    },
    /// The single-link call from resumed place to resumed place.
    Each,
    /// The document call with areas of these lengths.
    Document {
        render: u32,
        numbers: usize,
        bytes: usize,
        output: usize,
    },
    /// Names defined, references, unresolved ones.
    Names,
    /// The program `rstlinks`.
    Program,
}

pub struct Case {
    pub name: &'static str,
    pub doc: Vec<u8>,
    pub call: Call,
    pub expected: String,
}

impl Case {
    /// The reference's answer.
    pub fn answer(&self) -> String {
        let doc = &self.doc;
        match self.call {
            Call::One {
                place,
                first,
                second,
            } => {
                let (mut first, mut second) = (vec![0; first], vec![0; second]);
                let answer = take_link_at(doc, place, &mut first, &mut second);
                show::single(&answer, &first, &second)
            }
            Call::Each => show::each(doc),
            Call::Document {
                render,
                numbers,
                bytes,
                output,
            } => {
                let mut output = vec![0; output];
                let outcome = document(doc, render, numbers, bytes, &mut output);
                show::outcome(&outcome, &output)
            }
            Call::Names => show::names(&names_of(str::from_utf8(doc).expect("UTF-8"))),
            Call::Program => show::program(doc),
        }
    }
}

/// A table under construction.
struct Table {
    name: &'static str,
    cases: Vec<Case>,
}

impl Table {
    fn new() -> Table {
        Table {
            name: "",
            cases: Vec::new(),
        }
    }

    /// The name of the cases that follow.
    fn named(&mut self, name: &'static str) -> &mut Table {
        self.name = name;
        self
    }

    fn add(&mut self, doc: &[u8], call: Call, expected: impl Into<String>) -> &mut Table {
        self.cases.push(Case {
            name: self.name,
            doc: doc.to_vec(),
            call,
            expected: expected.into(),
        });
        self
    }

    /// The single-link call at the start.
    fn one(&mut self, doc: impl AsRef<[u8]>, expected: impl Into<String>) -> &mut Table {
        self.at(doc, 0, expected)
    }

    /// The single-link call at a place.
    fn at(
        &mut self,
        doc: impl AsRef<[u8]>,
        place: usize,
        expected: impl Into<String>,
    ) -> &mut Table {
        let call = Call::One {
            place,
            first: STRING_ENOUGH,
            second: STRING_ENOUGH,
        };
        self.add(doc.as_ref(), call, expected)
    }

    /// The single-link call at the start, with two buffers of these lengths.
    fn lent(
        &mut self,
        doc: impl AsRef<[u8]>,
        (first, second): (usize, usize),
        expected: impl Into<String>,
    ) -> &mut Table {
        let call = Call::One {
            place: 0,
            first,
            second,
        };
        self.add(doc.as_ref(), call, expected)
    }

    fn each(&mut self, doc: impl AsRef<[u8]>, expected: impl Into<String>) -> &mut Table {
        self.add(doc.as_ref(), Call::Each, expected)
    }

    /// The document call with that option, and areas large enough.
    fn document(
        &mut self,
        render: u32,
        doc: impl AsRef<[u8]>,
        expected: impl Into<String>,
    ) -> &mut Table {
        self.output(render, OUTPUT_ENOUGH, doc, expected)
    }

    /// The document call with that option and an output of that length.
    fn output(
        &mut self,
        render: u32,
        output: usize,
        doc: impl AsRef<[u8]>,
        expected: impl Into<String>,
    ) -> &mut Table {
        let call = Call::Document {
            render,
            numbers: NUMBERS_MIN,
            bytes: BYTES_MIN,
            output,
        };
        self.add(doc.as_ref(), call, expected)
    }

    fn names(&mut self, doc: impl AsRef<[u8]>, expected: impl Into<String>) -> &mut Table {
        self.add(doc.as_ref(), Call::Names, expected)
    }

    fn program(&mut self, doc: impl AsRef<[u8]>, expected: impl Into<String>) -> &mut Table {
        self.add(doc.as_ref(), Call::Program, expected)
    }
}

/// A table's expected line for a list of links that all look alike but for
/// their places, which are `step` apart.
fn links_alike(count: usize, step: usize, rest: &str) -> String {
    let mut shown = format!("links {count}");
    for n in 0..count {
        shown += &format!("; {} {rest}", n * step);
    }
    shown
}

/// All cases of 01 and its readings, on documents.
pub fn documents() -> impl Iterator<Item = Case> {
    let lists = [
        scope::proved(),
        scope::beside(),
        scope::worked(),
        reading::sentences(),
        reading::sizes(),
    ];
    lists.into_iter().flatten()
}
