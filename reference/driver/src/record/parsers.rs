//! `parsers.bin`: answers of the parsers on short inputs.

use super::{File, SEED};
use crate::cases::{parsers as cases, reading};
use crate::forms::{self, FORMS};
use crate::parsers::{PARSERS, Parsed, has_scratch, parser};
use crate::random::Random;
use crate::recorded;

/// The longest input on which every parser is recorded.
const SHORT: usize = 60;

/// Inputs recorded of each form.
const OF_EACH_FORM: usize = 40;

/// Inputs recorded that a parser accepts, of each form; and how many are tried.
const ACCEPTED: usize = 10;
const TRIES: usize = 2_000;

/// Parts of documents recorded.
const DRAWN: usize = 60;

/// What a parser is asked.
#[derive(PartialEq)]
struct Asked {
    number: u8,
    scratch: usize,
    input: Vec<u8>,
}

/// `parsers.bin`.
pub fn parsers_file() -> File {
    let mut asked = Vec::new();
    case_inputs(&mut asked);
    form_inputs(&mut asked);
    drawn_inputs(&mut asked);
    let chunks = asked.iter().map(parser_chunk).collect();
    File::counted(asked.len(), chunks, recorded::parser_chunks)
}

/// Asks a parser, unless it was asked the same already.
fn ask(asked: &mut Vec<Asked>, number: u8, scratch: usize, input: &[u8]) {
    let one = Asked {
        number,
        scratch,
        input: input.to_vec(),
    };
    if !asked.contains(&one) {
        asked.push(one);
    }
}

/// Asks every parser, with a scratch that just suffices, and those that have one
/// also with one that just does not.
fn ask_all(asked: &mut Vec<Asked>, input: &[u8]) {
    for number in PARSERS {
        ask(asked, number, input.len(), input);
        if has_scratch(number) && !input.is_empty() {
            ask(asked, number, input.len() - 1, input);
        }
    }
}

/// The cases of the parsers, and the readings' documents that are about them;
/// of the short ones, all parsers.
fn case_inputs(asked: &mut Vec<Asked>) {
    ask_all(asked, b"");
    for case in cases::parsers() {
        if case.input.len() <= SHORT {
            ask_all(asked, &case.input);
        } else {
            ask(asked, case.parser, case.input.len(), &case.input);
        }
    }
    for case in reading::sentences() {
        if about_parsers(case.name) && case.doc.len() <= SHORT {
            ask_all(asked, &case.doc);
        }
    }
}

/// N6 to N20, and N28.
fn about_parsers(name: &str) -> bool {
    let number = name.strip_prefix('N').and_then(|n| n.parse().ok());
    number.is_some_and(|n: u32| matches!(n, 6..=20 | 28))
}

/// Inputs of every form, drawn by number, with the parsers that it is for; and
/// for each of these some that it accepts.
fn form_inputs(asked: &mut Vec<Asked>) {
    let mut random = Random::new(SEED + 5);
    for form in &FORMS {
        let mut draw = || form.get(random.draw() % form.count());
        for _ in 0..OF_EACH_FORM {
            let input = draw();
            for number in form.parsers {
                ask(asked, *number, input.len(), &input);
            }
        }
        for number in form.parsers {
            let accepts = |s: &Vec<u8>| parser(*number, s, s.len()) != Parsed::Refused;
            let some = (0..TRIES).map(|_| draw()).filter(accepts);
            for input in some.take(ACCEPTED) {
                ask(asked, *number, input.len(), &input);
            }
        }
    }
}

/// Short parts of documents, with all parsers.
fn drawn_inputs(asked: &mut Vec<Asked>) {
    let mut random = Random::new(SEED + 6);
    let mut taken = 0;
    while taken < DRAWN {
        for input in forms::drawn(&mut random) {
            if input.len() <= SHORT {
                taken += 1;
                ask_all(asked, &input);
            }
        }
    }
}

fn parser_chunk(asked: &Asked) -> Vec<u8> {
    let mut chunk = vec![asked.number];
    chunk.extend((asked.scratch as u16).to_be_bytes());
    chunk.extend((asked.input.len() as u16).to_be_bytes());
    chunk.extend(&asked.input);
    let answer = parser(asked.number, &asked.input, asked.scratch);
    let (accepted, consumed, first, second) = match &answer {
        Parsed::Refused => (0, 0, &[][..], &[][..]),
        Parsed::Found {
            first,
            second,
            consumed,
        } => (1, *consumed, &first[..], &second[..]),
        Parsed::NoRoom => (2, 0, &[][..], &[][..]),
    };
    chunk.push(accepted);
    for length in [first.len(), second.len()] {
        chunk.extend((length as u16).to_be_bytes());
    }
    chunk.extend(first);
    chunk.extend(second);
    chunk.extend((consumed as u16).to_be_bytes());
    chunk
}
