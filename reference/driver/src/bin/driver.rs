//! Asks the reference about the document on standard input.
//!
//!     driver document [--render N] [--numbers N] [--bytes N] [--output N]
//!     driver links
//!     driver single PLACE
//!     driver names
//!     driver parser NUMBER

use driver::cases::{OUTPUT_ENOUGH, STRING_ENOUGH};
use driver::document::{BYTES_MIN, NUMBERS_MIN, document};
use driver::names::names_of;
use driver::parsers::{PARSERS, parser};
use driver::pieces::first_bad;
use driver::show;
use driver::single::take_link_at;
use std::io::{Read, Write};
use std::process::ExitCode;

const USAGE: &str = "usage: driver document [--render N] [--numbers N] [--bytes N] [--output N]
       driver links
       driver single PLACE
       driver names
       driver parser NUMBER";

fn main() -> ExitCode {
    let words: Vec<String> = std::env::args().skip(1).collect();
    let words: Vec<&str> = words.iter().map(String::as_str).collect();
    let mut doc = Vec::new();
    if let Err(error) = std::io::stdin().read_to_end(&mut doc) {
        eprintln!("driver: {error}");
        return ExitCode::FAILURE;
    }
    let Some(answer) = answer(&words, &doc) else {
        eprintln!("{USAGE}");
        return ExitCode::FAILURE;
    };
    match std::io::stdout().write_all(answer.as_bytes()) {
        Ok(()) => ExitCode::SUCCESS,
        Err(_) => ExitCode::FAILURE,
    }
}

/// What is printed, or none where the words are not understood.
fn answer(words: &[&str], doc: &[u8]) -> Option<String> {
    match words {
        ["document", options @ ..] => document_answer(options, doc),
        ["links"] => Some(show::program(doc)),
        ["single", place] => Some(single_answer(place.parse().ok()?, doc)),
        ["names"] => Some(names_answer(doc)),
        ["parser", number] => parser_answer(number.parse().ok()?, doc),
        _ => None,
    }
}

/// Number, links, bytes, and the records in hex.
fn document_answer(options: &[&str], doc: &[u8]) -> Option<String> {
    let mut render = 0;
    let mut numbers = NUMBERS_MIN;
    let mut bytes = BYTES_MIN;
    let mut output = OUTPUT_ENOUGH;
    for option in options.chunks(2) {
        match option {
            ["--render", n] => render = n.parse().ok()?,
            ["--numbers", n] => numbers = n.parse().ok()?,
            ["--bytes", n] => bytes = n.parse().ok()?,
            ["--output", n] => output = n.parse().ok()?,
            _ => return None,
        }
    }
    let mut area = vec![0; output];
    let outcome = document(doc, render, numbers, bytes, &mut area);
    let mut printed = format!(
        "number {} links {} bytes {}\n",
        outcome.number, outcome.links, outcome.bytes
    );
    if outcome.number == 0 {
        let records = &area[..outcome.bytes as usize];
        let hex: Vec<String> = records.iter().map(|byte| format!("{byte:02X}")).collect();
        printed += &hex.join(" ");
        printed.push('\n');
    }
    Some(printed)
}

fn single_answer(place: usize, doc: &[u8]) -> String {
    let (mut first, mut second) = ([0; STRING_ENOUGH], [0; STRING_ENOUGH]);
    let answer = take_link_at(doc, place, &mut first, &mut second);
    show::single(&answer, &first, &second) + "\n"
}

fn names_answer(doc: &[u8]) -> String {
    match (first_bad(doc), str::from_utf8(doc)) {
        (None, Ok(text)) => show::names(&names_of(text)) + "\n",
        _ => "outside the domain\n".to_string(),
    }
}

/// Consumed and both parts or strings, with a scratch that just suffices.
fn parser_answer(number: u8, doc: &[u8]) -> Option<String> {
    if !PARSERS.contains(&number) {
        return None;
    }
    Some(match first_bad(doc) {
        None => show::parsed(&parser(number, doc, doc.len())) + "\n",
        Some(_) => "outside the domain\n".to_string(),
    })
}
