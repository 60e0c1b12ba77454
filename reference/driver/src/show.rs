//! Answers as text: what the program `rstlinks` prints, and one line for each
//! answer of the calls, for tables of cases and for the binary.

use crate::document::{BYTES_MIN, NUMBERS_MIN, Outcome, Shown, document, links_in};
use crate::names::Names;
use crate::parsers::Parsed;
use crate::single::{KINDS, Single, take_link_at};

/// The program's output area.
const PROGRAM_OUTPUT: usize = 65_536;

/// 01: "In quotes, bytes below 20, above 7E, `"` and backslash are a backslash
/// and two uppercase hex digits."
pub fn quoted(bytes: &[u8]) -> String {
    let mut shown = String::from("\"");
    for &byte in bytes {
        match byte {
            b'"' | b'\\' | 0..0x20 | 0x7F.. => shown += &format!("\\{byte:02X}"),
            _ => shown.push(char::from(byte)),
        }
    }
    shown + "\""
}

/// The line of a link: place, consumed, text, destination.
pub fn link(link: &Shown) -> String {
    let (text, destination) = (quoted(&link.text), quoted(&link.destination));
    format!("{} {} {text} {destination}", link.place, link.consumed)
}

/// The lines of the links that records hold.
fn link_lines(records: &[u8]) -> Vec<String> {
    links_in(records).iter().map(link).collect()
}

/// What `rstlinks` prints for a document.
pub fn program(doc: &[u8]) -> String {
    let mut output = vec![0; PROGRAM_OUTPUT];
    let outcome = document(doc, 0, NUMBERS_MIN, BYTES_MIN, &mut output);
    if outcome.number != 0 {
        return format!("refused {}\n", outcome.number);
    }
    let mut printed = format!("links {}\n", outcome.links);
    for line in link_lines(&output[..outcome.bytes as usize]) {
        printed += &line;
        printed.push('\n');
    }
    printed
}

/// A refusal's number, and its value where it is one that has a value.
fn refusal(number: u32, bytes: u32) -> String {
    match number {
        4 | 7 => format!("refused {number} {bytes}"),
        _ => format!("refused {number}"),
    }
}

/// The document call's answer in one line.
pub fn outcome(outcome: &Outcome, output: &[u8]) -> String {
    if outcome.number != 0 {
        return refusal(outcome.number, outcome.bytes);
    }
    let mut parts = vec![format!("links {}", outcome.links)];
    parts.extend(link_lines(&output[..outcome.bytes as usize]));
    parts.join("; ")
}

/// The single-link call's answer in one line: case, skipped, consumed, strings.
pub fn single(answer: &Single, first: &[u8], second: &[u8]) -> String {
    if answer.number != 0 {
        return refusal(answer.number, answer.bytes);
    }
    format!(
        "{} {} {} {} {}",
        KINDS[answer.kind as usize - 1],
        answer.skipped,
        answer.consumed,
        quoted(&first[..answer.first as usize]),
        quoted(&second[..answer.second as usize]),
    )
}

/// The single-link call from the start and then from each resumed place, up to
/// the refusal that ends it, which is left out where it is 9.
pub fn each(doc: &[u8]) -> String {
    let mut shown = Vec::new();
    let mut place = 0;
    loop {
        let mut first = vec![0; doc.len()];
        let mut second = vec![0; doc.len()];
        let answer = take_link_at(doc, place, &mut first, &mut second);
        if answer.number == 9 {
            return shown.join("; ");
        }
        shown.push(single(&answer, &first, &second));
        if answer.number != 0 {
            return shown.join("; ");
        }
        place += (answer.skipped + answer.consumed) as usize;
    }
}

/// A parser's answer in one line: consumed, and the two parts or strings.
pub fn parsed(answer: &Parsed) -> String {
    match answer {
        Parsed::Found {
            first,
            second,
            consumed,
        } => format!("{consumed} {} {}", quoted(first), quoted(second)),
        Parsed::Refused => "refused".to_string(),
        Parsed::NoRoom => "no room".to_string(),
    }
}

/// Names defined, places of references, places of unresolved ones, in one line.
pub fn names(names: &Names) -> String {
    let list = |places: &[usize]| places.iter().map(|n| format!(" {n}")).collect::<String>();
    let defined: String = names
        .defined
        .iter()
        .map(|n| format!(" {}", quoted(n)))
        .collect();
    format!(
        "defined{defined}; references{}; unresolved{}",
        list(&names.references),
        list(&names.unresolved),
    )
}
