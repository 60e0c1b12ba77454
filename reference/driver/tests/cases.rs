//! The cases of the papers, one table for each of their lists.

#[path = "../../nom/tests/table/mod.rs"]
mod table;

use driver::cases::{Case, parsers, reading, scope};
use driver::parsers::name;
use table::Table;

fn run(name: &'static str, cases: Vec<Case>) {
    let mut table = Table::new(name);
    for case in cases {
        let shown = String::from_utf8_lossy(&case.doc[..case.doc.len().min(40)]);
        let title = format!("{} {:?} {:?}", case.name, shown, case.call);
        table.case(&title, case.answer(), case.expected);
    }
    table.end();
}

#[test]
fn proved() {
    run("01, proved cases", scope::proved());
}

#[test]
fn beside() {
    run("01, cases run beside the Rust", scope::beside());
}

#[test]
fn worked() {
    run("01, worked example", scope::worked());
}

#[test]
fn sentences() {
    run("readings, sentences", reading::sentences());
}

#[test]
fn sizes() {
    run("readings, sizes", reading::sizes());
}

#[test]
fn of_the_parsers() {
    let mut table = Table::new("readings, parsers");
    for case in parsers::parsers() {
        let shown = String::from_utf8_lossy(&case.input[..case.input.len().min(40)]);
        let title = format!("{} {:?} {}", case.name, shown, name(case.parser));
        table.case(&title, case.answer(), case.expected);
    }
    table.end();
}
