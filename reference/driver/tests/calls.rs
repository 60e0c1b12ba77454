//! What the calls leave in the lent areas, and the order of the refusals.

#[path = "../../nom/tests/table/mod.rs"]
mod table;

use driver::cases::scope::{WORKED, WORKED_RECORDS};
use driver::document::{BYTES_MIN, NUMBERS_MIN, Outcome, document, links_in, links_of, records_of};
use driver::generate;
use driver::single::{Single, take_link_at};
use table::Table;

fn outcome(number: u32, links: u32, bytes: u32) -> Outcome {
    Outcome {
        number,
        links,
        bytes,
    }
}

/// What a document call returns, and what it leaves in an output that held
/// `length` bytes 55 hex.
fn call(
    doc: &[u8],
    render: u32,
    numbers: usize,
    bytes: usize,
    length: usize,
) -> (Outcome, Vec<u8>) {
    let mut output = vec![0x55; length];
    let outcome = document(doc, render, numbers, bytes, &mut output);
    (outcome, output)
}

#[test]
fn document_areas() {
    let mut table = Table::new("document call, areas");
    let worked = WORKED.as_bytes();
    let ask = |length| call(worked, 0, NUMBERS_MIN, BYTES_MIN, length);
    let exact = WORKED_RECORDS.to_vec();
    table.case("exact", ask(24), (outcome(0, 2, 24), exact.clone()));
    let longer = [exact.as_slice(), &[0x55; 3]].concat();
    table.case(
        "old bytes after the records",
        ask(27),
        (outcome(0, 2, 24), longer),
    );
    table.case("too short", ask(23), (outcome(7, 0, 24), vec![0x55; 23]));
    table.case("none", ask(0), (outcome(7, 0, 24), vec![]));

    let refused = |number, bytes| (outcome(number, 0, bytes), vec![0x55; 4]);
    let long = vec![0xFF; 16_385];
    let links = "a_\n".repeat(257).into_bytes();
    let blocks = ".. _a: u\n".repeat(257).into_bytes();
    let few = |doc, render, numbers, bytes| call(doc, render, numbers, bytes, 4);
    table.case("1 before all", few(&long, 2, 0, 0), refused(1, 0));
    table.case("1, largest", few(&long, u32::MAX, 0, 0), refused(1, 0));
    table.case("2 before 3", few(&long, 1, 0, 0), refused(2, 0));
    table.case(
        "3, numbers",
        few(b"\xFF", 0, NUMBERS_MIN - 1, BYTES_MIN),
        refused(3, 0),
    );
    table.case(
        "3, bytes",
        few(b"\xFF", 0, NUMBERS_MIN, BYTES_MIN - 1),
        refused(3, 0),
    );
    table.case("4", few(b"a\xFF", 0, NUMBERS_MIN, BYTES_MIN), refused(4, 1));
    table.case("5", few(&links, 0, NUMBERS_MIN, BYTES_MIN), refused(5, 0));
    table.case("6", few(&blocks, 0, NUMBERS_MIN, BYTES_MIN), refused(6, 0));
    table.case(
        "5 before 6",
        few(&blocks, 1, NUMBERS_MIN, BYTES_MIN),
        refused(5, 0),
    );
    table.end();
}

#[test]
fn single_areas() {
    let mut table = Table::new("single-link call, areas");
    let doc = b"x `abc <de>`_ y";
    let ask = |place, first: usize, second: usize| {
        let (mut one, mut two) = (vec![0x55; first], vec![0x55; second]);
        let answer = take_link_at(doc, place, &mut one, &mut two);
        (answer, one, two)
    };
    let found = Single {
        kind: 2,
        skipped: 2,
        consumed: 11,
        first: 3,
        second: 2,
        ..Single::default()
    };
    let refused = |number, bytes| Single {
        number,
        bytes,
        ..Single::default()
    };
    let old = |length: usize| vec![0x55; length];
    table.case(
        "exact",
        ask(0, 3, 2),
        (found, b"abc".to_vec(), b"de".to_vec()),
    );
    table.case(
        "longer",
        ask(0, 4, 3),
        (found, b"abcU".to_vec(), b"deU".to_vec()),
    );
    table.case(
        "first too short",
        ask(0, 2, 1),
        (refused(7, 3), old(2), old(1)),
    );
    table.case(
        "second too short",
        ask(0, 3, 1),
        (refused(7, 2), old(3), old(1)),
    );
    table.case("none", ask(13, 3, 2), (refused(9, 0), old(3), old(2)));
    table.case(
        "past the end",
        ask(16, 3, 2),
        (refused(8, 0), old(3), old(2)),
    );
    table.end();
}

#[test]
fn records() {
    let mut table = Table::new("records read back");
    for seed in 0..1_000 {
        let doc = generate::document(seed, true);
        let text = str::from_utf8(&doc).expect("UTF-8");
        for render in [false, true] {
            let links = links_of(text, render);
            let name = format!("seed {seed}");
            table.case(&name, links_in(&records_of(&links)), links);
        }
    }
    table.end();
}
