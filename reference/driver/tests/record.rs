//! The recorded files, read by their layout alone: each answer is asked again,
//! and nothing is left over.

#[path = "../../nom/tests/table/mod.rs"]
mod table;

use driver::document::{Outcome, document};
use driver::parsers::{Parsed, parser};
use driver::pieces::piece;
use driver::record::{File, documents_file, parsers_file, pieces_file};
use driver::recorded::Reader;
use driver::single::{Single, take_link_at};
use table::Table;

/// The answers that differ when asked again, by name.
#[derive(Default)]
struct Asked {
    different: Vec<String>,
    count: usize,
}

impl Asked {
    fn again<T: PartialEq>(&mut self, name: &str, found: T, recorded: T) {
        self.count += 1;
        if found != recorded {
            self.different.push(name.to_string());
        }
    }
}

fn ask_pieces(file: &mut Reader, asked: &mut Asked) -> Option<()> {
    for _ in 0..file.number(4)? {
        let (op, parameter) = (file.number(1)? as u8, file.length(1)?);
        let length = file.length(2)?;
        let input = file.take(length)?;
        let accepted = file.number(1)? == 1;
        let values = (file.length(2)?, file.number(4)?);
        let name = format!("piece {op} {parameter} {input:02X?}");
        let recorded = accepted.then_some(values);
        asked.again(&name, piece(op, parameter, input), recorded);
    }
    Some(())
}

fn ask_parsers(file: &mut Reader, asked: &mut Asked) -> Option<()> {
    for _ in 0..file.number(4)? {
        let (number, scratch) = (file.number(1)? as u8, file.length(2)?);
        let length = file.length(2)?;
        let input = file.take(length)?;
        let accepted = file.number(1)?;
        let (first, second) = (file.length(2)?, file.length(2)?);
        let (first, second) = (file.take(first)?, file.take(second)?);
        let consumed = file.length(2)?;
        let recorded = match accepted {
            0 => Parsed::Refused,
            1 => Parsed::Found {
                first: first.into(),
                second: second.into(),
                consumed,
            },
            2 => Parsed::NoRoom,
            _ => return None,
        };
        let name = format!("parser {number} {scratch} {input:02X?}");
        asked.again(&name, parser(number, input, scratch), recorded);
    }
    Some(())
}

fn ask_documents(file: &mut Reader, asked: &mut Asked) -> Option<()> {
    for number in 0..file.number(4)? {
        let length = file.length(2)?;
        let doc = file.take(length)?;
        for _ in 0..file.number(1)? {
            let name = format!("document {number}");
            match file.number(1)? {
                1 => document_call(asked, &name, doc, file)?,
                2 => single_call(asked, &name, doc, file)?,
                _ => return None,
            }
        }
    }
    Some(())
}

fn document_call(asked: &mut Asked, name: &str, doc: &[u8], file: &mut Reader) -> Option<()> {
    let render = file.number(4)?;
    let (numbers, bytes, length) = (file.length(4)?, file.length(4)?, file.length(4)?);
    let recorded = Outcome {
        number: file.number(1)?,
        links: file.number(2)?,
        bytes: file.number(4)?,
    };
    let size = match recorded.number {
        0 => recorded.bytes as usize,
        _ => 0,
    };
    let records = file.take(size)?;
    let mut output = vec![0; length];
    let found = document(doc, render, numbers, bytes, &mut output);
    asked.again(name, (found, &output[..size]), (recorded, records));
    Some(())
}

fn single_call(asked: &mut Asked, name: &str, doc: &[u8], file: &mut Reader) -> Option<()> {
    let place = file.length(4)?;
    let (mut first, mut second) = (vec![0; file.length(2)?], vec![0; file.length(2)?]);
    let recorded = Single {
        number: file.number(1)?,
        bytes: file.number(2)?,
        kind: file.number(1)?,
        skipped: file.number(2)?,
        consumed: file.number(2)?,
        first: file.number(2)?,
        second: file.number(2)?,
    };
    let (a, b) = (recorded.first as usize, recorded.second as usize);
    let strings = (file.take(a)?, file.take(b)?);
    let found = take_link_at(doc, place, &mut first, &mut second);
    asked.again(
        name,
        (found, &first[..a], &second[..b]),
        (recorded, strings.0, strings.1),
    );
    Some(())
}

/// Asks a file's answers again, and finds differences where there are some.
fn check(
    table: &mut Table,
    file: File,
    most: usize,
    ask: fn(&mut Reader, &mut Asked) -> Option<()>,
) {
    let bytes = file.bytes();
    let mut reader = Reader::new(&bytes);
    let mut asked = Asked::default();
    table.case("as its layout says", ask(&mut reader, &mut asked), Some(()));
    table.case("nothing left over", reader.left(), 0);
    table.case("the same when asked again", asked.different, vec![]);
    table.case("not too long", bytes.len() <= most, true);
    table.case("as made", file.compare(&bytes), (asked.count, 0));
    let mut changed = bytes.clone();
    *changed.last_mut().expect("not empty") ^= 1;
    table.case("one changed", file.compare(&changed), (asked.count - 1, 1));
    let cut = &bytes[..bytes.len() - 1];
    table.case("cut off", file.compare(cut), (0, asked.count));
    table.case("missing", file.compare(&[]), (0, asked.count));
}

#[test]
fn files() {
    let mut table = Table::new("recorded files");
    check(&mut table, pieces_file(), 200_000, ask_pieces);
    check(&mut table, parsers_file(), 260_000, ask_parsers);
    check(&mut table, documents_file(), 600_000, ask_documents);
    table.end();
}
