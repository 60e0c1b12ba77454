//! Real notes: the reStructuredText texts of Debian's package docutils-doc, which
//! `fetch-notes` unpacks, cut into documents of the domain.
//!
//! Characters outside the domain become question marks. A text is cut behind
//! blank lines only: once into its paragraphs, and once for each of some lengths
//! into as many of them together as have room.

use crate::test::Count;
use compare::files::texts;
use driver::document::DOCUMENT_MAX;
use driver::pieces::SCALARS;
use std::fs;
use std::path::Path;

const FOLDER: &str = concat!(env!("CARGO_MANIFEST_DIR"), "/../../target/reference/notes");

/// The longest that the documents may be; the first leaves paragraphs alone.
const LENGTHS: [usize; 5] = [1, 300, 1_000, 4_000, DOCUMENT_MAX];

/// The documents. Where the texts were not fetched it says so.
pub fn documents(count: &mut Count) -> Option<Vec<Vec<u8>>> {
    let files = texts(Path::new(FOLDER));
    if files.is_empty() {
        count.say("real notes: skipped, there are none here");
        return None;
    }
    let cuts = files.iter().flat_map(|file| all_cuts(&read(file)));
    Some(cuts.collect())
}

/// A text with its characters brought into the domain.
fn read(file: &Path) -> String {
    let bytes = fs::read(file).expect("a text of the notes");
    let kept = |c: char| if u32::from(c) < SCALARS { c } else { '?' };
    String::from_utf8_lossy(&bytes).chars().map(kept).collect()
}

/// The documents of a text, of all lengths.
fn all_cuts(text: &str) -> Vec<Vec<u8>> {
    let paragraphs = paragraphs(text);
    LENGTHS
        .iter()
        .flat_map(|most| cut(&paragraphs, *most))
        .collect()
}

/// The paragraphs, each with the blank lines behind it. One that is longer than a
/// document may be is left out.
fn paragraphs(text: &str) -> Vec<String> {
    let mut list = vec![String::new()];
    let mut was_blank = false;
    for line in text.split_inclusive('\n') {
        let is_blank = line.trim().is_empty();
        if was_blank && !is_blank {
            list.push(String::new());
        }
        list.last_mut().expect("a paragraph").push_str(line);
        was_blank = is_blank;
    }
    list.retain(|paragraph| paragraph.len() <= DOCUMENT_MAX);
    list
}

/// Paragraphs together, up to a length.
fn cut(paragraphs: &[String], most: usize) -> Vec<Vec<u8>> {
    let mut list: Vec<Vec<u8>> = Vec::new();
    for paragraph in paragraphs {
        match list.last_mut() {
            Some(last) if last.len() + paragraph.len() <= most => last.extend(paragraph.as_bytes()),
            _ => list.push(paragraph.clone().into_bytes()),
        }
    }
    list
}
