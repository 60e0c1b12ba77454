//! Real notes: the texts below a folder, cut at blank lines into documents that
//! the document call accepts.

use crate::whole::Areas;
use compare::files::texts;
use driver::document::DOCUMENT_MAX;
use std::fs;
use std::path::{Path, PathBuf};

/// A part of a text.
pub struct Note {
    pub file: PathBuf,
    pub doc: Vec<u8>,
}

/// All of them, in the order of their files' names; none where there is no folder.
pub fn notes(folder: &Path, areas: &mut Areas) -> Vec<Note> {
    let mut notes = Vec::new();
    for file in texts(folder) {
        let text = fs::read(&file).expect("a readable file");
        for doc in cut(&text, areas) {
            notes.push(Note {
                file: file.clone(),
                doc: doc.to_vec(),
            });
        }
    }
    notes
}

/// Documents of as many paragraphs as one may have; a paragraph that none may have
/// is left out and ends a document.
fn cut<'a>(text: &'a [u8], areas: &mut Areas) -> Vec<&'a [u8]> {
    let mut documents = Vec::new();
    let mut accepted = |doc: &[u8]| doc.len() <= DOCUMENT_MAX && areas.call(doc).number == 0;
    let blank = |at: &usize| text[..*at].ends_with(b"\n\n");
    let mut first = 0;
    let mut last = 0;
    for end in (1..text.len()).filter(blank).chain([text.len()]) {
        if !accepted(&text[first..end]) {
            documents.push(&text[first..last]);
            first = if accepted(&text[last..end]) {
                last
            } else {
                end
            };
        }
        last = end;
    }
    documents.push(&text[first..last]);
    documents.retain(|doc| !doc.is_empty());
    documents
}
