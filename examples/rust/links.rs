//! Prints the links of notes: place, bytes consumed, text, destination; and then
//! the links as they stand: place, kind, both strings.
//!
//!     links RENDER NOTE..
//!
//! Each note is read in a thread of its own, with areas of its own: the reader
//! has no state that threads could share. A refused note is told with its number
//! and value; the status is 1 where there is one.

use std::fmt::Write;
use std::process::exit;
use std::{env, fs, thread};

/// As include/rstlinks.h has it, with the constants used here.
#[repr(C)]
struct Outcome {
    number: u32,
    links: u32,
    bytes: u32,
}

/// The same of a link as it stands.
#[repr(C)]
struct Standing {
    number: u32,
    bytes: u32,
    kind: u32,
    skipped: u32,
    consumed: u32,
    first: u32,
    second: u32,
}

const ACCEPTED: u32 = 0;
const TOO_SHORT: u32 = 7;
const NO_LINK: u32 = 9;
const NUMBERS_MIN: usize = 4_096;
const BYTES_MIN: usize = 49_152;
const STRING_MAX: usize = 16_384;

/// The kinds, from 1 on.
const KINDS: [&str; 5] = [
    "Text2Dest",
    "TextLabel2Dest",
    "Text2Label",
    "Label2Dest",
    "Label2Label",
];

#[link(name = "rstlinks_c", kind = "static")]
unsafe extern "C" {
    fn rst_document(
        document: *const u8,
        document_len: usize,
        render: u32,
        numbers: *mut u32,
        numbers_len: usize,
        bytes: *mut u8,
        bytes_len: usize,
        output: *mut u8,
        output_len: usize,
    ) -> Outcome;

    fn rst_take_link(
        document: *const u8,
        document_len: usize,
        place: usize,
        first: *mut u8,
        first_len: usize,
        second: *mut u8,
        second_len: usize,
    ) -> Standing;
}

/// A link of a note. The strings are parts of the records.
struct Link<'a> {
    place: usize,
    consumed: usize,
    text: &'a str,
    destination: &'a str,
}

/// Why a note is refused: the number, and the place or size that goes with it.
struct Refused {
    number: u32,
    bytes: u32,
}

/// The areas that a thread lends, note after note.
struct Reader {
    numbers: Vec<u32>,
    bytes: Vec<u8>,
    output: Vec<u8>,
}

impl Reader {
    /// With an output of that length to begin with.
    fn new(output: usize) -> Reader {
        Reader {
            numbers: vec![0; NUMBERS_MIN],
            bytes: vec![0; BYTES_MIN],
            output: vec![0; output],
        }
    }

    fn call(&mut self, note: &[u8], render: u32) -> Outcome {
        // Each pointer stands with the length of its own slice; the slices are
        // apart, since Rust lends them apart. The call asks for nothing else.
        unsafe {
            rst_document(
                note.as_ptr(),
                note.len(),
                render,
                self.numbers.as_mut_ptr(),
                self.numbers.len(),
                self.bytes.as_mut_ptr(),
                self.bytes.len(),
                self.output.as_mut_ptr(),
                self.output.len(),
            )
        }
    }

    /// The records of a note, with a longer output where that is needed, which is
    /// said.
    fn read(&mut self, note: &[u8], render: u32, said: &mut String) -> Result<&[u8], Refused> {
        loop {
            let Outcome { number, bytes, .. } = self.call(note, render);
            match number {
                ACCEPTED => return Ok(&self.output[..bytes as usize]),
                TOO_SHORT => {
                    let short = self.output.len();
                    _ = writeln!(said, "output {short} too short, needed {bytes}");
                    self.output.resize(bytes as usize, 0);
                }
                _ => return Err(Refused { number, bytes }),
            }
        }
    }
}

fn string(bytes: &[u8]) -> &str {
    str::from_utf8(bytes).expect("a part of a document of UTF-8")
}

/// The links that records hold.
fn links_in(records: &[u8]) -> Vec<Link<'_>> {
    let mut links = Vec::new();
    let mut rest = records;
    let mut end = 0;
    while let Some((head, strings)) = rest.split_first_chunk() {
        let head = u64::from_be_bytes(*head);
        let field = |shift: u32| (head >> shift & 0x7FFF) as usize;
        let (text, strings) = strings.split_at(field(19));
        let (destination, after) = strings.split_at(field(4));
        links.push(Link {
            place: end + field(49),
            consumed: field(34),
            text: string(text),
            destination: string(destination),
        });
        end += field(49) + field(34);
        rest = after;
    }
    links
}

/// The first link from a place on, as it stands.
fn take(note: &[u8], place: usize, first: &mut [u8], second: &mut [u8]) -> Standing {
    // As for the other call.
    unsafe {
        rst_take_link(
            note.as_ptr(),
            note.len(),
            place,
            first.as_mut_ptr(),
            first.len(),
            second.as_mut_ptr(),
            second.len(),
        )
    }
}

/// Says a line for each link as it stands, and one for the place behind which
/// there is none.
fn say_standing(note: &[u8], said: &mut String) {
    let (mut first, mut second) = (vec![0; STRING_MAX], vec![0; STRING_MAX]);
    let mut place = 0;
    loop {
        let link = take(note, place, &mut first, &mut second);
        if link.number != ACCEPTED {
            let none = link.number == NO_LINK;
            _ = writeln!(said, "{place} {}", if none { "no link" } else { "refused" });
            return;
        }
        _ = writeln!(
            said,
            "{} {} \"{}\" \"{}\"",
            place + link.skipped as usize,
            KINDS[link.kind as usize - 1],
            string(&first[..link.first as usize]),
            string(&second[..link.second as usize])
        );
        place += (link.skipped + link.consumed) as usize;
    }
}

/// What is said of a note, and whether it was read.
fn show(render: u32, name: &str, note: &[u8]) -> (String, bool) {
    let mut said = format!("note {name}\n");
    let mut reader = Reader::new(256);
    match reader.read(note, render, &mut said) {
        Ok(records) => {
            let links = links_in(records);
            _ = writeln!(said, "links {}, bytes {}", links.len(), records.len());
            for link in links {
                _ = writeln!(
                    said,
                    "{} {} \"{}\" \"{}\"",
                    link.place, link.consumed, link.text, link.destination
                );
            }
            said.push_str("as they stand\n");
            say_standing(note, &mut said);
            (said, true)
        }
        Err(Refused { number, bytes }) => {
            _ = writeln!(said, "refused {number}, bytes {bytes}");
            (said, false)
        }
    }
}

/// Says why nothing can be done, and ends.
fn fail(why: &str) -> ! {
    eprintln!("{why}");
    exit(2);
}

fn main() {
    const USAGE: &str = "usage: links RENDER NOTE..";
    let words: Vec<String> = env::args().collect();
    let [_, render, _, ..] = words.as_slice() else {
        fail(USAGE);
    };
    let names = &words[2..];
    let render = render.parse().unwrap_or_else(|_| fail(USAGE));
    let load = |name: &String| fs::read(name).unwrap_or_else(|why| fail(&format!("{name}: {why}")));
    let notes: Vec<(&String, Vec<u8>)> = names.iter().map(|name| (name, load(name))).collect();
    let answers: Vec<(String, bool)> = thread::scope(|scope| {
        let started: Vec<_> = notes
            .iter()
            .map(|(name, note)| scope.spawn(|| show(render, name, note)))
            .collect();
        let ended = started.into_iter().map(|thread| thread.join());
        ended.map(|answer| answer.expect("it returns")).collect()
    });
    for (said, _) in &answers {
        print!("{said}");
    }
    exit(i32::from(answers.iter().any(|(_, read)| !read)));
}
