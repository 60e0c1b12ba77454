//! `documents.bin`: answers of the two public calls.

use super::{File, SEED};
use crate::cases::{self, Call, Case, OUTPUT_ENOUGH, STRING_ENOUGH, reading, scope};
use crate::document::{BYTES_MIN, NUMBERS_MIN, document};
use crate::exhaustive::{BLOCKS, BYTES, INLINE, LINES, Sequences};
use crate::random::Random;
use crate::single::take_link_at;
use crate::{generate, limits, recorded};

/// Generated documents recorded.
const GENERATED: u64 = 1_000;

/// The longest generated document recorded.
const GENERATED_LONGEST: usize = 350;

/// The longest document of a case recorded.
const CASE_LONGEST: usize = 1_100;

/// The most bytes of records that a recorded answer holds.
const RECORDS_LONGEST: usize = 4_400;

/// Generated documents recorded at every place, and the longest of them.
const PLACED: usize = 50;
const PLACED_LONGEST: usize = 40;

/// The longest document of a case recorded at every place.
const PLACED_CASE_LONGEST: usize = 20;

/// Generated documents recorded with many areas, and the longest of them.
const LENT: usize = 24;
const LENT_LONGEST: usize = 60;

/// Lengths of the work areas recorded with these: too short, and longer.
const WORK: [(usize, usize); 8] = [
    (NUMBERS_MIN - 1, BYTES_MIN),
    (NUMBERS_MIN, BYTES_MIN - 1),
    (0, 0),
    (0, BYTES_MIN),
    (NUMBERS_MIN, 0),
    (100, 200),
    (NUMBERS_MIN + 1, BYTES_MIN + 1),
    (NUMBERS_MIN + 100, BYTES_MIN + 100),
];

/// Wrong options recorded.
const NO_RENDER: [u32; 4] = [2, 3, 256, u32::MAX];

/// A document and the calls recorded on it.
struct Entry {
    doc: Vec<u8>,
    calls: Vec<Call>,
}

/// `documents.bin`.
pub fn documents_file() -> File {
    let mut entries = Vec::new();
    case_entries(&mut entries);
    limit_entries(&mut entries);
    generated_entries(&mut entries);
    place_entries(&mut entries);
    sequence_entries(&mut entries);
    lent_entries(&mut entries);
    let chunks = entries.iter().flat_map(entry_chunks).collect();
    File::counted(entries.len(), chunks, recorded::document_chunks)
}

/// The document call with an output that just suffices.
fn exact(doc: &[u8], render: u32) -> Call {
    sized(doc, render, |size| size)
}

/// The document call with an output of a length found from the size needed.
fn sized(doc: &[u8], render: u32, length: impl Fn(usize) -> usize) -> Call {
    let outcome = document(doc, render, NUMBERS_MIN, BYTES_MIN, &mut []);
    let size = if outcome.number == 7 {
        outcome.bytes as usize
    } else {
        0
    };
    Call::Document {
        render,
        numbers: NUMBERS_MIN,
        bytes: BYTES_MIN,
        output: if size > RECORDS_LONGEST {
            0
        } else {
            length(size)
        },
    }
}

/// The single-link call with buffers that just suffice.
fn exact_one(doc: &[u8], place: usize) -> Call {
    let (mut first, mut second) = ([0; STRING_ENOUGH], [0; STRING_ENOUGH]);
    let answer = take_link_at(doc, place, &mut first, &mut second);
    Call::One {
        place,
        first: answer.first as usize,
        second: answer.second as usize,
    }
}

/// The same with one buffer too short, where that can be.
fn short_one(doc: &[u8], place: usize, in_first: bool) -> Option<Call> {
    let Call::One { first, second, .. } = exact_one(doc, place) else {
        return None;
    };
    Some(if in_first {
        Call::One {
            place,
            first: first.checked_sub(1)?,
            second,
        }
    } else {
        Call::One {
            place,
            first,
            second: second.checked_sub(1)?,
        }
    })
}

/// Every case of the papers whose document is short, with its own call and the
/// calls with areas that just suffice or just do not.
fn case_entries(entries: &mut Vec<Entry>) {
    for case in cases::documents() {
        if case.doc.len() > CASE_LONGEST {
            continue;
        }
        let mut calls = own_call(&case);
        calls.extend([
            exact(&case.doc, 0),
            exact(&case.doc, 1),
            exact_one(&case.doc, 0),
        ]);
        calls.extend(short_one(&case.doc, 0, true));
        calls.extend(short_one(&case.doc, 0, false));
        let short = sized(&case.doc, 0, |size| size.saturating_sub(1));
        if !calls.contains(&short) {
            calls.push(short);
        }
        entries.push(Entry {
            doc: case.doc,
            calls,
        });
    }
}

/// The call of a case as it stands, unless its areas are the largest ones or
/// its place needs more than 4 bytes.
fn own_call(case: &Case) -> Vec<Call> {
    match case.call {
        Call::One { place, first, .. } if first != STRING_ENOUGH || place > case.doc.len() => {
            Vec::from_iter((place <= u32::MAX as usize).then_some(case.call))
        }
        Call::One { place, .. } if place > 0 => vec![exact_one(&case.doc, place)],
        Call::Document {
            render,
            numbers,
            bytes,
            output,
        } if render > 1 || numbers < NUMBERS_MIN || bytes < BYTES_MIN => {
            let output = if output == OUTPUT_ENOUGH { 100 } else { output };
            vec![Call::Document {
                render,
                numbers,
                bytes,
                output,
            }]
        }
        _ => vec![],
    }
}

/// The limits: of the longest documents three stand for all, and of the counts
/// and lengths below a limit those just below it.
fn limit_entries(entries: &mut Vec<Entry>) {
    let longest = [
        "16384 bytes, link at the end",
        "16384 bytes, one block",
        "16385 bytes, no link",
    ];
    for limit in limits::documents() {
        let name = limit.name.as_str();
        let left_out =
            limit.doc.len() > 8_000 || name.starts_with("255 ") || name.starts_with("998 ");
        if left_out && !longest.contains(&name) {
            continue;
        }
        let doc = limit.doc;
        let calls = vec![exact(&doc, 0), exact(&doc, 1), exact_one(&doc, 0)];
        entries.push(Entry { doc, calls });
    }
}

/// Generated documents, each with one document call and one or two single-link
/// calls, at any place or where a scan would resume; every eighth output too
/// short, every eighth document in or out of the domain.
fn generated_entries(entries: &mut Vec<Entry>) {
    let mut random = Random::new(SEED + 3);
    let mut seed = SEED;
    let mut taken = 0;
    while taken < GENERATED {
        let doc = generate::document(seed, !seed.is_multiple_of(8));
        seed += 1;
        if doc.len() > GENERATED_LONGEST {
            continue;
        }
        taken += 1;
        let render = random.below(2) as u32;
        let place = if random.once_in(3) {
            random.below(doc.len() + 2)
        } else {
            *random.pick(&resumed_places(&doc))
        };
        let mut calls = vec![exact_one(&doc, place)];
        if random.once_in(8) {
            calls.push(sized(&doc, render, |size| size.saturating_sub(1)));
            calls.extend(short_one(&doc, 0, random.once_in(2)));
        } else {
            calls.push(exact(&doc, render));
        }
        if random.once_in(3) {
            calls.push(exact_one(&doc, 0));
        }
        entries.push(Entry { doc, calls });
    }
}

/// The start, and the places behind each link.
fn resumed_places(doc: &[u8]) -> Vec<usize> {
    let (mut first, mut second) = ([0; STRING_ENOUGH], [0; STRING_ENOUGH]);
    let mut places = vec![0];
    let mut place = 0;
    loop {
        let answer = take_link_at(doc, place, &mut first, &mut second);
        if answer.number != 0 {
            return places;
        }
        place += (answer.skipped + answer.consumed) as usize;
        places.push(place);
    }
}

/// Short documents, of cases and generated, every eighth of these in or out of
/// the domain, with single-link calls at every place.
fn place_entries(entries: &mut Vec<Entry>) {
    let cases = [scope::proved(), scope::beside(), reading::sentences()];
    let mut docs: Vec<Vec<u8>> = Vec::new();
    for case in cases.into_iter().flatten() {
        if case.doc.len() <= PLACED_CASE_LONGEST && !docs.contains(&case.doc) {
            docs.push(case.doc);
        }
    }
    let generated = (1u64..).map(|seed| generate::document(seed, !seed.is_multiple_of(8)));
    let short = generated.filter(|doc| (2..=PLACED_LONGEST).contains(&doc.len()));
    docs.extend(short.take(PLACED));
    for doc in docs {
        let calls = (0..=doc.len() + 1)
            .flat_map(|place| calls_at(&doc, place))
            .collect();
        entries.push(Entry { doc, calls });
    }
}

/// The single-link call with buffers that just suffice, and where a string is
/// not empty one with a buffer too short: of the first string, of the second,
/// or both of none, in turn.
fn calls_at(doc: &[u8], place: usize) -> Vec<Call> {
    let exact = exact_one(doc, place);
    let short = match place % 3 {
        0 => short_one(doc, place, true),
        1 => short_one(doc, place, false),
        _ => Some(Call::One {
            place,
            first: 0,
            second: 0,
        }),
    };
    let mut calls = vec![exact];
    calls.extend(short.filter(|call| *call != exact));
    calls
}

/// A few sequences of every alphabet, drawn by number.
fn sequence_entries(entries: &mut Vec<Entry>) {
    let mut random = Random::new(SEED + 4);
    let alphabets: [(&'static [&'static str], u32); 4] =
        [(&BYTES, 9), (&INLINE, 7), (&BLOCKS, 7), (&LINES, 8)];
    for (alphabet, most) in alphabets {
        let sequences = Sequences::new(alphabet, most);
        for _ in 0..60 {
            let doc = sequences.get(random.draw() % sequences.count());
            let calls = vec![exact(&doc, 0), exact_one(&doc, 0)];
            entries.push(Entry { doc, calls });
        }
    }
}

/// Short documents, of cases and generated, every fourth of these in or out of
/// the domain, with areas of many lengths.
fn lent_entries(entries: &mut Vec<Entry>) {
    let cases = [scope::WORKED, "", "a_ x", "\u{250}", "`\\ `_\n.. _\\ : u"];
    let mut docs: Vec<Vec<u8>> = cases.map(|doc| doc.as_bytes().to_vec()).into();
    docs.push("a_\n".repeat(257).into_bytes());
    docs.push("__ u\n".repeat(257).into_bytes());
    let generated = (1u64..).map(|seed| generate::document(seed, !seed.is_multiple_of(4)));
    let is_short = |doc: &Vec<u8>| doc.len() <= LENT_LONGEST;
    // With a link, or refused.
    let is_told = |doc: &Vec<u8>| document(doc, 1, NUMBERS_MIN, BYTES_MIN, &mut []).number > 0;
    docs.extend(generated.filter(is_short).filter(is_told).take(LENT));
    for doc in docs {
        let calls = lent_calls(&doc);
        entries.push(Entry { doc, calls });
    }
}

/// The document call with outputs of several lengths around the size needed and
/// both options; with work areas of several lengths; with wrong options.
fn lent_calls(doc: &[u8]) -> Vec<Call> {
    let mut calls = Vec::new();
    for render in 0..2 {
        for more in [0, 1, 100] {
            calls.push(sized(doc, render, |size| size + more));
        }
        for less in [1, 9] {
            calls.push(sized(doc, render, |size| size.saturating_sub(less)));
        }
        calls.push(sized(doc, render, |_| 0));
    }
    let Call::Document { output, .. } = exact(doc, 0) else {
        unreachable!("it is a document call");
    };
    calls.extend(WORK.map(|(numbers, bytes)| Call::Document {
        render: 0,
        numbers,
        bytes,
        output,
    }));
    calls.extend(NO_RENDER.map(|render| Call::Document {
        render,
        numbers: NUMBERS_MIN,
        bytes: BYTES_MIN,
        output,
    }));
    let mut different: Vec<Call> = Vec::new();
    for call in calls {
        if !different.contains(&call) {
            different.push(call);
        }
    }
    different
}

/// An entry's chunks: the document stands before its first answer.
fn entry_chunks(entry: &Entry) -> Vec<Vec<u8>> {
    let mut chunks: Vec<Vec<u8>> = entry
        .calls
        .iter()
        .map(|call| call_chunk(&entry.doc, *call))
        .collect();
    let mut head = Vec::new();
    head.extend((entry.doc.len() as u16).to_be_bytes());
    head.extend(&entry.doc);
    head.push(entry.calls.len() as u8);
    chunks[0].splice(0..0, head);
    chunks
}

fn call_chunk(doc: &[u8], call: Call) -> Vec<u8> {
    match call {
        Call::Document {
            render,
            numbers,
            bytes,
            output,
        } => document_chunk(doc, render, numbers, bytes, output),
        Call::One {
            place,
            first,
            second,
        } => single_chunk(doc, place, first, second),
        _ => unreachable!("only the two calls are recorded"),
    }
}

fn document_chunk(doc: &[u8], render: u32, numbers: usize, bytes: usize, output: usize) -> Vec<u8> {
    let mut area = vec![0; output];
    let outcome = document(doc, render, numbers, bytes, &mut area);
    let mut chunk = vec![1];
    for length in [render, numbers as u32, bytes as u32, output as u32] {
        chunk.extend(length.to_be_bytes());
    }
    chunk.push(outcome.number as u8);
    chunk.extend((outcome.links as u16).to_be_bytes());
    chunk.extend(outcome.bytes.to_be_bytes());
    if outcome.number == 0 {
        chunk.extend(&area[..outcome.bytes as usize]);
    }
    chunk
}

fn single_chunk(doc: &[u8], place: usize, first: usize, second: usize) -> Vec<u8> {
    let (mut first_area, mut second_area) = (vec![0; first], vec![0; second]);
    let answer = take_link_at(doc, place, &mut first_area, &mut second_area);
    let mut chunk = vec![2];
    chunk.extend((place as u32).to_be_bytes());
    for length in [first, second] {
        chunk.extend((length as u16).to_be_bytes());
    }
    chunk.push(answer.number as u8);
    chunk.extend((answer.bytes as u16).to_be_bytes());
    chunk.push(answer.kind as u8);
    for field in [answer.skipped, answer.consumed, answer.first, answer.second] {
        chunk.extend((field as u16).to_be_bytes());
    }
    chunk.extend(&first_area[..answer.first as usize]);
    chunk.extend(&second_area[..answer.second as usize]);
    chunk
}
