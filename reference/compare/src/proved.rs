//! The proved pieces and parsers and the two public calls, through the archives.

use driver::document::Outcome;
use driver::parsers::{Parsed, has_scratch};
use driver::pieces::Answer;
use driver::single::Single;
use std::borrow::Cow;

/// As crates/pieces has them.
#[repr(C)]
struct Numbers {
    accepted: usize,
    value: usize,
    point: usize,
}

#[repr(C)]
struct Places {
    accepted: usize,
    first: usize,
    first_len: usize,
    second: usize,
    second_len: usize,
    consumed: usize,
}

/// As include/rstlinks.h has them.
#[repr(C)]
struct RstOutcome {
    number: u32,
    links: u32,
    bytes: u32,
}

#[repr(C)]
struct RstLink {
    number: u32,
    bytes: u32,
    kind: u32,
    skipped: u32,
    consumed: u32,
    first: u32,
    second: u32,
}

unsafe extern "C" {
    fn rst_piece(kind: usize, parameter: usize, s: *const u8, len: usize) -> Numbers;
    fn rst_parser(
        kind: usize,
        s: *const u8,
        len: usize,
        scratch: *mut u8,
        scratch_len: usize,
    ) -> Places;
    fn rst_take_link(
        document: *const u8,
        document_len: usize,
        place: usize,
        first: *mut u8,
        first_len: usize,
        second: *mut u8,
        second_len: usize,
    ) -> RstLink;
    fn rst_document(
        document: *const u8,
        document_len: usize,
        render: u32,
        numbers: *mut u32,
        numbers_len: usize,
        bytes: *mut u8,
        bytes_len: usize,
        output: *mut u8,
        output_len: usize,
    ) -> RstOutcome;
}

/// The answer of the piece with that number.
pub fn piece(number: u8, parameter: usize, s: &[u8]) -> Answer {
    // The call reads the slice alone, and asks nothing of its arguments.
    let n = unsafe { rst_piece(usize::from(number), parameter, s.as_ptr(), s.len()) };
    match n.accepted {
        0 => None,
        _ => Some((n.value, n.point as u32)),
    }
}

/// The answer of the parser with that number.
pub fn parser<'a>(number: u8, s: &'a [u8], scratch: &'a mut [u8]) -> Parsed<'a> {
    // The call reads the one slice, reads and writes the other, and asks
    // nothing of its arguments.
    let n = unsafe {
        rst_parser(
            usize::from(number),
            s.as_ptr(),
            s.len(),
            scratch.as_mut_ptr(),
            scratch.len(),
        )
    };
    let area: &'a [u8] = if has_scratch(number) { scratch } else { s };
    match n.accepted {
        0 => Parsed::Refused,
        1 => Parsed::Found {
            first: Cow::Borrowed(&area[n.first..][..n.first_len]),
            second: Cow::Borrowed(&area[n.second..][..n.second_len]),
            consumed: n.consumed,
        },
        _ => Parsed::NoRoom,
    }
}

/// The answer of the single-link call.
pub fn single(document: &[u8], place: usize, first: &mut [u8], second: &mut [u8]) -> Single {
    // The call reads the one slice, reads and writes the others, and asks
    // nothing of its arguments.
    let link = unsafe {
        rst_take_link(
            document.as_ptr(),
            document.len(),
            place,
            first.as_mut_ptr(),
            first.len(),
            second.as_mut_ptr(),
            second.len(),
        )
    };
    Single {
        number: link.number,
        bytes: link.bytes,
        kind: link.kind,
        skipped: link.skipped,
        consumed: link.consumed,
        first: link.first,
        second: link.second,
    }
}

/// Where a slice stands; nowhere, where it is empty.
fn pointer<T>(slice: &mut [T]) -> *mut T {
    match slice {
        [] => std::ptr::null_mut(),
        _ => slice.as_mut_ptr(),
    }
}

/// The answer of the document call. An empty area is lent as a null pointer.
pub fn document(
    document: &[u8],
    render: u32,
    numbers: &mut [u32],
    bytes: &mut [u8],
    output: &mut [u8],
) -> Outcome {
    let start = match document {
        [] => std::ptr::null(),
        _ => document.as_ptr(),
    };
    // The call reads the first slice, reads and writes the others, and asks
    // nothing of its arguments.
    let outcome = unsafe {
        rst_document(
            start,
            document.len(),
            render,
            pointer(numbers),
            numbers.len(),
            pointer(bytes),
            bytes.len(),
            pointer(output),
            output.len(),
        )
    };
    Outcome {
        number: outcome.number,
        links: outcome.links,
        bytes: outcome.bytes,
    }
}

/// The name of a piece that takes a text and no parameter.
pub fn name(number: u8) -> &'static str {
    match number {
        4 => "word run",
        5 => "trim_end",
        7 => "newline",
        8 => "line_ending",
        9 => "not_line_ending",
        10 => "space0",
        11 => "space1",
        12 => "multispace0",
        _ => unreachable!("no such piece"),
    }
}
