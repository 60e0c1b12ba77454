//! The plain pass: a loop in C over the document's bytes, and both work areas
//! zeroed. A document call can hardly do less.

use crate::time::now;
use crate::whole::Areas;
use std::hint::black_box;

unsafe extern "C" {
    fn pass_sum(document: *const u8, len: usize) -> usize;
    fn pass_sum_short(document: *const u8, len: usize) -> u32;
    fn pass_zero(numbers: *mut u32, numbers_len: usize, bytes: *mut u8, bytes_len: usize);
}

/// The compiler of the pass, and its flags.
pub const COMPILED: &str = env!("PASS_COMPILED");

/// Zeroes both work areas.
pub fn zero(areas: &mut Areas) {
    let (numbers, bytes) = (&mut areas.numbers, &mut areas.bytes);
    // The call writes the two slices, which are not empty, and nothing else.
    unsafe {
        pass_zero(
            numbers.as_mut_ptr(),
            numbers.len(),
            bytes.as_mut_ptr(),
            bytes.len(),
        );
    }
}

/// How many areas are tried, and how often each is zeroed.
const AREAS: usize = 9;
const CALLS: usize = 40;

/// Areas to zero. How long that takes hangs on the pages where they lie, by up to twice:
/// of some areas the middle one is taken.
pub fn middle_areas() -> Areas {
    let tried = (0..AREAS).map(|_| {
        let mut areas = Areas::new();
        let mut least = f64::INFINITY;
        for _ in 0..CALLS {
            let began = now();
            (0..CALLS).for_each(|_| zero(&mut areas));
            least = least.min(now() - began);
        }
        (least, areas)
    });
    let mut tried: Vec<_> = tried.collect();
    tried.sort_by(|a, b| a.0.total_cmp(&b.0));
    tried.swap_remove(AREAS / 2).1
}

/// The sum of all bytes.
pub fn sum(doc: &[u8]) {
    // The call reads the slice alone.
    black_box(unsafe { pass_sum(doc.as_ptr(), doc.len()) });
}

/// The sum of all bytes in 32 bits.
pub fn sum_short(doc: &[u8]) {
    // The call reads the slice alone.
    black_box(unsafe { pass_sum_short(doc.as_ptr(), doc.len()) });
}
