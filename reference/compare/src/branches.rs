//! Which branches of the Rust the comparison reaches. The Rust's answers come
//! through here: of so many calls one, and of some documents every one, is made
//! again by the copy that counts its branches, and must be answered alike.

use crate::test::Count;
use crate::unreachable::UNREACHABLE;
use counted::parsers::Parsed as Copied;
use driver::document::Outcome;
use driver::parsers::Parsed;
use driver::single::Single;
use std::cell::Cell;
use std::sync::atomic::{AtomicU64, Ordering};

/// Of so many calls one is counted.
const SHARE: u64 = 16;

thread_local! {
    /// The calls of this thread, and of how many one is counted.
    static CALLS: Cell<u64> = const { Cell::new(0) };
    static OF: Cell<u64> = const { Cell::new(SHARE) };
}

/// The copy's answers in all threads: those that are like the Rust's, and others.
static ANSWERS: [AtomicU64; 2] = [const { AtomicU64::new(0) }; 2];

/// Counts every call for a while.
pub fn all_counted(calls: impl FnOnce()) {
    OF.set(1);
    calls();
    OF.set(SHARE);
}

/// Whether the next call is one that is counted.
fn is_counted() -> bool {
    CALLS.set(CALLS.get() + 1);
    CALLS.get().is_multiple_of(OF.get())
}

/// Counts an answer of the copy.
fn hold(is_alike: bool) {
    ANSWERS[usize::from(!is_alike)].fetch_add(1, Ordering::Relaxed);
}

/// The document call.
pub fn document(
    doc: &[u8],
    render: u32,
    numbers: usize,
    bytes: usize,
    output: &mut [u8],
) -> Outcome {
    let again = is_counted().then(|| output.to_vec());
    let answer = driver::document::document(doc, render, numbers, bytes, output);
    if let Some(mut again) = again {
        let copy = counted::document::document(doc, render, numbers, bytes, &mut again);
        let copy = Outcome {
            number: copy.number,
            links: copy.links,
            bytes: copy.bytes,
        };
        hold(answer == copy && output == again);
    }
    answer
}

/// The single-link call.
pub fn take_link_at(doc: &[u8], place: usize, first: &mut [u8], second: &mut [u8]) -> Single {
    let again = is_counted().then(|| (first.to_vec(), second.to_vec()));
    let answer = driver::single::take_link_at(doc, place, first, second);
    if let Some((mut one, mut other)) = again {
        let copy = counted::single::take_link_at(doc, place, &mut one, &mut other);
        let copy = Single {
            number: copy.number,
            bytes: copy.bytes,
            kind: copy.kind,
            skipped: copy.skipped,
            consumed: copy.consumed,
            first: copy.first,
            second: copy.second,
        };
        hold(answer == copy && first == one && second == other);
    }
    answer
}

/// The parser with that number.
pub fn parser(number: u8, input: &[u8], scratch: usize) -> Parsed<'_> {
    let answer = driver::parsers::parser(number, input, scratch);
    if is_counted() {
        let copy = match counted::parsers::parser(number, input, scratch) {
            Copied::Found {
                first,
                second,
                consumed,
            } => Parsed::Found {
                first,
                second,
                consumed,
            },
            Copied::Refused => Parsed::Refused,
            Copied::NoRoom => Parsed::NoRoom,
        };
        hold(answer == copy);
    }
    answer
}

/// The reason why a branch cannot be reached, where there is one.
fn reason(name: &str) -> Option<&'static str> {
    let mut reasons = UNREACHABLE.iter();
    let found = reasons.find(|(_, names)| names.contains(&name));
    found.map(|(reason, _)| *reason)
}

/// Says how often each branch was reached, and of those that cannot be, why. That
/// the copy answers like the Rust is a test; and for each branch that it is
/// reached, or that it is not and cannot be.
pub fn end(count: &mut Count) {
    let [alike, otherwise] = ANSWERS.each_ref().map(|n| n.load(Ordering::Relaxed));
    count.say(format_args!(
        "the branches of the Rust, in calls of a copy that counts them: {alike} answered alike, {otherwise} otherwise"
    ));
    count.ask(otherwise == 0 && alike > 0);
    let (mut reached, mut unreachable) = (0, 0);
    for (name, taken) in counted::branches() {
        let reason = reason(name);
        let why = reason.map_or(String::new(), |why| format!(" (unreachable: {why})"));
        count.say(format_args!("  {name}: {taken}{why}"));
        count.ask((taken > 0) == reason.is_none());
        reached += usize::from(taken > 0);
        unreachable += usize::from(reason.is_some());
    }
    count.say(format_args!(
        "{reached} branches reached, {unreachable} that cannot be"
    ));
    let named: usize = UNREACHABLE.iter().map(|(_, names)| names.len()).sum();
    count.ask(unreachable == named);
}
