//! Compares the proved pieces and parsers, the single-link call and the document
//! call with the Rust's own, on inputs of several kinds; looks for pairs of
//! documents that speak against the claim about appended tails; and counts the
//! branches of the Rust that its calls reach.
//!
//!     compare [--seconds N] [--minutes N] [--documents N] [--pairs N] [--seed N]
//!             [--only PART]
//!     compare --sample [--seed N]
//!
//! All short inputs are always tried; drawn ones for N seconds (10) or minutes,
//! from a seed (1): three eighths of the time for the document call and an eighth
//! for appended tails; a quarter for the single-link call and a quarter for the
//! pieces and parsers. The two halves run side by side, on two processors where
//! there are two. With `--documents`, the document call goes on until so many
//! documents are drawn; with `--pairs`, appended tails until so many pairs are
//! drawn that meet all premises of the claim. `--only` names one of `parsers`,
//! `single`, `document`, `appended`, which then has all the time; the branches are
//! asked for only where all have been tried. A piece, a parser, a call or the claim
//! on one kind of inputs is one test; the last line counts them, and the one before
//! it the documents.
//!
//! `--sample` makes some fifty thousand calls of both kinds, whose areas end
//! where their allocations do, for a tool that watches memory.

mod appended;
mod branches;
mod claim;
mod document;
mod documents;
mod inputs;
mod met;
mod notes;
mod pairs;
mod pairs_met;
mod parsers;
mod pieces;
mod single;
mod test;
mod unreachable;
mod writer;

use appended::Tally;
use driver::random::Random;
use met::{DocumentsMet, Met};
use std::env;
use std::thread;
use std::time::{Duration, Instant};
use test::Count;

/// The stack of the half of whole documents, as large as the other's.
const STACK: usize = 8 << 20;

/// Short inputs, and drawn ones until the time is over, all pieces and parsers on
/// each.
fn pieces_and_parsers(count: &mut Count, seed: u64, time: Duration) {
    pieces::all(count);
    parsers::all(count);
    let began = Instant::now();
    let mut random = Random::new(seed);
    let mut pieces = pieces::Drawn::new();
    let mut parsers = parsers::Drawn::new();
    while began.elapsed() < time {
        for _ in 0..200 {
            pieces.draw(&mut random);
            parsers.draw(&mut random);
        }
    }
    pieces.end(count);
    parsers.end(count);
}

/// Short documents, and drawn ones until the time is over, the single-link call
/// at every place of each.
fn single_links(count: &mut Count, seed: u64, time: Duration) {
    let mut met = Met::default();
    single::all(count, &mut met);
    let began = Instant::now();
    let mut random = Random::new(seed);
    let mut single = single::Drawn::new();
    while began.elapsed() < time {
        single.draw(&mut random);
    }
    single.end(count, &mut met);
    met.end(count);
}

/// Short documents, and drawn ones until the time is over and there were enough.
fn whole_documents(count: &mut Count, seed: u64, time: Duration, least: u64) {
    let mut met = DocumentsMet::default();
    document::all(count, &mut met);
    let began = Instant::now();
    let goes_on = |documents| began.elapsed() < time || documents < least;
    document::drawn(count, &mut met, seed, goes_on);
    met.end(count);
}

/// Short pairs, and drawn ones until the time is over and there were enough that
/// meet all premises.
fn appended_tails(count: &mut Count, seed: u64, time: Duration, least: u64) {
    let mut tally = Tally::new();
    appended::all(count, &mut tally);
    let began = Instant::now();
    let goes_on = |pairs| began.elapsed() < time || pairs < least;
    appended::drawn(count, &mut tally, seed, goes_on);
    tally.end(count);
}

/// Some calls of both kinds.
fn sample(count: &mut Count, seed: u64) {
    let mut met = Met::default();
    single::sample(count, &mut met, seed);
    met.end(count);
    let mut met = DocumentsMet::default();
    document::sample(count, &mut met, seed);
    met.end(count);
}

/// The word behind an option.
fn word(name: &str) -> Option<String> {
    env::args().skip_while(|word| word != name).nth(1)
}

/// The number behind an option.
fn number(name: &str) -> Option<u64> {
    word(name).map(|word| word.parse().expect("a number"))
}

fn main() {
    let minutes = number("--minutes").map(|n| 60 * n);
    let seconds = number("--seconds").or(minutes).unwrap_or(10);
    let seed = number("--seed").unwrap_or(1);
    let documents = number("--documents").unwrap_or(0);
    let pairs = number("--pairs").unwrap_or(0);
    let only = word("--only");
    let time = |part: &str, eighths: u32| match only.as_deref() {
        None => Some(Duration::from_secs(seconds) * eighths / 8),
        Some(name) => (name == part).then_some(Duration::from_secs(seconds)),
    };
    let small = || {
        let mut count = Count::default();
        if let Some(time) = time("parsers", 2) {
            pieces_and_parsers(&mut count, seed, time);
            count.print();
        }
        if let Some(time) = time("single", 2) {
            single_links(&mut count, seed, time);
            count.print();
        }
        counted::hand_over();
        count
    };
    let whole = || {
        let mut count = Count::default();
        if let Some(time) = time("document", 3) {
            whole_documents(&mut count, seed, time, documents);
            count.print();
        }
        if let Some(time) = time("appended", 1) {
            appended_tails(&mut count, seed, time, pairs);
            count.print();
        }
        counted::hand_over();
        count
    };
    let mut count = Count::default();
    if env::args().any(|word| word == "--sample") {
        sample(&mut count, seed);
        count.print();
    } else {
        thread::scope(|scope| {
            let beside = thread::Builder::new().stack_size(STACK);
            let documents = beside.spawn_scoped(scope, whole).expect("a thread");
            count.join(&small());
            count.join(&documents.join().expect("the half of whole documents"));
        });
        if only.is_none() {
            branches::end(&mut count);
        }
        count.total();
        count.print();
    }
    println!("{} passed, {} failed", count.passed, count.failed);
    std::process::exit(i32::from(count.failed > 0 || count.passed == 0));
}
