//! Counts how often each branch of the reference is taken. A branch has a number
//! and two ways, or one; the functions here stand around the text of a branch, as
//! `counted.py` puts them there, and give what that text gives.
//!
//! A thread counts for itself, and hands its counts over at its end.

use nom::{IResult, Parser};
use std::cell::Cell;
use std::sync::atomic::{AtomicU64, Ordering};

/// More branches than there are.
const MOST: usize = 512;

thread_local! {
    static HERE: [[Cell<u64>; 2]; MOST] = const { [const { [const { Cell::new(0) }; 2] }; MOST] };
}

static ALL: [[AtomicU64; 2]; MOST] = [const { [const { AtomicU64::new(0) }; 2] }; MOST];

fn add(place: usize, way: usize, count: u64) {
    HERE.with(|here| here[place][way].update(|n| n.wrapping_add(count)));
}

/// Adds this thread's counts to those of all.
pub fn hand_over() {
    HERE.with(|here| {
        for (mine, all) in here.as_flattened().iter().zip(ALL.as_flattened()) {
            all.fetch_add(mine.take(), Ordering::Relaxed);
        }
    });
}

/// How often each way of a branch was taken, by the counts handed over.
pub fn counts(place: usize) -> [u64; 2] {
    ALL[place].each_ref().map(|n| n.load(Ordering::Relaxed))
}

/// A `?`: passed or refused.
pub trait Counted {
    fn counted(self, place: usize) -> Self;
}

impl<T, E> Counted for Result<T, E> {
    fn counted(self, place: usize) -> Self {
        add(place, usize::from(self.is_err()), 1);
        self
    }
}

/// A parser that is given to another: it reads or refuses.
pub fn parser<I, P: Parser<I>>(
    place: usize,
    mut parser: P,
) -> impl FnMut(I) -> IResult<I, P::Output, P::Error> {
    move |input| parser.parse(input).counted(place)
}

/// A condition: true or false.
pub fn condition(place: usize, holds: bool) -> bool {
    add(place, usize::from(!holds), 1);
    holds
}

/// Stands before a `let`, which counts as not matched until it has.
pub fn tried(place: usize) -> bool {
    add(place, 1, 1);
    true
}

/// Stands behind a `let`.
pub fn matched(place: usize) -> bool {
    add(place, 1, 1u64.wrapping_neg());
    add(place, 0, 1);
    true
}

/// An arm or a turn.
pub fn taken(place: usize) {
    add(place, 0, 1);
}
