//! A climb by time: from the slowest documents known to others like them, as long as
//! these are slower still.

use crate::drawn::Drawn;
use crate::time::now;
use crate::whole::Areas;
use driver::document::DOCUMENT_MAX;
use driver::random::Random;
use std::hint::black_box;
use std::time::Instant;

/// How many are kept to go on from.
const KEPT: usize = 48;

/// Calls of one document, of which the quickest counts: so an interruption is not
/// taken for a slow document.
const CALLS: usize = 4;

pub struct Climb {
    areas: Areas,
    random: Random,
    /// The slowest first.
    kept: Vec<(f64, Drawn)>,
    pub documents: usize,
}

impl Climb {
    pub fn new(seed: u64) -> Climb {
        let mut it = Climb {
            areas: Areas::new(),
            random: Random::new(seed),
            kept: Vec::new(),
            documents: 0,
        };
        it.try_one(Drawn::first());
        it
    }

    /// Draws ones unlike any for half the time, and then climbs.
    pub fn run(&mut self, minutes: f64) {
        let began = Instant::now();
        let part = || began.elapsed().as_secs_f64() / 60.0 / minutes;
        while part() < 1.0 {
            let fresh = self.random.once_in(if part() < 0.3 { 2 } else { 20 });
            let next = if fresh {
                Drawn::draw(&mut self.random)
            } else {
                // The slower one of two, so that the slowest have the most others.
                let [a, b] = [(); 2].map(|()| self.random.below(self.kept.len()));
                self.kept[a.min(b)].1.near(&mut self.random)
            };
            self.try_one(next);
        }
    }

    fn timed(&mut self, doc: &[u8], calls: usize) -> f64 {
        let mut least = f64::INFINITY;
        for _ in 0..calls {
            let began = now();
            black_box(self.areas.call(black_box(doc)));
            least = least.min(now() - began);
        }
        least
    }

    fn try_one(&mut self, next: Drawn) {
        let mut doc = Vec::new();
        next.make(DOCUMENT_MAX, &mut doc);
        self.documents += 1;
        let full = self.kept.len() == KEPT;
        let bar = self.kept.last().filter(|_| full).map_or(0.0, |it| it.0);
        if self.timed(&doc, 1) <= bar {
            return;
        }
        let seconds = self.timed(&doc, CALLS);
        if seconds <= bar {
            return;
        }
        let at = self.kept.partition_point(|it| it.0 > seconds);
        self.kept.insert(at, (seconds, next));
        self.kept.truncate(KEPT);
    }

    /// The slowest ones, with what they are.
    pub fn slowest(self) -> Vec<(String, Vec<u8>)> {
        let made = self.kept.into_iter().map(|(_, it)| {
            let mut doc = Vec::new();
            it.make(DOCUMENT_MAX, &mut doc);
            (it.describe(), doc)
        });
        made.collect()
    }
}
