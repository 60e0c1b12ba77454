//! Looks for documents on which the document call takes long. All units of one to
//! three tokens are tried with heads and tails in short documents, one call each; of
//! each kind of body the slowest is kept. The slowest of these are called once at
//! full length, and the slowest of them timed, in turn with the plain pass and zeroing.
//! Units of one and two tokens are tried at full length too, behind links before
//! blocks. Documents without a period are drawn at full length, and it is climbed by
//! time from the slowest of them.

use crate::blocks;
use crate::climb::Climb;
use crate::documents::INPUTS;
use crate::named::{LENGTHS, WAYS, make};
use crate::pass;
use crate::shapes::{Body, HEADS, PIECES, SHORT_HEADS, Shape, TAILS, TOKENS, joined};
use crate::show::{held, machine};
use crate::texts::{PROSE, repeated};
use crate::time::{now, times};
use crate::whole::{Areas, text};
use crate::words::Words;
use driver::document::DOCUMENT_MAX;
use driver::random::Random;
use std::collections::HashMap;
use std::hint::black_box;
use std::time::Instant;

/// How many are called once at full length, and how many of these are timed.
const CALLED: usize = 400;
const TIMED: usize = 100;

/// What the slowest document may take, in plain passes with zeroing.
const BAR: f64 = 150.0;

/// The slowest document of each kind of body that was met.
struct Search {
    /// The length of the short documents.
    short: usize,
    /// What no body holds.
    without: Option<String>,
    areas: Areas,
    heads: Vec<Vec<u8>>,
    slowest: HashMap<(u32, Option<usize>), (f64, Shape)>,
    documents: usize,
    refused: usize,
}

impl Search {
    fn new(words: &Words) -> Search {
        let short = words.bytes;
        Search {
            short,
            without: words.without.clone(),
            areas: Areas::new(),
            heads: HEADS.iter().map(|head| head.make(short)).collect(),
            slowest: HashMap::new(),
            documents: 0,
            refused: 0,
        }
    }

    /// Tries a body with heads and tails, all short.
    fn try_body(&mut self, body: &Body, heads: &[usize], tails: &[usize]) {
        let middle = body.make(self.short);
        if let Some(without) = &self.without
            && text(&middle).contains(without)
        {
            return;
        }
        let mut doc = Vec::new();
        for &head in heads {
            for &tail in tails {
                joined(
                    &self.heads[head],
                    &middle,
                    TAILS[tail],
                    self.short,
                    &mut doc,
                );
                let seconds = self.timed(&doc);
                let before = self.slowest.get(&body.kind());
                if before.is_none_or(|before| before.0 < seconds) {
                    // A second call tells a slow document from an interruption.
                    let seconds = seconds.min(self.timed(&doc));
                    let body = body.clone();
                    let kind = body.kind();
                    let shape = Shape { body, head, tail };
                    let kept = self.slowest.entry(kind).or_insert((0.0, shape.clone()));
                    if kept.0 < seconds {
                        *kept = (seconds, shape);
                    }
                }
            }
        }
        self.documents += heads.len() * tails.len();
    }

    fn timed(&mut self, doc: &[u8]) -> f64 {
        let began = now();
        let outcome = self.areas.call(black_box(doc));
        let seconds = now() - began;
        assert!(matches!(outcome.number, 0 | 5 | 6), "of the domain");
        self.refused += usize::from(outcome.number != 0);
        seconds
    }

    /// All units of so many tokens.
    fn all(&mut self, tokens: usize, piece: Option<usize>, heads: usize) {
        let heads: Vec<_> = (0..heads).collect();
        let tails: Vec<_> = (0..TAILS.len()).collect();
        for number in 0..TOKENS.len().pow(tokens as u32) {
            let digit = |place| number / TOKENS.len().pow(place as u32) % TOKENS.len();
            let unit = (0..tokens).map(digit).collect();
            self.try_body(&Body { unit, piece }, &heads, &tails);
        }
    }

    /// A drawn unit of four to six tokens, with a head and a tail.
    fn draw(&mut self, random: &mut Random) {
        let tokens = 4 + random.below(3);
        let unit = (0..tokens).map(|_| random.below(TOKENS.len())).collect();
        let piece = random.once_in(2).then(|| random.below(PIECES.len()));
        let head = random.below(HEADS.len());
        let tail = random.below(TAILS.len());
        self.try_body(&Body { unit, piece }, &[head], &[tail]);
    }

    /// Links before blocks that are none, at full length: the slowest ones.
    fn blocks(&mut self) -> Vec<(String, Vec<u8>)> {
        let heads = blocks::heads();
        let tails = blocks::tails();
        let mut slowest = Vec::new();
        let mut doc = Vec::new();
        for unit in blocks::units() {
            for (name, head) in &heads {
                for tail in &tails {
                    blocks::make(head, &unit, tail, &mut doc);
                    let seconds = self.timed(&doc);
                    slowest.push((seconds, (blocks::describe(name, &unit, tail), doc.clone())));
                }
                self.documents += tails.len();
            }
            if slowest.len() > 4 * TIMED {
                slowest.sort_by(|a, b| b.0.total_cmp(&a.0));
                slowest.truncate(TIMED);
            }
        }
        first(TIMED, slowest)
    }

    fn say(&self, began: Instant, what: &str) {
        println!(
            "{:>9} documents of {} bytes, {} calls refused, {:.0} s: {what}",
            self.documents,
            self.short,
            self.refused,
            began.elapsed().as_secs_f64(),
        );
    }

    /// The slowest ones, of full length, with what they are.
    fn slowest(mut self) -> Vec<(String, Vec<u8>)> {
        let kept = std::mem::take(&mut self.slowest).into_values();
        let called = first(CALLED, kept.collect()).into_iter().map(|shape| {
            let doc = shape.make(DOCUMENT_MAX);
            (self.timed(&doc), (shape.describe(), doc))
        });
        first(TIMED, called.collect())
    }
}

/// So many of a list, those with the greatest times.
fn first<T>(count: usize, mut list: Vec<(f64, T)>) -> Vec<T> {
    list.sort_by(|a, b| b.0.total_cmp(&a.0));
    list.truncate(count);
    list.into_iter().map(|(_, item)| item).collect()
}

/// The documents of names, all of them of full length.
fn named() -> Vec<(String, Vec<u8>)> {
    let mut list = Vec::new();
    for way in &WAYS {
        for length in LENGTHS {
            for begin in [true, false] {
                let alike = if begin { "begin" } else { "end" };
                let name = format!("{}, names of {length} that {alike} alike", way.name);
                list.push((name, make(way, length, begin, DOCUMENT_MAX)));
            }
        }
    }
    list
}

/// The inputs of the benchmark that are one document, of full length.
fn known() -> Vec<(String, Vec<u8>)> {
    let one = INPUTS.iter().filter_map(|input| {
        let [doc] = <[_; 1]>::try_from((input.make)(DOCUMENT_MAX)).ok()?;
        Some((input.name.into(), doc))
    });
    one.collect()
}

/// Times documents in turn with the plain pass over as many bytes and zeroing, and
/// prints the slowest first.
fn show(list: Vec<(String, Vec<u8>)>, samples: u32) {
    let prose = repeated(PROSE, DOCUMENT_MAX);
    let mut areas = Areas::new();
    let mut other = pass::middle_areas();
    let mut rows: Vec<_> = list
        .iter()
        .map(|(name, doc)| {
            let number = areas.call(doc).number;
            let [time, plain] = times(
                samples,
                [
                    &mut || {
                        black_box(areas.call(black_box(doc)));
                    },
                    &mut || {
                        pass::sum(black_box(&prose));
                        pass::zero(&mut other);
                    },
                ],
            );
            (time.median / plain.median, time, number, doc.len(), name)
        })
        .collect();
    rows.sort_by(|a, b| b.0.total_cmp(&a.0));
    println!("    /pass          µs    ± number  bytes  what");
    for (ratio, time, number, len, name) in &rows {
        println!(
            "{ratio:>9.2}{:>12.1}{:>4.0}%{number:>7}{len:>7}  {name}",
            time.median * 1e6,
            time.spread * 100.0,
        );
    }
    let most = rows.first().map_or(0.0, |row| row.0);
    println!(
        "the slowest takes {most:.2} times as long as the plain pass with zeroing{}",
        held(most, Some(BAR))
    );
}

/// The slowest ones of those without a period.
fn climbed(words: &Words) -> Vec<(String, Vec<u8>)> {
    let began = Instant::now();
    let mut climb = Climb::new(words.seed);
    climb.run(words.climb);
    println!(
        "{:>9} documents of full length without a period, {:.0} s",
        climb.documents,
        began.elapsed().as_secs_f64(),
    );
    climb.slowest()
}

/// The climb alone. The slowest documents are written to a folder, if one is named.
pub fn climb(words: &Words) {
    println!("{}", machine());
    let list = climbed(words);
    if let Some(folder) = &words.into {
        std::fs::create_dir_all(folder).expect("the folder can be made");
        for (number, (_, doc)) in list.iter().enumerate() {
            let file = folder.join(format!("{number:02}.rst"));
            std::fs::write(file, doc).expect("the folder can be written to");
        }
    }
    show(list, words.samples);
}

pub fn run(words: &Words) {
    println!("{}", machine());
    let began = Instant::now();
    let mut search = Search::new(words);
    search.all(1, None, HEADS.len());
    search.all(2, None, HEADS.len());
    search.say(began, "all units of one and two tokens");
    for piece in 0..PIECES.len() {
        search.all(1, Some(piece), SHORT_HEADS);
        search.all(2, Some(piece), SHORT_HEADS);
    }
    search.say(began, "and with pieces between them");
    search.all(3, None, SHORT_HEADS);
    search.say(began, "and all of three tokens");
    let mut random = Random::new(words.seed);
    let drawing = Instant::now();
    while drawing.elapsed().as_secs_f64() < words.minutes * 60.0 {
        search.draw(&mut random);
    }
    if words.minutes > 0.0 {
        search.say(began, "and drawn ones of four to six tokens");
    }
    let blocks = search.blocks();
    search.say(began, "and of full length with links before blocks");
    let mut list = search.slowest();
    list.extend(blocks);
    list.extend(named());
    list.extend(known());
    list.extend(climbed(words));
    show(list, words.samples);
}
