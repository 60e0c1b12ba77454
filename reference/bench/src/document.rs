//! Times the document call beside the Rust's `MarkupLink`, and beside a plain pass
//! over the bytes. Before an input is timed, the links of both sides are held to
//! each other.

use crate::documents::{INPUTS, SIZES};
use crate::notes::{Note, notes};
use crate::pass;
use crate::show::{held, machine, ratio, timed, value};
use crate::texts::{PROSE, repeated};
use crate::time::{Runs, Time, times};
use crate::whole::{Areas, agreed, rust, text};
use crate::words::Words;
use driver::document::DOCUMENT_MAX;
use std::hint::black_box;

/// What a document call on plain prose may take, in plain passes.
const PASSES: f64 = 1.0;

/// An input at one size, and its times in each run.
struct Row {
    name: String,
    bar: Option<f64>,
    docs: Vec<Vec<u8>>,
    links: usize,
    runs: Runs<2>,
}

impl Row {
    fn new(name: &str, bar: Option<f64>, docs: Vec<Vec<u8>>, areas: &mut Areas) -> Row {
        let links = docs.iter().map(|doc| agreed(doc, areas)).sum();
        Row {
            name: name.into(),
            bar,
            docs,
            links,
            runs: Runs(Vec::new()),
        }
    }

    fn run(&mut self, samples: u32, areas: &mut Areas) {
        let texts: Vec<_> = self.docs.iter().map(|doc| text(doc)).collect();
        self.runs.0.push(times(
            samples,
            [
                &mut || {
                    for doc in &self.docs {
                        black_box(areas.call(black_box(doc)));
                    }
                },
                &mut || {
                    for text in &texts {
                        rust(black_box(text));
                    }
                },
            ],
        ));
    }

    fn bytes(&self) -> usize {
        self.docs.iter().map(Vec::len).sum()
    }

    fn show(&self, half: Option<&Row>) {
        let [ours, rust] = [self.runs.time(0), self.runs.time(1)];
        let growth = |side: usize, time: Time| {
            let before = half.map(|half| half.runs.time(side).median);
            value(ratio(Some(time.median), before), 7, 2)
        };
        let over = self.runs.ratio(0, 1);
        println!(
            "{:>5}{:>9}{:>6} |{}{:>8.2}{} |{}{} |{:>8.4} ({:.4} to {:.4}){}",
            self.docs.len(),
            self.bytes(),
            self.links,
            timed(ours),
            ours.median * 1e9 / self.bytes() as f64,
            growth(0, ours),
            timed(rust),
            growth(1, rust),
            over.median,
            over.ends[0],
            over.ends[1],
            held(over.median, self.bar),
        );
    }
}

/// The rows of all inputs that are meant; those of one input stand together, the
/// shortest first.
fn rows(words: &Words, real: &[Note], areas: &mut Areas) -> Vec<Row> {
    let mut rows = Vec::new();
    for input in INPUTS.iter().filter(|input| words.means(input.name)) {
        for &size in input.sizes {
            let bar = input.bar.filter(|_| Some(&size) == input.sizes.last());
            rows.push(Row::new(input.name, bar, (input.make)(size), areas));
        }
    }
    if !real.is_empty() {
        let docs = real.iter().map(|note| note.doc.clone()).collect();
        rows.push(Row::new("real notes", Some(0.2), docs, areas));
    }
    rows
}

/// The times of the call on plain prose, of zeroing, and of both passes with it.
fn passes(samples: u32, areas: &mut Areas) -> [Time; 4] {
    let prose = &repeated(PROSE, DOCUMENT_MAX)[..];
    let mut lent = pass::middle_areas();
    let mut summed = pass::middle_areas();
    let mut summed_short = pass::middle_areas();
    times(
        samples,
        [
            &mut || {
                black_box(areas.call(black_box(prose)));
            },
            &mut || pass::zero(&mut lent),
            &mut || {
                pass::sum(black_box(prose));
                pass::zero(&mut summed);
            },
            &mut || {
                pass::sum_short(black_box(prose));
                pass::zero(&mut summed_short);
            },
        ],
    )
}

/// The call on plain prose over the plain passes.
fn show_passes(runs: &Runs<4>) {
    println!("plain passes ({})", pass::COMPILED);
    println!("{}   the document call on plain prose", timed(runs.time(0)));
    let names = [
        ("both work areas zeroed", None),
        ("the same, and the bytes added up", Some(PASSES)),
        ("the same, added up in 32 bits", None),
    ];
    for (side, (name, bar)) in (1..).zip(names) {
        let over = runs.ratio(0, side);
        println!(
            "{}   {name}; the call takes {:.2} ({:.2} to {:.2}) times as long{}",
            timed(runs.time(side)),
            over.median,
            over.ends[0],
            over.ends[1],
            held(over.median, bar),
        );
    }
}

/// The real note of some length on which ours takes the most of the Rust's time.
fn show_worst(real: &[Note], samples: u32, areas: &mut Areas) {
    let long = real.iter().filter(|note| note.doc.len() >= SIZES[0]);
    let ratios = long.map(|note| {
        let mut row = Row::new("", None, vec![note.doc.clone()], areas);
        row.run(samples, areas);
        (row.runs.ratio(0, 1).median, note)
    });
    if let Some((most, note)) = ratios.max_by(|a, b| a.0.total_cmp(&b.0)) {
        println!(
            "the most on one of them of 1 KiB or more is {most:.4}: {} bytes of {}",
            note.doc.len(),
            note.file.display()
        );
    }
}

pub fn run(words: &Words) {
    let mut areas = Areas::new();
    let real = match words.means("real notes") {
        true => notes(&words.notes, &mut areas),
        false => Vec::new(),
    };
    let mut rows = rows(words, &real, &mut areas);
    let mut pass_runs = Runs(Vec::new());
    for _ in 0..words.runs {
        pass_runs.0.push(passes(words.samples, &mut areas));
        for row in &mut rows {
            row.run(words.samples, &mut areas);
        }
    }
    println!("{}", machine());
    show_passes(&pass_runs);
    println!(
        " docs    bytes links |     ours µs    ± ns/byte growth |     Rust µs    ± growth |    ours / Rust"
    );
    let mut before: Option<&Row> = None;
    for row in &rows {
        before = before.filter(|before| before.name == row.name);
        if before.is_none() {
            println!("{}", row.name);
        }
        row.show(before);
        before = Some(row);
    }
    if words.means("real notes") && real.is_empty() {
        println!("no real notes below {}: skipped", words.notes.display());
    }
    show_worst(&real, words.samples, &mut areas);
}
