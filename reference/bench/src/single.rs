//! Times the proved single-link call beside the Rust's `take_link`, on all links
//! of documents of several kinds and lengths. Before an input is timed, the links
//! of both sides are held to each other.
//!
//! A single-link call checks the whole document and zeroes a scratch before it
//! scans. What this costs is timed as a call at the document's end, and taken
//! off once for each call: the rest is the scan.

use crate::documents::SIZES;
use crate::inputs::{INPUTS, Input};
use crate::links::{Areas, agreed, proved_links, rust_links};
use crate::show::{ratio, timed, value};
use crate::time::{Time, times};
use crate::words::Words;
use std::hint::black_box;

/// A plain pass over the bytes, which counts those that step (f) stops at.
fn stops(doc: &[u8]) -> usize {
    let is_stop = |b| matches!(b, b'\n' | b' ' | b'\t' | b'`' | b'!' | b'[' | b'{' | b'<');
    doc.iter().filter(|b| is_stop(**b)).count()
}

/// An input at one size.
struct Row {
    size: usize,
    links: usize,
    pass: Time,
    ours: Time,
    /// A call at the end, as often as ours calls.
    checks: f64,
    rust: Time,
}

impl Row {
    fn new(input: &Input, size: usize, samples: u32) -> Row {
        let doc = &(input.make)(size)[..];
        let text = str::from_utf8(doc).expect("the domain is UTF-8");
        let mut areas = Areas::new(size);
        let links = agreed(text, &mut areas);
        let mut lent = Areas::new(size);
        let [pass, ours, end, rust] = times(
            samples,
            [
                &mut || {
                    black_box(stops(black_box(doc)));
                },
                &mut || {
                    proved_links(black_box(doc), &mut areas, |_, _, first, second| {
                        black_box((first, second));
                    });
                },
                &mut || {
                    black_box(lent.call(black_box(doc), size));
                },
                &mut || {
                    rust_links(black_box(text), |_, _, link| {
                        black_box(link);
                    });
                },
            ],
        );
        Row {
            size,
            links,
            pass,
            ours,
            checks: end.median * (links + 1) as f64,
            rust,
        }
    }

    /// What ours takes without the checks; unknown where these are nearly all.
    fn scan(&self) -> Option<f64> {
        let scan = self.ours.median - self.checks;
        (scan > 0.1 * self.ours.median).then_some(scan)
    }

    fn show(&self, half: Option<&Row>) {
        let per_byte = |time: f64| time * 1e9 / self.size as f64;
        let rust = Some(self.rust.median);
        println!(
            "{:>7}{:>6} |{:>7.2} |{}{}{:>11.2}{}{}{} |{}{:>10.2}{} |{}{}",
            self.size,
            self.links,
            per_byte(self.pass.median),
            timed(self.ours),
            value(
                ratio(Some(self.ours.median), half.map(|half| half.ours.median)),
                7,
                2
            ),
            self.checks * 1e6,
            value(self.scan().map(|scan| scan * 1e6), 11, 2),
            value(self.scan().map(per_byte), 9, 2),
            value(ratio(self.scan(), half.and_then(Row::scan)), 7, 2),
            timed(self.rust),
            per_byte(self.rust.median),
            value(ratio(rust, half.map(|half| half.rust.median)), 7, 2),
            value(ratio(Some(self.ours.median), rust), 9, 4),
            value(ratio(self.scan(), rust), 9, 4),
        );
    }
}

pub fn run(words: &Words) {
    println!(
        "  bytes links |   pass |     ours µs    ± growth  checks µs    scan µs  ns/byte growth |     Rust µs    ±   ns/byte growth |     ours     scan"
    );
    println!(
        "              |ns/byte |                                                               |                                   |    /Rust    /Rust"
    );
    for input in INPUTS.iter().filter(|input| words.means(input.name)) {
        println!("{}", input.name);
        let mut half = None;
        for size in SIZES {
            let row = Row::new(input, size, words.samples);
            row.show(half.as_ref());
            half = Some(row);
        }
    }
}
