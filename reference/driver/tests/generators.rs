//! The generators: they give the same documents each time, keep to the domain
//! where asked, and reach every kind of link, every number of the table, and
//! every parser.

#[path = "../../nom/tests/table/mod.rs"]
mod table;

use driver::document::{BYTES_MIN, DOCUMENT_MAX, NUMBERS_MIN, document};
use driver::exhaustive::{BLOCKS, BYTES, INLINE, LINES, Sequences};
use driver::names::names_of;
use driver::parsers::{PARSERS, Parsed, name, parser};
use driver::pieces::first_bad;
use driver::random::Random;
use driver::single::take_link_at;
use driver::{forms, generate, limits};
use table::Table;

/// How many links of each kind a document scans to, by kind.
fn kinds(doc: &[u8]) -> [usize; 6] {
    let mut counts = [0; 6];
    let (mut first, mut second) = ([0; DOCUMENT_MAX], [0; DOCUMENT_MAX]);
    let mut place = 0;
    loop {
        let answer = take_link_at(doc, place, &mut first, &mut second);
        counts[answer.kind as usize] += 1;
        if answer.number != 0 {
            return counts;
        }
        place += (answer.skipped + answer.consumed) as usize;
    }
}

#[test]
fn generated() {
    let mut table = Table::new("generated documents");
    let mut totals = [0; 6];
    let mut numbers = [0; 10];
    let (mut again, mut resolved, mut unresolved) = (0, 0, 0);
    for seed in 0..2_000 {
        let doc = generate::document(seed, true);
        let found = (first_bad(&doc), doc.len() <= DOCUMENT_MAX);
        table.case("in the domain and not too long", found, (None, true));
        again += usize::from(generate::document(seed, true) == doc);
        for (total, count) in totals.iter_mut().zip(kinds(&doc)) {
            *total += count;
        }
        let names = names_of(str::from_utf8(&doc).expect("UTF-8"));
        unresolved += names.unresolved.len();
        resolved += names.references.len() - names.unresolved.len();
        let any = generate::document(seed, false);
        let outcome = document(&any, 0, NUMBERS_MIN, BYTES_MIN, &mut []);
        numbers[outcome.number as usize] += 1;
    }
    println!("links of each kind {totals:?}, numbers {numbers:?}");
    println!("references resolved {resolved}, unresolved {unresolved}");
    for total in &totals[1..] {
        table.case("links of every kind", *total > 3_000, true);
    }
    for number in [0, 2, 4, 5, 6, 7] {
        table.case("outcomes of every number", numbers[number] > 0, true);
    }
    table.case("all the same again", again, 2_000);
    table.case("references resolved", resolved > 1_000, true);
    table.case("references unresolved", unresolved > 1_000, true);
    table.end();
}

#[test]
fn sequences() {
    let mut table = Table::new("exhaustive sequences");
    let few = Sequences::new(&BYTES, 2);
    table.case("count", few.count(), 111);
    table.case("first", few.get(0), vec![]);
    table.case("second", few.get(1), b"`".to_vec());
    table.case("last", few.get(110), b"..".to_vec());
    for alphabet in [&BYTES[..], &INLINE, &BLOCKS, &LINES] {
        let sequences = Sequences::new(alphabet, 3);
        let mut all: Vec<Vec<u8>> = sequences.iter().collect();
        let size = alphabet.len() as u64;
        table.case(
            "count",
            sequences.count(),
            1 + size + size * size + size.pow(3),
        );
        table.case("as many as counted", all.len() as u64, sequences.count());
        table.case(
            "in the domain",
            all.iter().all(|doc| first_bad(doc).is_none()),
            true,
        );
        all.sort();
        all.dedup();
        table.case(
            "many different",
            all.len() as u64 > sequences.count() / 2,
            true,
        );
    }
    table.end();
}

#[test]
fn near_the_limits() {
    let mut table = Table::new("documents near the limits");
    let mut numbers = [[0; 10]; 2];
    for limit in limits::documents() {
        for render in [0, 1] {
            let outcome = document(&limit.doc, render, NUMBERS_MIN, BYTES_MIN, &mut []);
            numbers[render as usize][outcome.number as usize] += 1;
            if limit.name.starts_with("255 ") && render == 0 {
                let fits = outcome.number == 0 || outcome.number == 7;
                table.case(&limit.name, fits, true);
            }
            if limit.name.starts_with("257 ") && render == 1 {
                let refused = outcome.number == 5 || outcome.number == 6;
                table.case(&limit.name, refused, true);
            }
        }
    }
    println!(
        "numbers with render 0 {:?}, with render 1 {:?}",
        numbers[0], numbers[1]
    );
    for number in [0, 2, 4, 5, 6, 7] {
        table.case("every number", numbers[0][number] > 0, true);
    }
    table.end();
}

/// How many inputs of a list each parser accepts, by number.
fn accepted(inputs: &[Vec<u8>]) -> Vec<usize> {
    let accepts = |number, s: &Vec<u8>| {
        let answer = parser(number, s, s.len());
        matches!(answer, Parsed::Found { .. })
    };
    PARSERS
        .into_iter()
        .map(|number| inputs.iter().filter(|s| accepts(number, s)).count())
        .collect()
}

#[test]
fn sequences_for_parsers() {
    let mut table = Table::new("sequences for the parsers");
    let mut reached = vec![0; PARSERS.len()];
    for form in &forms::FORMS {
        let mut random = Random::new(1);
        let some: Vec<Vec<u8>> = (0..20_000)
            .map(|_| form.get(random.draw() % form.count()))
            .collect();
        let domain = some.iter().all(|s| first_bad(s).is_none());
        table.case(form.kind, domain, true);
        let by_number: Vec<Vec<u8>> = (0..3).map(|number| form.get(number)).collect();
        table.case(form.kind, form.iter().take(3).collect(), by_number);
        let counts = accepted(&some);
        for place in form.parsers.iter().map(|number| usize::from(*number) - 1) {
            reached[place] += counts[place];
        }
    }
    println!("accepted by each parser {reached:?}");
    for (number, count) in PARSERS.into_iter().zip(reached) {
        table.case(name(number), count > 100, true);
    }
    table.end();
}

#[test]
fn limits_for_parsers() {
    let mut table = Table::new("limits for the parsers");
    let labels = forms::labels();
    let longest = forms::longest();
    for s in labels.iter().chain(&longest) {
        table.case("in the domain", first_bad(s), None);
    }
    let counts = accepted(&labels);
    println!("accepted by each parser {counts:?}");
    for (number, count) in PARSERS.into_iter().zip(counts) {
        table.case(name(number), count > 0, true);
    }
    let lengths: Vec<usize> = longest.iter().map(Vec::len).collect();
    let expected = [16_383, 16_384, 16_385].repeat(lengths.len() / 3);
    table.case("the longest", lengths, expected);
    table.end();
}

#[test]
fn drawn_for_parsers() {
    let mut table = Table::new("parts of documents for the parsers");
    let (mut random, mut again) = (Random::new(1), Random::new(1));
    let mut drawn = Vec::new();
    for _ in 0..4_000 {
        let some = forms::drawn(&mut random);
        let found = (
            forms::drawn(&mut again) == some,
            some.iter().all(|s| first_bad(s).is_none()),
        );
        table.case("the same again, and in the domain", found, (true, true));
        drawn.extend(some);
    }
    let counts = accepted(&drawn);
    println!("of {} accepted by each parser {counts:?}", drawn.len());
    for (number, count) in PARSERS.into_iter().zip(counts) {
        table.case(name(number), count > 40, true);
    }
    table.end();
}
