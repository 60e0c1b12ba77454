//! Documents for the two calls: all short ones, cases, limits, drawn ones.

use crate::inputs::limit_bytes;
use driver::document::DOCUMENT_MAX;
use driver::exhaustive::{BLOCKS, BYTES, INLINE, LINES, Sequences};
use driver::random::Random;
use driver::{forms, generate, limits};

pub use crate::inputs::sequences;

/// Backticks that are closed or not, with what escapes and follows them.
const BACKTICKS: &[&str] = &["`", "\\", "_", "<", ">", " ", "a", "\n"];

/// What may stand before a reference, and what makes a line or input start.
const OPENINGS: &[&str] = &["(", "[", "<", "'", "\"", "a_", "`b`_", " ", "\t", "\n"];

/// Where the scanner stops, and line ends before blocks.
const STOPS: &[&str] = &[
    "!", "[", "{", "x", "a_", " ", "\r", "\n", ".. _a: b", "`a`__",
];

/// Links, and blocks directly behind them.
const FOLLOWED: &[&str] = &[
    "a_",
    "`a`_",
    "`a <u>`_",
    "`a <u>`__",
    ".. _a: u",
    "__ v",
    " ",
    "\n",
    "\n   ",
    "_",
];

/// Characters at the domain's ends, in and out of it.
const DOMAIN: &[&str] = &["a", "_", "`", " ", "é", "\u{80}", "\u{24F}", "\u{250}", "×"];

/// Aliases of three names, forwards, backwards and in a ring, with destinations
/// before and behind them, and an empty name.
const CHAINS: &[&str] = &[
    ".. _a: b_\n",
    ".. _b: c_\n",
    ".. _c: a_\n",
    ".. _b: a_\n",
    ".. _a: u\n",
    ".. _c: v\n",
    "`c <w>`_\n",
    "a_\n",
    "`\\ `_\n",
    ".. _\\ : a_\n",
];

/// Escapes that one parser reads and a later one refuses: in destinations, and
/// where an underscore or a blank behind a backslash is cut off.
const REFUSED: &[&str] = &[
    "`a <", "b", "\\_", "\\ ", "_", ">`_", ">`__", "__ ", ".. _c: ", "`c\\_`_", "\n   ",
];

/// Eight blocks that begin like a target and are none, with a further line each: more
/// than are read before it is marked where no target starts.
const NO_TARGETS: &str = concat!(
    ".. _b\n   c\n.. _b\n   c\n.. _b\n   c\n.. _b\n   c\n",
    ".. _b\n   c\n.. _b\n   c\n.. _b\n   c\n.. _b\n   c\n",
);

/// Links before what starts a target, with further lines.
const HEADERS: &[&str] = &[
    "a_", ".. _", "__ ", " ", "\n   ", "\n    ", "\n", ": ", "`", "b_", "\\x", "\\:",
];

/// The same with all that makes a target of it or not: what ends a name, escapes good
/// and bad, indents, line ends.
const TARGETS: [&str; 36] = [
    "a_",
    "a_",
    "a_ ",
    "`a <u>`_",
    ".. _",
    ".. _",
    ".. _b: ",
    ".. _`b`: ",
    "__ ",
    "__ ",
    "_",
    ":",
    ": ",
    "`",
    "`: ",
    "`_",
    "``",
    "b",
    "c_",
    "c_ ",
    "\\",
    "\\x",
    "\\:",
    "\\`",
    "\\_",
    "\\ ",
    " ",
    "  ",
    "\t",
    "\n",
    "\n   ",
    "\n    ",
    "\n\t",
    "\n \t   ",
    "\r\n   ",
    "\r",
];

/// Documents that reach branches that few do.
const RARE: [&str; 9] = [
    "`a <\\_b>`_",
    "`a <\\_b>`__",
    "`a <b\\_>`_",
    "`a\\ <b>`_",
    "`a\\ <b>`__",
    "`a\\ <b_>`_",
    "__ `c\\_`_",
    "__ `c\\_`_\n   d",
    "`a <b>`_ __ c_\n   d",
];

/// Alphabets for the single-link call, and how many tokens at most.
pub const ALPHABETS: [(&str, &[&str], u32); 10] = [
    ("all of up to five bytes of the grammar", &BYTES, 5),
    ("all of up to six bytes around backticks", BACKTICKS, 6),
    ("all of up to four tokens of inline forms", &INLINE, 4),
    ("all of up to four tokens of blocks", &BLOCKS, 4),
    ("all of up to three lines", &LINES, 3),
    ("all of up to five tokens before references", OPENINGS, 5),
    ("all of up to four tokens of stops", STOPS, 4),
    ("all of up to four links and blocks", FOLLOWED, 4),
    ("all of up to four tokens of refused escapes", REFUSED, 4),
    (
        "all of up to five characters of the domain's ends",
        DOMAIN,
        5,
    ),
];

/// Alphabets for the document call, and how many tokens at most.
pub const SHORT: [(&str, &[&str], u32); 7] = [
    ("all of up to four bytes of the grammar", &BYTES, 4),
    ("all of up to four tokens of inline forms", &INLINE, 4),
    ("all of up to four tokens of blocks", &BLOCKS, 4),
    ("all of up to four links and blocks", FOLLOWED, 4),
    ("all of up to four tokens of refused escapes", REFUSED, 4),
    ("all of up to four lines", &LINES, 4),
    ("all of up to five lines of aliases", CHAINS, 5),
];

/// Some of these.
pub fn some_short(random: &mut Random) -> Vec<Vec<u8>> {
    let mut list = Vec::new();
    for (_, alphabet, most) in SHORT {
        let sequences = Sequences::new(alphabet, most);
        list.extend((0..40).map(|_| sequences.get(random.draw() % sequences.count())));
    }
    list
}

/// All of up to so many tokens of headers, behind blocks that are no targets.
pub fn headers() -> impl Iterator<Item = Vec<u8>> {
    sequences(HEADERS, 4).map(|doc| [NO_TARGETS.as_bytes(), &doc].concat())
}

/// Bytes around the domain's limits, a part of all.
pub fn domain_bytes() -> impl Iterator<Item = Vec<u8>> {
    limit_bytes().step_by(5)
}

/// The documents of 01's cases and its readings', and rare ones.
pub fn cases() -> Vec<Vec<u8>> {
    let cases = driver::cases::documents().map(|case| case.doc);
    cases.chain(RARE.map(Vec::from)).collect()
}

/// Documents near every limit.
pub fn limits() -> Vec<Vec<u8>> {
    let mut list: Vec<Vec<u8>> = limits::documents().into_iter().map(|l| l.doc).collect();
    list.extend(forms::labels());
    list.extend(forms::longest());
    list
}

/// A generated document, mostly of the domain.
pub fn grown(random: &mut Random) -> Vec<u8> {
    generate::document(random.draw(), !random.once_in(8))
}

/// Parts of a generated document, and damaged copies of them.
pub fn parts(random: &mut Random) -> Vec<Vec<u8>> {
    forms::drawn(random)
}

/// One of the inputs of the parsers, behind nothing or a little text.
pub fn formed(random: &mut Random) -> Vec<u8> {
    const BEFORE: [&str; 12] = [
        "", "", "", "x", "x ", "x\n", "(", " ", "\n", "a_", "`", "\\`",
    ];
    let form = random.pick(&forms::FORMS);
    let before = random.pick(&BEFORE).as_bytes();
    [before, &form.get(random.draw() % form.count())].concat()
}

/// Some tens of tokens of an alphabet.
pub fn tokens(random: &mut Random) -> Vec<u8> {
    let (_, alphabet, _) = *random.pick(&ALPHABETS);
    let sequences = Sequences::new(alphabet, 6);
    (0..1 + random.below(8))
        .flat_map(|_| sequences.get(random.draw() % sequences.count()))
        .collect()
}

/// The document with a byte that starts no character, or none where it stands.
pub fn outside(random: &mut Random, mut doc: Vec<u8>) -> Vec<u8> {
    const BYTES: [u8; 13] = [
        0x80, 0x8F, 0x90, 0xBF, 0xC0, 0xC1, 0xC2, 0xC3, 0xC8, 0xC9, 0xCA, 0xE2, 0xFF,
    ];
    let byte = *random.pick(&BYTES);
    let place = random.below(doc.len() + 1);
    match doc.get_mut(place) {
        Some(changed) => *changed = byte,
        None => doc.push(byte),
    }
    doc
}

/// Names that lines refer to and define.
const NAMES: [&str; 12] = [
    "a", "b", "c", "d", "é", "x1", "_1", "_2", "_12", "a b", "\\ ", "_",
];

/// A line that refers to a name or defines one.
fn line(random: &mut Random) -> String {
    let name = *random.pick(&NAMES);
    let other = *random.pick(&NAMES);
    let n = random.below(20);
    match random.below(14) {
        0..3 => format!("`{name}`_"),
        3 => "__".to_string(),
        4 => format!("`{name}`__"),
        5 => format!("`{name} <{n}>`_"),
        6 => format!("`{name} <{n}>`__"),
        7 => format!("`{name} <{other}_>`_"),
        8 | 9 => format!(".. _`{name}`: {n}"),
        10 | 11 => format!(".. _`{name}`: `{other}`_"),
        12 => format!("__ {n}"),
        _ => format!("__ `{other}`_"),
    }
}

/// Lines that refer to names and define them, mostly few.
pub fn lines(random: &mut Random) -> Vec<u8> {
    const ENDS: [&str; 8] = ["\n", "\n", "\n", "\n", "\n", "\r\n", "\n\n", " "];
    let most = match random.below(50) {
        0 => 300,
        1..5 => 60,
        _ => 12,
    };
    let mut doc = String::new();
    for _ in 0..random.below(most) {
        doc += &line(random);
        doc += *random.pick(&ENDS);
    }
    doc.into_bytes()
}

/// Tokens of targets, or a generated document, behind blocks that are no targets.
fn behind(random: &mut Random) -> Vec<u8> {
    let mut doc = NO_TARGETS.as_bytes().to_vec();
    if random.once_in(4) {
        doc.extend(generate::document(random.draw(), true));
    } else {
        let most = *random.pick(&[6, 12, 12, 40, 200]);
        for _ in 0..random.below(most) {
            doc.extend(random.pick(&TARGETS).bytes());
        }
    }
    doc
}

/// Blocks of a few depths, with further lines and labels about as long as may be,
/// behind blocks that are no targets: where none starts is told by indents and lengths.
fn deep(random: &mut Random) -> Vec<u8> {
    const DEPTHS: [usize; 8] = [0, 1, 5, 60, 126, 128, 300, 1022];
    const HEADERS: [&str; 5] = [".. _", ".. _b: ", ".. _`b`: ", ".. _b:", "__ "];
    let depths: Vec<usize> = (0..1 + random.below(3))
        .map(|_| random.pick(&DEPTHS) + random.below(4))
        .collect();
    let mut doc = NO_TARGETS.to_string();
    if random.once_in(8) {
        // More indents than are told apart.
        for depth in 0..125 + random.below(6) {
            doc += &format!("{}.. _\n", " ".repeat(depth));
        }
    }
    for _ in 0..random.below(40) {
        let blanks = " ".repeat(*random.pick(&depths));
        doc += &match random.below(10) {
            0..3 => format!("a_{blanks}{}", random.pick(&HEADERS)),
            3 => format!("\n{blanks}{}", random.pick(&HEADERS)),
            4 | 5 => format!("\n{blanks}{}", " ".repeat(2 + random.below(3))),
            6 => {
                let most = *random.pick(&[4, 100, 345, 1010]);
                "w".repeat(most - random.below(most.min(30)))
            }
            _ => random.pick(&TARGETS).to_string(),
        };
    }
    doc.truncate(DOCUMENT_MAX);
    doc.into_bytes()
}

/// About as many links or definitions as there may be, of a few kinds, in any
/// order.
pub fn crowded(random: &mut Random) -> Vec<u8> {
    let kinds: Vec<usize> = (0..1 + random.below(4)).map(|_| random.below(7)).collect();
    let (most_links, most_definitions) = (254 + random.below(5), 254 + random.below(5));
    let (mut links, mut definitions) = (0, 0);
    let mut doc = String::new();
    while links < most_links && definitions < most_definitions {
        let (name, other) = (random.below(300), random.below(300));
        let (is_link, is_definition, line) = match random.pick(&kinds) {
            0 => (1, 0, format!("{name}_\n")),
            1 => (1, 0, "__\n".to_string()),
            2 => (1, 0, format!("`{name} <{other}>`__\n")),
            3 => (1, 1, format!("`{name} <{other}>`_\n")),
            4 => (0, 1, format!(".. _{name}: {other}\n")),
            5 => (0, 1, format!(".. _{name}: {other}_\n")),
            _ => (0, 1, format!("__ {other}_\n")),
        };
        links += is_link;
        definitions += is_definition;
        doc += &line;
    }
    doc.into_bytes()
}

/// Generated documents behind each other, about as long as a document may be.
pub fn long(random: &mut Random) -> Vec<u8> {
    let most = match random.below(4) {
        0 => DOCUMENT_MAX,
        1 => DOCUMENT_MAX + 1,
        _ => random.below(DOCUMENT_MAX),
    };
    let mut text = String::new();
    while text.len() < most {
        let more = match random.below(3) {
            0 => format!(
                "{}{}",
                random.pick(&NAMES),
                "word ".repeat(random.below(900))
            ),
            _ => String::from_utf8(generate::document(random.draw(), true)).expect("the domain"),
        };
        text += &more;
    }
    text.truncate(text.floor_char_boundary(most));
    text.into_bytes()
}

/// A damaged copy of a generated document.
fn damaged(random: &mut Random) -> Vec<u8> {
    let doc = generate::document(random.draw(), true);
    generate::damaged(random, &doc)
}

/// A generated document with a byte outside the domain.
fn grown_outside(random: &mut Random) -> Vec<u8> {
    let doc = grown(random);
    outside(random, doc)
}

/// A kind of drawn documents: one is drawn in so many rounds.
pub struct Kind {
    pub name: &'static str,
    pub rounds: u64,
    pub draw: fn(&mut Random) -> Vec<u8>,
}

/// The kinds of drawn documents for the document call.
pub const KINDS: [Kind; 10] = [
    kind("generated documents", 1, grown),
    kind("damaged copies of generated documents", 1, damaged),
    kind("drawn lines", 1, lines),
    kind("drawn from the forms of the parsers", 2, formed),
    kind("drawn tokens", 2, tokens),
    kind("behind blocks that are no targets", 1, behind),
    kind("blocks of a few depths", 4, deep),
    kind("documents with a byte outside the domain", 8, grown_outside),
    kind("about as many links and definitions as may be", 50, crowded),
    kind("about as long as may be", 200, long),
];

pub const fn kind(name: &'static str, rounds: u64, draw: fn(&mut Random) -> Vec<u8>) -> Kind {
    Kind { name, rounds, draw }
}
