//! Seeded documents that know the grammar: links of every kind that meet each
//! other through a small pool of names, forms that just fail, and damage.

use crate::document::DOCUMENT_MAX;
use crate::pieces::first_bad;
use crate::random::Random;

/// Names and labels, raw: words, phrases, escapes good and bad, characters of
/// two bytes that are word characters or not.
const NAMES: [&str; 30] = [
    "a", "a", "a", "b", "b", "c", "d", "ab", "x1", "-", "_", "_1", "_2", "__", "a-b", "a b",
    "a  b", "a\\ b", "a\\:b", "a\\`b", "\\_", "\\ ", "a\\x", "a:b", "é", "ªɏ", "a×b", "a\u{A0}",
    "\u{85}", "",
];

/// Targets, raw: addresses, labels, escapes good and bad.
const TARGETS: [&str; 30] = [
    "u",
    "u",
    "v",
    "w",
    "u/1",
    "http://x.y/z?a=b#c",
    "u_",
    "u_v",
    "u\\_",
    "u\\_v",
    "u v",
    " u",
    "u ",
    "u\\ v",
    "u\\\\",
    "u\\",
    "u\\v",
    "a_",
    "b_",
    "a__",
    "`a b`_",
    "`a\\ b`_",
    "_",
    "__",
    "u:v",
    "u>v",
    "u<v",
    "é\u{A0}",
    "\u{85}u",
    "",
];

/// Targets that an embedded form takes.
const ADDRESSES: [&str; 8] = [
    "u",
    "v",
    "w",
    "u/1",
    "u v",
    "u\\ v",
    "é",
    "http://x.y/z?a=b#c",
];

/// What stands between: words, quotes and brackets, stops of the scanner,
/// starts of blocks that are none.
const BETWEEN: [&str; 32] = [
    "x",
    "word",
    "and",
    "(",
    "[",
    "<",
    "'",
    "\"",
    "((",
    ")",
    ">",
    "!",
    "{",
    "*",
    ".",
    ":",
    "\\",
    "\\`",
    "\\_",
    "`",
    "``",
    "_",
    "..",
    ".. ",
    "__ ",
    ".. comment",
    ".. _a:u",
    "..  _a: u",
    "é",
    "×",
    "\u{A0}",
    "\u{85}",
];

/// Blanks and line ends.
const BLANKS: [&str; 16] = [
    " ", " ", " ", "\n", "\n", "\n", "\n\n", "\r\n", "\r", "\t", "  ", " \n", "\t\n", " \r\n",
    "\n   ", "",
];

const INDENTS: [&str; 6] = ["", "", "", " ", "\t", "   "];

/// Line ends inside a block.
const LINE_ENDS: [&str; 4] = ["\n", "\n", "\r\n", "\r"];

/// Bytes that start no character of the domain, alone or where they stand.
const OUTSIDE: [&[u8]; 7] = [
    b"\xFF",
    b"\x80",
    b"\xC0\x80",
    b"\xC2",
    b"\xC9\x90",
    b"\xE2\x80\x99",
    b"\xF0\x9F\x98\x80",
];

/// The document of a seed. With `domain_only` it is of the domain and at most
/// 16,384 bytes long.
pub fn document(seed: u64, domain_only: bool) -> Vec<u8> {
    let mut random = Random::new(seed);
    let mut doc = grown(&mut random);
    if random.once_in(4) {
        for _ in 0..=random.below(3) {
            damage(&mut random, &mut doc);
        }
    }
    if random.once_in(12) {
        let place = random.below(doc.len() + 1);
        let outside = *random.pick(&OUTSIDE);
        doc.splice(place..place, outside.iter().copied());
    }
    if domain_only {
        doc.truncate(DOCUMENT_MAX);
        keep_domain(&mut doc);
    }
    doc
}

/// A damaged copy of a document, still of the domain.
pub fn damaged(random: &mut Random, doc: &[u8]) -> Vec<u8> {
    let mut copy = doc.to_vec();
    for _ in 0..=random.below(3) {
        damage(random, &mut copy);
    }
    keep_domain(&mut copy);
    copy
}

/// Removes the bytes that start no character of the domain.
fn keep_domain(doc: &mut Vec<u8>) {
    while let Some(place) = first_bad(doc) {
        doc.remove(place);
    }
}

/// A document while it grows.
struct Grown<'a> {
    random: &'a mut Random,
    doc: String,
    /// Whether backticks may stay open: such a one pairs with the next, and
    /// turns all that follows inside out.
    open: bool,
    /// The element that this document has most of, as `element` counts them.
    most: usize,
}

/// Elements with blanks between: mostly few, sometimes many.
fn grown(random: &mut Random) -> Vec<u8> {
    let longest = match random.below(40) {
        0 => 400,
        1 => 2_000,
        2..8 => 60,
        _ => 12,
    };
    let count = random.below(longest);
    let open = random.once_in(3);
    let most = random.below(16);
    let mut grown = Grown {
        random,
        doc: String::new(),
        open,
        most,
    };
    for _ in 0..count {
        grown.element();
        grown.one_of(&BLANKS);
    }
    grown.doc.into_bytes()
}

impl Grown<'_> {
    fn one_of(&mut self, list: &[&str]) {
        self.doc += *self.random.pick(list);
    }

    fn element(&mut self) {
        let element = if self.random.once_in(3) {
            self.random.below(16)
        } else {
            self.most
        };
        match element {
            0..4 => self.reference(),
            4..8 => self.embedded(),
            8..13 => self.block(),
            13 => self.chain(),
            _ => {
                let between = *self.random.pick(&BETWEEN);
                if self.open || !between.contains('`') {
                    self.doc += between;
                }
            }
        }
    }

    /// A reference by a word or in backticks, named or anonymous, or one that
    /// is left open.
    fn reference(&mut self) {
        if self.random.once_in(4) {
            self.one_of(&["(", "[", "<", "'", "\"", "(("]);
        }
        let name = *self.random.pick(&NAMES);
        let forms = if self.open { 12 } else { 10 };
        self.doc += &match self.random.below(forms) {
            0..4 => format!("{name}_"),
            4 => format!("{name}__"),
            5..8 => format!("`{name}`_"),
            8 => format!("`{name}`__"),
            9 => format!("`{name}`___"),
            10 => format!("`{name}`"),
            _ => format!("`{name}"),
        };
    }

    /// A text with a destination or a label in angle brackets.
    fn embedded(&mut self) {
        let text = *self.random.pick(&NAMES);
        let gap = *self
            .random
            .pick(&[" ", " ", " ", " ", "", "\n", "\\ ", "\u{A0}", " \t"]);
        let target = match self.random.below(6) {
            0 => format!("{}_", self.random.pick(&NAMES)),
            1 => self.random.pick(&TARGETS).to_string(),
            _ => self.random.pick(&ADDRESSES).to_string(),
        };
        let end = *self
            .random
            .pick(&["`_", "`_", "`_", "`__", "`__", "`__", "`___", " `_", "`"]);
        self.doc += &format!("`{text}{gap}<{target}>{end}");
    }

    /// A destination or alias block at a line's start, with or without further
    /// lines.
    fn block(&mut self) {
        if !self.random.once_in(8) {
            self.doc.push('\n');
        }
        let indent = *self.random.pick(&INDENTS);
        let name = *self.random.pick(&NAMES);
        self.doc += indent;
        self.doc += &match self.random.below(8) {
            0..4 => format!(".. _{name}:"),
            4 | 5 => format!(".. _`{name}`:"),
            6 => ".. __:".to_string(),
            _ => "__".to_string(),
        };
        if self.random.once_in(8) {
            self.one_of(&LINE_ENDS);
            self.doc += indent;
            self.doc += "   ";
        } else if !self.random.once_in(16) {
            self.doc.push(' ');
        }
        match self.random.below(3) {
            0 => self.doc += &format!("{}_", self.random.pick(&NAMES)),
            1 => self.doc += &format!("`{}`_", self.random.pick(&NAMES)),
            _ => self.one_of(&TARGETS),
        }
        while self.random.once_in(4) {
            self.one_of(&LINE_ENDS);
            self.doc += indent;
            self.one_of(&["   ", "   ", "    ", "  ", "\t"]);
            self.one_of(&TARGETS);
        }
        if !self.random.once_in(8) {
            self.doc.push('\n');
        }
    }

    /// Aliases from name to name, forwards or backwards, mostly with a
    /// destination at the end, sometimes in a ring.
    fn chain(&mut self) {
        let length = 1 + self.random.below(6);
        let mut lines: Vec<String> = (0..length)
            .map(|n| format!("\n.. _n{n}: n{}_", n + 1))
            .collect();
        lines.push(match self.random.below(4) {
            0 => format!("\n.. _n{length}: n0_"),
            1 => String::new(),
            _ => format!("\n.. _n{length}: w"),
        });
        if self.random.once_in(2) {
            lines.reverse();
        }
        let (one, other) = (self.random.below(length), self.random.below(length + 1));
        self.doc += &lines.concat();
        self.doc += &format!("\nn{one}_ n{other}_");
    }
}

/// A byte changed, dropped, doubled, swapped with the next; or an end cut off.
fn damage(random: &mut Random, doc: &mut Vec<u8>) {
    if doc.is_empty() {
        return;
    }
    let place = random.below(doc.len());
    match random.below(6) {
        0 => doc[place] = *random.pick(b"`_<> \n\\:.a\r\t"),
        1 => drop(doc.remove(place)),
        2 => doc.insert(place, doc[place]),
        3 => {
            let next = (place + 1).min(doc.len() - 1);
            doc.swap(place, next);
        }
        4 => doc.truncate(place),
        _ => drop(doc.drain(..place)),
    }
}
