//! Pairs for the claim about appended tails: first documents in which a name is
//! mostly defined once, and tails built to tempt. One pair in some also breaks a
//! premise of the claim.

use crate::documents::{self, Kind, kind};
use crate::writer::{NAMES, Writer, is_plain, raw};
use driver::document::DOCUMENT_MAX;
use driver::exhaustive::{BYTES, LINES};
use driver::generate;
use driver::items::Item;
use driver::random::Random;

/// What stands before the seam: links, blocks, open forms, line ends.
const BEFORE: &[&str] = &[
    "a_", ".. _a: u", "\t__ v", "__ b_", "`a <u", "`", "_", " ", "\n", "\r",
];

/// What stands behind it: further lines and closers where there are none,
/// definitions, line ends.
const BEHIND: &[&str] = &[
    "   v", "\t   v", ">`__", ".. _a: w", ".. _b: w", "__ w", "a_", "_", "\n", "\r\n",
];

/// Short pairs: the tokens of firsts, how many at most, and those of tails.
pub struct Short {
    pub name: &'static str,
    pub firsts: (&'static [&'static str], u32),
    pub tails: (&'static [&'static str], u32),
}

pub const SHORT: [Short; 3] = [
    Short {
        name: "all of up to three tokens and two around the seam",
        firsts: (BEFORE, 3),
        tails: (BEHIND, 2),
    },
    Short {
        name: "all of up to three lines and two",
        firsts: (&LINES, 3),
        tails: (&LINES, 2),
    },
    Short {
        name: "all of up to three bytes of the grammar and two",
        firsts: (&BYTES, 3),
        tails: (&BYTES, 2),
    },
];

/// The kinds of drawn firsts.
pub const KINDS: [Kind; 7] = [
    kind("firsts with names defined once", 1, once),
    kind("generated firsts", 2, documents::grown),
    kind("damaged copies of firsts", 2, damaged),
    kind("firsts of drawn lines", 4, documents::lines),
    kind("firsts of drawn tokens", 4, documents::tokens),
    kind("firsts with many names defined once", 40, many_once),
    kind("firsts about as long as may be", 400, long),
];

/// The name that blocks at the end of a first define.
const END: &str = "end";

/// What a first may end in.
const ENDS: [&str; 46] = [
    "",
    "\n",
    "\n\n",
    "\r\n",
    " ",
    "\t",
    "x ",
    "x \n",
    "\\",
    "\\`",
    "_",
    "`",
    "`a",
    "`a\\",
    "`a <u",
    "`a <u>",
    "`a <end_",
    "a_",
    "a__",
    "__",
    "(",
    "<",
    ":",
    "!",
    ".. ",
    ".. comment",
    "__ ",
    ".. _",
    ".. _`end",
    ".. _end",
    ".. _end:",
    ".. _end: ",
    ".. _end: \\",
    ".. _end: u\\",
    ".. _end: u",
    ".. _end: u ",
    ".. _end: u\n   v",
    " .. _end: u",
    "\t.. _end: u",
    ".. _end: a_",
    "\t__ u",
    "__ a_",
    "a_ .. _end: u",
    "`a <u>`__ __ v",
    "`a <u>`__ .. _b: v\n   w",
    "a_ .. _end: b_",
];

/// The same with a carriage return at its end.
const RETURNS: [&str; 6] = [
    "\r",
    ".. _end: u\r",
    ".. _end: a_\r",
    ".. _end: u\n   v\r",
    "a_ .. _b: u\r",
    "__ u\r",
];

/// What a tail may begin with: further lines behind a line of their own, starts
/// of blocks, ends of forms, line ends.
const STARTS: [&str; 44] = [
    "",
    "\n",
    "\n\n",
    "\n   v",
    "\n   v\n   w",
    "\n    v",
    "\n\tv",
    "\n\t   v",
    "\n v",
    "\r",
    "\r   v",
    "\r\n",
    "\r\n   v",
    "\r\n\t   v",
    "v",
    "v\n   w",
    "\u{B}  v",
    "\u{85}   v",
    "\u{A0}  v",
    "_",
    "__",
    "___",
    "_ ",
    "__\n",
    "__ u",
    "__ u\n   v",
    "__ a_",
    "..",
    ".. ",
    ".. v",
    ".. _",
    ".. __: u",
    ".. _:",
    ">",
    ">_",
    ">__",
    "<u>_",
    ":",
    ": u",
    "\\",
    "\\ ",
    "a_",
    "end_",
    "(b_",
];

/// Starts with a space, and with a tab.
const SPACES: [&str; 5] = [" ", "   ", "   v", "   v\n   w", "    a_"];
const TABS: [&str; 4] = ["\t", "\tv", "\t   v", "\t   v\n"];

/// Parts with a backtick.
const BACKTICKS: [&str; 8] = [
    "`", "`_", "`__", ">`_", ">`__", "v>`__\n", "`a <w>`_", "`b`_",
];

/// A damaged copy of a first with names defined once.
fn damaged(random: &mut Random) -> Vec<u8> {
    let first = once(random);
    generate::damaged(random, &first)
}

/// A first with names defined once.
fn once(random: &mut Random) -> Vec<u8> {
    let most = if random.once_in(12) { 40 } else { 9 };
    let elements = random.below(most);
    written(random, elements, NAMES.map(String::from).to_vec())
}

/// The same with about as many links or definitions as there may be.
fn many_once(random: &mut Random) -> Vec<u8> {
    let elements = 200 + random.below(250);
    let names = (0..180).map(|n| format!("n{n}")).collect();
    written(random, elements, names)
}

/// A first with names defined once, behind up to as many words as there may be.
fn long(random: &mut Random) -> Vec<u8> {
    let most = random.below(DOCUMENT_MAX);
    let mut text = "word ".repeat(most / 5);
    for _ in 0..3 {
        let place = random.below(text.len() + 1);
        text.insert(place, '\n');
    }
    let mut first = text.into_bytes();
    first.extend(b"\n\n");
    first.extend(once(random));
    first
}

/// So many elements, with each of the names defined once at most.
fn written(random: &mut Random, elements: usize, names: Vec<String>) -> Vec<u8> {
    let free = names.iter().filter(|name| *name != END).cloned().collect();
    let mut writer = Writer {
        random,
        text: String::new(),
        is_tail: false,
        names,
        open: Vec::new(),
        free,
    };
    writer.elements(elements);
    writer.text.into_bytes()
}

/// The first as it is, or with a tempting end, mostly on a line of its own.
pub fn ended(random: &mut Random, mut first: Vec<u8>) -> Vec<u8> {
    let end = match random.below(20) {
        0..6 => return first,
        6 => *random.pick(&RETURNS),
        _ => *random.pick(&ENDS),
    };
    if !random.once_in(4) {
        first.push(b'\n');
    }
    first.extend(end.as_bytes());
    first
}

/// The names that a tail works with.
pub struct Known {
    /// Those that the first refers to and does not define.
    open: Vec<String>,
    /// Those that it defines.
    defined: Vec<String>,
}

impl Known {
    pub fn new(items: &[Item], defined: &[Vec<u8>]) -> Known {
        let text = |name: &Vec<u8>| String::from_utf8(name.clone()).expect("it is of the domain");
        let is_open = |item: &&Item| matches!(item.kind, 3 | 5) && !defined.contains(&item.second);
        let mut open: Vec<String> = items
            .iter()
            .filter(is_open)
            .map(|item| text(&item.second))
            .collect();
        open.sort();
        open.dedup();
        Known {
            open,
            defined: defined.iter().map(text).collect(),
        }
    }
}

/// A tail for a first of which these names are known. One in some begins with a
/// blank, one holds a backtick, one defines a name that the first defines.
pub fn tail(random: &mut Random, known: &Known) -> Vec<u8> {
    let front = match random.below(30) {
        0 => random.pick(&SPACES).to_string(),
        1 => random.pick(&TABS).to_string(),
        2 => random.pick(&BACKTICKS).to_string(),
        3 if !known.defined.is_empty() => {
            let place = random.below(known.defined.len());
            format!(".. _{}: again\n", raw(&known.defined[place]))
        }
        _ => String::new(),
    };
    let tail = match random.below(12) {
        0 => tokens(random),
        1 => plain(random),
        _ => tempting(random, known),
    };
    let end = match random.below(30) {
        0 => *random.pick(&BACKTICKS),
        _ => "",
    };
    [&front[..], &tail, end].concat().into_bytes()
}

/// A few tokens.
fn tokens(random: &mut Random) -> String {
    const ALPHABETS: [&[&str]; 3] = [BEHIND, &LINES, &BYTES];
    let alphabet = *random.pick(&ALPHABETS);
    let text: String = (0..random.below(6))
        .map(|_| *random.pick(alphabet))
        .collect();
    stripped(&text)
}

/// A generated document.
fn plain(random: &mut Random) -> String {
    let doc = generate::document(random.draw(), true);
    stripped(str::from_utf8(&doc).expect("it is of the domain"))
}

/// The text without its backticks and the blanks at its front.
fn stripped(text: &str) -> String {
    text.replace('`', "")
        .trim_start_matches([' ', '\t'])
        .to_string()
}

/// A tempting start, and elements that define what the first left open.
fn tempting(random: &mut Random, known: &Known) -> String {
    let start = *random.pick(&STARTS);
    let start = if random.once_in(3) { "" } else { start };
    let elements = random.below(5);
    let is_free = |name: &String| !known.defined.contains(name) && !known.open.contains(name);
    let names: Vec<String> = NAMES.iter().map(|name| name.to_string()).collect();
    let free = names.iter().filter(|name| is_free(name)).cloned().collect();
    let mut writer = Writer {
        random,
        text: start.to_string(),
        is_tail: true,
        names: [&known.open[..], &known.defined, &names].concat(),
        open: known
            .open
            .iter()
            .filter(|name| is_plain(name))
            .cloned()
            .collect(),
        free,
    };
    if !start.is_empty() && !writer.random.once_in(4) {
        writer.one_of(&["\n", "\n", "\r\n", " "]);
    }
    writer.elements(elements);
    writer.text
}
