//! Documents without a period: a head again and again, words, tokens drawn one by
//! one from a few, and a tail. A processor learns what a unit that is repeated makes
//! it do; what is drawn it cannot foresee.

use crate::shapes::joined;
use driver::random::Random;

/// What heads, middles and tails are made of.
const TOKENS: [&str; 48] = [
    "\\<",
    "\\>",
    "\\_",
    "\\`",
    "\\:",
    "\\ ",
    "\\\\",
    "\\",
    "`",
    "`_",
    "`__",
    "_",
    "__ ",
    "_!",
    "!",
    " ",
    "\t",
    "<",
    ">",
    ":",
    ": ",
    ".",
    ".. ",
    ".. _",
    ".. _b",
    ".. _`",
    "\n",
    "\n   ",
    "\n    ",
    "\n.. _",
    "\r\n",
    "a",
    "b ",
    "a_ ",
    "(",
    "<u>",
    " <u>`_ ",
    "`a <u>`_",
    "`a`_ ",
    "é",
    "Ä_ ",
    "words ",
    "a-long-word",
    "u/v",
    "   ",
    "        ",
    "a_",
    "`b ",
];

/// What is drawn in the documents below that are named.
const ESCAPES: [&str; 8] = ["\\<", "\\_", "\t", "\\`", " ", "!", "_!", "\\ "];

/// At most so many tokens in a head, in the choice of the middle, and in a tail.
const HEAD_MOST: usize = 10;
const CHOICE_MOST: usize = 12;
const TAIL_MOST: usize = 6;

/// A document of any length. Tokens are given by their numbers.
#[derive(Clone)]
pub struct Drawn {
    head: Vec<usize>,
    times: usize,
    words: usize,
    choice: Vec<usize>,
    tail: Vec<usize>,
    seed: u64,
}

fn some(random: &mut Random, least: usize, most: usize) -> Vec<usize> {
    let count = least + random.below(most - least + 1);
    (0..count).map(|_| random.below(TOKENS.len())).collect()
}

fn numbers(texts: &[&str]) -> Vec<usize> {
    let number = |text| TOKENS.iter().position(|token| *token == text);
    let numbers = texts.iter().map(|text| number(*text).expect("a token"));
    numbers.collect()
}

/// One token more, one fewer, or another one.
fn changed(list: &mut Vec<usize>, least: usize, most: usize, random: &mut Random) {
    let at = random.below(list.len() + 1);
    match random.below(3) {
        0 if list.len() < most => list.insert(at, random.below(TOKENS.len())),
        1 if list.len() > least && at < list.len() => {
            list.remove(at);
        }
        _ if at < list.len() => list[at] = random.below(TOKENS.len()),
        _ => {}
    }
}

fn push(list: &[usize], out: &mut Vec<u8>) {
    for &token in list {
        out.extend(TOKENS[token].bytes());
    }
}

impl Drawn {
    /// The document in which the bar was first found to be missed: links before names
    /// that do not end, and escapes behind an open backtick.
    pub fn first() -> Drawn {
        Drawn {
            head: numbers(&[
                "`", ".. _b", " ", "<", "\\`", " ", "a_ ", ".. _b", " ", "a_",
            ]),
            times: 6,
            words: 1,
            choice: numbers(&ESCAPES),
            tail: numbers(&["<", "`_", "<", "\\`"]),
            seed: 1,
        }
    }

    /// As many links as may be before names that do not end, and the same escapes.
    pub fn links() -> Drawn {
        Drawn {
            head: numbers(&["a_ ", ".. _b", " "]),
            times: 900,
            words: 0,
            choice: numbers(&ESCAPES),
            tail: Vec::new(),
            seed: 1,
        }
    }

    pub fn draw(random: &mut Random) -> Drawn {
        Drawn {
            head: some(random, 0, HEAD_MOST),
            times: *random.pick(&[1, 1, 2, 4, 6, 8, 16, 60, 250]),
            words: *random.pick(&[0, 1, 25]),
            choice: some(random, 2, CHOICE_MOST),
            tail: some(random, 0, TAIL_MOST),
            seed: random.draw(),
        }
    }

    /// One like it.
    pub fn near(&self, random: &mut Random) -> Drawn {
        let mut it = self.clone();
        for _ in 0..1 + random.below(3) {
            match random.below(6) {
                0 => changed(&mut it.head, 0, HEAD_MOST, random),
                1 => it.times = (it.times + random.below(5)).saturating_sub(2).max(1),
                2 => it.words = *random.pick(&[0, 1, 25]),
                3 => changed(&mut it.choice, 1, CHOICE_MOST, random),
                4 => changed(&mut it.tail, 0, TAIL_MOST, random),
                _ => it.seed = random.draw(),
            }
        }
        it
    }

    /// The document of that length; where head and tail leave no room, they are cut.
    pub fn make(&self, len: usize, out: &mut Vec<u8>) {
        let mut head = Vec::new();
        (0..self.times).for_each(|_| push(&self.head, &mut head));
        head.extend("words ".repeat(self.words).bytes());
        let mut tail = Vec::new();
        push(&self.tail, &mut tail);
        let mut random = Random::new(self.seed);
        let mut middle = Vec::new();
        while middle.len() < len {
            middle.extend(TOKENS[*random.pick(&self.choice)].bytes());
        }
        while head.len() > len / 2 || str::from_utf8(&head).is_err() {
            head.pop();
        }
        // A backslash that the tail would be escaped by is cut away too.
        let room = len - head.len() - tail.len();
        if middle[..room].ends_with(b"\\") {
            middle[room - 1] = b' ';
        }
        let tail = str::from_utf8(&tail).expect("tokens are text");
        joined(&head, &middle, tail, len, out);
    }

    pub fn describe(&self) -> String {
        let text = |list: &[usize]| {
            let mut bytes = Vec::new();
            push(list, &mut bytes);
            String::from_utf8_lossy(&bytes).escape_debug().to_string()
        };
        let choice: Vec<_> = self.choice.iter().map(|token| TOKENS[*token]).collect();
        format!(
            "[{}]*{} words*{} {:?} by {} [{}]",
            text(&self.head),
            self.times,
            self.words,
            choice,
            self.seed,
            text(&self.tail)
        )
    }
}
