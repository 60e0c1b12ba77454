//! The documents that the search tries: a head, a unit of some tokens again and
//! again, a piece put between the units now and then, and a tail.

use Token::{Deeper, Numbered, Text};
use driver::pieces::character_at;

/// What a unit is made of.
#[derive(Clone, Copy)]
pub enum Token {
    Text(&'static str),
    /// A line feed and an indent, three deeper each time.
    Deeper,
    /// Text with a number that grows for `{n}`, and the next one for `{m}`.
    Numbered(&'static str),
}

const DEFINITION: Token = Numbered(".. _{n}: u\n");
const ALIAS: Token = Numbered(".. _{n}: {m}_\n");
const REFERENCE: Token = Numbered("{n}_ ");

pub const TOKENS: [Token; 29] = [
    Text("`"),
    Text("\\"),
    Text("\\\\"),
    Text("_"),
    Text("__ "),
    Text(".. "),
    Text(".. _a: "),
    Text("\n"),
    Text("\n   "),
    Deeper,
    Text(" "),
    Text("\t"),
    Text("<"),
    Text(">"),
    Text(":"),
    Text("a"),
    Text("a_ "),
    Text("`a`_ "),
    Text("`a <u>`_ "),
    Text(" <u>`_"),
    Text("é"),
    Text("\r\n"),
    Text("("),
    Text("!"),
    Text("\\`"),
    DEFINITION,
    ALIAS,
    Numbered("`{n} <u>`_ "),
    REFERENCE,
];

/// What stands between units now and then.
pub const PIECES: [&str; 9] = [
    "a_ ",
    "`a <u>`_ ",
    "a_ .. ",
    "\na_ .. ",
    "a_ __ x ",
    "\n",
    "`",
    "`_ ",
    "\n.. _a: ",
];

/// The bytes from one such piece to the next: at most 250 in the longest document.
const APART: usize = 66;

/// What stands before all units: a token as often as a document may have links, or
/// none, and then text.
#[derive(Clone, Copy)]
pub struct Head(Option<Token>, &'static str);

/// Links before blocks whose names do not end, as many as are read before it is marked where no block begins; with so many words behind
/// them that each is long.
const UNNAMED: &str = concat!(
    "a_ .. _b a_ .. _b a_ .. _b a_ .. _b a_ .. _b a_ .. _b a_ .. _b a_ .. _b ",
    "words words words words words words words words words words words ",
    "words words words words words words words words words words words ",
);

/// The same with blocks that a wrong escape refuses, where one stands in the tail.
const REFUSED: &str = concat!(
    "a_ __ x a_ __ x a_ __ x a_ __ x a_ __ x a_ __ x a_ __ x a_ __ x ",
    "words words words words words words words words words words words ",
    "words words words words words words words words words words words ",
);

pub const HEADS: [Head; 17] = [
    Head(None, ""),
    Head(None, "`"),
    Head(None, "x`"),
    Head(None, ".. "),
    Head(None, "__ "),
    Head(None, ".. _a: "),
    Head(None, "a_"),
    Head(None, "`a <u>"),
    Head(None, UNNAMED),
    Head(None, REFUSED),
    Head(Some(Text("a_ ")), ""),
    Head(Some(Text("a_ ")), "\n.. _a: "),
    Head(Some(Text("__ ")), "\n__ "),
    Head(Some(Text("`a <u>`_ ")), ""),
    Head(Some(DEFINITION), ""),
    Head(Some(ALIAS), ""),
    Head(Some(REFERENCE), ""),
];

/// How many heads are text alone.
pub const SHORT_HEADS: usize = 10;

pub const TAILS: [&str; 9] = ["", "`_", "`__", " <u>`_", " <u>`__", "_", "\\x", "\\", "\n"];

impl Token {
    /// The token at its n-th place.
    fn push(self, n: usize, out: &mut Vec<u8>) {
        match self {
            Text(text) => out.extend(text.bytes()),
            Deeper => {
                out.push(b'\n');
                out.resize(out.len() + 3 * (n + 1), b' ');
            }
            Numbered(text) => {
                let this = text.replace("{n}", &n.to_string());
                out.extend(this.replace("{m}", &(n + 1).to_string()).bytes());
            }
        }
    }

    pub fn describe(self) -> String {
        match self {
            Text(text) | Numbered(text) => text.escape_debug().to_string(),
            Deeper => "\\n{indent}".into(),
        }
    }
}

impl Head {
    /// The head of a document of that length.
    pub fn make(self, len: usize) -> Vec<u8> {
        let mut out = Vec::new();
        if let Some(token) = self.0 {
            (0..len / APART).for_each(|n| token.push(n, &mut out));
        }
        out.extend(self.1.bytes());
        out
    }

    fn describe(self) -> String {
        let text = self.1.escape_debug();
        match self.0 {
            Some(token) => format!("({})*248 {text}", token.describe()),
            None => text.to_string(),
        }
    }
}

/// What stands between head and tail: a unit of tokens, and a piece or none, each
/// by its number.
#[derive(Clone)]
pub struct Body {
    pub unit: Vec<usize>,
    pub piece: Option<usize>,
}

impl Body {
    /// At least that many bytes of it.
    pub fn make(&self, len: usize) -> Vec<u8> {
        let mut out = Vec::new();
        let mut next = APART;
        let mut round = 0;
        while out.len() < len {
            for &token in &self.unit {
                TOKENS[token].push(round, &mut out);
            }
            if let Some(piece) = self.piece
                && out.len() >= next
            {
                out.extend(PIECES[piece].bytes());
                next = out.len() + APART;
            }
            round += 1;
        }
        out
    }

    /// The tokens without their order, and the piece.
    pub fn kind(&self) -> (u32, Option<usize>) {
        let tokens = self.unit.iter().fold(0, |set, token| set | 1 << token);
        (tokens, self.piece)
    }
}

/// A document of the domain, of at most that length.
pub fn joined(head: &[u8], body: &[u8], tail: &str, len: usize, out: &mut Vec<u8>) {
    let room = len.saturating_sub(head.len() + tail.len()).min(body.len());
    let inside = room > 0 && body[room - 1] >= 0xC2 && character_at(body, room - 1).is_some();
    out.clear();
    out.extend(head);
    out.extend(&body[..room - usize::from(inside)]);
    out.extend(tail.bytes());
}

/// A document of any length.
#[derive(Clone)]
pub struct Shape {
    pub body: Body,
    pub head: usize,
    pub tail: usize,
}

impl Shape {
    pub fn make(&self, len: usize) -> Vec<u8> {
        let head = HEADS[self.head].make(len);
        let mut out = Vec::new();
        joined(&head, &self.body.make(len), TAILS[self.tail], len, &mut out);
        out
    }

    pub fn describe(&self) -> String {
        let tokens = self.body.unit.iter().map(|token| TOKENS[*token].describe());
        let unit: String = tokens.collect();
        let piece = match self.body.piece {
            Some(piece) => format!(" with {} each 66", PIECES[piece].escape_debug()),
            None => String::new(),
        };
        let head = HEADS[self.head].describe();
        let tail = TAILS[self.tail].escape_debug();
        format!("[{head}] [{unit}]*{piece} [{tail}]")
    }
}
