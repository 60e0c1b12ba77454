//! Texts of references, embedded links and blocks in which each name is defined
//! once.

use driver::random::Random;

/// Names that documents refer to and define.
pub const NAMES: [&str; 16] = [
    "a", "b", "c", "d", "e", "é", "x1", "a-b", "a b", "a×b", "a:b", "end", "_1", "_2", "_3", "",
];

const DESTINATIONS: [&str; 7] = ["u", "u/1", "u v", "u\\ v", "é", "\\_", ""];

const INDENTS: [&str; 6] = ["", "", "", " ", "\t", "   "];

/// What stands between elements.
const GAPS: [&str; 12] = [
    "\n", "\n", "\n", "\n", "\n\n", "\r\n", " ", " ", " \n", "\t", "\r", "",
];

/// Text that is no link, and starts of blocks that are none.
const TEXTS: [&str; 12] = [
    "x",
    "word",
    "(",
    "[",
    "<",
    "!",
    ".. comment",
    ".. _a:u",
    "..",
    "\\",
    "é",
    "x:",
];

/// A name as it can be written, in backticks or not.
pub fn raw(name: &str) -> String {
    if name.is_empty() {
        return "\\ ".to_string();
    }
    let mut text = String::new();
    for c in name.chars() {
        if matches!(c, '\\' | ':' | '`' | '<' | '>') {
            text.push('\\');
        }
        text.push(c);
    }
    text
}

/// Whether a name can be written without backticks.
pub fn is_plain(name: &str) -> bool {
    !name.contains('`')
}

/// Whether a name can be a label without backticks.
fn is_word(name: &str) -> bool {
    let is_part = |c: char| c.is_alphanumeric() || c == '-' || c == '_';
    !name.is_empty() && name.chars().all(is_part)
}

/// A text while it is written.
pub struct Writer<'a> {
    pub random: &'a mut Random,
    pub text: String,
    /// Whether it is a tail, and so holds no backtick and begins with no blank.
    pub is_tail: bool,
    /// The names that it refers to.
    pub names: Vec<String>,
    /// Names to define before others, and the others. None of them is defined.
    pub open: Vec<String>,
    pub free: Vec<String>,
}

impl Writer<'_> {
    pub fn one_of(&mut self, list: &[&str]) {
        self.text += *self.random.pick(list);
    }

    pub fn elements(&mut self, count: usize) {
        for _ in 0..count {
            self.element();
            self.one_of(&GAPS);
        }
    }

    fn element(&mut self) {
        match self.random.below(16) {
            0..5 => self.reference(),
            5 | 6 if !self.is_tail => self.embedded(),
            5..9 => self.block(false),
            9..12 => self.block(true),
            12 => self.numbered(),
            13 => self.followed(),
            _ => self.one_of(&TEXTS),
        }
    }

    /// A name that is not yet defined.
    fn undefined(&mut self) -> Option<String> {
        let from_open = !self.open.is_empty() && !self.random.once_in(4);
        let list = if from_open {
            &mut self.open
        } else {
            &mut self.free
        };
        if list.is_empty() {
            return None;
        }
        let place = self.random.below(list.len());
        Some(list.swap_remove(place))
    }

    /// A reference, by a word or in backticks, named or anonymous.
    fn reference(&mut self) {
        let name = self.random.pick(&self.names).clone();
        let raw = raw(&name);
        self.text += &match self.random.below(10) {
            0 => "__".to_string(),
            1 => format!("x{}__", self.random.below(9)),
            2 if !self.is_tail => format!("`{raw}`__"),
            3 if !self.is_tail => format!("`x <{raw}_>`_"),
            4 if !self.is_tail => format!("`{raw}`_"),
            _ if is_word(&name) => format!("{name}_"),
            _ if !self.is_tail => format!("`{raw}`_"),
            _ => "a_".to_string(),
        };
    }

    /// A destination, sometimes one of many.
    fn destination(&mut self) -> String {
        match self.random.below(3) {
            0 => self.random.pick(&DESTINATIONS).to_string(),
            _ => format!("u{}", self.random.below(100)),
        }
    }

    /// A text with a destination, named or anonymous.
    fn embedded(&mut self) {
        let destination = self.destination();
        match self.undefined() {
            Some(name) if !self.random.once_in(3) => {
                self.text += &format!("`{} <{destination}>`_", raw(&name));
            }
            Some(name) => {
                self.text += &format!("`{} <{destination}>`__", raw(&name));
                self.free.push(name);
            }
            None => self.text += &format!("`x <{destination}>`__"),
        }
    }

    /// The target of an alias: a name of any kind, or one to be defined next.
    fn target(&mut self) -> String {
        let next = match self.random.below(3) {
            0 => self
                .undefined()
                .inspect(|name| self.open.push(name.clone())),
            _ => None,
        };
        let name = next.unwrap_or_else(|| self.random.pick(&self.names).clone());
        match is_word(&name) {
            true => format!("{name}_"),
            false if !self.is_tail => format!("`{}`_", raw(&name)),
            false => "a_".to_string(),
        }
    }

    /// A line's start, mostly.
    fn line_start(&mut self) {
        let is_start = self.text.is_empty() || self.text.ends_with('\n');
        if !is_start && !self.random.once_in(12) {
            self.text.push('\n');
        }
    }

    /// A block that defines a name, an alias or a destination.
    fn block(&mut self, is_alias: bool) {
        let Some(name) = self.undefined() else {
            return self.numbered();
        };
        self.line_start();
        let indent = self.indent();
        self.text += &match !self.is_tail && self.random.once_in(3) {
            true => format!(".. _`{}`: ", raw(&name)),
            false => format!(".. _{}: ", raw(&name)),
        };
        self.rest(is_alias, indent);
    }

    /// A block with a number for a name.
    fn numbered(&mut self) {
        self.line_start();
        let indent = self.indent();
        self.one_of(&["__ ", "__ ", ".. __: "]);
        let is_alias = self.random.once_in(3);
        self.rest(is_alias, indent);
    }

    /// The indent of a block.
    fn indent(&mut self) -> &'static str {
        let indent = match self.text.is_empty() && self.is_tail {
            true => "",
            false => *self.random.pick(&INDENTS),
        };
        self.text += indent;
        indent
    }

    /// What a block says of its name, with or without further lines.
    fn rest(&mut self, is_alias: bool, indent: &str) {
        let target = match is_alias {
            true => self.target(),
            false => self.destination(),
        };
        self.text += &target;
        while self.random.once_in(6) {
            self.one_of(&["\n", "\n", "\r\n"]);
            self.text += indent;
            self.one_of(&["   ", "   ", "    ", "  "]);
            let more = self.destination();
            self.text += &more;
        }
        if !self.random.once_in(8) {
            self.text.push('\n');
        }
    }

    /// A link with a block directly behind it: a destination, which defines
    /// nothing, or an alias.
    fn followed(&mut self) {
        if !self.is_tail && self.random.once_in(3) {
            self.embedded();
        } else {
            self.reference();
        }
        let alias = match self.random.below(4) {
            0 => self.undefined(),
            _ => None,
        };
        self.one_of(&[" .. _", ".. _", "\t.. _"]);
        match &alias {
            Some(name) => self.text += &raw(name),
            None => self.one_of(&NAMES[..8]),
        }
        self.text += ": ";
        self.rest(alias.is_some(), "");
    }
}
