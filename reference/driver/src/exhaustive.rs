//! All sequences of at most so many tokens of an alphabet, each by its number,
//! so that a run can be cut or shared out.

/// The bytes that the grammar looks at, and a letter.
pub const BYTES: [&str; 10] = ["`", "_", "a", "<", ">", " ", "\n", "\\", ":", "."];

/// The parts of inline forms.
pub const INLINE: [&str; 11] = [
    "`", "`_", "_", "a", "é", " <", "<b_>", ">", "\\ ", "\\", "\n",
];

/// The parts of blocks, with the line ends.
pub const BLOCKS: [&str; 12] = [
    ".. _", "__ ", ": ", ":", "a_", "b", "`", "`_", "\n", "\r\n", "   ", "\\",
];

/// Whole lines that define and refer to names.
pub const LINES: [&str; 11] = [
    "a_\n",
    "b_\n",
    "__\n",
    "`a <w>`_\n",
    ".. _a: u\n",
    ".. _b: v\n",
    ".. _a: b_\n",
    ".. _b: a_\n",
    ".. _b: __\n",
    "__ x\n",
    "__ a_\n",
];

/// The sequences of an alphabet, in the order of their lengths.
pub struct Sequences {
    alphabet: &'static [&'static str],
    most: u32,
}

impl Sequences {
    pub fn new(alphabet: &'static [&'static str], most: u32) -> Sequences {
        Sequences { alphabet, most }
    }

    fn of_length(&self, length: u32) -> u64 {
        (self.alphabet.len() as u64).pow(length)
    }

    /// How many there are.
    pub fn count(&self) -> u64 {
        (0..=self.most).map(|length| self.of_length(length)).sum()
    }

    /// The sequence of that number, below `count`.
    pub fn get(&self, number: u64) -> Vec<u8> {
        let mut length = 0;
        let mut number = number;
        while number >= self.of_length(length) {
            number -= self.of_length(length);
            length += 1;
        }
        let size = self.alphabet.len() as u64;
        let mut tokens = Vec::new();
        for _ in 0..length {
            tokens.push(self.alphabet[(number % size) as usize]);
            number /= size;
        }
        tokens.reverse();
        tokens.concat().into_bytes()
    }

    pub fn iter(&self) -> impl Iterator<Item = Vec<u8>> {
        (0..self.count()).map(|number| self.get(number))
    }
}
