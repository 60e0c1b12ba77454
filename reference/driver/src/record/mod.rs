//! The recorded answers: what the three files of crates/vectors/data hold. Their
//! layouts are said in the README beside them; here stand the inputs and the
//! order. A file is a list of chunks, each with one answer.

mod documents;
mod parsers;
mod pieces;

pub use documents::documents_file;
pub use parsers::parsers_file;
pub use pieces::pieces_file;

/// The seed of everything drawn here.
const SEED: u64 = 1;

/// A file: each chunk holds one answer, after what comes before it.
pub struct File {
    chunks: Vec<Vec<u8>>,
    /// Cuts a file of this kind into its chunks.
    cut: fn(&[u8]) -> Option<Vec<&[u8]>>,
}

impl File {
    pub fn bytes(&self) -> Vec<u8> {
        self.chunks.concat()
    }

    /// How many answers stand in `found` as they are here, and how many do not.
    pub fn compare(&self, found: &[u8]) -> (usize, usize) {
        let found = (self.cut)(found).unwrap_or_default();
        let pairs = self.chunks.iter().zip(&found);
        let passed = pairs.filter(|(made, found)| made == found).count();
        (passed, self.chunks.len().max(found.len()) - passed)
    }

    /// A file of `count` records, which stands before all chunks in 4 bytes.
    fn counted(
        count: usize,
        mut chunks: Vec<Vec<u8>>,
        cut: fn(&[u8]) -> Option<Vec<&[u8]>>,
    ) -> File {
        chunks[0].splice(0..0, (count as u32).to_be_bytes());
        File { chunks, cut }
    }
}
