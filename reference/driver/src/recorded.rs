//! Reading the recorded files by their layout, which the README beside them
//! says. A file is cut into chunks, each with one answer and what comes before
//! it: the file's count, a document.

/// A place in a file. Its methods give none where the file ends too early.
pub struct Reader<'a> {
    file: &'a [u8],
    place: usize,
}

impl<'a> Reader<'a> {
    pub fn new(file: &'a [u8]) -> Reader<'a> {
        Reader { file, place: 0 }
    }

    pub fn take(&mut self, length: usize) -> Option<&'a [u8]> {
        let taken = self.file.get(self.place..)?.get(..length)?;
        self.place += length;
        Some(taken)
    }

    /// A number of so many bytes.
    pub fn number(&mut self, length: usize) -> Option<u32> {
        let more = |number: u32, byte: &u8| number << 8 | u32::from(*byte);
        Some(self.take(length)?.iter().fold(0, more))
    }

    /// The same as a length.
    pub fn length(&mut self, length: usize) -> Option<usize> {
        Some(self.number(length)? as usize)
    }

    /// The bytes behind the place.
    pub fn left(&self) -> usize {
        self.file.len() - self.place
    }

    /// The bytes from an earlier place up to here.
    fn since(&self, place: usize) -> &'a [u8] {
        &self.file[place..self.place]
    }
}

/// The chunks of `pieces.bin`, or none where it does not have its layout.
pub fn piece_chunks(file: &[u8]) -> Option<Vec<&[u8]>> {
    let mut reader = Reader::new(file);
    let mut chunks = Vec::new();
    let mut start = 0;
    for _ in 0..reader.number(4)? {
        reader.take(2)?;
        let input = reader.length(2)?;
        reader.take(input + 7)?;
        chunks.push(reader.since(start));
        start = reader.place;
    }
    (reader.left() == 0).then_some(chunks)
}

/// The chunks of `parsers.bin`, or none where it does not have its layout.
pub fn parser_chunks(file: &[u8]) -> Option<Vec<&[u8]>> {
    let mut reader = Reader::new(file);
    let mut chunks = Vec::new();
    let mut start = 0;
    for _ in 0..reader.number(4)? {
        reader.take(3)?;
        let input = reader.length(2)?;
        reader.take(input + 1)?;
        let strings = reader.length(2)? + reader.length(2)?;
        reader.take(strings + 2)?;
        chunks.push(reader.since(start));
        start = reader.place;
    }
    (reader.left() == 0).then_some(chunks)
}

/// The chunks of `documents.bin`, or none where it does not have its layout.
pub fn document_chunks(file: &[u8]) -> Option<Vec<&[u8]>> {
    let mut reader = Reader::new(file);
    let mut chunks = Vec::new();
    let mut start = 0;
    for _ in 0..reader.number(4)? {
        let document = reader.length(2)?;
        reader.take(document)?;
        for _ in 0..reader.number(1)? {
            skip_call(&mut reader)?;
            chunks.push(reader.since(start));
            start = reader.place;
        }
    }
    (reader.left() == 0).then_some(chunks)
}

fn skip_call(reader: &mut Reader) -> Option<()> {
    if reader.number(1)? == 1 {
        reader.take(16)?;
        let number = reader.number(1)?;
        reader.take(2)?;
        let bytes = reader.length(4)?;
        if number == 0 {
            reader.take(bytes)?;
        }
    } else {
        reader.take(16)?;
        let strings = reader.length(2)? + reader.length(2)?;
        reader.take(strings)?;
    }
    Some(())
}
